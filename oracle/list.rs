//! The fixed list of frames that the gate replays, by kind. Rare kinds are
//! searched for with the reporting copy of the analyser; every answer comes from
//! the plain one, and the two must agree.

use crate::frame::{Frame, Row, Settings, analyse, contours, greatest_index, write_frame};
use crate::kinds::*;
use crate::probe::Seen;
use crate::random::Random;
use crate::signals::*;

const KINDS: [&str; 30] = [
    "silence",
    "constants",
    "noise at all amplitudes",
    "pulse trains over all lags",
    "glides",
    "extremes",
    "short periods and ties",
    "thresholds of every sign and size",
    "previous lag and correlation of any value",
    "every contour",
    "voice",
    "any shape",
    "scale: at the border of a shift",
    "zero divisor (12 kHz)",
    "near a zero divisor (12 kHz)",
    "divisor of -2^31 (12 kHz)",
    "sums that wrap (12 kHz)",
    "quotients or scores cut to 16 bits",
    "greatest lag index",
    "held at the low end",
    "held at the high end",
    "stage 3 without a candidate",
    "24 lags listed",
    "best exactly 3276 or 3277",
    "equal to the stage-1 threshold",
    "equal to the stage-2 threshold",
    "ties in the stage-1 ranking",
    "ties of the stage-2 or stage-3 score",
    "a better pair beyond 18fs",
    "correlation 32768, 0 or negative",
];

struct FixedList {
    bytes: Vec<u8>,
    counts: [usize; KINDS.len()],
    tries: [usize; KINDS.len()],
    verdicts: [usize; 3],
    /// Where a search ended with fewer than wanted.
    few: Vec<String>,
}

impl FixedList {
    fn add(&mut self, kind: usize, f: &Frame) {
        let row = analyse(f);
        self.bytes.push(kind as u8);
        write_frame(&mut self.bytes, f);
        row.iter().for_each(|n| self.bytes.extend(n.to_le_bytes()));
        self.counts[kind] += 1;
        self.verdicts[row[0] as usize] += 1;
    }

    /// Up to `want` frames of a kind for which `good` holds, in `most` tries.
    fn search(
        &mut self,
        (kind, want, most): (usize, usize, usize),
        s: Settings,
        mut make: impl FnMut(usize) -> Option<Frame>,
        good: impl Fn(&Row, &Seen) -> bool,
    ) {
        let mut found = 0;
        for n in 0..most {
            if found == want {
                return;
            }
            self.tries[kind] += 1;
            let Some(f) = make(n) else { continue };
            let (row, seen) = look(&f);
            assert_eq!(row, analyse(&f));
            if good(&row, &seen) {
                self.add(kind, &f);
                found += 1;
            }
        }
        if found < want {
            let Settings { rate, nb, complexity, .. } = s;
            self.few.push(format!(
                "kind {kind}, {rate} kHz, nb {nb}, complexity {complexity}: {found} of {want}"
            ));
        }
    }
}

fn any_lag(s: &Settings, r: &mut Random) -> i64 {
    r.between(2 * s.rate as i64, 18 * s.rate as i64)
}

fn silence_and_constants(list: &mut FixedList, s: Settings, r: &mut Random) {
    let n = s.samples();
    list.add(0, &plain(s, vec![0; n]));
    let mut f = plain(s, vec![0; n]);
    f.settings.thres1 = i32::MIN;
    f.settings.thres2 = i32::MIN;
    any_previous(&mut f, r);
    list.add(0, &f);
    for v in [1, -1, 300, -2000, i16::MAX, i16::MIN] {
        list.add(1, &plain(s, vec![v; n]));
    }
}

fn noises_and_glides(list: &mut FixedList, s: Settings, r: &mut Random) {
    let n = s.samples();
    for bits in 1..=16 {
        let mut f = plain(s, noise(n, bits, r));
        f.settings.thres2 = r.pick(&[0, 500, 1500]);
        list.add(2, &f);
    }
    for _ in 0..10 {
        let lag = any_lag(&s, r);
        let to = (lag + r.between(-30, 30)).max(2);
        let bits = 4 + r.below(13) as u32;
        list.add(4, &plain(s, glide(n, lag, to, bits, r)));
    }
}

fn extremes(list: &mut FixedList, s: Settings, r: &mut Random) {
    let n = s.samples();
    let ends = [i16::MAX, i16::MIN];
    for shape in 0..10 {
        let each = 1 + r.below(9 * s.rate);
        let x = (0..n).map(|i| match shape {
            0 => ends[i % 2],
            1 | 2 => r.pick(&ends),
            3 | 4 => ends[i / each % 2],
            5 => r.pick(&[i16::MAX, i16::MIN, 0, 0, 0]),
            6 => ends[i / (n / 2)],
            7 => ends[(i % (each + 8) == 0) as usize],
            8 => [0, i16::MIN][(i == n - 1) as usize],
            _ => r.i16() | 0x7f00,
        });
        let x = x.collect();
        list.add(5, &plain(s, x));
    }
}

fn thresholds_and_previous(list: &mut FixedList, s: Settings, r: &mut Random) {
    for _ in 0..8 {
        list.add(6, &short_period(s, r));
    }
    for _ in 0..14 {
        let mut f = voiced(s, r);
        any_thresholds(&mut f.settings, r);
        list.add(7, &f);
    }
    for _ in 0..14 {
        let mut f = if r.chance(3) { short_period(s, r) } else { voiced(s, r) };
        any_previous(&mut f, r);
        list.add(8, &f);
    }
}

fn every_contour(list: &mut FixedList, s: Settings, r: &mut Random) {
    for c in 0..contours(s.rate, s.nb, s.complexity) {
        let of = |r: &mut Random| {
            let lag = r.between(3 * s.rate as i64, 16 * s.rate as i64) as usize;
            plain(s, contoured(&s, lag, c, 13, r))
        };
        let good = |row: &Row, _: &Seen| row[0] == 0 && row[2] == c as i32;
        list.search((9, 1, 1000), s, |_| Some(of(r)), good);
    }
}

fn voices_and_any(list: &mut FixedList, s: Settings, r: &mut Random) {
    let n = s.samples();
    for _ in 0..8 {
        let lag = any_lag(&s, r) as usize;
        let mut f = plain(s, voice(n, lag, r));
        if s.complexity % 2 == 0 {
            any_previous(&mut f, r);
        }
        list.add(10, &f);
    }
    for _ in 0..10 {
        let mut f = plain(s, any(n, s.rate, r));
        any_thresholds(&mut f.settings, r);
        any_previous(&mut f, r);
        list.add(11, &f);
    }
}

/// A pulse train for every lag, its complexity by turns.
fn every_lag(list: &mut FixedList, s: Settings, r: &mut Random) {
    for lag in 2 * s.rate..=18 * s.rate {
        let height = if lag % 5 == 0 { any_height(r) } else { 1024 + r.i16().saturating_abs() / 2 };
        let mut f = plain(s, pulses(s.samples(), lag, r.below(lag), height));
        f.settings.complexity = lag % 3;
        f.settings.thres2 = r.pick(&[0, 500]);
        list.add(3, &f);
    }
}

fn scale(list: &mut FixedList, s: Settings, r: &mut Random) {
    for above in [false, true] {
        list.search((12, 1, 50), s, |_| at_scale_border(s, above, r), |_, _| true);
    }
}

/// Divisors of 0 and −2^31, sums that wrap, quotients that are cut: 12 kHz only.
fn odd_divisors(list: &mut FixedList, s: Settings, r: &mut Random) {
    let zero = |row: &Row, _: &Seen| row[0] == 2;
    let known = zero_known(s);
    list.search((13, 2, 100), s, |_| Some(shaken(&known, r)), zero);
    let mut made: Vec<Frame> = vec![known];
    let mut of = |r: &mut Random| {
        let mut f = tuned(s, 1 << 32, r)?;
        made.push(f.clone());
        any_thresholds(&mut f.settings, r);
        any_previous(&mut f, r);
        Some(f)
    };
    list.search((13, 3, 250), s, |_| of(r), zero);
    let near = |n: usize, r: &mut Random| shaken(&made[n % made.len()], r);
    list.search((14, 3, 200), s, |n| Some(near(n, r)), |row, _| row[0] != 2);
    list.search((15, 3, 150), s, |_| tuned(s, 1 << 31, r), |_, seen| seen.least_divisor);
    let wraps = |row: &Row, seen: &Seen| seen.wraps && row[0] == 0;
    list.search((16, 4, 1000), s, |_| Some(loud_low(s, r)), wraps);
    let cut = |_: &Row, seen: &Seen| seen.wide_quotient || seen.wide_sum;
    list.search((17, 4, 2000), s, |_| Some(loud_low(s, r)), cut);
}

fn ends(list: &mut FixedList, s: Settings, r: &mut Random) {
    let greatest = |row: &Row, _: &Seen| row[0] == 0 && row[1] as usize == greatest_index(s.rate);
    list.search((18, 2, 4000), s, |_| Some(near_end(s, true, r)), greatest);
    // at 8 kHz with nb 2 the offsets are 0 and 1, and no lag is beyond an end
    if (s.rate, s.nb) != (8, 2) {
        let low = |row: &Row, seen: &Seen| row[0] == 0 && seen.held_low;
        list.search((19, 2, 4000), s, |_| Some(near_end(s, false, r)), low);
        let high = |row: &Row, seen: &Seen| row[0] == 0 && seen.held_high;
        list.search((20, 2, 4000), s, |_| Some(near_end(s, true, r)), high);
    }
}

fn candidates(list: &mut FixedList, s: Settings, r: &mut Random) {
    if s.rate > 8 {
        let of = |n: usize, r: &mut Random| {
            if n % 2 == 0 && s.rate == 12 { Some(loud_low(s, r)) } else { opposed(s, r) }
        };
        let none = |row: &Row, seen: &Seen| row[0] == 0 && seen.candidates3 == 0;
        list.search((21, 4, 2000), s, |n| of(n, r), none);
    }
    if s.complexity == 2 {
        list.search((22, 3, 4000), s, |_| Some(combed(s, r)), |_, seen| seen.listed == 24);
    }
}

fn equalities(list: &mut FixedList, s: Settings, r: &mut Random) {
    for best in [3276, 3277] {
        let exact = |_: &Row, seen: &Seen| seen.ranking[0] == best;
        list.search((23, 1, 60), s, |_| best_at(s, best, r), exact);
    }
    let one = |r: &mut Random| {
        let mut f = voiced(s, r);
        at_threshold1(&mut f, r).then_some(f)
    };
    let stopped = |_: &Row, seen: &Seen| seen.stopped_at.is_some_and(|(c, t)| c == t);
    list.search((24, 3, 200), s, |_| one(r), stopped);
    let two = |r: &mut Random| {
        let mut f = voiced(s, r);
        at_threshold2(&mut f, r).then_some(f)
    };
    list.search((25, 3, 300), s, |_| two(r), |_, seen| seen.at_threshold2);
}

fn ties(list: &mut FixedList, s: Settings, r: &mut Random) {
    let first = |row: &Row, seen: &Seen| row[0] == 0 && seen.ties1;
    list.search((26, 2, 4000), s, |_| Some(short_period(s, r)), first);
    let second = |row: &Row, seen: &Seen| row[0] == 0 && seen.ties2;
    list.search((27, 2, 60), s, |_| level_scores(s, r), second);
    if s.rate > 8 {
        let third = |row: &Row, seen: &Seen| row[0] == 0 && seen.ties3;
        list.search((27, 2, 4000), s, |_| Some(short_period(s, r)), third);
        let beyond = |row: &Row, seen: &Seen| row[0] == 0 && seen.beyond3;
        list.search((28, 2, 4000), s, |_| Some(near_end(s, true, r)), beyond);
    }
}

fn odd_correlations(list: &mut FixedList, s: Settings, r: &mut Random) {
    if s.rate == 12 {
        let low = |row: &Row, _: &Seen| row[0] == 0 && row[3] <= 0;
        list.search((29, 2, 10000), s, |_| Some(loud_low(s, r)), low);
    }
    if s.rate == 12 || (s.rate, s.nb) == (8, 2) {
        let of = |n: usize, r: &mut Random| match n % 3 {
            0 => whole(s, n / 3, r),
            1 => loud_low(s, r),
            _ => voiced(s, r),
        };
        let high = |row: &Row, _: &Seen| row[0] == 0 && row[3] == 32768;
        list.search((29, 2, 40000), s, |n| Some(of(n, r)), high);
    }
}

/// The list: kind (a byte), the frame's record, its row.
pub fn frames_list() -> Vec<u8> {
    let mut list = FixedList {
        bytes: Vec::new(),
        counts: [0; KINDS.len()],
        tries: [0; KINDS.len()],
        verdicts: [0; 3],
        few: Vec::new(),
    };
    let mut r = Random::new(5);
    let steps: [fn(&mut FixedList, Settings, &mut Random); 12] = [
        silence_and_constants,
        noises_and_glides,
        extremes,
        thresholds_and_previous,
        every_contour,
        voices_and_any,
        scale,
        ends,
        candidates,
        equalities,
        ties,
        odd_correlations,
    ];
    for s in all_settings() {
        steps.iter().for_each(|step| step(&mut list, s, &mut r));
        if s.rate == 12 {
            odd_divisors(&mut list, s, &mut r);
        }
        if s.complexity == 0 {
            every_lag(&mut list, s, &mut r);
        }
    }
    for (k, name) in KINDS.iter().enumerate() {
        let tries = list.tries[k];
        let tried = if tries > 0 { format!(" ({tries} tries)") } else { String::new() };
        eprintln!("frames {k} {name}: {}{tried}", list.counts[k]);
    }
    list.few.iter().for_each(|s| eprintln!("frames, fewer than wanted: {s}"));
    let [v, u, z] = list.verdicts;
    eprintln!("frames: {} records ({v} V, {u} U, {z} Z), {} bytes", v + u + z, list.bytes.len());
    list.bytes
}
