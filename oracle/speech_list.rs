//! The kinds of the fixed list of tracks that came with the threshold from the speech:
//! deliveries to tracks of that kind, and texts of `track_options`.

use crate::deliveries::*;
use crate::frame::{Asked, Frame, Row, Settings};
use crate::kinds::{all_settings, look};
use crate::options::{HEAD, random_track_settings, write};
use crate::random::Random;
use crate::signals::mixture;
use crate::threshold::{RANGES, Speech, beside};
use crate::track::{
    Prev, TrackSettings, frames_in, random_settings, recording, rows_after, wavering, window,
    with_zero_divisor,
};
use crate::track_list::{FixedList, all_sizes};

/// How many frames came after a signal of each type, and how many rows would be others with
/// another number in the threshold: what the comparison would see.
#[derive(Default)]
pub struct Depends {
    frames: [usize; 3],
    on_type: [usize; 3],
    on_order: usize,
    on_activity: usize,
    on_tilt: usize,
    /// The threshold one higher or one lower.
    on_one: usize,
    /// Tracks with a voiced row, later one that is not, later a voiced one.
    back_again: usize,
}

/// The end of a range that is farther from n.
fn far_end((low, high): (i32, i32), n: i32) -> i32 {
    if n - low > high - n { low } else { high }
}

impl Depends {
    /// Counts the rows of x where their thresholds are found from the speech.
    pub fn weigh(&mut self, k: &TrackSettings, mut prev: Prev, x: &[i16], rows: &[Row]) {
        let Some(m) = k.speech else { return };
        for (i, row) in rows.iter().enumerate() {
            let t = prev.signal_type;
            let x = window(&k.stored, x, i);
            let other = |thres2: i32| prev.next_row(&Settings { thres2, ..k.stored }, x) != *row;
            let by = |m: Speech, t: i32| other(m.threshold(t).unwrap()) as usize;
            self.frames[t as usize] += 1;
            self.on_type[t as usize] += by(m, if t == 2 { 1 } else { 2 });
            self.on_order += by(Speech { order: far_end(RANGES[0], m.order), ..m }, t);
            self.on_activity += by(Speech { activity: far_end(RANGES[1], m.activity), ..m }, t);
            self.on_tilt += by(Speech { tilt: far_end(RANGES[3], m.tilt), ..m }, t);
            let now = m.threshold(t).unwrap();
            self.on_one += (other(now - 1) || other(now + 1)) as usize;
            prev = Prev::after(&k.stored, row);
        }
        self.back_again += back_again(rows) as usize;
    }

    pub fn tell(&self) {
        let Depends { frames: [a, b, c], on_type: [d, e, f], .. } = self;
        eprintln!(
            "track, frames with a threshold from the speech, by the type before: {a} {b} {c}"
        );
        eprintln!("track, of these another row with a wrong type: {d} {e} {f}");
        eprintln!(
            "track, of these another row with another order: {}, activity: {}, tilt: {}; with the \
             threshold one off: {}",
            self.on_order, self.on_activity, self.on_tilt, self.on_one
        );
        eprintln!("track, tracks with V after U or Z after V: {}", self.back_again);
    }
}

/// A voiced row, later one that is not, later a voiced one.
fn back_again(rows: &[Row]) -> bool {
    let mut turns: Vec<bool> = rows.iter().map(|row| row[0] == 0).collect();
    turns.dedup();
    turns.len() >= if turns.first() == Some(&true) { 3 } else { 4 }
}

fn any_speech(s: &Settings, r: &mut Random) -> TrackSettings {
    TrackSettings::from_speech(s, Speech::random(r))
}

/// Whether the first row would be another after a voiced signal than after another one.
fn first_depends(k: &TrackSettings, prev: Prev, x: &[i16]) -> bool {
    let row = |t| prev.next_row(&k.of_row(t), window(&k.stored, x, 0));
    row(2) != row(1)
}

/// Whether a row after a voiced one would be another after one that is not, and the other way
/// round.
fn both_depend(k: &TrackSettings, x: &[i16], rows: &[Row]) -> bool {
    let mut seen = [false; 3];
    for i in 1..rows.len() {
        let prev = Prev::after(&k.stored, &rows[i - 1]);
        seen[prev.signal_type as usize] |= first_depends(k, prev, &x[i * k.stored.hop()..]);
    }
    seen[1] && seen[2]
}

/// A track with V after U after V, in which the type before counts.
fn turning(s: &Settings, r: &mut Random) -> (TrackSettings, Vec<i16>) {
    for _ in 0..3000 {
        let k = any_speech(s, r);
        let x = wavering(s, s.samples() + (3 + r.below(4)) * s.hop() + r.below(s.hop()), r);
        let rows = rows_after(Prev::default(), &k, &x);
        if back_again(&rows) && both_depend(&k, &x, &rows) {
            return (k, x);
        }
    }
    panic!("no track turns from V to U and back at {} kHz, nb {}", s.rate, s.nb);
}

fn plain_cuts(list: &mut FixedList, r: &mut Random) {
    for s in all_settings() {
        let (n, hop) = (s.samples(), s.hop());
        let x = wavering(&s, n + 3 * hop + r.below(hop), r);
        let cuts = vec![x.len()];
        list.deliveries(started(SPEECH_AT_ONCE, &any_speech(&s, r), x, cuts, 8 * 4));
        let x = wavering(&s, n + 3 * hop, r);
        let cuts = vec![hop; x.len() / hop];
        let numbers = with_rows(4, r);
        list.deliveries(started(SPEECH_HOPS, &any_speech(&s, r), x, cuts, numbers));
        for _ in 0..2 {
            let (k, x) = turning(&s, r);
            let cuts = any_cuts(x.len(), &s, r);
            let rows = frames_in(&s, x.len()) + r.below(3);
            list.deliveries(started(SPEECH_ANY_CUTS, &k, x, cuts, with_rows(rows, r)));
        }
    }
}

/// Numbers of the speech whose threshold is this one.
fn speech_for(threshold: i32, signal_type: i32, r: &mut Random) -> Option<Speech> {
    for _ in 0..200 {
        let m = Speech { tilt: 0, ..Speech::random(r) };
        let off = threshold - m.threshold(signal_type).unwrap();
        let near = -off * 65536 / 1638;
        let tilts = (near - 60..near + 60).filter(|tilt| (-32768..=32767).contains(tilt));
        let fit = |&tilt: &i32| Speech { tilt, ..m }.threshold(signal_type) == Ok(threshold);
        let fits: Vec<i32> = tilts.filter(fit).collect();
        if !fits.is_empty() {
            return Some(Speech { tilt: r.pick(&fits), ..m });
        }
    }
    None
}

/// A track whose last frame comes after a signal of this type, has its highest sum of stage 2
/// exactly at nb times its threshold, or one above, and would have another row with the
/// threshold one off.
fn edged(s: &Settings, t: usize, above: bool, r: &mut Random) -> Option<(TrackSettings, Vec<i16>)> {
    let (n, hop) = (s.samples(), s.hop());
    let lag = r.between(2 * s.rate as i64, 18 * s.rate as i64) as usize;
    let near = r.between(24, 40);
    let mut x = mixture(n, lag, [near, 0, 64][t], 12, r);
    if t > 0 {
        x.extend(mixture(hop, lag, if t == 1 { 64 } else { near }, 12, r));
    }
    let last = frames_in(s, x.len()) - 1;
    let before = |k: &TrackSettings| {
        let rows = rows_after(Prev::default(), k, &x);
        if last == 0 { Prev::default() } else { Prev::after(s, &rows[last - 1]) }
    };
    let prev = before(&any_speech(s, r));
    let x1 = window(s, &x, last).to_vec();
    let settings = Settings { thres2: 0, ..*s };
    let f = Frame { settings, prev_lag: prev.lag, prev_corr: prev.correlation, x: x1.clone() };
    let (_, seen) = look(&f);
    let highest = seen.sums.iter().map(|sum| sum.1).max()?;
    let nb = s.nb as i32;
    if highest % nb != above as i32 {
        return None;
    }
    let threshold = highest / nb;
    let k = TrackSettings::from_speech(s, speech_for(threshold, t as i32, r)?);
    let then = before(&k);
    if then != prev || then.signal_type != t as i32 {
        return None;
    }
    let row = |thres2| then.next_row(&Settings { thres2, ..*s }, &x1);
    let (at, below) = (threshold + above as i32, threshold + above as i32 - 1);
    (row(at) != row(below)).then_some((k, x))
}

fn at_thresholds(list: &mut FixedList, r: &mut Random) {
    for s in all_sizes(r) {
        for t in 0..3 {
            for above in [false, true] {
                let found = (0..20000).find_map(|_| edged(&s, t, above, r));
                let (k, x) = found.unwrap_or_else(|| panic!("no edge at {} {} {t}", s.rate, s.nb));
                let cuts = any_cuts(x.len(), &s, r);
                let rows = frames_in(&s, x.len());
                list.deliveries(started(AT_THRESHOLD, &k, x, cuts, with_rows(rows, r)));
            }
        }
    }
}

/// The frames around the one with the zero divisor waver.
fn zero_divisors(list: &mut FixedList, r: &mut Random) {
    for s in all_settings().iter().filter(|s| s.rate == 12) {
        for at in 0..3 {
            let (n, hop) = (s.samples(), s.hop());
            let mut x = wavering(s, n + 3 * hop, r);
            let zero = with_zero_divisor(s, at, x.len(), r);
            x[at * hop..at * hop + n].copy_from_slice(window(s, &zero, at));
            let cuts = any_cuts(x.len(), s, r);
            list.deliveries(started(SPEECH_ZERO_DIVISOR, &any_speech(s, r), x, cuts, 8 * 4));
        }
    }
}

/// A state that would be accepted, but for what is made wrong with it.
fn good_state(s: &Settings, r: &mut Random) -> State {
    let held = recording(s, 12, r);
    let prev = Prev { lag: 40, correlation: 9000, signal_type: r.below(3) as i32 };
    State { prev, ..holding(&any_speech(s, r), 3, held) }
}

/// Settings, frames, samples held that are refused too, one by one and all.
fn worse(state: &State, numbers: usize) -> Vec<(State, usize)> {
    let mut all = Vec::new();
    for fault in 0..8 {
        let mut one = state.clone();
        let mut numbers = numbers;
        if fault == 1 || fault == 7 {
            one.asked.rate = 24;
        }
        if fault == 2 || fault == 7 {
            one.asked.nb = 3;
        }
        if fault == 3 || fault == 7 {
            one.asked.complexity = 3;
        }
        if fault == 4 || fault == 6 {
            one.frames = 4096;
        }
        if fault == 5 || fault == 6 {
            one.count = 640;
        }
        if fault > 3 {
            numbers = 7;
        }
        all.push((one, numbers));
    }
    all
}

fn refused_numbers(list: &mut FixedList, r: &mut Random) {
    let odd: [&[i32]; 4] = [
        &[-1, 17, 255, 256, 65536, i32::MIN, i32::MAX],
        &[-1, 256, 511, 65536, i32::MIN, i32::MAX],
        &[-1, 3, 4, 256, 65537, i32::MIN, i32::MAX],
        &[-32769, 32768, 65535, 65536, i32::MIN, i32::MAX],
    ];
    for (place, values) in odd.into_iter().enumerate() {
        for &value in values {
            let s = random_settings(r);
            let bad = with_odd_number(good_state(&s, r), place, value);
            let kind = REFUSED_NUMBERS;
            if place != 2 {
                // a start, with good settings and with bad ones
                for nb in [s.nb as u64, 5] {
                    let asked = Asked { nb, ..bad.asked };
                    let state = State { asked, speech: bad.speech, ..State::fresh(&s) };
                    let (samples, cuts) = (vec![], vec![]);
                    list.deliveries(Deliveries {
                        kind,
                        started: true,
                        state,
                        numbers: 8,
                        samples,
                        cuts,
                    });
                }
            }
            for (state, numbers) in worse(&bad, 80) {
                list.deliveries(handed(kind, state, vec![], vec![0, s.samples(), 1], numbers));
            }
            // another of the four out of range as well
            let other = (place + 1 + r.below(3)) % 4;
            let both = with_odd_number(bad, other, beside(RANGES[other], r));
            list.deliveries(handed(kind, both, vec![], vec![0, s.samples()], 80));
        }
    }
    // the same numbers beside a fixed threshold are not looked at
    for s in all_sizes(r) {
        for signal_type in [-1, 3, i32::MIN, i32::MAX] {
            let mut state = good_state(&s, r);
            state.speech = None;
            state.prev.signal_type = signal_type;
            let x = wavering(&s, s.samples(), r);
            list.deliveries(handed(REFUSED_NUMBERS, state, x, vec![0, s.samples()], 80));
        }
    }
}

/// The same state with each type before its next row, where the row depends on it.
fn previous_types(list: &mut FixedList, r: &mut Random) {
    for s in all_settings() {
        let (k, prev, x) = loop {
            let k = any_speech(&s, r);
            let x = wavering(&s, s.samples() + s.hop() + r.below(9), r);
            let mut state = State::fresh(&k);
            any_left(&mut state, &s, r);
            if first_depends(&k, state.prev, &x) {
                break (k, state.prev, x);
            }
        };
        let held = x[..r.below(s.samples())].to_vec();
        let x = x[held.len()..].to_vec();
        let first = r.below(100);
        for signal_type in [0, 1, 2, r.pick(&[-1, 3])] {
            let state = State {
                prev: Prev { signal_type, ..prev },
                ..holding(&k, first as u64, held.clone())
            };
            let cut = r.below(x.len() + 1);
            let cuts = vec![cut, x.len() - cut];
            let numbers = with_rows(first + 3, r);
            list.deliveries(handed(PREVIOUS_TYPE, state, x.clone(), cuts, numbers));
        }
    }
}

/// A refused delivery leaves the type before the next row, and the next one is taken.
fn refused_lengths(list: &mut FixedList, r: &mut Random) {
    let kind = SPEECH_SHORT_TABLE;
    for s in all_sizes(r) {
        let (n, hop) = (s.samples(), s.hop());
        for numbers in [0, 8, 15, 16] {
            let (k, x) = (any_speech(&s, r), wavering(&s, n + 2 * hop, r));
            let cuts = vec![n - 1, 0, 1, hop, hop - 1, 1, 0];
            list.deliveries(started(kind, &k, x, cuts, numbers));
        }
        for (state, numbers) in worse(&good_state(&s, r), 32768).into_iter().skip(4).take(3) {
            for frames in [state.frames, 4095, u64::MAX] {
                let state = State { frames, ..state.clone() };
                list.deliveries(handed(kind, state, vec![], vec![0, n, 0], numbers));
            }
        }
        let held = wavering(&s, n - 1, r);
        let state =
            State { prev: good_state(&s, r).prev, ..holding(&any_speech(&s, r), 4094, held) };
        let x = wavering(&s, 2 * hop + 1, r);
        list.deliveries(handed(kind, state, x, vec![1, hop, hop, 0], 32768));
    }
}

fn every_setting(list: &mut FixedList, r: &mut Random) {
    for s in all_settings() {
        let n = s.samples() + 4 * s.hop() + r.below(s.hop());
        list.text(28, &write(&any_speech(&s, r), &wavering(&s, n, r)), 0);
        let mut fixed = random_settings(r);
        (fixed.rate, fixed.nb, fixed.complexity) = (s.rate, s.nb, s.complexity);
        list.text(28, &write(&(&fixed).into(), &recording(&s, s.samples() + s.hop(), r)), 0);
    }
    for s in all_sizes(r) {
        for m in [(0, 0, 0), (16, 255, 32767), (16, 255, -32768), (0, 255, 0)] {
            let speech = Speech { order: m.0, activity: m.1, tilt: m.2 };
            let k = TrackSettings::from_speech(&s, speech);
            list.text(28, &write(&k, &wavering(&s, s.samples() + s.hop(), r)), 0);
        }
        for size in [0, 1, s.samples() - 1] {
            list.text(28, &write(&random_of(&s, r), &recording(&s, size, r)), 0);
        }
    }
}

/// Settings of either kind of this rate, nb and complexity.
fn random_of(s: &Settings, r: &mut Random) -> TrackSettings {
    let k = random_track_settings(r);
    let stored = Settings { rate: s.rate, nb: s.nb, complexity: s.complexity, ..k.stored };
    TrackSettings { stored, ..k }
}

fn half_inputs(list: &mut FixedList, r: &mut Random) {
    let all = all_sizes(r);
    for size in 0..HEAD {
        let bad: Vec<u8> = (0..size).map(|_| r.word() as u8).collect();
        list.text(29, &bad, 0);
        let s = r.pick(&all);
        list.text(29, &write(&random_of(&s, r), &[])[..size], 0);
    }
    for s in all {
        for samples in [0, s.samples() - 1, s.samples()] {
            let mut b = write(&random_of(&s, r), &recording(&s, samples, r));
            b.push(7);
            list.text(29, &b, 0);
        }
        // the odd byte counts before the settings, the order, the kind and the length
        for (place, odd) in [(0, 9), (1, 3), (2, 3), (3, 2), (8, 17)] {
            let mut b = write(&any_speech(&s, r), &recording(&s, 10, r));
            b[place] = odd;
            list.text(29, &b, 1);
        }
        let b = write(&random_of(&s, r), &[]);
        list.text(29, &b, 2 * (s.samples() + 1024 * s.hop()) + 1);
        list.text(29, &b, 656_641);
        list.text(29, &b, 700_001);
    }
}

/// One byte of the head that is refused, then two or more: the first in the order is told. Bytes
/// 0, 1, 2: 1, 2, 3. Byte 8 of kind 1: 11. Byte 3: 9.
fn bad_settings(list: &mut FixedList, r: &mut Random) {
    let odd: [(usize, &[u8]); 5] = [
        (0, &[0, 1, 7, 9, 11, 13, 15, 17, 24, 255]),
        (1, &[0, 1, 3, 5, 255]),
        (2, &[3, 4, 128, 255]),
        (3, &[2, 3, 128, 254, 255]),
        (8, &[17, 18, 32, 127, 128, 255]),
    ];
    for (place, values) in odd {
        for &value in values {
            let k = any_speech(&random_settings(r), r);
            let mut b = write(&k, &recording(&k.stored, r.below(20), r));
            b[place] = value;
            list.text(30, &b, 0);
            // too long for any settings
            list.text(30, &b, r.pick(&[400_000, 656_640, 656_642, 1_000_000]));
            for (other, values) in odd.iter().filter(|(other, _)| *other != place) {
                let mut b = b.clone();
                b[*other] = r.pick(values);
                list.text(30, &b, r.pick(&[0, 0, 656_640]));
            }
        }
    }
    // an order out of range beside a fixed threshold is only bytes of the threshold
    for order in [17, 128, 255] {
        let k: TrackSettings = (&random_settings(r)).into();
        let mut b = write(&k, &recording(&k.stored, k.stored.samples(), r));
        b[8] = order;
        list.text(30, &b, 0);
    }
}

fn greatest_count(list: &mut FixedList, r: &mut Random) {
    for (i, s) in all_sizes(r).into_iter().enumerate() {
        let most = 2 * (s.samples() + 1023 * s.hop());
        // 1,024 frames, and all but a sample of one more
        let k = if i % 2 == 0 { any_speech(&s, r) } else { random_of(&s, r) };
        let x = wavering(&s, s.samples() + 3 * s.hop(), r);
        list.text(31, &write(&k, &x), most - 2 * x.len() + 2 * (s.hop() - 1));
        let x = recording(&s, 10, r);
        for k in [any_speech(&s, r), (&s).into()] {
            let mut b = write(&k, &x);
            let full = most - 2 * x.len();
            list.text(31, &b, full + 2 * s.hop() - 1);
            list.text(31, &b, full + 2 * s.hop());
            list.text(31, &b, 656_640 - 2 * x.len());
            list.text(31, &b, 656_642 - 2 * x.len());
            list.text(31, &b, 700_000);
            list.text(31, &b, 700_001);
            // 6 before 9
            b[3] = r.pick(&[2, 255]);
            list.text(31, &b, full + 2 * s.hop());
            list.text(31, &b, full);
        }
    }
}

/// All of these kinds, one after the other.
pub fn speech_kinds(list: &mut FixedList, r: &mut Random) {
    let steps: [fn(&mut FixedList, &mut Random); 10] = [
        plain_cuts,
        at_thresholds,
        zero_divisors,
        refused_numbers,
        previous_types,
        refused_lengths,
        every_setting,
        half_inputs,
        bad_settings,
        greatest_count,
    ];
    steps.iter().for_each(|step| step(list, r));
}
