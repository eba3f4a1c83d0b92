//! The fixed list of tracks that the gate replays, by kind: inputs of the programs
//! `track` and `track_options` with the text for each, and lists of deliveries with
//! what the track on paper says of each. Tracks whose thresholds are found from the
//! speech, and `track_options`, stand in speech_list.rs.

use crate::deliveries::*;
use crate::frame::Settings;
use crate::kinds::all_settings;
use crate::options::track_options;
use crate::random::Random;
use crate::speech_list::{Depends, speech_kinds};
use crate::track::{Prev, frames_in, random_settings, recording, track, with_zero_divisor, write};

const KINDS: [&str; 32] = [
    "text: every setting",
    "text: silence and noise",
    "text: zero divisors (12 kHz)",
    "text: thresholds of every sign",
    "text: sizes at a frame's and a hop's edge",
    "text: half input (10)",
    "text: refused settings (1, 2, 3)",
    "text: 1,024 frames and more (6)",
    "deliveries: all at once",
    "deliveries: single samples",
    "deliveries: hops",
    "deliveries: frames, and sizes beside frames and hops",
    "deliveries: cuts at random places, empty ones among them",
    "deliveries: zero divisors (12 kHz)",
    "deliveries: short tables (7)",
    "deliveries: states near 4,096 frames (6)",
    "deliveries: 4,096 frames from the start (6)",
    "deliveries: states that hold a frame or more (9)",
    "deliveries: refused settings (1, 2, 3)",
    "deliveries: any previous lag and correlation",
    "speech: all at once",
    "speech: hops",
    "speech: cuts at random places, V after U after V",
    "speech: a sum at the threshold, and one above",
    "speech: zero divisors (12 kHz)",
    "speech: refused numbers (11), with 1, 2, 3, 6, 9 and 7 beside",
    "speech: states with each previous type",
    "speech: refused lengths (6, 9, 7)",
    "options text: every setting",
    "options text: half input (10)",
    "options text: refused settings (1, 2, 3, 11, 9)",
    "options text: 1,024 frames and more (6)",
];

/// The first kind that is a text of `track_options`.
const OPTIONS: usize = 28;

#[derive(Default)]
pub struct FixedList {
    bytes: Vec<u8>,
    counts: [usize; KINDS.len()],
    /// How often each number was said, 0 where there was no refusal.
    numbers: [usize; 12],
    verdicts: [usize; 3],
    depends: Depends,
}

impl FixedList {
    /// An input of the kind's program, `zeros` more bytes of 0 after it, and its text.
    pub fn text(&mut self, kind: usize, input: &[u8], zeros: usize) {
        let whole: Vec<u8> = input.iter().copied().chain(vec![0; zeros]).collect();
        let text = if kind < OPTIONS { track(&whole) } else { track_options(&whole) };
        let no = text.strip_prefix("refused ").map_or(0, |no| no.trim().parse().unwrap());
        self.numbers[no] += 1;
        for (i, verdict) in ["V", "U", "Z"].iter().enumerate() {
            self.verdicts[i] += text.matches(verdict).count();
        }
        let mut body = Vec::new();
        body.extend((zeros as u32).to_le_bytes());
        body.extend((text.len() as u32).to_le_bytes());
        body.extend(text.as_bytes());
        body.extend(input);
        self.bytes.extend(record(kind as u8, &body));
        self.counts[kind] += 1;
    }

    pub fn deliveries(&mut self, list: Deliveries) {
        let told = list.told();
        if let Ok(k) = list.state.accepted() {
            self.depends.weigh(&k, list.state.prev, &told.joined, &told.rows);
        }
        told.numbers.iter().for_each(|&no| self.numbers[no as usize] += 1);
        told.rows.iter().for_each(|row| self.verdicts[row[0] as usize] += 1);
        self.bytes.extend(told.record);
        self.counts[list.kind as usize] += 1;
    }
}

/// The six pairs of rate and subframes, with complexities and thresholds by turns.
pub fn all_sizes(r: &mut Random) -> Vec<Settings> {
    let all = all_settings();
    (0..6).map(|i| Settings { thres2: r.pick(&[0, 800, 1500]), ..all[3 * i + i % 3] }).collect()
}

fn every_setting(list: &mut FixedList, r: &mut Random) {
    for s in all_settings() {
        let x = recording(&s, s.samples() + 4 * s.hop() + r.below(s.hop()), r);
        list.text(0, &write(&s, &x), 0);
        list.text(1, &write(&s, &[]), 2 * (s.samples() + s.hop()));
        let x: Vec<i16> = (0..s.samples() + s.hop()).map(|_| r.sample(9)).collect();
        list.text(1, &write(&s, &x), 0);
    }
    for s in all_settings().iter().filter(|s| s.rate == 12) {
        for at in 0..3 {
            let x = with_zero_divisor(s, at, s.samples() + 3 * s.hop(), r);
            list.text(2, &write(s, &x), 0);
        }
    }
}

fn thresholds(list: &mut FixedList, r: &mut Random) {
    let ones = [i32::MIN, -52429, -1, 0, 1, 52429, 65536, i32::MAX];
    let twos = [i32::MIN, -1000, -1, 0, 1, 700, 40000, i32::MAX];
    for s in all_sizes(r) {
        let turn = r.below(8);
        for (i, thres1) in ones.into_iter().enumerate() {
            let s = Settings { thres1, thres2: twos[(3 * i + turn) % 8], ..s };
            list.text(3, &write(&s, &recording(&s, s.samples() + s.hop(), r)), 0);
        }
    }
}

fn edges(list: &mut FixedList, r: &mut Random) {
    for s in all_sizes(r) {
        let (n, hop) = (s.samples(), s.hop());
        for size in [0, 1, hop, n - 1, n, n + 1, n + hop - 1, n + hop, n + hop + 1, n + 2 * hop - 1]
        {
            list.text(4, &write(&s, &recording(&s, size, r)), 0);
        }
    }
}

fn half_inputs(list: &mut FixedList, r: &mut Random) {
    let all = all_sizes(r);
    for size in 0..11 {
        let bad: Vec<u8> = (0..size).map(|_| r.word() as u8).collect();
        list.text(5, &bad, 0);
        list.text(5, &write(&r.pick(&all), &[])[..size], 0);
    }
    for s in all {
        for samples in [0, s.samples() - 1, s.samples()] {
            let mut b = write(&s, &recording(&s, samples, r));
            b.push(7);
            list.text(5, &b, 0);
        }
        // the odd byte counts before the settings and before the length
        for (place, odd) in [(0, 9), (1, 3), (2, 3)] {
            let mut b = write(&s, &recording(&s, 10, r));
            b[place] = odd;
            list.text(5, &b, 1);
        }
        list.text(5, &write(&s, &[]), 2 * (s.samples() + 1024 * s.hop()) + 1);
        list.text(5, &write(&s, &[]), 656_641);
        list.text(5, &write(&s, &[]), 700_001);
    }
}

fn bad_settings(list: &mut FixedList, r: &mut Random) {
    let odd: [(usize, &[u8]); 3] = [
        (0, &[0, 1, 2, 4, 7, 9, 11, 13, 15, 17, 24, 48, 255]),
        (1, &[0, 1, 3, 5, 8, 255]),
        (2, &[3, 4, 128, 255]),
    ];
    for (place, values) in odd {
        for &value in values {
            let s = random_settings(r);
            let mut b = write(&s, &recording(&s, r.below(20), r));
            b[place] = value;
            list.text(6, &b, 0);
            // too long for any settings: the settings are told first
            list.text(6, &b, r.pick(&[400_000, 656_640, 656_642, 1_000_000]));
            b[2] = 3;
            list.text(6, &b, 0);
            b[1] = r.pick(&[2, 3, 0]);
            list.text(6, &b, 2 * s.samples());
        }
    }
}

fn greatest_count(list: &mut FixedList, r: &mut Random) {
    let quick = Settings { thres2: 700, ..all_settings()[1] };
    let x = recording(&quick, quick.samples() + 1023 * quick.hop() + 3, r);
    list.text(7, &write(&quick, &x), 0);
    for (i, s) in all_sizes(r).into_iter().enumerate() {
        let x = recording(&s, s.samples(), r);
        let b = write(&s, &x);
        let full = 2 * 1023 * s.hop();
        list.text(7, &b, full + i % 2 * 2 * (s.hop() - 1));
        list.text(7, &b, full + 2 * s.hop() - 1);
        list.text(7, &b, full + 2 * s.hop());
        list.text(7, &b, 656_640 - 2 * x.len());
        list.text(7, &b, 656_642 - 2 * x.len());
        list.text(7, &b, 700_000);
        list.text(7, &b, 700_001);
    }
}

fn plain_cuts(list: &mut FixedList, r: &mut Random) {
    for s in all_settings() {
        let (n, hop) = (s.samples(), s.hop());
        let x = recording(&s, n + 2 * hop + r.below(hop), r);
        let cuts = vec![x.len()];
        list.deliveries(started(ALL_AT_ONCE, &s, x, cuts, 8 * 3));
        let x = recording(&s, n + 2 * hop, r);
        let cuts = vec![hop; x.len() / hop];
        list.deliveries(started(HOPS, &s, x, cuts, with_rows(3, r)));
        let cuts = vec![n - 1, 1, hop - 1, 1, hop + 1];
        let x = recording(&s, cuts.iter().sum(), r);
        list.deliveries(started(FRAMES, &s, x, cuts, 8 * 8));
        for _ in 0..2 {
            let x = recording(&s, any_length(&s, r), r);
            let cuts = any_cuts(x.len(), &s, r);
            let rows = frames_in(&s, x.len()) + r.below(3);
            list.deliveries(started(ANY_CUTS, &s, x, cuts, with_rows(rows, r)));
        }
    }
    for (i, s) in all_sizes(r).into_iter().enumerate() {
        let cuts = vec![s.samples(); 2];
        let x = recording(&s, cuts.iter().sum(), r);
        let rows = frames_in(&s, x.len());
        list.deliveries(started(FRAMES, &s, x, cuts, with_rows(rows, r)));
        let x = recording(&s, s.samples() + i % 2 * s.hop() + 1, r);
        let cuts = vec![1; x.len()];
        list.deliveries(started(SINGLE_SAMPLES, &s, x, cuts, 16));
    }
    for s in all_settings().iter().filter(|s| s.rate == 12) {
        for at in 0..2 {
            let x = with_zero_divisor(s, at, s.samples() + 2 * s.hop(), r);
            let cuts = any_cuts(x.len(), s, r);
            let rows = frames_in(s, x.len());
            list.deliveries(started(ZERO_DIVISOR, s, x, cuts, 8 * rows));
        }
    }
}

/// Refused where a frame would be finished and not elsewhere, and taken again
/// where the next delivery fits.
fn short_tables(list: &mut FixedList, r: &mut Random) {
    for s in all_sizes(r) {
        let (n, hop) = (s.samples(), s.hop());
        for numbers in [0, 8, 15, 16] {
            let cuts = vec![n - 1, 0, 1, hop, hop - 1, 1, 0, 1, hop - 1, 1];
            let x = recording(&s, cuts.iter().sum(), r);
            list.deliveries(started(SHORT_TABLE, &s, x, cuts, numbers));
        }
        let cuts = vec![n + 2 * hop, n + hop, n, hop, 0, n - hop - 1];
        let x = recording(&s, cuts.iter().sum(), r);
        list.deliveries(started(SHORT_TABLE, &s, x, cuts, 8 + 7));
        for (frames, numbers) in [(10, 87), (10, 88), (4095, 32767), (4096, 0)] {
            let state = holding(&s, frames, recording(&s, n - 1, r));
            list.deliveries(handed(SHORT_TABLE, state, vec![5], vec![0, 1, 0], numbers));
        }
    }
}

fn long_tracks(list: &mut FixedList, r: &mut Random) {
    for s in all_sizes(r) {
        let (n, hop) = (s.samples(), s.hop());
        let huge = [1 << 32, 1 << 62, 1 << 63, u64::MAX];
        for frames in [4093, 4095, 4096, 4097, r.pick(&huge)] {
            let held = recording(&s, r.below(n), r);
            let cuts = vec![0, n - held.len() - 1, 1, hop, hop - 1, 1, hop, 0];
            let x = recording(&s, cuts.iter().sum(), r);
            let numbers = r.pick(&[32768, 32768, 32799, NUMBERS, 32767]);
            list.deliveries(handed(LONG_TRACK, holding(&s, frames, held), x, cuts, numbers));
        }
    }
    let s = all_settings()[0];
    let (n, hop) = (s.samples(), s.hop());
    let most = n + 4095 * hop;
    let x = recording(&s, 20 * hop, r);
    let cuts = vec![most - 1, 1, hop - 1, 1, 0];
    list.deliveries(started(WHOLE_TRACK, &s, x.clone(), cuts, 32768));
    list.deliveries(started(WHOLE_TRACK, &s, x.clone(), vec![most + hop, 0, n], 32768));
    list.deliveries(started(WHOLE_TRACK, &s, x.clone(), vec![most, 0, 17], 32767));
    list.deliveries(started(WHOLE_TRACK, &s, x, vec![SAMPLES], NUMBERS));
}

/// 6 before 9, and 9 before 7.
fn held_frames(list: &mut FixedList, r: &mut Random) {
    for s in all_sizes(r) {
        let n = s.samples() as u64;
        let huge = [1 << 32, 1 << 62, (1 << 62) + 1, 1 << 63, u64::MAX];
        for count in [n - 1, n, n + 1, 640.max(n), 641, huge[r.below(5)], huge[r.below(5)]] {
            let frames = r.pick(&[0, 5, 4090, 4093, 4095, 4096, u64::MAX]);
            let numbers = r.pick(&[0, 8, 64, 32768, NUMBERS]);
            let places = if count < n { 640 } else { r.pick(&[40, 640]) };
            let held = recording(&s, places, r);
            let cuts = vec![0, 1, s.hop(), 0];
            let x = recording(&s, cuts.iter().sum(), r);
            let mut state = State { frames, count, held, ..State::fresh(&s) };
            any_left(&mut state, &s, r);
            list.deliveries(handed(HOLDS_A_FRAME, state, x, cuts, numbers));
        }
    }
}

fn bad_states(list: &mut FixedList, r: &mut Random) {
    let wide = 1u64 << 32;
    let odd: [(usize, &[u64]); 3] = [
        (0, &[0, 1, 7, 9, 11, 13, 15, 17, 24, 48, 264, wide + 8, (1 << 63) + 16, u64::MAX]),
        (1, &[0, 1, 3, 5, 8, 258, wide + 2, u64::MAX]),
        (2, &[3, 4, 256, wide, wide + 1, u64::MAX]),
    ];
    for (place, values) in odd {
        for &value in values {
            let s = random_settings(r);
            let prev = Prev { lag: 9, correlation: -9, signal_type: 5 };
            let mut bad = State { prev, ..holding(&s, 3, recording(&s, 50, r)) };
            match place {
                0 => bad.asked.rate = value,
                1 => bad.asked.nb = value,
                _ => bad.asked.complexity = value,
            }
            let start =
                State { frames: 0, count: 0, prev: Prev::default(), held: vec![], ..bad.clone() };
            list.deliveries(Deliveries {
                kind: REFUSED_SETTINGS,
                started: true,
                state: start,
                numbers: 8,
                samples: vec![],
                cuts: vec![],
            });
            let x = recording(&s, 40, r);
            list.deliveries(handed(REFUSED_SETTINGS, bad.clone(), x.clone(), vec![0, 1, 39], 80));
            if place < 2 {
                bad.asked.complexity = 3;
            }
            if place == 0 {
                bad.asked.nb = r.pick(&[2, 3]);
            }
            // whatever else is wrong with the state
            let worse = State { frames: u64::MAX, count: u64::MAX, ..bad };
            list.deliveries(handed(REFUSED_SETTINGS, worse, x, vec![1000, 0], 0));
        }
    }
}

fn any_previous_values(list: &mut FixedList, r: &mut Random) {
    for s in all_settings() {
        let held = recording(&s, r.below(s.samples()), r);
        let first = r.below(100);
        let x = recording(&s, any_length(&s, r).max(s.samples()), r);
        let cuts = any_cuts(x.len(), &s, r);
        let rows = first + frames_in(&s, held.len() + x.len());
        let mut state = holding(&s, first as u64, held);
        any_left(&mut state, &s, r);
        list.deliveries(handed(PREVIOUS, state, x, cuts, with_rows(rows, r)));
    }
}

/// The list: records of a kind (a byte), a length (4 bytes) and so many bytes.
pub fn track_list() -> Vec<u8> {
    let mut list = FixedList::default();
    let mut r = Random::new(11);
    let steps: [fn(&mut FixedList, &mut Random); 13] = [
        every_setting,
        thresholds,
        edges,
        half_inputs,
        bad_settings,
        greatest_count,
        plain_cuts,
        short_tables,
        long_tracks,
        held_frames,
        bad_states,
        any_previous_values,
        speech_kinds,
    ];
    steps.iter().for_each(|step| step(&mut list, &mut r));
    for (k, name) in KINDS.iter().enumerate() {
        eprintln!("track {k} {name}: {}", list.counts[k]);
    }
    let said = list.numbers.iter().enumerate().filter(|(_, n)| **n > 0);
    let said: Vec<String> = said.map(|(no, n)| format!("{no}: {n}")).collect();
    eprintln!("track, how often each number was said: {}", said.join(", "));
    list.depends.tell();
    let [v, u, z] = list.verdicts;
    let records: usize = list.counts.iter().sum();
    eprintln!("track: {records} records (rows {v} V, {u} U, {z} Z), {} bytes", list.bytes.len());
    list.bytes
}
