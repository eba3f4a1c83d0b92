//! The track of docs/SCOPE.md and the program `track`, over the original analyser,
//! and inputs for it.

use crate::frame::{Frame, Row, Settings, analyse, le16s, row_text};
use crate::kinds::{all_settings, zero_known};
use crate::random::Random;
use crate::signals;
use crate::threshold::Speech;

const HEAD: usize = 11;
/// The greatest count of frames that the programs take.
pub const MOST_FRAMES: usize = 1024;

/// F(n): the frames in n samples.
pub fn frames_in(s: &Settings, n: usize) -> usize {
    if n < s.samples() { 0 } else { 1 + (n - s.samples()) / s.hop() }
}

/// A track's settings: those that its sheet stores, and what its second thresholds are found
/// from, if they are; thres2 is 0 then.
#[derive(Clone, Copy)]
pub struct TrackSettings {
    pub stored: Settings,
    pub speech: Option<Speech>,
}

impl TrackSettings {
    pub fn from_speech(s: &Settings, speech: Speech) -> TrackSettings {
        TrackSettings { stored: Settings { thres2: 0, ..*s }, speech: Some(speech) }
    }

    /// The settings of a frame after a signal of this type.
    pub fn of_row(&self, signal_type: i32) -> Settings {
        match self.speech {
            None => self.stored,
            Some(m) => Settings { thres2: m.threshold(signal_type).unwrap(), ..self.stored },
        }
    }
}

impl From<&Settings> for TrackSettings {
    fn from(s: &Settings) -> TrackSettings {
        TrackSettings { stored: *s, speech: None }
    }
}

impl From<&TrackSettings> for TrackSettings {
    fn from(k: &TrackSettings) -> TrackSettings {
        *k
    }
}

/// What a row leaves to the next: the lag of its last subframe, its correlation and the type of
/// its signal, 2 where it is voiced and else 1. Before the first row all three are 0.
#[derive(Clone, Copy, Default, PartialEq, Eq, Debug)]
pub struct Prev {
    pub lag: i32,
    pub correlation: i32,
    pub signal_type: i32,
}

impl Prev {
    pub fn after(s: &Settings, row: &Row) -> Prev {
        Prev {
            lag: row[4 + s.nb - 1],
            correlation: row[3],
            signal_type: if row[0] == 0 { 2 } else { 1 },
        }
    }

    /// The row of a frame that this stands before.
    pub fn next_row(&self, s: &Settings, x: &[i16]) -> Row {
        let Prev { lag: prev_lag, correlation: prev_corr, .. } = *self;
        analyse(&Frame { settings: *s, prev_lag, prev_corr, x: x.to_vec() })
    }
}

/// Frame i of x.
pub fn window<'a>(s: &Settings, x: &'a [i16], i: usize) -> &'a [i16] {
    &x[i * s.hop()..i * s.hop() + s.samples()]
}

/// The rows of the samples x, where this stands before the first.
pub fn rows_after(mut prev: Prev, k: &TrackSettings, x: &[i16]) -> Vec<Row> {
    let mut all = Vec::new();
    for i in 0..frames_in(&k.stored, x.len()) {
        let row = prev.next_row(&k.of_row(prev.signal_type), window(&k.stored, x, i));
        prev = Prev::after(&k.stored, &row);
        all.push(row);
    }
    all
}

/// The rows of a whole track.
pub fn rows(k: &TrackSettings, x: &[i16]) -> Vec<Row> {
    rows_after(Prev::default(), k, x)
}

/// The program's input: settings and samples, or the number it is refused with.
pub fn read(b: &[u8]) -> Result<(Settings, Vec<i16>), u32> {
    if b.len() < HEAD || (b.len() - HEAD) % 2 == 1 {
        return Err(10);
    }
    let settings = Settings::read(b)?;
    let x = le16s(&b[HEAD..]);
    if frames_in(&settings, x.len()) > MOST_FRAMES {
        return Err(6);
    }
    Ok((settings, x))
}

pub fn refused(no: u32) -> String {
    format!("refused {no}\n")
}

pub fn rows_text(rows: &[Row], nb: usize) -> String {
    rows.iter().enumerate().map(|(i, row)| format!("{i} {}\n", row_text(row, nb))).collect()
}

/// The frames and the samples left over, then the rows.
pub fn table_text(k: &TrackSettings, x: &[i16]) -> String {
    let (s, rows) = (k.stored, rows(k, x));
    let left = match rows.len() {
        0 => x.len(),
        n => x.len() - ((n - 1) * s.hop() + s.samples()),
    };
    format!("{} {left}\n{}", rows.len(), rows_text(&rows, s.nb))
}

/// The program `track`.
pub fn track(b: &[u8]) -> String {
    match read(b) {
        Err(no) => refused(no),
        Ok((s, x)) => table_text(&(&s).into(), &x),
    }
}

pub fn write(s: &Settings, x: &[i16]) -> Vec<u8> {
    let mut out = vec![s.rate as u8, s.nb as u8, s.complexity as u8];
    out.extend(s.thres1.to_le_bytes());
    out.extend(s.thres2.to_le_bytes());
    x.iter().for_each(|v| out.extend(v.to_le_bytes()));
    out
}

/// Samples of a recording: pieces of any shape, voiced ones mostly.
pub fn recording(s: &Settings, n: usize, r: &mut Random) -> Vec<i16> {
    let mut x: Vec<i16> = Vec::new();
    while x.len() < n {
        let piece = 1 + r.below(4 * s.samples());
        let lag = r.between(2 * s.rate as i64, 18 * s.rate as i64);
        let bits = 6 + r.below(11) as u32;
        x.extend(match r.below(6) {
            0 => signals::any(piece, s.rate, r),
            1 => {
                let to = lag + r.between(-20, 20);
                signals::glide(piece, lag, to, bits, r)
            }
            2 => signals::repeated(piece, lag as usize, bits, r),
            3 => vec![signals::any_height(r); piece],
            _ => signals::voice(piece, lag as usize, r),
        });
    }
    x.truncate(n);
    x
}

/// Samples that waver between voiced and not: noise, periods over and over, and mixtures of both
/// whose correlation is often near a threshold that is found from the speech.
pub fn wavering(s: &Settings, n: usize, r: &mut Random) -> Vec<i16> {
    let mut x: Vec<i16> = Vec::new();
    while x.len() < n {
        let piece = s.hop() / 2 + r.below(2 * s.samples());
        let lag = r.between(2 * s.rate as i64, 18 * s.rate as i64) as usize;
        let bits = 8 + r.below(8) as u32;
        let near = r.between(20, 40);
        x.extend(signals::mixture(piece, lag, r.pick(&[0, 64, near, near, near]), bits, r));
    }
    x.truncate(n);
    x
}

/// Accepted settings, with thresholds of any size among them.
pub fn random_settings(r: &mut Random) -> Settings {
    let mut s = r.pick(&all_settings());
    s.thres1 = r.between(20000, 60000) as i32;
    s.thres2 = r.between(0, 3000) as i32;
    if r.chance(3) {
        s.thres1 = r.pick(&[0, 52429, -1, 65535, 65536, i32::MAX, i32::MIN]);
        s.thres2 = r.pick(&[0, 500, 6000, -1000, 40000, i32::MAX, i32::MIN]);
    }
    s
}

/// Samples with a zero divisor in frame `at`, for settings at 12 kHz.
pub fn with_zero_divisor(s: &Settings, at: usize, n: usize, r: &mut Random) -> Vec<i16> {
    let from = at * s.hop();
    let mut x = recording(s, n.max(from + s.samples()), r);
    x[from..from + s.samples()].copy_from_slice(&zero_known(*s).x);
    x
}

/// One random input of the program, refused ones among them.
fn random_track(r: &mut Random) -> Vec<u8> {
    let s = random_settings(r);
    let (n, hop) = (s.samples(), s.hop());
    match r.below(40) {
        0 => (0..r.below(11)).map(|_| r.word() as u8).collect(),
        1 => {
            let mut b = write(&s, &recording(&s, r.below(1000), r));
            b.push(r.word() as u8);
            b
        }
        2 => {
            let mut b = write(&s, &recording(&s, r.below(1000), r));
            b[r.below(3)] = r.word() as u8;
            b[r.below(3)] = r.pick(&[0, 1, 2, 3, 4, 8, 12, 16, 24, 255]);
            b
        }
        3 => {
            // at and past the program's greatest count
            let quick = Settings { rate: 8, nb: 2, ..s };
            let most = quick.samples() + 1023 * quick.hop();
            let more = r.pick(&[0, 1, quick.hop() - 1, quick.hop(), quick.hop() + 1]);
            write(&quick, &recording(&quick, most + more, r))
        }
        4..10 => {
            let edge = n + r.below(4) * hop;
            let len = (edge as i64 + r.between(-2, 2)) as usize;
            write(&s, &recording(&s, len, r))
        }
        10 => write(&s, &recording(&s, r.below(n), r)),
        11..14 => {
            // a frame with a zero divisor somewhere in a track at 12 kHz
            let s = Settings { rate: 12, ..s };
            let at = r.below(6);
            let n = at * s.hop() + s.samples() + r.below(4 * s.hop());
            write(&s, &with_zero_divisor(&s, at, n, r))
        }
        14..17 => {
            // loud and low at 12 kHz, where correlations can be 32768 or negative
            let s = Settings { rate: 12, thres2: s.thres2.min(0), ..s };
            let len = s.samples() + r.below(12 * s.hop());
            let x = match r.below(3) {
                0 => vec![signals::clip(r.between(-3000, 3000)); len],
                1 => signals::tone(len, r.between(500, 9000), r.between(300, 4000), 0),
                _ => signals::low_noise(len, 14, 30, r),
            };
            write(&s, &x)
        }
        17 => {
            let len = n + r.below(150 * hop);
            write(&s, &recording(&s, len, r))
        }
        _ => {
            let len = n + r.below(16 * hop);
            write(&s, &recording(&s, len, r))
        }
    }
}

/// N random inputs, each after its length (4 bytes).
pub fn gen_tracks(n: usize, seed: u64) -> Vec<u8> {
    let mut r = Random::new(seed ^ 0x7472_6163_6b73);
    let mut out = Vec::new();
    for _ in 0..n {
        let b = random_track(&mut r);
        out.extend((b.len() as u32).to_le_bytes());
        out.extend(b);
    }
    out
}
