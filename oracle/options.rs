//! The programs `track_options` and `sheet_write_options`, over the original analyser, and inputs
//! for them. The head: rate, subframes, complexity, the kind of the second threshold (a byte each),
//! thres1 (4 bytes), then 4 bytes: thres2 for kind 0, order, activity and tilt (1, 1, 2) for kind 1.

use crate::frame::{Settings, le16s, le32};
use crate::random::Random;
use crate::sheet::bytes;
use crate::threshold::Speech;
use crate::track::{
    MOST_FRAMES, TrackSettings, frames_in, random_settings, recording, refused, rows, table_text,
    wavering, with_zero_divisor,
};

pub const HEAD: usize = 12;

/// Settings and samples, or the refusal: 10; 1, 2, 3; 11; 6; 9.
pub fn read(b: &[u8]) -> Result<(TrackSettings, Vec<i16>), u32> {
    if b.len() < HEAD || (b.len() - HEAD) % 2 == 1 {
        return Err(10);
    }
    if let Some(no) = Settings::refusal(b[0] as u32, b[1] as u32, b[2] as u32) {
        return Err(no);
    }
    let kind = b[3];
    let speech = Speech {
        order: b[8] as i32,
        activity: b[9] as i32,
        tilt: i16::from_le_bytes([b[10], b[11]]) as i32,
    };
    if kind == 1 {
        // no row stands before the first
        speech.threshold(0)?;
    }
    let stored = Settings {
        rate: b[0] as usize,
        nb: b[1] as usize,
        complexity: b[2] as usize,
        thres1: le32(&b[4..]),
        thres2: if kind == 0 { le32(&b[8..]) } else { 0 },
    };
    let x = le16s(&b[HEAD..]);
    if frames_in(&stored, x.len()) > MOST_FRAMES {
        return Err(6);
    }
    if kind > 1 {
        return Err(9);
    }
    Ok((TrackSettings { stored, speech: (kind == 1).then_some(speech) }, x))
}

/// The program `track_options`.
pub fn track_options(b: &[u8]) -> String {
    match read(b) {
        Err(no) => refused(no),
        Ok((k, x)) => table_text(&k, &x),
    }
}

/// The program `sheet_write_options`.
pub fn sheet_write_options(b: &[u8]) -> Vec<u8> {
    match read(b) {
        Err(no) => refused(no).into_bytes(),
        Ok((k, x)) => bytes(&k.stored, &rows(&k, &x)),
    }
}

/// An input; order and activity must be bytes and the tilt 16 bits.
pub fn write(k: &TrackSettings, x: &[i16]) -> Vec<u8> {
    let s = k.stored;
    let mut out = vec![s.rate as u8, s.nb as u8, s.complexity as u8, k.speech.is_some() as u8];
    out.extend(s.thres1.to_le_bytes());
    match k.speech {
        None => out.extend(s.thres2.to_le_bytes()),
        Some(m) => {
            out.extend([u8::try_from(m.order).unwrap(), u8::try_from(m.activity).unwrap()]);
            out.extend(i16::try_from(m.tilt).unwrap().to_le_bytes());
        }
    }
    x.iter().for_each(|v| out.extend(v.to_le_bytes()));
    out
}

/// Accepted settings of either kind.
pub fn random_track_settings(r: &mut Random) -> TrackSettings {
    let s = random_settings(r);
    match r.below(3) {
        0 => (&s).into(),
        _ => TrackSettings::from_speech(&s, Speech::random(r)),
    }
}

/// One thing or more that is wrong with the head of an input, or with its length.
fn damaged(mut b: Vec<u8>, s: &Settings, r: &mut Random) -> Vec<u8> {
    for _ in 0..1 + r.below(2) {
        match r.below(8) {
            0 => b.truncate(r.below(HEAD)),
            1 => b.push(r.word() as u8),
            2 | 3 if b.len() >= HEAD => {
                b[r.below(3)] = r.pick(&[0, 1, 2, 3, 4, 8, 12, 16, 24, 255]);
            }
            4 | 5 if b.len() >= HEAD => b[3] = r.pick(&[0, 1, 1, 2, 3, 128, 255]),
            6 if b.len() >= HEAD => {
                b[3] = 1;
                b[8] = r.pick(&[16, 17, 18, 32, 128, 255]);
            }
            _ => {
                let most = HEAD + 2 * (s.samples() + MOST_FRAMES * s.hop());
                b.resize(most + 2 * r.below(3), 0);
            }
        }
    }
    b
}

/// One random input, refused ones among them.
fn random_options(r: &mut Random) -> Vec<u8> {
    let k = random_track_settings(r);
    let s = k.stored;
    let (n, hop) = (s.samples(), s.hop());
    match r.below(20) {
        0..5 => {
            let x = recording(&s, r.below(n), r);
            damaged(write(&k, &x), &s, r)
        }
        5 => {
            let edge = n + r.below(4) * hop;
            let len = (edge as i64 + r.between(-2, 2)) as usize;
            write(&k, &recording(&s, len, r))
        }
        6 => {
            let k = TrackSettings { stored: Settings { rate: 12, ..s }, ..k };
            let at = r.below(6);
            let n = at * k.stored.hop() + k.stored.samples() + r.below(4 * k.stored.hop());
            write(&k, &with_zero_divisor(&k.stored, at, n, r))
        }
        7..10 => write(&k, &recording(&s, n + r.below(12 * hop), r)),
        _ => write(&k, &wavering(&s, n + r.below(16 * hop), r)),
    }
}

/// N random inputs, each after its length (4 bytes).
pub fn gen_options(n: usize, seed: u64) -> Vec<u8> {
    let mut r = Random::new(seed ^ 0x6f70_7469_6f6e_73);
    let mut out = Vec::new();
    for _ in 0..n {
        let b = random_options(&mut r);
        out.extend((b.len() as u32).to_le_bytes());
        out.extend(b);
    }
    out
}
