//! Shapes of samples for frames and tracks, in whole numbers only, so that a
//! seed gives the same samples on every machine.

use crate::frame::Settings;
use crate::random::Random;
use crate::silk::tables::{
    SILK_CB_LAGS_STAGE2, SILK_CB_LAGS_STAGE2_10_MS, SILK_CB_LAGS_STAGE3, SILK_CB_LAGS_STAGE3_10_MS,
};

pub fn clip(v: i64) -> i16 {
    v.clamp(i16::MIN as i64, i16::MAX as i64) as i16
}

/// A sine in parabolas: a turn is 65536, the height 32767.
fn wave(phase: i64) -> i64 {
    let p = phase.rem_euclid(65536);
    let (half, sign) = if p < 32768 { (p, 1) } else { (p - 32768, -1) };
    sign * (half * (32768 - half) * 32767 >> 28)
}

/// A tone of so many sixteenths of a sample a turn.
pub fn tone(n: usize, sixteenths: i64, height: i64, phase: i64) -> Vec<i16> {
    (0..n as i64).map(|i| clip(wave(phase + i * 65536 * 16 / sixteenths) * height >> 15)).collect()
}

pub fn noise(n: usize, bits: u32, r: &mut Random) -> Vec<i16> {
    (0..n).map(|_| r.sample(bits)).collect()
}

/// Noise made lower by a running mean over m samples.
pub fn low_noise(n: usize, bits: u32, m: usize, r: &mut Random) -> Vec<i16> {
    let raw = noise(n + m, bits, r);
    (0..n)
        .map(|i| clip(raw[i..i + m].iter().map(|&v| v as i64).sum::<i64>() * 2 / m as i64))
        .collect()
}

pub fn pulses(n: usize, period: usize, first: usize, height: i16) -> Vec<i16> {
    (0..n).map(|i| if i % period == first % period { height } else { 0 }).collect()
}

/// One random period, over and over.
pub fn repeated(n: usize, period: usize, bits: u32, r: &mut Random) -> Vec<i16> {
    let one = noise(period, bits, r);
    (0..n).map(|i| one[i % period]).collect()
}

/// Samples that repeat at a lag that moves from `from` to `to`.
pub fn glide(n: usize, from: i64, to: i64, bits: u32, r: &mut Random) -> Vec<i16> {
    let mut x: Vec<i16> = Vec::new();
    for i in 0..n as i64 {
        let lag = (from + (to - from) * i / n as i64).max(1);
        x.push(if i < lag { r.sample(bits) } else { x[(i - lag) as usize] });
    }
    x
}

fn offset(rate: usize, nb: usize, k: usize, contour: usize) -> i64 {
    (match (rate, nb) {
        (8, 4) => SILK_CB_LAGS_STAGE2[k][contour],
        (8, _) => SILK_CB_LAGS_STAGE2_10_MS[k][contour],
        (_, 4) => SILK_CB_LAGS_STAGE3[k][contour],
        _ => SILK_CB_LAGS_STAGE3_10_MS[k][contour],
    }) as i64
}

/// Samples in which subframe k repeats at the lag plus the contour's offset.
pub fn contoured(s: &Settings, lag: usize, contour: usize, bits: u32, r: &mut Random) -> Vec<i16> {
    let start = 20 * s.rate;
    let mut x = if r.chance(2) {
        repeated(start, lag, bits, r)
    } else {
        glide(start, lag as i64, lag as i64 + offset(s.rate, s.nb, 0, contour), bits, r)
    };
    for k in 0..s.nb {
        let at = (lag as i64 + offset(s.rate, s.nb, k, contour)).max(1) as usize;
        for _ in 0..5 * s.rate {
            x.push(x[x.len() - at.min(x.len())]);
        }
    }
    x
}

pub fn sum(a: &[i16], b: &[i16]) -> Vec<i16> {
    a.iter().zip(b).map(|(&p, &q)| clip(p as i64 + q as i64)).collect()
}

/// a × up / down.
pub fn times(a: &[i16], up: i64, down: i64) -> Vec<i16> {
    a.iter().map(|&p| clip(p as i64 * up / down)).collect()
}

/// So many 64ths of a period that repeats, and noise for the rest.
pub fn mixture(n: usize, lag: usize, share: i64, bits: u32, r: &mut Random) -> Vec<i16> {
    let (a, b) = (repeated(n, lag, bits, r), noise(n, bits, r));
    sum(&times(&a, share, 64), &times(&b, 64 - share, 64))
}

/// Something like whitened speech: pulses, a little noise, a swelling height.
pub fn voice(n: usize, lag: usize, r: &mut Random) -> Vec<i16> {
    let height = 1 << r.between(5, 14);
    let swell = r.between(0, 3);
    let mut x = Vec::with_capacity(n);
    let mut next = r.below(lag);
    let mut tail = 0i64;
    for i in 0..n {
        if i == next {
            tail = height + height * swell * i as i64 / n as i64;
            next += (lag as i64 + r.between(-1, 1)).max(2) as usize;
        }
        x.push(clip(tail + (r.i16() as i64 * height >> 18)));
        tail = -tail * 5 / 8;
    }
    x
}

/// A height of any size, either sign.
pub fn any_height(r: &mut Random) -> i16 {
    let bits = 1 + r.below(16) as u32;
    r.sample(bits)
}

/// Any of the shapes, for random frames and tracks; `lags` is the range.
pub fn any(n: usize, rate: usize, r: &mut Random) -> Vec<i16> {
    let lag = r.between(2 * rate as i64, 18 * rate as i64) as usize;
    let bits = 1 + r.below(16) as u32;
    match r.below(16) {
        0 => vec![any_height(r); n],
        1 => noise(n, bits, r),
        2 => pulses(n, lag, r.below(lag), any_height(r)),
        3 => repeated(n, lag, bits, r),
        4 => {
            let to = lag as i64 + r.between(-20, 20);
            glide(n, lag as i64, to, bits, r)
        }
        5 => (0..n).map(|_| r.pick(&[i16::MAX, i16::MIN])).collect(),
        6 => (0..n).map(|_| r.pick(&[i16::MAX, i16::MIN, 0])).collect(),
        7 => {
            let short = 1 + r.below(12);
            repeated(n, short, bits, r)
        }
        8 => {
            tone(n, r.between(20, 16 * 18 * rate as i64), any_height(r) as i64, r.between(0, 65535))
        }
        9 => {
            let m = 2 + r.below(40);
            low_noise(n, bits, m, r)
        }
        10 => {
            let a = repeated(n, lag, bits, r);
            let more = 1 + r.below(16) as u32;
            sum(&a, &noise(n, more, r))
        }
        11 => {
            let mut x = vec![0; n];
            for _ in 0..1 + r.below(6) {
                x[r.below(n)] = r.i16();
            }
            x
        }
        12 => {
            let (a, b) = (r.i16(), r.i16());
            let each = 1 + r.below(lag);
            (0..n).map(|i| if i / each % 2 == 0 { a } else { b }).collect()
        }
        13 => {
            // blocks of one level each
            let mut x = vec![0; n];
            for _ in 0..1 + r.below(4) {
                let at = r.below(n);
                let end = (at + 1 + r.below(160)).min(n);
                let level = any_height(r);
                x[at..end].fill(level);
            }
            x
        }
        14 => {
            // one shape, then another, at different heights
            let cut = r.below(n);
            let (m, other) = (1 + r.below(16) as u32, r.between(2 * rate as i64, 18 * rate as i64));
            let mut x = repeated(cut, lag, bits, r);
            x.extend(repeated(n - cut, other as usize, m, r));
            x
        }
        _ => voice(n, lag, r),
    }
}
