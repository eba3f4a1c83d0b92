//! How frames of each kind are made, the rare ones with the help of the reporting
//! copy of the analyser (`pitch_probe`), and random frames at scale.

use crate::frame::{Frame, Row, Settings, analyse_by, contours, write_frame};
use crate::probe::{Seen, seen, start};
use crate::random::Random;
use crate::signals::*;
use crate::silk::pitch_probe;

pub fn all_settings() -> Vec<Settings> {
    let mut all = Vec::new();
    for rate in [8, 12, 16] {
        for nb in [2, 4] {
            for complexity in 0..3 {
                all.push(Settings { rate, nb, complexity, thres1: 45875, thres2: 1500 });
            }
        }
    }
    all
}

pub fn look(f: &Frame) -> (Row, Seen) {
    start();
    let row = analyse_by(pitch_probe::silk_pitch_analysis_core, f);
    (row, seen())
}

pub fn plain(s: Settings, x: Vec<i16>) -> Frame {
    Frame { settings: s, prev_lag: 0, prev_corr: 0, x }
}

fn limit32(r: &mut Random) -> i32 {
    r.pick(&[
        0,
        1,
        -1,
        2,
        255,
        32767,
        32768,
        -32768,
        -32769,
        65535,
        65536,
        -65536,
        1 << 30,
        (1 << 30) - 1,
        -(1 << 30),
        i32::MAX,
        i32::MIN,
        i32::MIN + 1,
    ])
}

pub fn any_thresholds(s: &mut Settings, r: &mut Random) {
    s.thres1 = match r.below(6) {
        0 => limit32(r),
        1 => r.sized(),
        2 => r.between(60000, 70000) as i32,
        _ => r.between(0, 66000) as i32,
    };
    s.thres2 = match r.below(6) {
        0 => limit32(r),
        1 => r.sized(),
        2 => r.between(-2000, 0) as i32,
        3 => r.between(0, 8000) as i32 + 65536 * r.i16() as i32,
        _ => r.between(0, 8000) as i32,
    };
}

pub fn any_previous(f: &mut Frame, r: &mut Random) {
    let rate = f.settings.rate as i64;
    f.prev_lag = match r.below(6) {
        0 => limit32(r),
        1 => r.sized(),
        2 => 0,
        _ => r.between(1, 18 * rate + 3) as i32,
    };
    f.prev_corr = match r.below(6) {
        0 => limit32(r),
        1 => r.sized(),
        2 => 32768,
        _ => r.between(-32768, 32768) as i32,
    };
}

/// The frame with samples changed until `goal` is 0; each step must not lead
/// away from it.
fn climb(
    mut f: Frame,
    steps: usize,
    r: &mut Random,
    goal: impl Fn(&Frame) -> i64,
) -> Option<Frame> {
    let mut now = goal(&f);
    for _ in 0..steps {
        if now == 0 {
            return Some(f);
        }
        let at = r.below(f.x.len());
        let old = f.x[at];
        let most = r.pick(&[1, 3, 20, 200]);
        f.x[at] = clip(old as i64 + r.between(-most, most));
        let then = goal(&f);
        if then <= now {
            now = then;
        } else {
            f.x[at] = old;
        }
    }
    (now == 0).then_some(f)
}

/// Stage 1's divisor for half-frame h and lag d, in whole numbers.
fn divisor(f4: &[i16], h: usize, d: usize) -> i64 {
    let t = 80 + 40 * h;
    let energy = |x: &[i16]| x.iter().map(|&v| v as i64 * v as i64).sum::<i64>();
    energy(&f4[t..t + 40]) + energy(&f4[t - d..t - d + 40]) + 160000
}

/// A frame at 12 kHz whose stage-1 divisor is `total` for some lag: a block in
/// both windows, then pulses after it that fill what is missing.
pub fn tuned(s: Settings, total: i64, r: &mut Random) -> Option<Frame> {
    let h = r.below(s.nb / 2);
    let d = 8 + r.below(if total > 1 << 31 { 4 } else { 40 });
    let sign = r.pick(&[1i64, -1]);
    let begin = 3 * (80 + 40 * h) - r.below(36);
    let end = begin + 65 + r.below(20);
    let last = 3 * (120 + 40 * h) - 8;
    let f4_of = |f: &Frame| {
        let (_, seen) = look(f);
        seen.f4
    };
    let mut f = plain(s, vec![0; s.samples()]);
    let best_below = |f: &mut Frame, most: i64, set: &dyn Fn(&mut Frame, i64)| {
        let (mut low, mut high) = (0, most);
        while low + 1 < high {
            let mid = (low + high) / 2;
            set(f, mid);
            if divisor(&f4_of(f), h, d) <= total {
                low = mid;
            } else {
                high = mid;
            }
        }
        set(f, low);
    };
    best_below(&mut f, 5000, &|f, v| f.x[begin..end].fill(clip(sign * v)));
    // coarse pulses where the block has died away, fine ones where these have
    let quiet = end + 12;
    let fine = last - 14;
    for n in 0..4 {
        let at = if n < 2 { quiet + r.below(6) } else { quiet + r.below(fine - quiet) };
        let up = r.pick(&[1i64, -1]);
        let old = f.x[at] as i64;
        best_below(&mut f, 900, &|f, v| f.x[at] = clip(old + up * v));
    }
    if total - divisor(&f4_of(&f), h, d) > 20000 {
        return None;
    }
    for _ in 0..1000 {
        let mut g = f.clone();
        for _ in 0..3 {
            g.x[fine + r.below(20)] = clip(r.between(-40, 40));
        }
        if divisor(&f4_of(&g), h, d) == total {
            return Some(g);
        }
    }
    None
}

/// The frames with a zero divisor that were found by hand, for nb 2 and 4.
pub fn zero_known(s: Settings) -> Frame {
    let mut x = vec![0i16; s.samples()];
    if s.nb == 2 {
        x[234..=305].fill(2426);
        x[307] = 42;
        x[346] = -20;
    } else {
        x[206..=286].fill(2446);
        x[288] = 25;
        x[342] = 22;
    }
    plain(s, x)
}

/// Small changes before the windows, and any thresholds and previous values.
pub fn shaken(f: &Frame, r: &mut Random) -> Frame {
    let mut g = f.clone();
    any_thresholds(&mut g.settings, r);
    any_previous(&mut g, r);
    match r.below(5) {
        0 => {}
        1 => {
            let n = r.below(40);
            let bits = 1 + r.below(9) as u32;
            for v in &mut g.x[..n] {
                *v = r.sample(bits);
            }
        }
        2 => {
            let at = r.below(g.x.len());
            g.x[at] = clip(g.x[at] as i64 + r.between(-3, 3));
        }
        3 => {
            let at = r.below(30);
            g.x[at] = any_height(r) >> 2;
        }
        _ => {
            for _ in 0..r.below(4) {
                let at = r.below(g.x.len());
                g.x[at] = clip(g.x[at] as i64 + r.between(-40, 40));
            }
        }
    }
    g
}

/// Quiet and periodic in the first half, loud in the second and of opposite
/// sign at the same lag, as loud as stage 1 lets pass: stage 2 hears the first
/// half, stage 3 the second.
pub fn opposed(s: Settings, r: &mut Random) -> Option<Frame> {
    let fs = s.rate;
    let n = s.samples();
    let second = (20 + 5 * s.nb / 2) * fs;
    let lag = r.between(10 * fs as i64, 17 * fs as i64) as usize;
    let bits = 7 + r.below(6) as u32;
    let quiet = repeated(n, lag, bits, r);
    // before the first half's own samples, whose periods stay whole
    let low = second - lag;
    if low + 2 * fs >= 20 * fs {
        return None;
    }
    let (basis, end) = if r.chance(2) {
        (low + r.below(20 * fs - low - fs), 20 * fs)
    } else {
        let basis = low + r.below(fs);
        (basis, basis + fs + r.below((19 * fs - basis).min(4 * fs)))
    };
    let wide = end - basis;
    let rest = noise(n, 16, r);
    let share = r.between(30, 400);
    let mut s = s;
    s.thres1 = r.between(50000, 65000) as i32;
    s.thres2 = r.between(-500, 800) as i32;
    let of = |loud: i64| {
        let mut x = quiet.clone();
        for i in 0..wide {
            x[basis + i] = clip(loud);
            if basis + i + lag < n {
                x[basis + i + lag] = clip(-loud);
            }
        }
        for i in (basis + wide + lag + 4).min(n)..n {
            x[i] = clip(rest[i] as i64 * loud * share / (100 * 16384));
        }
        plain(s, x)
    };
    let mut loud = 1 << (bits - 1);
    let mut last = None;
    while loud < 40000 {
        let f = of(loud);
        let (row, seen) = look(&f);
        if row[0] == 0 && seen.candidates3 == 0 {
            return Some(f);
        }
        if row[0] == 0 {
            last = Some(f);
        }
        loud += loud / 6;
    }
    last
}

/// Two lags whose biased scores in stage 2 are both the highest.
pub fn level_scores(s: Settings, r: &mut Random) -> Option<Frame> {
    let mut f = if r.chance(2) { voiced(s, r) } else { short_period(s, r) };
    f.settings.thres1 = r.between(-5000, 30000) as i32;
    f.settings.thres2 = r.between(-500, 500) as i32;
    climb(f, 400, r, |f| {
        let mut scores = look(f).1.passing;
        scores.sort();
        match scores[..] {
            [.., a, b] => (b - a) as i64,
            _ => 1 << 20,
        }
    })
}

/// A frame near `best` in stage 1: periodic and noise in the right mixture,
/// then single samples.
pub fn best_at(s: Settings, best: i32, r: &mut Random) -> Option<Frame> {
    let n = s.samples();
    let lag = r.between(2 * s.rate as i64, 18 * s.rate as i64) as usize;
    let bits = 8 + r.below(8) as u32;
    let a = repeated(n, lag, bits, r);
    let b = noise(n, bits, r);
    let off = |f: &Frame| {
        let (_, seen) = look(f);
        seen.ranking.first().map_or(1 << 20, |v| (v - best).abs() as i64)
    };
    let mixed = |m: i64| plain(s, sum(&times(&a, m, 64), &times(&b, 64 - m, 64)));
    let f = (0..=32).map(|m| mixed(2 * m)).min_by_key(|f| off(f)).unwrap();
    climb(f, 1500, r, off)
}

/// The first threshold such that a ranked value is exactly at it.
pub fn at_threshold1(f: &mut Frame, r: &mut Random) -> bool {
    let (_, seen) = look(f);
    let Some(&best) = seen.ranking.first() else { return false };
    if best < 3277 {
        return false;
    }
    let one = r.pick(&seen.ranking) as i64;
    let up = (one * 65536 + best as i64 - 1).div_euclid(best as i64);
    f.settings.thres1 = up as i32;
    up * best as i64 >> 16 == one
}

/// The second threshold such that a lag's sum is exactly at it.
pub fn at_threshold2(f: &mut Frame, r: &mut Random) -> bool {
    let (_, seen) = look(f);
    let nb = f.settings.nb as i32;
    let even: Vec<i32> = seen.sums.iter().map(|s| s.1).filter(|s| s % nb == 0).collect();
    if even.is_empty() {
        return false;
    }
    let highest = *even.iter().max().unwrap();
    let one = if r.chance(2) { highest } else { r.pick(&even) } / nb;
    f.settings.thres2 = one;
    if r.chance(3) {
        f.settings.thres2 = one + 65536 * r.i16() as i32;
    }
    one == one as i16 as i32
}

/// A frame that is often voiced, with lags all over the range.
pub fn voiced(s: Settings, r: &mut Random) -> Frame {
    let n = s.samples();
    let lag = r.between(2 * s.rate as i64, 18 * s.rate as i64);
    let bits = 6 + r.below(10) as u32;
    let x = match r.below(5) {
        0 => voice(n, lag as usize, r),
        1 => {
            let to = lag + r.between(-6, 6);
            glide(n, lag, to, bits, r)
        }
        2 => {
            let a = repeated(n, lag as usize, bits, r);
            sum(&a, &noise(n, bits - 2, r))
        }
        3 => {
            let c = r.below(contours(s.rate, s.nb, s.complexity));
            contoured(&s, lag as usize, c, bits, r)
        }
        _ => repeated(n, lag as usize, bits, r),
    };
    plain(s, x)
}

/// A frame with its lags near one end of the range.
pub fn near_end(s: Settings, high: bool, r: &mut Random) -> Frame {
    let end = if high { 18 * s.rate } else { 2 * s.rate } as i64;
    let lag = end + if high { r.between(-3, 2) } else { r.between(-2, 3) };
    let bits = 8 + r.below(8) as u32;
    let c = r.below(contours(s.rate, s.nb, s.complexity));
    let mut x = match r.below(4) {
        0 => repeated(s.samples(), lag as usize, bits, r),
        1 => glide(s.samples(), lag, lag + r.between(-8, 8), bits, r),
        _ => contoured(&s, lag as usize, c, bits, r),
    };
    if r.chance(3) {
        x = sum(&x, &noise(s.samples(), bits - 4, r));
    }
    let mut s = s;
    s.thres1 = r.between(0, 60000) as i32;
    s.thres2 = r.between(-500, 1500) as i32;
    plain(s, x)
}

/// Loud and low at 12 kHz, where the source's filter lifts low tones.
pub fn loud_low(s: Settings, r: &mut Random) -> Frame {
    let n = s.samples();
    let x = match r.below(5) {
        0 => {
            let bits = 12 + r.below(5) as u32;
            let m = 10 + r.below(60);
            low_noise(n, bits, m, r)
        }
        1 => tone(n, r.between(500, 9000), r.between(300, 4000), r.between(0, 65535)),
        2 => vec![clip(r.between(-4000, 4000)); n],
        3 => {
            let (v, each) = (r.between(500, 4000), 20 + r.below(200));
            (0..n).map(|i| clip(if i / each % 2 == 0 { v } else { -v })).collect()
        }
        _ => {
            let mut x = vec![0; n];
            for _ in 0..1 + r.below(3) {
                let at = r.below(n);
                let end = (at + 20 + r.below(120)).min(n);
                let level = clip(r.between(-4000, 4000));
                x[at..end].fill(level);
            }
            x
        }
    };
    let mut f = plain(s, x);
    if r.chance(2) {
        f.settings.thres2 = r.between(-3000, 0) as i32;
        f.settings.thres1 = r.between(-10000, 66000) as i32;
    }
    f
}

/// A tone whose best lags at 4 kHz are some lags apart, with a little noise.
pub fn combed(s: Settings, r: &mut Random) -> Frame {
    let n = s.samples();
    let t = r.between(2 * 4 * s.rate as i64, 5 * 4 * s.rate as i64);
    let a = tone(n, t, r.between(500, 20000), r.between(0, 65535));
    let bits = 3 + r.below(8) as u32;
    let mut f = plain(s, sum(&a, &noise(n, bits, r)));
    f.settings.thres1 = r.between(-60000, 50000) as i32;
    f.settings.thres2 = r.between(-500, 2000) as i32;
    f
}

pub fn short_period(s: Settings, r: &mut Random) -> Frame {
    let n = s.samples();
    let bits = 2 + r.below(15) as u32;
    let period = 1 + r.below(4 * s.rate);
    let x = match r.below(4) {
        0 => vec![any_height(r); n],
        1 => pulses(n, period, r.below(period), any_height(r)),
        2 => {
            let mut one = repeated(n, period, bits, r);
            let quiet = r.below(3);
            one.iter_mut().for_each(|v| *v >>= quiet);
            one
        }
        _ => (0..n).map(|i| if i % period < period / 2 { 1 << bits.min(14) } else { 0 }).collect(),
    };
    let mut f = plain(s, x);
    if r.chance(2) {
        f.settings.thres1 = r.between(-1000, 66000) as i32;
    }
    f
}

/// A frame whose correlation can be whole: periods without a change.
pub fn whole(s: Settings, n: usize, r: &mut Random) -> Frame {
    if n % 4 == 0 {
        return plain(s, vec![any_height(r); s.samples()]);
    }
    let lag = r.between(2 * s.rate as i64, 18 * s.rate as i64) as usize;
    let bits = 9 + r.below(8) as u32;
    plain(s, repeated(s.samples(), lag, bits, r))
}

/// Just below and just above a right shift of the samples.
pub fn at_scale_border(s: Settings, above: bool, r: &mut Random) -> Option<Frame> {
    let border = r.pick(&[0, 0, 0, 2, 4, 6, 8]);
    let n = s.samples();
    let base = match r.below(3) {
        0 => noise(n, 16, r),
        1 => repeated(n, 16 * s.rate / 2, 16, r),
        _ => vec![r.pick(&[i16::MAX, i16::MIN]); n],
    };
    let of = |m: i64| plain(s, times(&base, m, 4096));
    let (mut low, mut high) = (0, 4096);
    if look(&of(high)).1.scale <= border {
        return None;
    }
    while low + 1 < high {
        let mid = (low + high) / 2;
        if look(&of(mid)).1.scale <= border {
            low = mid;
        } else {
            high = mid;
        }
    }
    Some(of(if above { high } else { low }))
}

/// A random frame of any kind; the costly searches seldom.
fn random_frame(r: &mut Random) -> Frame {
    let mut s = r.pick(&all_settings());
    if r.chance(2) {
        any_thresholds(&mut s, r);
    }
    let twelve = Settings { rate: 12, ..s };
    let made = match r.below(1000) {
        0..260 => Some(plain(s, any(s.samples(), s.rate, r))),
        260..500 => Some(voiced(s, r)),
        500..600 => {
            let high = r.chance(2);
            Some(near_end(s, high, r))
        }
        600..680 => Some(short_period(s, r)),
        680..760 => {
            let lag = r.between(2 * s.rate as i64, 18 * s.rate as i64) as usize;
            let c = r.below(contours(s.rate, s.nb, s.complexity));
            let bits = 5 + r.below(12) as u32;
            Some(plain(s, contoured(&s, lag, c, bits, r)))
        }
        760..830 => Some(loud_low(twelve, r)),
        830..850 => Some(combed(s, r)),
        850..880 => {
            let mut f = voiced(s, r);
            at_threshold1(&mut f, r).then_some(f)
        }
        880..910 => {
            let mut f = voiced(s, r);
            at_threshold2(&mut f, r).then_some(f)
        }
        910..940 => Some(shaken(&zero_known(twelve), r)),
        940..942 => tuned(twelve, r.pick(&[1 << 31, 1 << 32]), r).map(|f| shaken(&f, r)),
        942..950 => opposed(Settings { rate: s.rate.max(12), ..s }, r),
        950..960 => {
            let above = r.chance(2);
            at_scale_border(s, above, r)
        }
        960..962 => level_scores(s, r),
        962..964 => {
            let best = r.pick(&[3276, 3277]);
            best_at(s, best, r)
        }
        _ => {
            let n = r.below(4);
            Some(whole(s, n, r))
        }
    };
    let mut f = made.unwrap_or_else(|| voiced(s, r));
    if r.chance(2) {
        any_previous(&mut f, r);
    }
    f
}

/// N random frames, one record after the other.
pub fn gen_frames(n: usize, seed: u64) -> Vec<u8> {
    let mut r = Random::new(seed ^ 0x6672_616d_6573);
    let mut out = Vec::new();
    for _ in 0..n {
        write_frame(&mut out, &random_frame(&mut r));
    }
    out
}
