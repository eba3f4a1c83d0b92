//! What the searching copy of the analyser tells on its way; filled in by
//! the calls that cut.py adds to that copy.

use std::cell::RefCell;

#[derive(Clone, Default, Debug)]
pub struct Seen {
    pub scale: i32,
    pub wraps: bool,
    pub least_divisor: bool,
    pub wide_quotient: bool,
    pub wide_sum: bool,
    pub f4: Vec<i16>,
    /// Stage 1's highest scores, falling.
    pub ranking: Vec<i32>,
    pub ties1: bool,
    pub stopped_at: Option<(i32, i32)>,
    pub listed: usize,
    /// Stage 2's listed lags with their sums and biased scores.
    pub sums: Vec<(i32, i32, i32)>,
    pub at_threshold2: bool,
    /// The biased scores of the lags that pass.
    pub passing: Vec<i32>,
    /// The winner's score is reached again later.
    pub ties2: bool,
    pub candidates3: usize,
    pub beyond3: bool,
    pub ties3: bool,
    pub held_low: bool,
    pub held_high: bool,
}

thread_local! {
    static SEEN: RefCell<Seen> = RefCell::new(Seen::default());
}

pub fn start() {
    SEEN.with(|s| *s.borrow_mut() = Seen::default());
}

pub fn seen() -> Seen {
    SEEN.with(|s| s.borrow().clone())
}

fn tell(f: impl FnOnce(&mut Seen)) {
    SEEN.with(|s| f(&mut s.borrow_mut()));
}

fn energy(x: &[i16]) -> i64 {
    x.iter().map(|&v| v as i64 * v as i64).sum()
}

fn wide(n: i64) -> bool {
    n != n as i32 as i64
}

/// The scale and the signals at 8 and 4 kHz. Wraps: a divisor of stage 1 or 2,
/// as a sum in whole numbers, leaves 32 bits.
pub fn signals(shift: i32, f8: &[i16], f4: &[i16]) {
    let mut wraps = false;
    let mut t = 80;
    while t + 40 <= f4.len() {
        for d in 8..=72 {
            wraps |= wide(energy(&f4[t..t + 40]) + energy(&f4[t - d..t - d + 40]) + 160000);
        }
        t += 40;
    }
    t = 160;
    while t + 40 <= f8.len() {
        for d in 14..=144 {
            wraps |= wide(energy(&f8[t..t + 40]) + energy(&f8[t - d..t - d + 40]) + 1);
        }
        t += 40;
    }
    tell(|s| {
        s.scale = shift;
        s.wraps = wraps;
        s.f4 = f4.to_vec();
    });
}

pub fn divisor1(cross: i32, norm: i32) {
    tell(|s| {
        s.least_divisor |= norm == i32::MIN;
        if norm != 0 {
            let q = crate::silk::macros::silk_div32_varq(cross, norm, 14);
            s.wide_quotient |= q != q as i16 as i32;
        }
    });
}

pub fn combined(sum: i32) {
    tell(|s| s.wide_sum |= sum != sum as i16 as i32);
}

pub fn ranked(c: &[i16]) {
    tell(|s| {
        s.ranking = c.iter().map(|&v| v as i32).collect();
        s.ties1 = c.windows(2).any(|w| w[0] == w[1]);
    });
}

pub fn stopped(c: i32, threshold: i32) {
    tell(|s| s.stopped_at = Some((c, threshold)));
}

pub fn listed(n: usize) {
    tell(|s| s.listed = n);
}

pub fn scored2(d: i32, score: i32, best: i32, sum: i32, threshold: i32) {
    tell(|s| {
        s.sums.push((d, sum, score));
        s.at_threshold2 |= sum == threshold;
        if sum > threshold {
            s.passing.push(score);
            s.ties2 = score == best || (score < best && s.ties2);
        }
    });
}

pub fn scored3(score: i32, best: i32, first: i32, max_lag: i32) {
    tell(|s| {
        if first <= max_lag {
            s.candidates3 += 1;
            s.ties3 = score == best || (score < best && s.ties3);
        } else {
            s.beyond3 |= score > best;
        }
    });
}

pub fn unheld(lag: i32, low: i32, high: i32) {
    tell(|s| {
        s.held_low |= lag < low;
        s.held_high |= lag > high;
    });
}
