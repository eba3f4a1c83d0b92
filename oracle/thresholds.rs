//! The threshold call of libpitch_export.a beside the original's lines, for every four numbers
//! in range, and for numbers out of range, where 11 is said and the lent number stays.
#![allow(dead_code)]

mod frame;
mod leaves;
mod probe;
mod random;
#[allow(warnings)]
mod silk;
mod threshold;

use leaves::LIMITS;
use threshold::{RANGES, Speech};

unsafe extern "C" {
    fn pitch_threshold(
        order: i32,
        activity: i32,
        signal_type: i32,
        tilt: i32,
        threshold: *mut i32,
    ) -> usize;
}

/// What the lent number is before the call: no threshold.
const LENT: i32 = -1_000_000;

/// How many calls were made, how many of them were refused, how many differ.
#[derive(Default)]
struct Counts {
    calls: u64,
    refused: u64,
    differ: u64,
}

impl Counts {
    fn compare(&mut self, order: i32, activity: i32, signal_type: i32, tilt: i32) {
        let said = Speech { order, activity, tilt }.threshold(signal_type);
        let theirs = said.map_or_else(|no| (no as usize, LENT), |value| (0, value));
        let mut lent = LENT;
        let no = unsafe { pitch_threshold(order, activity, signal_type, tilt, &mut lent) };
        self.calls += 1;
        self.refused += (theirs.0 != 0) as u64;
        if (no, lent) != theirs {
            self.differ += 1;
            if self.differ <= 10 {
                println!("{order} {activity} {signal_type} {tilt}: original {theirs:?}, ours {:?}", (no, lent));
            }
        }
    }
}

/// Every four numbers in range.
fn in_range(counts: &mut Counts) {
    let [order, activity, signal_type, tilt] = RANGES.map(|(low, high)| low..=high);
    for o in order {
        for a in activity.clone() {
            for s in signal_type.clone() {
                tilt.clone().for_each(|t| counts.compare(o, a, s, t));
            }
        }
    }
}

/// The ends of each range, the numbers beside them, and the limits of words, all crossed.
fn at_limits(counts: &mut Counts) {
    let [order, activity, signal_type, tilt] = RANGES.map(|(low, high)| {
        let ends = [low, low + 1, high - 1, high, low - 1, high + 1];
        ends.into_iter().chain(LIMITS).collect::<Vec<i32>>()
    });
    for &o in &order {
        for &a in &activity {
            for &s in &signal_type {
                tilt.iter().for_each(|&t| counts.compare(o, a, s, t));
            }
        }
    }
}

fn main() {
    let mut counts = Counts::default();
    in_range(&mut counts);
    println!("in range: {} calls, {} refused", counts.calls, counts.refused);
    at_limits(&mut counts);
    println!("with limits: {} calls, {} refused, {} differences", counts.calls, counts.refused, counts.differ);
    if counts.differ > 0 {
        std::process::exit(1);
    }
}
