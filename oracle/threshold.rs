//! The second threshold found from the speech: the source's own lines (`find_threshold`, cut
//! out by cut.py), the ranges of docs/SCOPE.md, and the fixed list.

use crate::leaves::{LIMITS, List};
use crate::random::Random;
use crate::silk::pitch_analysis::find_threshold;

/// What a track's thresholds are found from, beside the type of the previous row: any numbers.
#[derive(Clone, Copy, PartialEq, Eq, Debug)]
pub struct Speech {
    pub order: i32,
    pub activity: i32,
    pub tilt: i32,
}

impl Speech {
    /// The threshold after a signal of this type, or 11 where one of the four leaves its range.
    pub fn threshold(&self, signal_type: i32) -> Result<i32, u32> {
        let in_range = (0..=16).contains(&self.order)
            && (0..=255).contains(&self.activity)
            && (0..=2).contains(&signal_type)
            && (-32768..=32767).contains(&self.tilt);
        if !in_range {
            return Err(11);
        }
        Ok(find_threshold(self.order as usize, self.activity, signal_type, self.tilt))
    }

    /// Numbers in range, the ends often.
    pub fn random(r: &mut Random) -> Speech {
        let (order, activity, tilt) = (r.below(17) as i32, r.below(256) as i32, r.i16() as i32);
        Speech {
            order: r.pick(&[order, order, order, 0, 16]),
            activity: r.pick(&[activity, activity, activity, 0, 255]),
            tilt: r.pick(&[tilt, tilt, tilt, 0, -32768, 32767]),
        }
    }
}

/// A number beside a range, or far from it.
pub fn beside((low, high): (i32, i32), r: &mut Random) -> i32 {
    loop {
        let near = r.pick(&[low - 1, high + 1, low - 2, high + 2]);
        let far = r.pick(&LIMITS);
        let any = r.sized();
        let n = r.pick(&[near, near, far, any]);
        if n < low || n > high {
            return n;
        }
    }
}

/// The ranges of order, activity, type and tilt.
pub const RANGES: [(i32, i32); 4] = [(0, 16), (0, 255), (0, 2), (-32768, 32767)];

const KINDS: [&str; 3] = ["in range", "out of range", "random"];

fn add(list: &mut List, kind: usize, [order, activity, signal_type, tilt]: [i32; 4]) {
    let said = Speech { order, activity, tilt }.threshold(signal_type);
    let (no, value) = said.map_or_else(|no| (no as i32, 0), |value| (0, value));
    list.i32s(&[kind as i32, order, activity, signal_type, tilt, no, value]);
    list.count(KINDS[kind]);
}

fn in_range(list: &mut List) {
    let activities = [0, 1, 2, 63, 64, 127, 128, 200, 254, 255];
    let tilts = [-32768, -32767, -20000, -1, 0, 1, 12345, 32766, 32767];
    for order in 0..=16 {
        for signal_type in 0..=2 {
            for activity in activities {
                tilts.iter().for_each(|&tilt| {
                    add(list, 0, [order, activity, signal_type, tilt]);
                });
            }
        }
    }
}

/// Each of the four beside its ends and at the limits of words: alone, then with each set of
/// the others out of range too.
fn out_of_range(list: &mut List, r: &mut Random) {
    for (place, (low, high)) in RANGES.into_iter().enumerate() {
        let ends = [low - 1, low - 2, high + 1, high + 2];
        for odd in ends.into_iter().chain(LIMITS).filter(|&n| n < low || n > high) {
            for set in 0..16 {
                if set >> place & 1 == 1 {
                    continue;
                }
                let mut four = RANGES.map(|(low, high)| r.between(low as i64, high as i64) as i32);
                for (i, one) in four.iter_mut().enumerate() {
                    if set >> i & 1 == 1 {
                        *one = beside(RANGES[i], r);
                    }
                }
                four[place] = odd;
                add(list, 1, four);
            }
        }
    }
}

fn random(list: &mut List, r: &mut Random) {
    for i in 0..3000 {
        let mut four = RANGES.map(|(low, high)| r.between(low as i64, high as i64) as i32);
        if i % 3 == 0 {
            for (one, range) in four.iter_mut().zip(RANGES) {
                if r.chance(3) {
                    *one = beside(range, r);
                }
            }
        }
        add(list, 2, four);
    }
}

/// Records of seven words: kind, order, activity, type, tilt, the refusal's number or 0, the
/// threshold or 0.
pub fn threshold() -> Vec<u8> {
    let mut list = List::default();
    let mut r = Random::new(12);
    in_range(&mut list);
    out_of_range(&mut list, &mut r);
    random(&mut list, &mut r);
    list.done("threshold")
}
