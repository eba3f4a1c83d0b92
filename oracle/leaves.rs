//! The fixed lists of the functions below the stages: words, sort, decimators,
//! kernels, lags. README.md has their layouts.

use crate::frame::{contours, greatest_index, rebuild, unless_zero_divisor};
use crate::random::Random;
use crate::silk::macros::*;
use crate::silk::resampler::*;
use crate::silk::sigproc_fix::*;
use crate::silk::sort::silk_insertion_sort_decreasing_int16;

/// Records and how many of each group.
#[derive(Default)]
pub struct List {
    bytes: Vec<u8>,
    counts: Vec<(String, usize)>,
}

impl List {
    fn i32(&mut self, n: i32) {
        self.bytes.extend(n.to_le_bytes());
    }

    pub fn i32s(&mut self, ns: &[i32]) {
        ns.iter().for_each(|&n| self.i32(n));
    }

    fn i16s(&mut self, ns: &[i16]) {
        ns.iter().for_each(|n| self.bytes.extend(n.to_le_bytes()));
    }

    pub fn count(&mut self, group: &str) {
        match self.counts.last_mut() {
            Some((name, n)) if name == group => *n += 1,
            _ => self.counts.push((group.to_string(), 1)),
        }
    }

    pub fn done(self, name: &str) -> Vec<u8> {
        for (group, n) in &self.counts {
            eprintln!("{name} {group}: {n}");
        }
        let all: usize = self.counts.iter().map(|c| c.1).sum();
        eprintln!("{name}: {all} records, {} bytes", self.bytes.len());
        self.bytes
    }
}

const MIN: i32 = i32::MIN;
const MAX: i32 = i32::MAX;

pub const LIMITS: [i32; 30] = [
    0,
    1,
    -1,
    2,
    -2,
    3,
    -3,
    127,
    -128,
    143,
    256,
    32766,
    32767,
    32768,
    -32767,
    -32768,
    -32769,
    65535,
    65536,
    -65535,
    -65536,
    65537,
    0x12345678,
    1 << 30,
    -(1 << 30),
    (1 << 30) - 1,
    MAX - 1,
    MAX,
    MIN,
    MIN + 1,
];

const LIMITS16: [i32; 13] =
    [0, 1, -1, 2, -2, 255, 16383, 16384, -16384, -16385, 32766, 32767, -32768];

fn clz_frac(a: i32) -> i32 {
    let mut lz = 0;
    let mut frac = 0;
    silk_clz_frac(a, &mut lz, &mut frac);
    lz * 256 + frac
}

const WORD_OPS: [(&str, fn(i32, i32, i32) -> i32); 25] = [
    ("smulwb", |a, b, _| silk_smulwb(a, b)),
    ("smlawb", silk_smlawb),
    ("smulbb", |a, b, _| silk_smulbb(a, b)),
    ("smmul", |a, b, _| silk_smmul(a, b)),
    ("mul", |a, b, _| silk_mul(a, b)),
    ("rshift", |a, b, _| silk_rshift(a, b)),
    ("lshift", |a, b, _| silk_lshift(a, b)),
    ("rshift_round", |a, b, _| silk_rshift_round(a, b)),
    ("sat16", |a, _, _| silk_sat16(a)),
    ("add_sat16", |a, b, _| silk_add_sat16(a as i16, b as i16) as i32),
    ("add_sat32", |a, b, _| silk_add_sat32(a, b)),
    ("lshift_sat32", |a, b, _| silk_lshift_sat32(a, b)),
    ("limit_32", silk_limit_32),
    ("div32", |a, b, _| silk_div32(a, b)),
    ("div32_16", |a, b, _| silk_div32_16(a, b)),
    ("div32_varq", silk_div32_varq),
    ("div32_varq by zero", silk_div32_varq),
    ("clz32", |a, _, _| silk_clz32(a)),
    ("clz_frac", |a, _, _| clz_frac(a)),
    ("lin2log", |a, _, _| silk_lin2log(a)),
    ("wrapping_add", |a, b, _| a.wrapping_add(b)),
    ("wrapping_sub", |a, b, _| a.wrapping_sub(b)),
    ("wrapping_mul", |a, b, _| a.wrapping_mul(b)),
    ("rotate_right", |a, b, _| a.rotate_right(b as u32)),
    ("smlabb", silk_smlabb),
];

/// The cases (a, b, c) of one operation: the worked ones, limits crossed with
/// limits, then random ones.
fn word_cases(op: usize, r: &mut Random) -> Vec<[i32; 3]> {
    let mut cases: Vec<[i32; 3]> = Vec::new();
    let shifts = |low: i32, high: i32, cases: &mut Vec<[i32; 3]>, r: &mut Random| {
        for a in [0, 1, -1, 3, -3, 1024, -1024, 32767, -32768, 0x12345678, MAX, MIN, MIN + 1] {
            cases.extend((low..=high).map(|s| [a, s, 0]));
        }
        for _ in 0..200 {
            cases.push([r.sized(), r.between(low as i64, high as i64) as i32, 0]);
        }
    };
    match op {
        5 | 6 | 23 => shifts(0, 31, &mut cases, r),
        7 => {
            cases.extend([[-3, 1, 0], [1024, 11, 0], [-1024, 11, 0]]);
            shifts(-31, 40, &mut cases, r);
        }
        11 => shifts(0, 63, &mut cases, r),
        8 | 17 | 18 | 19 => {
            cases.extend([0, 1, 16, 143, 144].map(|a| [a, 0, 0]));
            for s in 0..31 {
                let p = 1i32 << s;
                cases.extend([p, p - 1, p + 1, -p, -p - 1, 1 - p].map(|a| [a, 0, 0]));
            }
            cases.extend(LIMITS.map(|a| [a, 0, 0]));
            // every lag that stage 2 takes the logarithm of
            cases.extend((2..=288).map(|a| [a, 0, 0]));
            cases.extend((0..200).map(|_| [r.sized(), 0, 0]));
        }
        9 => {
            for a in LIMITS16 {
                cases.extend(LIMITS16.map(|b| [a, b, 0]));
            }
            cases.extend((0..250).map(|_| [r.i16() as i32, r.i16() as i32, 0]));
        }
        12 => {
            for a in LIMITS {
                for (low, high) in
                    [(MIN, MAX), (MIN, MIN), (MAX, MAX), (0, 0), (-1, 1), (16, 144), (32, 288)]
                {
                    cases.push([a, low, high]);
                }
            }
            for _ in 0..250 {
                let (b, c) = (r.sized(), r.sized());
                cases.push([r.sized(), b.min(c), b.max(c)]);
            }
        }
        13 | 14 => {
            for a in LIMITS {
                cases.extend(LIMITS.map(|b| [a, b, 0]));
            }
            cases.extend((0..300).map(|_| [r.sized(), r.sized(), 0]));
            cases.retain(|c| c[1] != 0 && (c[0], c[1]) != (MIN, -1));
        }
        15 => {
            cases.extend([[1, 1, 14], [-1, 1, 14], [0, 1, 14]]);
            for a in LIMITS {
                cases.extend(LIMITS.map(|b| [a, b, 14]));
            }
            for q in 0..=31 {
                for (a, b) in [(1, 1), (-1, 1), (1, -1), (MAX, 1), (MIN, 1), (MIN, -1)] {
                    cases.push([a, b, q]);
                }
                for (a, b) in [(MIN, MIN), (MAX, MIN), (1, MIN), (1, MAX), (0, 7), (-7, 3)] {
                    cases.push([a, b, q]);
                }
            }
            cases.extend((0..400).map(|_| [r.sized(), r.sized(), 14]));
            cases.extend((0..400).map(|_| [r.sized(), r.sized(), r.below(32) as i32]));
            cases.retain(|c| c[1] != 0);
        }
        16 => {
            cases.extend(LIMITS.map(|a| [a, 0, 14]));
            cases.extend((0..=31).map(|q| [r.sized(), 0, q]));
        }
        1 | 24 => {
            for a in [0, 1, -1, MAX, MIN] {
                for b in LIMITS {
                    let few = [0, 1, -1, 179, -25727, 32767, 32768, -32768, 65535, MAX, MIN];
                    cases.extend(few.map(|c| [a, b, c]));
                }
            }
            cases.extend((0..300).map(|_| [r.sized(), r.sized(), r.sized()]));
        }
        _ => {
            for a in LIMITS {
                cases.extend(LIMITS.map(|b| [a, b, 0]));
            }
            cases.extend((0..300).map(|_| [r.sized(), r.sized(), 0]));
        }
    }
    cases
}

/// Records of five words: operation, a, b, c, expected.
pub fn words() -> Vec<u8> {
    let mut list = List::default();
    let mut r = Random::new(1);
    for (op, (name, f)) in WORD_OPS.iter().enumerate() {
        for [a, b, c] in word_cases(op, &mut r) {
            let said = unless_zero_divisor(|| f(a, b, c));
            assert_eq!(said.is_none(), op == 16, "{name} {a} {b} {c}");
            list.i32s(&[op as i32, a, b, c, said.unwrap_or(0)]);
            list.count(name);
        }
    }
    list.done("words")
}

fn sort_record(list: &mut List, group: &str, values: &[i16], k: usize) {
    let mut after = values.to_vec();
    let mut idx = vec![0i32; k];
    silk_insertion_sort_decreasing_int16(&mut after, &mut idx, values.len(), k);
    list.i32s(&[values.len() as i32, k as i32]);
    list.i16s(values);
    list.i32s(&idx);
    list.i16s(&after);
    list.count(group);
}

/// Records: L, K, L values, K indices, L values after.
pub fn sort() -> Vec<u8> {
    let mut list = List::default();
    let mut r = Random::new(2);
    sort_record(&mut list, "worked case", &[5, 7, 7, 3], 2);
    for l in 1..=4 {
        for n in 0..3usize.pow(l) {
            let values: Vec<i16> = (0..l).map(|i| (n / 3usize.pow(i) % 3) as i16 - 1).collect();
            for k in 1..=values.len() {
                sort_record(&mut list, "all short ones", &values, k);
            }
        }
    }
    for l in [1usize, 2, 3, 5, 8, 16, 33, 64, 65] {
        for shape in 0..7 {
            let values: Vec<i16> = (0..l as i16)
                .map(|i| match shape {
                    0 => 0,
                    1 => i,
                    2 => -i,
                    3 => [i16::MAX, i16::MIN][i as usize % 2],
                    4 => i / 4,
                    5 => -(i / 4),
                    _ => i16::MIN,
                })
                .collect();
            for k in [1, 2, 4, 6, 8, l / 2, l - 1, l] {
                if 1 <= k && k <= l {
                    sort_record(&mut list, "shapes", &values, k);
                }
            }
        }
    }
    for n in 0..900 {
        let values: Vec<i16> = match n % 3 {
            0 => (0..65).map(|_| r.between(-2, 2) as i16).collect(),
            1 => (0..65).map(|_| r.i16()).collect(),
            _ => (0..65).map(|_| r.between(3270, 3290) as i16).collect(),
        };
        sort_record(&mut list, "as stage 1", &values, [4, 6, 8][n / 3 % 3]);
    }
    for _ in 0..1000 {
        let l = 1 + r.below(65);
        let k = 1 + r.below(l);
        let spread = r.pick(&[1, 2, 5, 40, 32767]);
        let values: Vec<i16> = (0..l).map(|_| r.between(-spread, spread) as i16).collect();
        sort_record(&mut list, "random", &values, k);
    }
    list.done("sort")
}

/// Samples of one sort: zeros, limits, noise of any size, steps, an alternation.
fn signal(n: usize, shape: usize, r: &mut Random) -> Vec<i16> {
    let bits = 1 + r.below(16) as u32;
    let level = r.i16();
    (0..n)
        .map(|i| match shape % 8 {
            0 => r.sample(16),
            1 => r.sample(bits),
            2 => r.pick(&[i16::MAX, i16::MIN]),
            3 => [i16::MAX, i16::MIN][i % 2],
            4 => i16::MAX,
            5 => i16::MIN,
            6 => {
                if (i / 13) % 2 == 0 {
                    level
                } else {
                    !level
                }
            }
            _ => {
                if i == n / 3 {
                    level
                } else {
                    0
                }
            }
        })
        .collect()
}

/// Records: kind, n, state in, (ar2: two coefficients), inputs, outputs, state out.
pub fn resampler() -> Vec<u8> {
    let mut list = List::default();
    let mut r = Random::new(3);
    let states = |n: usize, way: usize, r: &mut Random| -> Vec<i32> {
        (0..n)
            .map(|_| match way % 4 {
                0 | 1 => 0,
                2 => r.sized(),
                _ => r.pick(&[MIN, MAX, 0, -1, 1 << 25, 1 << 30]),
            })
            .collect()
    };
    for n in 0..260 {
        let small = r.below(70);
        let len = [2, 4, 6, 240, 320, 480, 640, 1, 7, 0, small][n % 11];
        let input = signal(len, n / 11, &mut r);
        let state = states(2, n, &mut r);
        let mut after = state.clone();
        let mut out = vec![0i16; len / 2];
        silk_resampler_down2(&mut after, &mut out, &input, len as i32);
        list.i32s(&[0, len as i32]);
        list.i32s(&state);
        list.i16s(&input);
        list.i16s(&out);
        list.i32s(&after);
        list.count("down2");
    }
    for n in 0..200 {
        let small = r.below(70);
        let len = [1, 2, 3, 360, 480, 0, small, small + 1][n % 8];
        let input = signal(len, n / 8, &mut r);
        let state = states(2, n, &mut r);
        let mut coefs = [SILK_RESAMPLER_2_3_COEFS_LQ[0], SILK_RESAMPLER_2_3_COEFS_LQ[1]];
        if n % 3 == 2 {
            coefs = [r.sample(15), r.sample(15)];
        } else if n % 9 == 1 {
            coefs = [r.pick(&[i16::MAX, i16::MIN, 0]), r.pick(&[i16::MAX, i16::MIN, -1])];
        }
        let mut after = state.clone();
        let mut out = vec![0i32; len];
        silk_resampler_private_ar2(&mut after, &mut out, &input, &coefs, len as i32);
        list.i32s(&[1, len as i32]);
        list.i32s(&state);
        list.i16s(&coefs);
        list.i16s(&input);
        list.i32s(&out);
        list.i32s(&after);
        list.count("private_ar2");
    }
    for n in 0..260 {
        let small = r.below(70);
        let len = [3, 6, 9, 360, 480, 360, 480, 1, 2, 4, 5, small, 0, 477, 479][n % 15];
        let input = signal(len, n / 15, &mut r);
        let state = states(6, n, &mut r);
        let mut after = state.clone();
        let mut out = vec![0i16; 2 * (len / 3)];
        silk_resampler_down2_3(&mut after, &mut out, &input, len as i32);
        list.i32s(&[2, len as i32]);
        list.i32s(&state);
        list.i16s(&input);
        list.i16s(&out);
        list.i32s(&after);
        list.count("down2_3");
    }
    list.done("resampler")
}

/// Records: kind, lengths, inputs, results.
pub fn sigproc() -> Vec<u8> {
    let mut list = List::default();
    let mut r = Random::new(4);
    for n in 0..300 {
        let small = 1 + r.below(70);
        let len = [240, 320, 360, 480, 480, 640, 1, 2, 3, 4, small, small + 1][n % 12];
        let x = match n / 12 % 10 {
            8 => vec![0; len],
            9 => vec![[1, -1, 255, 2048][n % 4]; len],
            shape => signal(len, shape, &mut r),
        };
        let (mut energy, mut shift) = (0, 0);
        silk_sum_sqr_shift(&mut energy, &mut shift, &x, len);
        list.i32s(&[0, len as i32]);
        list.i16s(&x);
        list.i32s(&[energy, shift]);
        list.count("sum_sqr_shift");
    }
    for n in 0..300 {
        let small = r.below(90);
        let len = [40, 40, 60, 80, 320, 240, small, n % 10, n % 7, small][n % 10];
        let x = signal(len, n / 10, &mut r);
        let y = if n % 4 == 0 { x.clone() } else { signal(len, n / 7, &mut r) };
        let sum = silk_inner_prod_aligned(&x, &y, len);
        list.i32s(&[1, len as i32]);
        list.i16s(&x);
        list.i16s(&y);
        list.i32(sum);
        list.count("inner_prod_aligned");
    }
    for n in 0..420 {
        let small = 1 + r.below(50);
        let (len, pitches) = [
            (40, 65),
            (40, 131),
            (40, 6),
            (60, 22),
            (80, 22),
            (60, 15),
            (80, 11),
            (0, 5),
            (1, 1),
            (2, 9),
            (3, 4),
            (small, 1 + n % 13),
            (n % 11, 7),
            (5, small),
        ][n % 14];
        let full = len + pitches - 1;
        let ylen = match n % 6 {
            0 => full + r.below(40),
            1 => full + 3,
            2 => full.saturating_sub(1 + r.below(5)),
            3 => r.below(full + 1),
            _ => full,
        };
        let x = signal(len, n / 14, &mut r);
        let y = signal(ylen, n / 9, &mut r);
        let mut sums = vec![0i32; pitches];
        silk_pitch_xcorr(&x, &y, &mut sums, len, pitches);
        list.i32s(&[2, len as i32, pitches as i32, ylen as i32]);
        list.i16s(&x);
        list.i16s(&y);
        list.i32s(&sums);
        list.count(if ylen < full { "pitch_xcorr, short y" } else { "pitch_xcorr" });
    }
    list.counts.sort();
    list.counts = list.counts.iter().fold(Vec::new(), |mut all: Vec<(String, usize)>, (g, n)| {
        match all.last_mut() {
            Some((name, m)) if name == g => *m += n,
            _ => all.push((g.clone(), *n)),
        }
        all
    });
    list.done("sigproc")
}

/// The whole domain of rebuilding, by the source's own assembly. Records: rate,
/// nb, complexity (a byte each), index (2), contour (1), nb lags (2 each).
pub fn lags() -> Vec<u8> {
    let mut list = List::default();
    for rate in [8, 12, 16] {
        for nb in [2, 4] {
            for complexity in 0..3 {
                for index in 0..=greatest_index(rate) {
                    for contour in 0..contours(rate, nb, complexity) {
                        list.bytes.extend([rate as u8, nb as u8, complexity as u8]);
                        list.bytes.extend((index as u16).to_le_bytes());
                        list.bytes.push(contour as u8);
                        for lag in rebuild(rate, nb, index, contour) {
                            list.bytes.extend((lag as u16).to_le_bytes());
                        }
                        list.count(&format!("{rate} kHz, nb {nb}, complexity {complexity}"));
                    }
                }
            }
        }
    }
    list.done("lags")
}
