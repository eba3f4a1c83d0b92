//! A frame through the original analyser, and the program `frames` on a stream.

use crate::silk::pitch_analysis::{assembly_stage2, assembly_stage3, silk_pitch_analysis_core};
use std::panic::{AssertUnwindSafe, catch_unwind, set_hook};

#[derive(Clone, Copy, PartialEq, Eq, Debug)]
pub struct Settings {
    pub rate: usize,
    pub nb: usize,
    pub complexity: usize,
    pub thres1: i32,
    pub thres2: i32,
}

impl Settings {
    pub fn samples(&self) -> usize {
        (20 + 5 * self.nb) * self.rate
    }

    pub fn hop(&self) -> usize {
        5 * self.nb * self.rate
    }

    /// Refusals 1 to 3.
    pub fn refusal(rate: u32, nb: u32, complexity: u32) -> Option<u32> {
        if ![8, 12, 16].contains(&rate) {
            Some(1)
        } else if ![2, 4].contains(&nb) {
            Some(2)
        } else if complexity > 2 {
            Some(3)
        } else {
            None
        }
    }

    /// The settings in the first eleven bytes, or the number they are refused
    /// with.
    pub fn read(b: &[u8]) -> Result<Settings, u32> {
        if let Some(no) = Settings::refusal(b[0] as u32, b[1] as u32, b[2] as u32) {
            return Err(no);
        }
        Ok(Settings {
            rate: b[0] as usize,
            nb: b[1] as usize,
            complexity: b[2] as usize,
            thres1: le32(&b[3..]),
            thres2: le32(&b[7..]),
        })
    }
}

#[derive(Clone, PartialEq, Eq, Debug)]
pub struct Frame {
    pub settings: Settings,
    pub prev_lag: i32,
    pub prev_corr: i32,
    pub x: Vec<i16>,
}

/// A row: verdict, lag index, contour, correlation, four lags.
pub type Row = [i32; 8];

const ZERO: &str = "attempt to divide by zero";

fn message(p: &(dyn std::any::Any + Send)) -> String {
    p.downcast_ref::<&str>()
        .map(|s| s.to_string())
        .or_else(|| p.downcast_ref::<String>().cloned())
        .unwrap_or_default()
}

/// Division by zero is an answer here; every other panic is told as usual.
pub fn quiet_zero_divisors() {
    set_hook(Box::new(|info| {
        let said = message(info.payload());
        if said != ZERO {
            eprintln!("{info}");
        }
    }));
}

/// Runs f; None where it divides by zero. Any other panic ends the driver.
pub fn unless_zero_divisor<T>(f: impl FnOnce() -> T) -> Option<T> {
    match catch_unwind(AssertUnwindSafe(f)) {
        Ok(v) => Some(v),
        Err(p) if message(&*p) == ZERO => None,
        Err(p) => {
            eprintln!("the original stopped with: {}", message(&*p));
            std::process::exit(3);
        }
    }
}

pub type Core =
    fn(&[i16], &mut [i32], &mut i16, &mut i8, &mut i32, i32, i32, i32, i32, usize, usize) -> i32;

/// What a call of the original says and leaves: its answer, lag index, contour,
/// correlation and lags.
pub struct Said {
    pub verdict: i32,
    pub index: i16,
    pub contour: i8,
    pub correlation: i32,
    pub lags: [i32; 4],
}

/// The call itself; it panics at a zero divisor.
#[inline(always)]
pub fn call(core: Core, f: &Frame) -> Said {
    let s = f.settings;
    let mut lags = [0i32; 4];
    let (mut index, mut contour, mut correlation) = (0i16, 0i8, f.prev_corr);
    let verdict = core(
        &f.x,
        &mut lags,
        &mut index,
        &mut contour,
        &mut correlation,
        f.prev_lag,
        s.thres1,
        s.thres2,
        s.rate as i32,
        s.complexity,
        s.nb,
    );
    Said { verdict, index, contour, correlation, lags }
}

pub fn analyse_by(core: Core, f: &Frame) -> Row {
    let s = f.settings;
    assert_eq!(f.x.len(), s.samples());
    match unless_zero_divisor(|| call(core, f)) {
        Some(Said { verdict: 0, index, contour, correlation, lags: [a, b, c, d] }) => {
            assert!(s.nb == 4 || (c == 0 && d == 0));
            [0, index as i32, contour as i32, correlation, a, b, c, d]
        }
        Some(said) => {
            assert!(said.index == 0 && said.contour == 0);
            assert!(said.correlation == 0 && said.lags == [0; 4]);
            [1, 0, 0, 0, 0, 0, 0, 0]
        }
        None => [2, 0, 0, 0, 0, 0, 0, 0],
    }
}

pub fn analyse(f: &Frame) -> Row {
    analyse_by(silk_pitch_analysis_core, f)
}

/// The lags of a pair by the source's own assembly, and that it is this pair.
pub fn rebuild(rate: usize, nb: usize, index: usize, contour: usize) -> Vec<i32> {
    let mut lags = [0i32; 4];
    let mut told = 0i16;
    let mut told_contour = 0i8;
    let lag = (2 * rate + index) as i32;
    if rate == 8 {
        assembly_stage2(&mut lags, &mut told, &mut told_contour, lag, contour, nb);
    } else {
        assembly_stage3(
            &mut lags,
            &mut told,
            &mut told_contour,
            lag,
            contour,
            2 * rate,
            rate as i32,
            nb,
        );
    }
    assert_eq!((told as usize, told_contour as usize), (index, contour));
    lags[..nb].to_vec()
}

/// Contours in use, and the greatest lag index.
pub fn contours(rate: usize, nb: usize, complexity: usize) -> usize {
    match (rate, nb) {
        (8, 4) if complexity > 0 => 11,
        (8, _) => 3,
        (_, 2) => 12,
        _ => [16, 24, 34][complexity],
    }
}

pub fn greatest_index(rate: usize) -> usize {
    match rate {
        8 => 127,
        12 => 192,
        _ => 256,
    }
}

/// V, U or Z, lag index, contour, correlation, nb lags.
pub fn row_text(row: &Row, nb: usize) -> String {
    let mut text = ["V", "U", "Z"][row[0] as usize].to_string();
    for n in &row[1..4 + nb] {
        text += &format!(" {n}");
    }
    text
}

pub fn le32(b: &[u8]) -> i32 {
    i32::from_le_bytes([b[0], b[1], b[2], b[3]])
}

pub fn le16s(b: &[u8]) -> Vec<i16> {
    b.chunks_exact(2).map(|p| i16::from_le_bytes([p[0], p[1]])).collect()
}

pub const HEAD: usize = 19;

/// The frame record at the start of `b`, with its length in bytes, or the
/// number it is refused with: 10 where the head is cut, then 1, 2, 3, then 10
/// where the samples are.
pub fn read_frame(b: &[u8]) -> Result<(Frame, usize), u32> {
    if b.len() < HEAD {
        return Err(10);
    }
    let settings = Settings::read(b)?;
    let end = HEAD + 2 * settings.samples();
    if b.len() < end {
        return Err(10);
    }
    let frame = Frame {
        settings,
        prev_lag: le32(&b[11..]),
        prev_corr: le32(&b[15..]),
        x: le16s(&b[HEAD..end]),
    };
    Ok((frame, end))
}

pub fn write_frame(out: &mut Vec<u8>, f: &Frame) {
    let s = f.settings;
    out.extend([s.rate as u8, s.nb as u8, s.complexity as u8]);
    for n in [s.thres1, s.thres2, f.prev_lag, f.prev_corr] {
        out.extend(n.to_le_bytes());
    }
    for x in &f.x {
        out.extend(x.to_le_bytes());
    }
}

/// The program `frames`: a line per record; a refused or cut one ends the run.
pub fn frames(mut b: &[u8]) -> String {
    let mut text = String::new();
    while !b.is_empty() {
        match read_frame(b) {
            Ok((f, used)) => {
                text += &row_text(&analyse(&f), f.settings.nb);
                text += "\n";
                b = &b[used..];
            }
            Err(no) => {
                text += &format!("refused {no}\n");
                break;
            }
        }
    }
    text
}

/// Settings as a caller may hand them over, refused ones too.
#[derive(Clone, Copy)]
pub struct Asked {
    pub rate: u64,
    pub nb: u64,
    pub complexity: u64,
    pub thres1: i32,
    pub thres2: i32,
}

impl Asked {
    pub fn of(s: &Settings) -> Asked {
        Asked {
            rate: s.rate as u64,
            nb: s.nb as u64,
            complexity: s.complexity as u64,
            thres1: s.thres1,
            thres2: s.thres2,
        }
    }

    /// The settings, or refusal 1, 2 or 3.
    pub fn accepted(&self) -> Result<Settings, u32> {
        let held = |n: u64| n.min(u32::MAX as u64) as u32;
        match Settings::refusal(held(self.rate), held(self.nb), held(self.complexity)) {
            Some(no) => Err(no),
            None => Ok(Settings {
                rate: self.rate as usize,
                nb: self.nb as usize,
                complexity: self.complexity as usize,
                thres1: self.thres1,
                thres2: self.thres2,
            }),
        }
    }
}
