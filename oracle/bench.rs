//! The frame call of libpitch_export.a beside the original Rust's, on the same
//! frames in one program: that the answers are equal, and how long each takes.
#![allow(dead_code)]

mod command;
mod frame;
mod kinds;
mod probe;
mod random;
mod signals;
#[allow(warnings)]
mod silk;

use command::number;
use frame::{Frame, Row, Settings, analyse, call};
use kinds::{all_settings, plain, voiced};
use random::Random;
use signals::noise;
use silk::pitch_analysis::silk_pitch_analysis_core;
use std::hint::black_box;
use std::time::Instant;

unsafe extern "C" {
    fn pitch_frame(
        frame: *const i16,
        samples: usize,
        pitch_out: *mut i32,
        places: usize,
        rate: usize,
        nb: usize,
        complexity: usize,
        thres1: i32,
        thres2: i32,
        prev_lag: i32,
        prev_corr: i32,
        verdict: *mut i32,
        index: *mut i32,
        contour: *mut i32,
        correlation: *mut i32,
    ) -> usize;
}

#[inline(never)]
fn ours(f: &Frame) -> Row {
    let s = f.settings;
    let mut lags = [0i32; 4];
    let (mut verdict, mut index, mut contour, mut correlation) = (-1, -1, -1, -1);
    let no = unsafe {
        pitch_frame(
            f.x.as_ptr(),
            f.x.len(),
            lags.as_mut_ptr(),
            lags.len(),
            s.rate,
            s.nb,
            s.complexity,
            s.thres1,
            s.thres2,
            f.prev_lag,
            f.prev_corr,
            &mut verdict,
            &mut index,
            &mut contour,
            &mut correlation,
        )
    };
    if no != 0 {
        return [-(no as i32); 8];
    }
    [verdict, index, contour, correlation, lags[0], lags[1], lags[2], lags[3]]
}

/// A frame without a zero divisor, at which the original stops.
#[inline(never)]
fn original(f: &Frame) -> Row {
    let said = call(silk_pitch_analysis_core, f);
    let [a, b, c, d] = said.lags;
    [said.verdict, said.index as i32, said.contour as i32, said.correlation, a, b, c, d]
}

const FRAMES: usize = 32;
const RUNS: usize = 301;

const KINDS: [&str; 2] = ["voiced", "noise"];

/// The frames of one line of the table.
struct Line {
    settings: Settings,
    kind: &'static str,
    frames: Vec<Frame>,
}

/// Frames that the original calls voiced; or white noise of any loudness.
fn frames_of(s: Settings, kind: &str, r: &mut Random) -> Vec<Frame> {
    let mut frames = Vec::new();
    while frames.len() < FRAMES {
        let f = match kind {
            "voiced" => voiced(s, r),
            _ => {
                let bits = 8 + r.below(8) as u32;
                plain(s, noise(s.samples(), bits, r))
            }
        };
        let verdict = analyse(&f)[0];
        if verdict == 0 || (verdict == 1 && kind == "noise") {
            frames.push(f);
        }
    }
    frames
}

fn line(n: usize) -> Line {
    let settings = all_settings()[n / 2];
    let kind = KINDS[n % 2];
    let mut r = Random::new(0x6265_6e63_6800 + n as u64);
    Line { settings, kind, frames: frames_of(settings, kind, &mut r) }
}

fn lines() -> usize {
    2 * all_settings().len()
}

/// What a line of the table begins with.
fn name(s: Settings, kind: &str) -> String {
    format!("{} {} {} {kind}", s.rate, s.nb, s.complexity)
}

/// How many frames of the line the two answer differently.
fn differences(l: &Line) -> usize {
    let mut differ = 0;
    for f in &l.frames {
        let (a, b, c) = (analyse(f), original(f), ours(f));
        if a != b || b != c {
            differ += 1;
            println!("{}: original {a:?} {b:?}, ours {c:?}", name(l.settings, l.kind));
        }
    }
    differ
}

fn pass(side: fn(&Frame) -> Row, frames: &[Frame]) {
    for f in frames {
        black_box(side(black_box(f)));
    }
}

/// Nanoseconds a frame, for one pass over the frames.
fn timed(side: fn(&Frame) -> Row, frames: &[Frame]) -> f64 {
    let from = Instant::now();
    pass(side, frames);
    from.elapsed().as_nanos() as f64 / frames.len() as f64
}

fn median(mut times: Vec<f64>) -> f64 {
    times.sort_by(f64::total_cmp);
    times[times.len() / 2]
}

/// The medians of interleaved passes: the original's, ours.
fn medians(l: &Line) -> (f64, f64) {
    let (mut theirs, mut own) = (Vec::new(), Vec::new());
    for _ in 0..RUNS {
        theirs.push(timed(original, &l.frames));
        own.push(timed(ours, &l.frames));
    }
    (median(theirs), median(own))
}

fn table() {
    let all: Vec<Line> = (0..lines()).map(line).collect();
    let differ: usize = all.iter().map(differences).sum();
    if differ != 0 {
        println!("{differ} differences");
        std::process::exit(1);
    }
    println!("{} frames, no difference", all.len() * FRAMES);
    println!("rate nb complexity kind voiced ns_rust ns_ours ratio");
    for l in &all {
        let v = l.frames.iter().filter(|f| analyse(f)[0] == 0).count();
        let (theirs, own) = medians(l);
        let (name, ratio) = (name(l.settings, l.kind), own / theirs);
        println!("{name} {v}/{FRAMES} {theirs:.0} {own:.0} {ratio:.2}");
    }
}

fn main() {
    frame::quiet_zero_divisors();
    let args = command::words();
    let words: Vec<&str> = args.iter().map(|s| s.as_str()).collect();
    match words[..] {
        [] => table(),
        ["lines"] => {
            for n in 0..lines() {
                println!("{} {FRAMES}", name(all_settings()[n / 2], KINDS[n % 2]));
            }
        }
        ["count", n, side @ ("ours" | "rust"), passes] => {
            let l = line(number(n) as usize);
            for _ in 0..number(passes) {
                pass(if side == "ours" { ours } else { original }, &l.frames);
            }
        }
        _ => {
            eprintln!("use: bench | bench lines | bench count LINE ours|rust PASSES");
            std::process::exit(2);
        }
    }
}
