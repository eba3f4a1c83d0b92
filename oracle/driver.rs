//! The driver over the original Rust: answers requests and writes the fixed
//! lists. The analyser itself is the modules under `silk`, copied and cut by
//! cut.py; nothing of it stands here.

mod command;
mod deliveries;
mod frame;
mod kinds;
mod leaves;
mod list;
mod options;
mod probe;
mod random;
mod sheet;
mod sheet_calls;
mod sheet_list;
mod signals;
#[allow(warnings)]
mod silk;
mod speech_list;
mod threshold;
mod track;
mod track_list;

use command::number;
use std::io::{Read, Write};

fn input() -> Vec<u8> {
    let mut bytes = Vec::new();
    std::io::stdin().lock().read_to_end(&mut bytes).expect("standard input");
    bytes
}

fn output(bytes: &[u8]) {
    let mut out = std::io::stdout().lock();
    out.write_all(bytes).expect("standard output");
    out.flush().expect("standard output");
}

fn main() {
    frame::quiet_zero_divisors();
    let args = command::words();
    let words: Vec<&str> = args.iter().map(|s| s.as_str()).collect();
    match words[..] {
        ["words"] => output(&leaves::words()),
        ["sort"] => output(&leaves::sort()),
        ["resampler"] => output(&leaves::resampler()),
        ["sigproc"] => output(&leaves::sigproc()),
        ["lags"] => output(&leaves::lags()),
        ["threshold"] => output(&threshold::threshold()),
        ["frames_list"] => output(&list::frames_list()),
        ["sheet_list"] => output(&sheet_list::sheet_list()),
        ["track_list"] => output(&track_list::track_list()),
        ["gen_frames", n, seed] => output(&kinds::gen_frames(number(n) as usize, number(seed))),
        ["gen_tracks", n, seed] => output(&track::gen_tracks(number(n) as usize, number(seed))),
        ["gen_options", n, seed] => output(&options::gen_options(number(n) as usize, number(seed))),
        ["gen_sheets", n, seed] => output(&sheet::gen_sheets(number(n) as usize, number(seed))),
        ["gen_sheet_cases", n, seed] => {
            output(&sheet_list::gen_sheet_cases(number(n) as usize, number(seed)))
        }
        ["gen_deliveries", n, seed] => {
            output(&deliveries::gen_deliveries(number(n) as usize, number(seed)))
        }
        ["track"] => output(track::track(&input()).as_bytes()),
        ["sheet_write"] => output(&sheet::sheet_write(&input())),
        ["sheet_read"] => output(sheet::sheet_read(&input()).as_bytes()),
        ["track_options"] => output(options::track_options(&input()).as_bytes()),
        ["sheet_write_options"] => output(&options::sheet_write_options(&input())),
        ["frames"] => output(frame::frames(&input()).as_bytes()),
        _ => {
            eprintln!(
                "use: driver words | sort | resampler | sigproc | lags | threshold\n     \
                 driver frames_list | sheet_list | track_list\n     \
                 driver frames | track | sheet_write | sheet_read\n     \
                 driver track_options | sheet_write_options\n     \
                 driver gen_frames N SEED | gen_tracks N SEED | gen_options N SEED\n     \
                 driver gen_sheets N SEED | gen_sheet_cases N SEED | gen_deliveries N SEED"
            );
            std::process::exit(2);
        }
    }
}
