//! The sheet of docs/FORMAT.md: writer and reader as programs, and sheets to be read,
//! good and damaged.

use crate::frame::{Row, Settings, contours, greatest_index, le32, rebuild};
use crate::kinds::all_settings;
use crate::random::Random;
use crate::track::{read as read_track, refused, rows, rows_text};

const MOST_FRAMES: usize = 4096;
const MALFORMED: u32 = 9;

/// The sheet's bytes: settings, verdicts, pairs, correlations, each after its
/// count.
pub fn bytes(s: &Settings, rows: &[Row]) -> Vec<u8> {
    let mut out = Vec::new();
    let voiced: Vec<&Row> = rows.iter().filter(|row| row[0] == 0).collect();
    out.extend(5u32.to_le_bytes());
    for n in [s.rate as i32, s.nb as i32, s.complexity as i32, s.thres1, s.thres2] {
        out.extend(n.to_le_bytes());
    }
    out.extend((rows.len() as u32).to_le_bytes());
    out.extend(rows.iter().map(|row| row[0] as u8));
    out.extend((voiced.len() as u32).to_le_bytes());
    for row in &voiced {
        out.extend((row[1] as u16).to_le_bytes());
        out.push(row[2] as u8);
    }
    out.extend((voiced.len() as u32).to_le_bytes());
    for row in &voiced {
        out.extend(row[3].to_le_bytes());
    }
    out
}

/// The program `sheet_write`: what `track` takes, as a sheet.
pub fn sheet_write(b: &[u8]) -> Vec<u8> {
    match read_track(b) {
        Err(no) => refused(no).into_bytes(),
        Ok((s, x)) => bytes(&s, &rows(&(&s).into(), &x)),
    }
}

/// What is left of a sheet; taking more than there is is malformed.
struct Left<'a>(&'a [u8]);

impl<'a> Left<'a> {
    fn take(&mut self, n: usize) -> Result<&'a [u8], u32> {
        if self.0.len() < n {
            return Err(MALFORMED);
        }
        let (part, rest) = self.0.split_at(n);
        self.0 = rest;
        Ok(part)
    }

    fn count(&mut self) -> Result<usize, u32> {
        Ok(le32(self.take(4)?) as u32 as usize)
    }
}

fn claim(holds: bool) -> Result<(), u32> {
    if holds { Ok(()) } else { Err(MALFORMED) }
}

/// Settings and rows of a sheet, or 9.
pub fn parse(b: &[u8]) -> Result<(Settings, Vec<Row>), u32> {
    let mut left = Left(b);
    claim(left.count()? == 5)?;
    let n: Vec<i32> = left.take(20)?.chunks_exact(4).map(le32).collect();
    claim(Settings::refusal(n[0] as u32, n[1] as u32, n[2] as u32).is_none())?;
    let s = Settings {
        rate: n[0] as usize,
        nb: n[1] as usize,
        complexity: n[2] as usize,
        thres1: n[3],
        thres2: n[4],
    };
    let frames = left.count()?;
    claim(frames <= MOST_FRAMES)?;
    let verdicts = left.take(frames)?;
    claim(verdicts.iter().all(|&v| v <= 2))?;
    let voiced = verdicts.iter().filter(|&&v| v == 0).count();
    claim(left.count()? == voiced)?;
    let pairs = left.take(3 * voiced)?;
    claim(left.count()? == voiced)?;
    let corrs = left.take(4 * voiced)?;
    claim(left.0.is_empty())?;
    let mut all = Vec::new();
    let mut next = 0;
    for &v in verdicts {
        let mut row = [v as i32, 0, 0, 0, 0, 0, 0, 0];
        if v == 0 {
            let pair = &pairs[3 * next..];
            let index = pair[0] as usize + 256 * pair[1] as usize;
            let contour = pair[2] as usize;
            claim(index <= greatest_index(s.rate))?;
            claim(contour < contours(s.rate, s.nb, s.complexity))?;
            row[1] = index as i32;
            row[2] = contour as i32;
            row[3] = le32(&corrs[4 * next..]);
            for (k, lag) in rebuild(s.rate, s.nb, index, contour).into_iter().enumerate() {
                row[4 + k] = lag;
            }
            next += 1;
        }
        all.push(row);
    }
    Ok((s, all))
}

/// The program `sheet_read`: settings and frame count, then the rows.
pub fn sheet_read(b: &[u8]) -> String {
    match parse(b) {
        Err(no) => refused(no),
        Ok((s, rows)) => format!(
            "{} {} {} {} {} {}\n{}",
            s.rate,
            s.nb,
            s.complexity,
            s.thres1,
            s.thres2,
            rows.len(),
            rows_text(&rows, s.nb)
        ),
    }
}

/// A random sheet, then often one thing wrong with it.
fn random_sheet(r: &mut Random) -> Vec<u8> {
    let mut s = r.pick(&all_settings());
    s.thres1 = r.sized();
    s.thres2 = r.sized();
    let small = r.below(40);
    let frames = match r.below(60) {
        0 => MOST_FRAMES,
        1 => MOST_FRAMES + 1,
        2..10 => 0,
        10..20 => 1,
        _ => small,
    };
    let mostly = r.below(3) as i32;
    let greatest = greatest_index(s.rate) as i64;
    let mut rows: Vec<Row> = (0..frames)
        .map(|_| {
            let verdict = if r.chance(3) { r.below(3) as i32 } else { mostly };
            let index = r.between(0, greatest) as i32;
            let index = r.pick(&[index, index, 0, greatest as i32]);
            let contour = r.below(contours(s.rate, s.nb, s.complexity)) as i32;
            [verdict, index, contour, r.sized(), 0, 0, 0, 0]
        })
        .collect();
    let damage = r.below(20);
    if frames > 0 {
        let at = r.below(frames);
        match damage {
            0 => rows[at][1] = greatest as i32 + 1,
            1 => rows[at][2] = contours(s.rate, s.nb, s.complexity) as i32,
            2 => rows[at][0] = 3 + r.below(253) as i32,
            3 => rows[at][2] = r.pick(&[34, 255, 3, 11, 12]),
            4 => rows[at][1] = r.between(0, 65535) as i32,
            _ => {}
        }
    }
    let mut b = bytes(&s, &rows);
    match damage {
        5 => b.truncate(r.below(b.len())),
        6 => {
            b.pop();
        }
        7 => b.push(r.word() as u8),
        8 => b[r.below(4)] ^= 1 << r.below(8),
        9 => b[4 + r.below(12)] = r.pick(&[0, 1, 2, 3, 4, 8, 12, 16, 255]),
        10 => {
            let at = r.below(b.len());
            b[at] ^= 1 << r.below(8);
        }
        11 => {
            // one of the counts a little off
            let verdicts = 24;
            let pairs = verdicts + 4 + frames;
            let voiced = rows.iter().filter(|row| row[0] == 0).count();
            let at = r.pick(&[verdicts, pairs, pairs + 4 + 3 * voiced]);
            b[at] = b[at].wrapping_add(r.pick(&[1, 255]));
        }
        12 => {
            let at = r.below(b.len() + 1);
            b.insert(at, r.word() as u8);
        }
        13 => {
            b.remove(r.below(b.len()));
        }
        14 => b = (0..r.below(80)).map(|_| r.word() as u8).collect(),
        _ => {}
    }
    b
}

/// N random sheets, each after its length (4 bytes).
pub fn gen_sheets(n: usize, seed: u64) -> Vec<u8> {
    let mut r = Random::new(seed ^ 0x7368_6565_7473);
    let mut out = Vec::new();
    for _ in 0..n {
        let b = random_sheet(&mut r);
        out.extend((b.len() as u32).to_le_bytes());
        out.extend(b);
    }
    out
}
