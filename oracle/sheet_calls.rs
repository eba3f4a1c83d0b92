//! What the calls that write and read a sheet must say, from docs/SCOPE.md, Sheet,
//! and "What a call can say", and cases for them as records (README.md has the
//! record's form).

use crate::frame::{Asked, Row, Settings, contours, greatest_index, rebuild};
use crate::sheet::{bytes, parse};

pub const MOST_FRAMES: u64 = 4096;

const KINDS: [&str; 20] = [
    "write: every setting",
    "write: settings that are refused",
    "write: pairs at and beyond the ends",
    "write: one number of a row off",
    "write: every combination of faults",
    "write: tables of every length",
    "write: pages of every length",
    "write: 4,096 frames, 4,097 and many more",
    "write: any",
    "read: every setting",
    "read: each byte changed",
    "read: cut at each length",
    "read: a byte more or less at each place",
    "read: pairs at and beyond the ends",
    "read: every verdict",
    "read: counts off",
    "read: settings off",
    "read: tables of every length",
    "read: 4,096 frames and 4,097",
    "read: any",
];

/// The row of a voiced frame with this pair; for nb 2 the last two lags are 0.
pub fn voiced(s: &Settings, index: usize, contour: usize, correlation: i32) -> Row {
    let mut row = [0, index as i32, contour as i32, correlation, 0, 0, 0, 0];
    let lags = rebuild(s.rate, s.nb, index, contour);
    row[4..4 + s.nb].copy_from_slice(&lags);
    row
}

/// Whether a row keeps the sheet's rules, its lags the rebuilt ones.
fn keeps_rules(s: &Settings, row: &[i32]) -> bool {
    match row[0] {
        0 => {
            let indices = 0..=greatest_index(s.rate) as i32;
            let in_use = 0..contours(s.rate, s.nb, s.complexity) as i32;
            indices.contains(&row[1])
                && in_use.contains(&row[2])
                && row == voiced(s, row[1] as usize, row[2] as usize, row[3])
        }
        1 | 2 => row[1..].iter().all(|&n| n == 0),
        _ => false,
    }
}

/// The sheet that writing must leave, or its refusal: 1, 2, 3, 6, then 9 among
/// the rows that are there, before 7 and 8.
pub fn write(asked: &Asked, frames: u64, table: &[i32], room: usize) -> Result<Vec<u8>, u32> {
    let s = asked.accepted()?;
    if frames > MOST_FRAMES {
        return Err(6);
    }
    let there: Vec<Row> =
        table.chunks_exact(8).take(frames as usize).map(|row| row.try_into().unwrap()).collect();
    if !there.iter().all(|row| keeps_rules(&s, row)) {
        return Err(9);
    }
    if (there.len() as u64) < frames {
        return Err(7);
    }
    let sheet = bytes(&s, &there);
    if room < sheet.len() {
        return Err(8);
    }
    Ok(sheet)
}

/// What reading must say and leave: 9, then 7.
fn read(page: &[u8], length: usize) -> Result<(Settings, Vec<Row>), u32> {
    let (s, rows) = parse(page)?;
    if length / 8 < rows.len() {
        return Err(7);
    }
    Ok((s, rows))
}

/// The shortest run of rows of which the numbers are a repetition; all of them
/// where 64 rows are too few.
fn run(numbers: &[i32]) -> &[i32] {
    for n in (8..=64 * 8).step_by(8).take_while(|&n| n < numbers.len()) {
        if (n..numbers.len()).all(|i| numbers[i] == numbers[i - n]) {
            return &numbers[..n];
        }
    }
    numbers
}

pub struct Cases {
    pub bytes: Vec<u8>,
    counts: [[usize; 10]; KINDS.len()],
}

impl Cases {
    pub fn new() -> Cases {
        Cases { bytes: Vec::new(), counts: [[0; 10]; KINDS.len()] }
    }

    fn put(
        &mut self,
        (kind, call, number): (usize, u8, u32),
        s: &Asked,
        frames: u64,
        (length, room): (usize, usize),
        (numbers, page): (&[i32], &[u8]),
    ) {
        let out = &mut self.bytes;
        out.extend([kind as u8, call]);
        out.extend((number as u16).to_le_bytes());
        [s.rate, s.nb, s.complexity].iter().for_each(|n| out.extend(n.to_le_bytes()));
        [s.thres1, s.thres2].iter().for_each(|n| out.extend(n.to_le_bytes()));
        out.extend(frames.to_le_bytes());
        let given = run(numbers);
        for n in [length, room, given.len(), page.len()] {
            out.extend((n as u32).to_le_bytes());
        }
        given.iter().for_each(|n| out.extend(n.to_le_bytes()));
        out.extend(page);
        self.counts[kind][number as usize] += 1;
    }

    pub fn write(&mut self, kind: usize, s: &Asked, frames: u64, table: &[i32], room: usize) {
        let (no, sheet) = match write(s, frames, table, room) {
            Ok(sheet) => (0, sheet),
            Err(no) => (no, Vec::new()),
        };
        self.put((kind, 0, no), s, frames, (table.len(), room), (table, &sheet));
    }

    /// The rows written, with a little room after the sheet and the table.
    pub fn write_rows(&mut self, kind: usize, s: &Settings, rows: &[Row]) {
        let mut table = rows.concat();
        table.extend([-3, 5, 9]);
        let room = bytes(s, rows).len() + 6;
        self.write(kind, &Asked::of(s), rows.len() as u64, &table, room);
    }

    pub fn read(&mut self, kind: usize, page: &[u8], length: usize) {
        let nothing = Asked { rate: 0, nb: 0, complexity: 0, thres1: 0, thres2: 0 };
        let (no, s, rows) = match read(page, length) {
            Ok((s, rows)) => (0, Asked::of(&s), rows),
            Err(no) => (no, nothing, Vec::new()),
        };
        let sizes = (length, page.len());
        self.put((kind, 1, no), &s, rows.len() as u64, sizes, (&rows.concat(), page));
    }

    pub fn tell(&self, name: &str) {
        let mut all = 0;
        for (kind, counts) in self.counts.iter().enumerate() {
            let total: usize = counts.iter().sum();
            let each: Vec<String> = (0..10)
                .filter(|&no| counts[no] > 0)
                .map(|no| format!("{} of {no}", counts[no]))
                .collect();
            eprintln!("{name} {kind} {}: {total} ({})", KINDS[kind], each.join(", "));
            all += total;
        }
        eprintln!("{name}: {all} records, {} bytes", self.bytes.len());
    }
}
