//! Cases for the calls that write and read a sheet: the fixed list that the gate
//! replays, by kind, and random ones.

use crate::frame::{Asked, Row, Settings, contours, greatest_index};
use crate::kinds::all_settings;
use crate::random::Random;
use crate::sheet::bytes;
use crate::sheet_calls::{Cases, MOST_FRAMES, voiced, write};

const LONGEST: usize = 36 + 8 * 4096;
/// The most numbers and bytes that a case has.
const MOST_NUMBERS: usize = 8 * 4100;
const MOST_BYTES: usize = 33000;

fn any_thresholds(s: &mut Settings, r: &mut Random) {
    for thres in [&mut s.thres1, &mut s.thres2] {
        let n = r.sized();
        *thres = r.pick(&[n, n, n, 0, -1, i32::MAX, i32::MIN]);
    }
}

fn any_correlation(r: &mut Random) -> i32 {
    let n = r.sized();
    r.pick(&[n, n, 0, 1, -1, 32767, 32768, -32768, i32::MAX, i32::MIN])
}

fn any_row(s: &Settings, verdict: i32, r: &mut Random) -> Row {
    if verdict != 0 {
        return [verdict, 0, 0, 0, 0, 0, 0, 0];
    }
    let greatest = greatest_index(s.rate);
    let index = r.below(greatest + 1);
    let index = r.pick(&[index, index, index, 0, greatest]);
    let contour = r.below(contours(s.rate, s.nb, s.complexity));
    voiced(s, index, contour, any_correlation(r))
}

fn rows_of(s: &Settings, verdicts: &[i32], r: &mut Random) -> Vec<Row> {
    verdicts.iter().map(|&v| any_row(s, v, r)).collect()
}

fn every_setting(cases: &mut Cases, r: &mut Random) {
    let shapes: [&[i32]; 9] = [
        &[],
        &[0],
        &[1],
        &[2],
        &[0, 0, 0, 0, 0],
        &[1, 1, 1, 1],
        &[2, 2, 2],
        &[0, 1, 2, 0, 2, 1, 0],
        &[2, 1, 0, 0, 1],
    ];
    for mut s in all_settings() {
        for shape in shapes {
            any_thresholds(&mut s, r);
            let rows = rows_of(&s, shape, r);
            cases.write_rows(0, &s, &rows);
            cases.read(9, &bytes(&s, &rows), 8 * rows.len() + 11);
        }
    }
}

/// Each number off that a setting can be.
fn off(good: u64) -> Vec<u64> {
    let mut all: Vec<u64> = (0..20).chain([24, 32, 48, 255, u64::MAX, u64::MAX - 7]).collect();
    for bit in [8, 16, 24, 31, 32, 40, 63] {
        all.extend([good | 1 << bit, 1 << bit]);
    }
    all
}

fn refused_settings(cases: &mut Cases, r: &mut Random) {
    let s = Settings { rate: 16, nb: 4, complexity: 2, thres1: 40000, thres2: -8 };
    let rows = rows_of(&s, &[0, 1, 0], r);
    let table = rows.concat();
    let good = Asked::of(&s);
    let mut write = |s: Asked| cases.write(1, &s, 3, &table, 200);
    off(8).iter().for_each(|&n| write(Asked { rate: n, ..good }));
    off(2).iter().for_each(|&n| write(Asked { nb: n, ..good }));
    off(2).iter().for_each(|&n| write(Asked { complexity: n, ..good }));
}

fn every_pair(cases: &mut Cases, r: &mut Random) {
    for s in all_settings() {
        let greatest = greatest_index(s.rate);
        let mut rows = Vec::new();
        for contour in 0..contours(s.rate, s.nb, s.complexity) {
            for index in [0, 1, 7, greatest - 7, greatest - 1, greatest] {
                rows.push(voiced(&s, index, contour, any_correlation(r)));
            }
        }
        cases.write_rows(2, &s, &rows);
        cases.read(13, &bytes(&s, &rows), 8 * rows.len());
    }
}

/// A voiced row of a pair that no sheet carries, its lags as if one did: the
/// contour's offsets in the middle, held within 2fs to 18fs.
fn as_if(s: &Settings, index: i32, contour: usize) -> Row {
    let (fs, middle) = (s.rate as i32, 60);
    let mut row = voiced(s, middle, contour, 77);
    row[1] = index;
    for lag in &mut row[4..4 + s.nb] {
        *lag = (*lag - middle as i32 + index).clamp(2 * fs, 18 * fs);
    }
    row
}

fn pairs_not_carried(cases: &mut Cases, r: &mut Random) {
    for s in all_settings() {
        let rows = rows_of(&s, &[0, 1, 0], r);
        let mut write = |at: usize, row: Row| {
            let mut rows = rows.clone();
            rows[at] = row;
            cases.write_rows(2, &s, &rows);
        };
        let greatest = greatest_index(s.rate) as i32;
        for index in [-1, -2, greatest, greatest + 1, greatest + 2, 65535] {
            write(0, as_if(&s, index, 0));
            write(2, as_if(&s, index, 1));
        }
        // contours that the source has at the greatest complexity
        let in_use = contours(s.rate, s.nb, s.complexity);
        for contour in in_use - 1..contours(s.rate, s.nb, 2).min(in_use + 2) {
            write(1, as_if(&s, 40, contour));
            write(2, as_if(&s, greatest, contour));
        }
    }
}

/// Rows that differ from this one in one number.
fn near(s: &Settings, row: &Row) -> Vec<Row> {
    let greatest = greatest_index(s.rate) as i32;
    let in_use = contours(s.rate, s.nb, s.complexity) as i32;
    let mut all = Vec::new();
    for at in 0..8 {
        let n = row[at];
        let mut others = vec![n - 1, n + 1, n ^ 256, n ^ 65536, n ^ i32::MIN, -n, 0, -1];
        others.extend(match at {
            0 => vec![1, 2, 3, 255, i32::MAX],
            1 => vec![greatest, greatest + 1, 65535],
            2 => vec![in_use - 1, in_use, 33, 34, 127, 128, 255],
            _ => vec![1, 2 * s.rate as i32, 18 * s.rate as i32],
        });
        others.sort();
        others.dedup();
        all.extend(others.into_iter().filter(|&other| other != n).map(|other| {
            let mut row = *row;
            row[at] = other;
            row
        }));
    }
    all
}

fn one_number_off(cases: &mut Cases, r: &mut Random) {
    for s in all_settings() {
        let middle = contours(s.rate, s.nb, s.complexity) / 2;
        for good in [voiced(&s, 50, middle, 1234), any_row(&s, 1, r), any_row(&s, 2, r)] {
            let mut rows = rows_of(&s, &[0, 1, 0], r);
            // complexity decides over the contour alone
            let looked_at = |row: &Row| s.complexity == 1 || row[2] != good[2];
            for row in near(&s, &good).into_iter().filter(looked_at) {
                let at = r.below(3);
                rows[at] = row;
                cases.write_rows(3, &s, &rows);
                rows[at] = good;
            }
        }
    }
    // beyond the frames nothing is looked at
    let s = all_settings()[7];
    let mut table = rows_of(&s, &[0, 1], r).concat();
    table.extend([3, -1, 99, 0, 1, 1, 1, 1]);
    for frames in 0..4 {
        cases.write(3, &Asked::of(&s), frames, &table, 100);
    }
}

/// Bad rate, nb, complexity, too many frames, a bad row, a short table, a short
/// page: every combination, and which refusal is due.
fn every_fault(cases: &mut Cases, r: &mut Random) {
    let s = Settings { rate: 12, nb: 4, complexity: 1, thres1: 1, thres2: 2 };
    for faults in 0..128u32 {
        let has = |bit: u32| faults >> bit & 1 == 1;
        let mut asked = Asked::of(&s);
        asked.rate = if has(0) { 11 } else { 12 };
        asked.nb = if has(1) { 3 } else { 4 };
        asked.complexity = if has(2) { 3 } else { 1 };
        let frames = if has(3) { 4097 } else { 3 };
        let mut rows = rows_of(&s, &[0, 2, 0], r);
        if has(4) {
            rows[0][7] += 1;
        }
        let length = 8 * frames - has(5) as usize;
        let table: Vec<i32> = rows.concat().into_iter().cycle().take(length).collect();
        let room = bytes(&s, &rows).len() - has(6) as usize;
        let due = [(0, 1), (1, 2), (2, 3), (3, 6), (4, 9), (5, 7), (6, 8)];
        let due = due.iter().find(|(bit, _)| has(*bit)).map(|(_, no)| *no);
        assert_eq!(write(&asked, frames as u64, &table, room).err(), due);
        cases.write(4, &asked, frames as u64, &table, room);
    }
}

fn tables_of_every_length(cases: &mut Cases, r: &mut Random) {
    for (s, bad) in [(5, None), (8, Some(1)), (14, Some(2))] {
        let s = all_settings()[s];
        let mut rows = rows_of(&s, &[0, 1, 0], r);
        let page = bytes(&s, &rows);
        let mut spoilt = page.clone();
        spoilt[28] = 3;
        if let Some(at) = bad {
            rows[at][5] ^= 1;
        }
        let mut table = rows.concat();
        table.extend(rows_of(&s, &[0, 0], r).concat());
        for length in 0..=table.len() {
            // the last row's place may be there in part
            cases.write(5, &Asked::of(&s), 3, &table[..length], page.len());
            cases.read(17, &page, length);
        }
        for length in [0, 7, 8, 23, 24, 40] {
            cases.read(17, &spoilt, length);
        }
    }
    let none = bytes(&all_settings()[3], &[]);
    for length in [0, 1, 8] {
        cases.read(17, &none, length);
    }
}

fn pages_of_every_length(cases: &mut Cases, r: &mut Random) {
    let shapes: [(&[i32], usize); 5] =
        [(&[], 36), (&[1], 37), (&[0], 44), (&[0, 2, 0], 53), (&[0, 1], 45)];
    for (i, (shape, size)) in shapes.into_iter().enumerate() {
        let s = all_settings()[(7 * i + 4) % 18];
        let rows = rows_of(&s, shape, r);
        let frames = rows.len() as u64;
        assert_eq!(bytes(&s, &rows).len(), size);
        for room in 0..size + 8 {
            cases.write(6, &Asked::of(&s), frames, &rows.concat(), room);
        }
        // a table one number short comes before the page
        let table = rows.concat();
        for room in [0, 35, 36, 37, 44, 100] {
            cases.write(6, &Asked::of(&s), frames, &table[..table.len().saturating_sub(1)], room);
        }
    }
}

fn many_frames(cases: &mut Cases, r: &mut Random) {
    let most = MOST_FRAMES as usize;
    for (s, shape) in [
        (1, vec![0]),
        (4, vec![1]),
        (10, vec![0, 1, 2, 0, 0, 2, 1]),
        (13, vec![2]),
        (17, vec![0, 0, 1]),
    ] {
        let s = all_settings()[s];
        let asked = Asked::of(&s);
        let verdicts: Vec<i32> = shape.into_iter().cycle().take(61).collect();
        let rows: Vec<Row> = rows_of(&s, &verdicts, r).into_iter().cycle().take(most + 1).collect();
        let table = rows.concat();
        let page = bytes(&s, &rows[..most]);
        cases.write(7, &asked, MOST_FRAMES, &table, page.len());
        cases.write(7, &asked, MOST_FRAMES, &table[..8 * most], page.len() - 1);
        cases.write(7, &asked, MOST_FRAMES, &table[..8 * most - 1], page.len());
        cases.write(7, &asked, MOST_FRAMES + 1, &table, MOST_BYTES);
        cases.read(18, &page, 8 * most + 3);
        if page.len() == LONGEST || page.len() == 36 + most {
            cases.read(18, &page, 8 * most - 1);
            cases.read(18, &bytes(&s, &rows), 8 * most + 8);
        }
    }
    // rows that are all different
    let s = Settings { rate: 16, nb: 4, complexity: 2, thres1: i32::MIN, thres2: i32::MAX };
    let rows: Vec<Row> = (0..2100)
        .map(|i| if i % 3 < 2 { any_row(&s, 0, r) } else { any_row(&s, r.below(3) as i32, r) })
        .collect();
    let (table, page) = (rows.concat(), bytes(&s, &rows));
    cases.write(7, &Asked::of(&s), rows.len() as u64, &table, page.len());
    cases.read(18, &page, table.len());
    // the last of many rows off
    let mut table = table[..8 * 300].to_vec();
    cases.write(7, &Asked::of(&s), 300, &table, MOST_BYTES);
    table[8 * 299 + 5] += 1;
    cases.write(7, &Asked::of(&s), 300, &table, MOST_BYTES);
    // more frames than any table has, so that their numbers or bytes pass 64 bits
    let table = rows_of(&s, &[0, 1], r).concat();
    let near = [4095, 4096, 4097, 4098, 1 << 16, 1 << 29, 1 << 32, (1 << 32) + 2];
    let far = [1 << 61, (1 << 61) + 1, (1 << 61) + 2, 1 << 63, u64::MAX - 1, u64::MAX];
    for frames in near.into_iter().chain(far) {
        cases.write(7, &Asked::of(&s), frames, &table, MOST_BYTES);
    }
}

/// Small sheets to be damaged.
fn small_sheets(r: &mut Random) -> Vec<Vec<u8>> {
    let shapes: [(usize, &[i32]); 5] =
        [(0, &[0, 1]), (4, &[0, 2, 0]), (8, &[1, 0]), (11, &[0, 0, 1, 2]), (17, &[2, 0, 1, 0, 0])];
    let mut sheet = |(at, verdicts): (usize, &[i32])| {
        let mut s: Settings = all_settings()[at];
        any_thresholds(&mut s, r);
        bytes(&s, &rows_of(&s, verdicts, r))
    };
    shapes.into_iter().map(&mut sheet).collect()
}

fn damaged(cases: &mut Cases, r: &mut Random) {
    let room = 8 * 5 + 3;
    for sheet in small_sheets(r) {
        for at in 0..sheet.len() {
            let b = sheet[at];
            let any = r.word() as u8;
            let beside = [b.wrapping_add(1), b.wrapping_sub(1)];
            let mut others = vec![beside[0], beside[1], b ^ 1, b ^ 128, 0, 3, 255, any];
            others.sort();
            others.dedup();
            for other in others.into_iter().filter(|&other| other != b) {
                let mut page = sheet.clone();
                page[at] = other;
                cases.read(10, &page, room);
            }
            cases.read(11, &sheet[..at], room);
        }
        for at in 0..=sheet.len() {
            let mut others = vec![0, 1, 255, r.word() as u8, sheet[at.saturating_sub(1)]];
            others.sort();
            others.dedup();
            for other in others {
                let mut page = sheet.clone();
                page.insert(at, other);
                cases.read(12, &page, room);
            }
            let mut page = sheet.clone();
            page.remove(at.min(sheet.len() - 1));
            cases.read(12, &page, room);
        }
        let mut twice = sheet.clone();
        twice.extend(&sheet);
        cases.read(12, &twice, room);
    }
}

fn pairs_beyond(cases: &mut Cases, r: &mut Random) {
    for s in all_settings() {
        let greatest = greatest_index(s.rate) as i32;
        let in_use = contours(s.rate, s.nb, s.complexity) as i32;
        let rows = rows_of(&s, &[0, 1, 0], r);
        let mut read = |at: usize, index: i32, contour: i32| {
            let mut rows = rows.clone();
            rows[at][1] = index;
            rows[at][2] = contour;
            cases.read(13, &bytes(&s, &rows), 30);
        };
        for index in [greatest, greatest + 1, greatest + 256, 127, 128, 192, 193, 256, 257, 65535] {
            read(0, index, 0);
            read(2, index, in_use - 1);
        }
        for contour in [in_use - 1, in_use, 2, 3, 11, 12, 16, 24, 33, 34, 127, 128, 255] {
            read(0, 0, contour);
            read(2, greatest, contour);
        }
        read(2, greatest + 1, in_use);
    }
}

fn every_verdict(cases: &mut Cases, r: &mut Random) {
    let s = all_settings()[9];
    // one byte, with and without a pair and a correlation after it
    for verdict in 0..256 {
        let rows = rows_of(&s, &[1, verdict, 2], r);
        cases.read(14, &bytes(&s, &rows), 24);
        let mut page = bytes(&s, &rows_of(&s, &[1, 0, 2], r));
        page[29] = verdict as u8;
        cases.read(14, &page, 24);
    }
}

fn with_count(page: &[u8], at: usize, count: u32) -> Vec<u8> {
    let mut page = page.to_vec();
    page[at..at + 4].copy_from_slice(&count.to_le_bytes());
    page
}

fn counts_off(cases: &mut Cases, r: &mut Random) {
    let huge = [255, 256, 4096, 4097, 65536, 1 << 24, 1 << 28, 1 << 29, 1 << 30, 0x5555_5555];
    let more = [0x5555_5556, 0xaaaa_aaab, 1 << 31, u32::MAX - 3, u32::MAX - 1, u32::MAX];
    for sheet in small_sheets(r) {
        let frames = sheet[24] as usize;
        let pairs = 28 + frames;
        let voiced = sheet[pairs] as usize;
        let correlations = pairs + 4 + 3 * voiced;
        for at in [0, 24, pairs, correlations] {
            let n = sheet[at] as u32;
            let near = (0..9).chain([n | 1 << 8, n | 1 << 16, n | 1 << 24, n | 1 << 31]);
            for count in near.chain(huge).chain(more) {
                cases.read(15, &with_count(&sheet, at, count), 50);
            }
        }
        // a count off by one, and its section with it
        for (at, size) in [(0, 4), (24, 1), (pairs, 3), (correlations, 4)] {
            let n = sheet[at] as u32;
            let first = at + 4;
            let mut page = with_count(&sheet, at, n + 1);
            page.splice(first..first, [0; 4].into_iter().take(size));
            cases.read(15, &page, 50);
            if n > 0 {
                let mut page = with_count(&sheet, at, n - 1);
                page.drain(first..first + size);
                cases.read(15, &page, 50);
            }
        }
        // both sections of the voiced frames one off
        for other in [voiced as u32 + 1, (voiced as u32).saturating_sub(1)] {
            let page = with_count(&sheet, pairs, other);
            cases.read(15, &with_count(&page, correlations, other), 50);
        }
    }
}

fn settings_off(cases: &mut Cases, r: &mut Random) {
    for sheet in &small_sheets(r)[..3] {
        for (at, good) in [(4, 8), (8, 2), (12, 2), (16, 0), (20, 0)] {
            let mut others: Vec<u32> = off(good).into_iter().map(|n| n as u32).collect();
            others.extend([u32::MAX - 15, 1 << 31]);
            others.sort();
            others.dedup();
            for other in others {
                cases.read(16, &with_count(sheet, at, other), 43);
            }
        }
    }
}

/// How many frames a random case has, at most `most`: few mostly.
fn any_frames(most: usize, r: &mut Random) -> usize {
    let few = r.below(12);
    let more = r.below(200);
    match r.below(400) {
        0 => most.min(4096),
        1 => most.min(4097),
        2..20 => more,
        20..60 => 0,
        60..100 => 1,
        _ => few,
    }
}

fn any_rows(s: &Settings, frames: usize, r: &mut Random) -> Vec<Row> {
    let mostly = r.below(3) as i32;
    let each = 1 + r.below(4);
    let verdicts: Vec<i32> =
        (0..frames).map(|_| if r.chance(each) { r.below(3) as i32 } else { mostly }).collect();
    rows_of(s, &verdicts, r)
}

/// A row whose pair is about the ends, its lags as if it were carried.
fn any_not_carried(s: &Settings, r: &mut Random) -> Row {
    let greatest = greatest_index(s.rate) as i64;
    let index = r.between(0, greatest);
    let beyond = r.between(-3, 3);
    let index = r.pick(&[index, index, beyond, greatest + beyond]);
    as_if(s, index as i32, r.below(contours(s.rate, s.nb, 2)))
}

fn any_write(cases: &mut Cases, most: usize, r: &mut Random) {
    let mut s = r.pick(&all_settings());
    any_thresholds(&mut s, r);
    let mut asked = Asked::of(&s);
    let frames = any_frames(most, r);
    let mut rows = any_rows(&s, frames, r);
    let room = bytes(&s, &rows).len().min(LONGEST);
    if frames > 0 && r.chance(3) {
        let at = r.below(frames);
        let near = near(&s, &rows[at]);
        rows[at] = if r.chance(4) { any_not_carried(&s, r) } else { near[r.below(near.len())] };
    }
    if r.chance(8) {
        let good = r.pick(&[2, 4, 8, 12, 16]);
        let other = off(good)[r.below(off(good).len())];
        let any = r.word() >> r.below(64);
        match r.below(6) {
            0 => asked.rate = other,
            1 => asked.nb = other,
            2 => asked.complexity = other,
            3 => asked.rate = any,
            4 => asked.nb = any,
            _ => asked.complexity = any,
        }
    }
    let mut table = rows.concat();
    if r.chance(5) {
        let short = r.pick(&[1, 7, 8, 9, 8 * frames]);
        table.truncate(table.len().saturating_sub(r.below(short + 1)));
    } else if frames < 1000 {
        table.extend((0..r.below(20)).map(|_| r.sized()));
    }
    let room = match r.below(10) {
        0 => r.below(room),
        1 | 2 => room - 1,
        3..6 => room + r.below(30),
        _ => room,
    };
    let any = r.word() >> r.below(64);
    let said = match r.below(40) {
        0 => any,
        1 => frames as u64 + 1,
        2 => (frames as u64).saturating_sub(1),
        _ => frames as u64,
    };
    cases.write(8, &asked, said, &table, room);
}

/// A change that may spoil a sheet.
fn change(page: &mut Vec<u8>, r: &mut Random) {
    if page.is_empty() {
        return;
    }
    let at = r.below(page.len());
    let any = r.word() as u8;
    match r.below(12) {
        0 => page.truncate(at),
        1 => page.insert(at, any),
        2 => {
            page.remove(at);
        }
        3 => page.push(any),
        4 => {
            page.pop();
        }
        5 => page[at] ^= 1 << r.below(8),
        6 => page[at] = any,
        7 => page[at] = r.pick(&[0, 1, 2, 3, 4, 8, 12, 16, 34, 127, 128, 255]),
        8 => page[at] = page[at].wrapping_add(r.pick(&[1, 255])),
        9 => {
            // a number of four bytes anywhere
            let n = r.sized().to_le_bytes();
            for (b, n) in page[at..].iter_mut().zip(n) {
                *b = n;
            }
        }
        10 => {
            // one of the settings
            let at = r.pick(&[4, 8, 12]).min(page.len() - 1);
            page[at] = r.pick(&[0, 1, 2, 3, 4, 8, 12, 16]);
        }
        _ => {
            let other = r.below(page.len());
            page.swap(at, other);
        }
    }
}

fn any_read(cases: &mut Cases, most: usize, r: &mut Random) {
    let mut s = r.pick(&all_settings());
    any_thresholds(&mut s, r);
    let frames = any_frames(most, r);
    let mut rows = any_rows(&s, frames, r);
    let greatest = greatest_index(s.rate) as i32;
    let in_use = contours(s.rate, s.nb, s.complexity) as i32;
    if frames > 0 && r.chance(6) {
        let at = r.below(frames);
        match r.below(3) {
            0 => rows[at][0] = r.below(5) as i32,
            1 => rows[at][1] = greatest + r.below(3) as i32,
            _ => rows[at][2] = in_use - 1 + r.below(3) as i32,
        }
    }
    let mut page = bytes(&s, &rows);
    let changes = r.pick(&[0, 0, 0, 1, 1, 2]);
    (0..changes).for_each(|_| change(&mut page, r));
    if r.chance(50) {
        page = (0..r.below(90)).map(|_| r.word() as u8).collect();
    }
    page.truncate(MOST_BYTES);
    let length = match r.below(8) {
        0 => r.below(8 * frames + 1),
        1 => (8 * frames).saturating_sub(1),
        2..4 => 8 * frames + r.below(20),
        _ => 8 * frames,
    };
    cases.read(19, &page, length.min(MOST_NUMBERS));
}

/// The fixed list.
pub fn sheet_list() -> Vec<u8> {
    let mut cases = Cases::new();
    let mut r = Random::new(0x5348_4545_5453);
    let steps: [fn(&mut Cases, &mut Random); 14] = [
        every_setting,
        refused_settings,
        every_pair,
        pairs_not_carried,
        one_number_off,
        every_fault,
        tables_of_every_length,
        pages_of_every_length,
        many_frames,
        damaged,
        pairs_beyond,
        every_verdict,
        counts_off,
        settings_off,
    ];
    steps.iter().for_each(|step| step(&mut cases, &mut r));
    for _ in 0..300 {
        any_write(&mut cases, 100, &mut r);
        any_read(&mut cases, 100, &mut r);
    }
    cases.tell("sheet");
    cases.bytes
}

/// N random cases, writing and reading by turns.
pub fn gen_sheet_cases(n: usize, seed: u64) -> Vec<u8> {
    let mut cases = Cases::new();
    let mut r = Random::new(seed ^ 0x6361_7365_73);
    for i in 0..n {
        if i % 2 == 0 {
            any_write(&mut cases, 4097, &mut r);
        } else {
            any_read(&mut cases, 4097, &mut r);
        }
    }
    cases.tell("sheet cases");
    cases.bytes
}
