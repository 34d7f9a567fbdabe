//! Sheets: include/trestlejay.h, section Sheets, and the program `pairs`, against document 01 and the
//! original's relations.

use super::row::Row;
use super::sheet_rows::Sheets;
use crate::face::sheet_face::{printed, read};
use crate::inputs::damage::{any_sheet, each_count, each_edge};
use crate::inputs::random::Random;
use crate::judge::sheets;
use std::thread;

/// How many random sheets the program is asked about. Where it is emulated it takes longer to start.
const RUNS: u64 = if cfg!(target_arch = "x86_64") {
    2_000
} else {
    500
};

pub fn compare(scale: u64, random: &mut Random) -> Vec<Row> {
    let mut library = Sheets::new("read_sheet");
    for bytes in each_edge() {
        for start in 0..8 {
            ask(&mut library, &bytes, start);
        }
    }
    for _ in 0..scale * 100_000 {
        let bytes = any_sheet(random);
        let start = random.below(8);
        ask(&mut library, &bytes, start);
    }
    let both = [library, run_all(scale, random)];
    for rows in &both {
        rows.print();
    }
    println!();
    both.map(|rows| rows.row).into()
}

/// The number that a judgement tells, 0 for none, and what stands beside it.
fn told(bytes: &[u8]) -> (u64, u64) {
    match sheets::read(bytes) {
        Ok(types) => (0, types.len() as u64),
        Err(refusal) => refusal,
    }
}

/// Asks the library about bytes that are lent from such a place on.
fn ask(rows: &mut Sheets, bytes: &[u8], start: usize) {
    let expected = told(bytes);
    let (found, kept) = read(bytes, start);
    rows.count(expected.0, found != expected || !kept, || {
        format!("  bytes     {bytes:?}\n  by 01     {expected:?}\n  ours      {found:?}, bytes kept: {kept}")
    });
}

/// Runs the program on sheets of every count and on random ones, on every processor.
fn run_all(scale: u64, random: &mut Random) -> Sheets {
    let mut all = each_count();
    all.extend((0..scale * RUNS).map(|_| any_sheet(random)));
    let at_once = thread::available_parallelism().map_or(1, |n| n.get());
    let part = all.len().div_ceil(at_once);
    let found: Vec<Result<Vec<u8>, String>> = thread::scope(|scope| {
        let runs: Vec<_> = all
            .chunks(part)
            .map(|part| scope.spawn(|| part.iter().map(|sheet| printed(sheet)).collect()))
            .collect();
        let parts: Vec<Vec<_>> = runs.into_iter().map(|run| run.join().unwrap()).collect();
        parts.concat()
    });
    let mut program = Sheets::new("pairs, the program");
    for (bytes, found) in all.iter().zip(found) {
        let expected = sheets::text(bytes);
        let differs = found.as_deref() != Ok(expected.as_bytes());
        program.count(told(bytes).0, differs, || {
            let found = found
                .clone()
                .map(|text| String::from_utf8_lossy(&text).into_owned());
            format!("  bytes     {bytes:?}\n  the Rust  {expected:?}\n  ours      {found:?}")
        });
    }
    program
}
