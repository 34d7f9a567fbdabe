//! The proved library's C face: include/trestlejay.h, section Sheets; and the program `pairs`.

use super::type_face::Raw;
use std::io::Write;
use std::process::{Command, Stdio};

extern "C" {
    fn tj_read_sheet(sheet: *const u8, n: usize) -> Raw;
}

/// Stands around the bytes that are lent.
const GUARD: u8 = 0xa5;

/// The program's runner.
const RUN: &str = concat!(env!("CARGO_MANIFEST_DIR"), "/../tools/run");

/// The library's answer about bytes that are lent from such a place on, and whether all are kept.
pub fn read(bytes: &[u8], start: usize) -> ((u64, u64), bool) {
    let before = [&vec![GUARD; 8 + start], bytes, &[GUARD; 8]].concat();
    let mut lent = before.clone();
    // The bytes stand inside the vector, between the guards.
    let raw = unsafe { tj_read_sheet(lent.as_mut_ptr().add(8 + start), bytes.len()) };
    ((raw.refusal, raw.value), lent == before)
}

/// What the program prints of these bytes.
pub fn printed(bytes: &[u8]) -> Result<Vec<u8>, String> {
    let mut program = Command::new(RUN)
        .arg("pairs")
        .stdin(Stdio::piped())
        .stdout(Stdio::piped())
        .spawn()
        .map_err(|error| format!("{RUN}: {error}"))?;
    // It may have read enough before all is written. The pipe has room for every sheet asked about.
    let _ = program.stdin.take().unwrap().write_all(bytes);
    let output = program
        .wait_with_output()
        .map_err(|error| error.to_string())?;
    match output.status.success() {
        true => Ok(output.stdout),
        false => Err(format!("ended with {}", output.status)),
    }
}
