//! The original Rust as the judge of the proved library.

#[cfg(face)]
mod bench;
#[cfg(face)]
mod compare;
#[cfg(face)]
mod face;
mod inputs;
mod judge;
mod lines;
mod original;
mod smoke;

use judge::sheets;
use lines::{answers, cases, plan_lines, script};
use std::env;
use std::ffi::OsString;
use std::io::Write;
use std::process::exit;

const USAGE: &str = "usage: oracle smoke | oracle cases | oracle plans | oracle script FILE | \
                     oracle pairs FILE | oracle answers COUNT SEED | oracle compare SCALE SEED | \
                     oracle bench [quick | ours]";

/// The most that SCALE may be: what it multiplies must not wrap.
const MOST_SCALE: u64 = 1_000_000;

#[cfg(not(face))]
const WITHOUT: &str =
    "this oracle was built without the library: set TRESTLEJAY_LIB and build again";

fn main() {
    let words: Result<Vec<String>, _> = env::args_os().skip(1).map(OsString::into_string).collect();
    let words = words.unwrap_or_else(|_| fail(USAGE));
    let words: Vec<&str> = words.iter().map(String::as_str).collect();
    match words[..] {
        ["smoke"] => verdict(smoke::smoke()),
        ["cases"] => write(&cases::cases()),
        ["plans"] => write(&plan_lines::plans()),
        ["script", file] => match std::fs::read_to_string(file) {
            Ok(text) => write(&script::script(&text)),
            Err(error) => fail(&format!("{file}: {error}")),
        },
        ["pairs", file] => match std::fs::read(file) {
            Ok(bytes) => write(&sheets::text(&bytes)),
            Err(error) => fail(&format!("{file}: {error}")),
        },
        ["answers", count, seed] => {
            write(&answers::answers(number(count) as usize, number(seed)));
        }
        ["compare", word, seed] => run(scale(word), number(seed)),
        ["bench"] => bench(false),
        ["bench", "quick"] => bench(true),
        ["bench", "ours"] => bench_ours(),
        _ => fail(USAGE),
    }
}

#[cfg(face)]
fn run(scale: u64, seed: u64) {
    verdict(compare::compare(scale, seed));
}

#[cfg(face)]
fn bench(quick: bool) {
    bench::bench(quick);
}

#[cfg(face)]
fn bench_ours() {
    bench::bench_ours();
}

#[cfg(not(face))]
fn run(_scale: u64, _seed: u64) {
    fail(WITHOUT);
}

#[cfg(not(face))]
fn bench(_quick: bool) {
    fail(WITHOUT);
}

#[cfg(not(face))]
fn bench_ours() {
    fail(WITHOUT);
}

fn verdict((passed, failed): (u64, u64)) {
    println!("{passed} passed, {failed} failed");
    exit(i32::from(failed > 0));
}

fn write(lines: &str) {
    std::io::stdout().write_all(lines.as_bytes()).unwrap();
}

fn number(word: &str) -> u64 {
    word.parse()
        .unwrap_or_else(|_| fail(&format!("not a number: {word}")))
}

fn scale(word: &str) -> u64 {
    match number(word) {
        scale if scale <= MOST_SCALE => scale,
        _ => fail(&format!("SCALE is at most {MOST_SCALE}, not {word}")),
    }
}

fn fail(words: &str) -> ! {
    eprintln!("oracle: {words}");
    exit(1);
}
