//! Prints what was counted, and the differences that were kept.

use super::row::Row;
use super::tally::{Difference, Tally};
use crate::judge::questions::QUESTIONS;
use std::fmt::Display;

/// How many cases passed and how many failed.
pub fn report(tallies: &[Tally], rows: &[Row]) -> (u64, u64) {
    line("", ["cases", "yes", "refusals", "differences"]);
    for ((name, _), t) in QUESTIONS.iter().zip(tallies) {
        line(name, [t.cases, t.yes, t.refusals, t.differences]);
    }
    for row in rows {
        let counts = [row.cases, row.changes, row.refusals, row.differences];
        line(&row.name, counts);
    }
    for ((name, _), tally) in QUESTIONS.iter().zip(tallies) {
        if let Some(smallest) = &tally.smallest {
            difference(name, smallest);
        }
    }
    for row in rows {
        if let Some(first) = &row.first {
            println!("\n{}, the first difference:\n{first}", row.name);
        }
    }
    println!("\nCases, each one question about given words:");
    sum(tallies, rows)
}

fn line<T: Display>(name: &str, [cases, yes, refusals, differences]: [T; 4]) {
    println!("{name:36}{cases:>10}{yes:>10}{refusals:>10}{differences:>12}");
}

fn difference(name: &str, d: &Difference) {
    println!("\n{name}, the smallest difference:");
    println!("  left      {:?}", d.a);
    if !d.b.is_empty() {
        let name = match name {
            "fix_type_for_flags" => "flags",
            "stored_size" => "width",
            _ => "right",
        };
        println!("  {name:10}{:?}", d.b);
    }
    println!("  the Rust  {:?}", d.expected);
    match &d.found {
        Ok(found) => println!("  ours      {found:?}"),
        Err(harm) => println!("  ours      {harm}"),
    }
}

fn sum(tallies: &[Tally], rows: &[Row]) -> (u64, u64) {
    let questions = tallies.iter().map(|tally| (tally.cases, tally.differences));
    let functions = rows.iter().map(|row| (row.cases, row.differences));
    let all = questions.chain(functions);
    all.fold((0, 0), |(passed, failed), (cases, differences)| {
        (passed + cases - differences, failed + differences)
    })
}
