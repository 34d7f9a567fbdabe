//! Both sides of a row timed in turn, in rounds of one length, and what the rounds say.

use std::hint::black_box;
use std::time::{Duration, Instant};

/// How many calls were made, and how long they took.
#[derive(Clone, Copy, Default)]
pub struct Spent {
    pub calls: usize,
    pub time: Duration,
}

impl Spent {
    fn nanos_a_call(&self) -> f64 {
        self.time.as_nanos() as f64 / self.calls as f64
    }
}

/// Goes over its questions so many times. What it makes ready before and drops afterwards is outside of
/// the time.
pub type Side<'a> = Box<dyn FnMut(usize) -> Spent + 'a>;

pub struct Row<'a> {
    pub what: String,
    /// How many of the questions are answered yes or accepted, of how many.
    pub yes: (usize, usize),
    /// The most that the ratio should be.
    pub aim: Option<f64>,
    pub ours: Side<'a>,
    pub original: Side<'a>,
}

/// The first quartile, the median and the third quartile of the rounds.
pub struct Measured {
    pub ours: f64,
    pub original: f64,
    pub ratio: [f64; 3],
}

/// How many rounds, how long each side runs in one, and how many rounds are enough where going over the
/// questions once is far longer than that.
#[derive(Clone, Copy)]
pub struct Length {
    pub rounds: usize,
    pub round: Duration,
    pub enough: usize,
}

/// What is far longer.
const LONG: Duration = Duration::from_millis(100);

/// A side whose calls leave everything as it was: `run` makes them once.
pub fn repeated<'a>(calls: usize, mut run: impl FnMut() + 'a) -> Side<'a> {
    Box::new(move |times| {
        let start = Instant::now();
        for _ in 0..times {
            run();
        }
        Spent {
            calls: calls * times,
            time: start.elapsed(),
        }
    })
}

/// A side whose calls need something made for them each time: `run` makes it and times the calls.
pub fn renewed<'a>(mut run: impl FnMut() -> Spent + 'a) -> Side<'a> {
    Box::new(move |times| {
        let mut all = Spent::default();
        for _ in 0..times {
            let one = run();
            all.calls += one.calls;
            all.time += one.time;
        }
        all
    })
}

/// Times calls whose results are dropped afterwards.
pub fn kept<R>(calls: usize, run: impl FnOnce(&mut Vec<R>)) -> Spent {
    let mut results = Vec::with_capacity(calls);
    let start = Instant::now();
    run(&mut results);
    let time = start.elapsed();
    black_box(&results);
    Spent { calls, time }
}

/// How many times a side goes over its questions in a round, and how many rounds it needs. The first times
/// also warm it up.
fn times(side: &mut Side, length: Length) -> (usize, usize) {
    let mut times = 1;
    loop {
        let spent = side(times).time.max(Duration::from_nanos(1));
        if times == 1 && spent > LONG {
            return (1, length.enough);
        }
        if spent * 4 >= length.round {
            let fit = times as f64 * length.round.as_secs_f64() / spent.as_secs_f64();
            return ((fit.round() as usize).max(1), length.rounds);
        }
        times *= 2;
    }
}

fn quartiles(mut all: Vec<f64>) -> [f64; 3] {
    all.sort_by(f64::total_cmp);
    [1, 2, 3].map(|quarter| all[(all.len() - 1) * quarter / 4])
}

#[repr(C)]
struct Timespec {
    seconds: i64,
    nanos: i64,
}

extern "C" {
    fn clock_gettime(clock: i32, time: *mut Timespec) -> i32;
}

/// What this thread has run so far, on Linux.
fn own_time() -> Duration {
    const CLOCK_THREAD_CPUTIME_ID: i32 = 3;
    let mut time = Timespec {
        seconds: 0,
        nanos: 0,
    };
    // A struct of C's timespec, whose fields are both 64 bits wide on the machines that we link for.
    let failed = unsafe { clock_gettime(CLOCK_THREAD_CPUTIME_ID, &mut time) } != 0;
    assert!(!failed, "no clock of the thread");
    Duration::new(time.seconds as u64, time.nanos as u32)
}

/// Runs a side until it ran through without other work in between, or has been run five times; or once,
/// where that is long.
fn undisturbed(side: &mut Side, times: usize) -> f64 {
    let mut spent = Spent::default();
    for _ in 0..5 {
        let (start, own) = (Instant::now(), own_time());
        spent = side(times);
        let (all, own) = (start.elapsed(), own_time() - own);
        if all < own + own / 20 || own > LONG {
            break;
        }
    }
    spent.nanos_a_call()
}

/// Each round runs both sides, ours first in every other one, and gives one ratio.
pub fn measure(row: &mut Row, length: Length) -> Measured {
    let (ours, our_rounds) = times(&mut row.ours, length);
    let (original, its_rounds) = times(&mut row.original, length);
    let mut all = [Vec::new(), Vec::new(), Vec::new()];
    for round in 0..our_rounds.min(its_rounds) {
        let (a, b);
        if round % 2 == 0 {
            a = undisturbed(&mut row.ours, ours);
            b = undisturbed(&mut row.original, original);
        } else {
            b = undisturbed(&mut row.original, original);
            a = undisturbed(&mut row.ours, ours);
        }
        all[0].push(a);
        all[1].push(b);
        all[2].push(a / b);
    }
    let [ours, original, ratio] = all.map(quartiles);
    Measured {
        ours: ours[1],
        original: original[1],
        ratio,
    }
}

/// The median nanoseconds a call of our side alone.
pub fn measure_ours(row: &mut Row, length: Length) -> f64 {
    let (times, rounds) = times(&mut row.ours, length);
    let round = |_| undisturbed(&mut row.ours, times);
    quartiles((0..rounds).map(round).collect())[1]
}
