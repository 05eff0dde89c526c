//! The yardstick of the words' benchmark: the same calls by `std::sync::atomic`, each with `SeqCst`.
//! A counter's add is two adds to two adjacent words.

use std::env;
use std::sync::atomic::{AtomicU64, Ordering::SeqCst};
use std::sync::Arc;
use std::thread;
use std::time::Instant;

const COUNTED: u32 = 1_000;
const TIMED: u32 = 4_000_000;
const TIMED_LOADS: u32 = 400_000_000;
/// Counters so far apart that no two are in one cache line.
const APART: usize = 16;

#[derive(Clone, Copy)]
enum Shape {
    OneThread,
    OneCounter,
    FourCounters,
}

const SHAPES: [(Shape, &str); 3] = [
    (Shape::OneThread, "add, one thread"),
    (Shape::OneCounter, "add, four threads on one counter"),
    (Shape::FourCounters, "add, four threads on four counters"),
];

#[inline(never)]
fn add_often(words: &[AtomicU64], id: usize, times: u32) {
    for _ in 0..times {
        words[2 * id].fetch_add(1, SeqCst);
        words[2 * id + 1].fetch_add(1, SeqCst);
    }
}

fn run(shape: Shape, times: u32) -> (u64, u64) {
    let words: Vec<AtomicU64> = (0..2 * 4 * APART).map(|_| AtomicU64::new(0)).collect();
    let apart = match shape {
        Shape::FourCounters => APART,
        _ => 0,
    };
    match shape {
        Shape::OneThread => add_often(&words, 0, times),
        _ => thread::scope(|scope| {
            for k in 1..4 {
                let words = &words;
                scope.spawn(move || add_often(words, k * apart, times));
            }
            add_often(&words, 0, times);
        }),
    }
    let sum = |first: usize| {
        words
            .iter()
            .skip(first)
            .step_by(2)
            .map(|w| w.load(SeqCst))
            .sum()
    };
    (sum(0), sum(1))
}

#[derive(Clone, Copy)]
enum Call {
    Add,
    Sub,
    Set,
    /// Each reading says which gauge is read next, so that no reading begins before the last one has its word.
    Value,
    /// Readings that wait for nothing, so that several are under way at once. They are only added up.
    ValuesInARow,
}

const GAUGES: u32 = 16;

const CALLS: [(Call, &str, u32); 5] = [
    (Call::Add, "gauge add", TIMED),
    (Call::Sub, "gauge sub", TIMED),
    (Call::Set, "gauge set", TIMED),
    (Call::Value, "gauge value", TIMED_LOADS),
    (Call::ValuesInARow, "gauge values in a row", TIMED_LOADS),
];

#[inline(never)]
fn call_often(words: &[AtomicU64; GAUGES as usize], call: Call, times: u32) {
    match call {
        Call::Add => {
            for _ in 0..times {
                words[0].fetch_add(1, SeqCst);
            }
        }
        Call::Sub => {
            for _ in 0..times {
                words[0].fetch_sub(1, SeqCst);
            }
        }
        Call::Set => {
            for _ in 0..times {
                words[0].swap(7, SeqCst);
            }
        }
        Call::Value => {
            // all words are 0 and so name gauge 0, which no compiler knows; the last one is added at the end, so that it is used
            let mut word = 0u64;
            for _ in 0..times {
                let id = (word % GAUGES as u64) as u32;
                word = words[id as usize].load(SeqCst);
            }
            words[0].fetch_add(word, SeqCst);
        }
        Call::ValuesInARow => {
            // the sum of the readings, which is 0, is added at the end, so that no compiler leaves a reading out
            let mut sum = 0u64;
            for _ in 0..times {
                sum = sum.wrapping_add(words[0].load(SeqCst));
            }
            words[0].fetch_add(sum, SeqCst);
        }
    }
}

fn run_gauges(call: Call, four: bool, times: u32) -> u64 {
    let words: Box<[AtomicU64; GAUGES as usize]> = Box::default();
    if four {
        thread::scope(|scope| {
            for _ in 1..4 {
                let words = &words;
                scope.spawn(move || call_often(words, call, times));
            }
            call_often(&words, call, times);
        });
    } else {
        call_often(&words, call, times);
    }
    words[0].load(SeqCst)
}

/// The readings in a row of a thread that shares the bank by an `Arc`, as a thread of its own start does.
#[inline(never)]
fn read_shared(words: Arc<Vec<AtomicU64>>, id: usize, times: u32) -> u64 {
    let mut sum = 0u64;
    for _ in 0..times {
        sum = sum.wrapping_add(words[id].load(SeqCst));
    }
    sum
}

fn run_shared(times: u32) -> u64 {
    let words = Arc::new((0..GAUGES).map(|_| AtomicU64::new(0)).collect());
    read_shared(words, 0, times)
}

fn per_call(start: Instant, times: u32) -> u128 {
    start.elapsed().as_nanos() / (times as u128 / 1000)
}

fn main() {
    let timed = env::args().nth(1).as_deref() == Some("time");
    for (shape, name) in SHAPES {
        if timed {
            let start = Instant::now();
            run(shape, TIMED);
            let picoseconds = per_call(start, TIMED);
            println!(
                "{name}: {}.{:03} ns",
                picoseconds / 1000,
                picoseconds % 1000
            );
        } else {
            let (value, pending) = run(shape, COUNTED);
            println!("{name}: value {value}, pending {pending}");
        }
    }
    if timed {
        let start = Instant::now();
        let sum = run_shared(TIMED_LOADS);
        let picoseconds = per_call(start, TIMED_LOADS) + sum as u128;
        println!(
            "gauge values in a row, through an Arc: {}.{:03} ns",
            picoseconds / 1000,
            picoseconds % 1000
        );
    }
    for four in [false, true] {
        let threads = if four { "four threads" } else { "one thread" };
        for (call, name, times) in CALLS {
            if timed {
                let start = Instant::now();
                run_gauges(call, four, times);
                let picoseconds = per_call(start, times);
                println!(
                    "{name}, {threads}: {}.{:03} ns",
                    picoseconds / 1000,
                    picoseconds % 1000
                );
            } else {
                println!(
                    "{name}, {threads}: word {}",
                    run_gauges(call, four, COUNTED)
                );
            }
        }
    }
}
