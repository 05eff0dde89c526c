//! What it costs a plain program that threads take cache lines from each other, beside which the figures of this
//! project's recorders are to be read.
//!
//! usage: lines [ROUNDS]
//!
//! First, four threads that add to one counter, two words of one line: the adds alone, and behind work of the thread's
//! own, as the look-up of a name is. While a thread works, its line is taken. Then one thread that counts 512 counters
//! of a line each, with such work before each event, while a second one swaps the pending word of each counter with 0
//! 64 times and a third one loads each value 64 times, in step with the events; beside the same thread alone.

use std::env;
use std::hint::black_box;
use std::sync::atomic::{AtomicU64, Ordering::SeqCst};
use std::thread;
use std::time::{Duration, Instant};

const ADDS: u32 = 1_000_000;
const EVENTS: u64 = 131_072;
const COUNTERS: usize = 512;
/// How many flushes, and how many readings.
const TIMES: u64 = 64;
/// The worker tells how far it is once in so many events.
const PACKET: u64 = 256;

/// The two words of a counter, in a line of their own.
#[repr(align(64))]
#[derive(Default)]
struct Counter([AtomicU64; 2]);

impl Counter {
    fn add(&self) {
        self.0[0].fetch_add(1, SeqCst);
        self.0[1].fetch_add(1, SeqCst);
    }
}

/// Steps of which each waits for the one before.
#[inline(never)]
fn work(seed: u64, steps: u32) -> u64 {
    (0..steps).fold(seed, |x, _| black_box(x.wrapping_mul(6364136223846793005) ^ (x >> 7)))
}

/// Nanoseconds of an add.
fn add_by(threads: u64, steps: u32) -> f64 {
    let counter = Counter::default();
    let start = Instant::now();
    thread::scope(|scope| {
        for seed in 0..threads {
            let counter = &counter;
            scope.spawn(move || {
                let mut x = seed;
                for _ in 0..ADDS {
                    x = work(x, steps);
                    counter.add();
                }
                black_box(x);
            });
        }
    });
    start.elapsed().as_nanos() as f64 / ADDS as f64
}

/// Goes over all counters at each round's event.
fn follow(counters: &[Counter], done: &Counter, swaps: bool) {
    for round in 1..=TIMES {
        while done.0[0].load(SeqCst) < round * (EVENTS / TIMES) - PACKET {
            thread::park_timeout(Duration::from_micros(20));
        }
        for counter in counters {
            if swaps {
                counter.0[1].swap(0, SeqCst);
            } else {
                counter.0[0].load(SeqCst);
            }
        }
    }
}

/// Nanoseconds of an event of the worker.
fn event_of(steps: u32, followed: bool) -> f64 {
    let counters: Vec<Counter> = (0..COUNTERS).map(|_| Counter::default()).collect();
    let done = Counter::default();
    thread::scope(|scope| {
        for swaps in [true, false] {
            let (counters, done) = (&counters, &done);
            if followed {
                scope.spawn(move || follow(counters, done, swaps));
            }
        }
        thread::sleep(Duration::from_micros(300));
        let start = Instant::now();
        let mut x = 1;
        for event in 1..=EVENTS {
            x = work(x, steps);
            counters[(x >> 20) as usize % COUNTERS].add();
            if event % PACKET == 0 {
                done.0[0].store(event, SeqCst);
            }
        }
        start.elapsed().as_nanos() as f64 / EVENTS as f64
    })
}

fn median(mut values: Vec<f64>) -> f64 {
    values.sort_by(f64::total_cmp);
    values[values.len() / 2]
}

fn main() {
    let rounds: usize = env::args().nth(1).and_then(|word| word.parse().ok()).unwrap_or(20);
    for steps in [12, 18, 24] {
        let alone = median((0..rounds).map(|_| add_by(1, steps)).collect());
        let ratios = (0..rounds).map(|_| add_by(4, steps) / add_by(4, 0)).collect();
        println!("four threads on one counter, where one takes {alone:.0} ns an add: {:.2} of the adds alone", median(ratios));
    }
    for steps in [30, 40, 80] {
        let alone = median((0..rounds).map(|_| event_of(steps, false)).collect());
        let ratios = (0..rounds).map(|_| event_of(steps, true) / event_of(steps, false)).collect();
        println!("64 flushes and 64 readings beside events of {alone:.0} ns: {:.2}", median(ratios));
    }
}
