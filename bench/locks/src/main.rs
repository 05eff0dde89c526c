//! The yardstick of the lock's benchmark: `std::sync::Mutex<Vec<u64>>`, which is locked, pushed to and unlocked, and loads of an atomic word with `SeqCst`.

use std::env;
use std::hint::black_box;
use std::sync::atomic::{AtomicU64, Ordering::SeqCst};
use std::sync::Mutex;
use std::thread;
use std::time::Instant;

const COUNTED: u32 = 1_000;
const TIMED: u32 = 2_000_000;
const TIMED_LOADS: u32 = 400_000_000;

const SHAPES: [(u64, &str); 3] = [
    (1, "enter, push, leave, one thread"),
    (2, "enter, push, leave, two threads"),
    (4, "enter, push, leave, four threads"),
];

#[inline(never)]
fn push_often(words: &Mutex<Vec<u64>>, number: u64, times: u32) {
    for _ in 0..times {
        words.lock().unwrap().push(number);
    }
}

fn run(threads: u64, times: u32) -> usize {
    let words = Mutex::new(Vec::new());
    thread::scope(|scope| {
        for number in 1..threads {
            let words = &words;
            scope.spawn(move || push_often(words, number, times));
        }
        push_often(&words, 0, times);
    });
    words.into_inner().unwrap().len()
}

#[inline(never)]
fn load_often(word: &AtomicU64, times: u32) -> u64 {
    let mut sum = 0u64;
    for _ in 0..times {
        sum = sum.wrapping_add(word.load(SeqCst));
    }
    sum
}

fn per_call(start: Instant, times: u32) -> f64 {
    start.elapsed().as_nanos() as f64 / f64::from(times)
}

fn main() {
    let timed = env::args().nth(1).as_deref() == Some("time");
    for (threads, name) in SHAPES {
        if timed {
            let start = Instant::now();
            run(threads, TIMED);
            println!("{name}: {:.3} ns", per_call(start, TIMED));
        } else {
            println!("{name}: entries {}", run(threads, COUNTED));
        }
    }
    let word = black_box(AtomicU64::new(0));
    if timed {
        let start = Instant::now();
        let sum = load_often(&word, TIMED_LOADS);
        println!("releases: {:.3} ns", per_call(start, TIMED_LOADS));
        println!("loaded {sum}");
    } else {
        println!("releases: sum {}", load_often(&word, COUNTED));
    }
}
