//! The yardstick of the cell's benchmark: loads of an atomic word with `SeqCst`, and two boxes that are exchanged through an `AtomicPtr`.

use std::env;
use std::hint::black_box;
use std::sync::atomic::{AtomicPtr, AtomicU64, Ordering::SeqCst};
use std::time::Instant;

const COUNTED: u32 = 1_000;
const TIMED: u32 = 4_000_000;
const TIMED_POLLS: u32 = 100_000_000;

/// Loads of two words, each in memory of its own, as a cell's is. Each load says which one comes next.
#[inline(never)]
fn follow(words: &[Box<AtomicU64>], times: u32) -> usize {
    let mut at = 0;
    for _ in 0..times {
        at = (words[at].load(SeqCst) == 1) as usize;
    }
    at
}

fn poll_often(times: u32) -> usize {
    follow(&black_box(vec![Box::default(), Box::default()]), times)
}

/// The same of two words side by side, which no pointer stands before.
#[inline(never)]
fn follow_bare(words: &[AtomicU64; 2], times: u32) -> usize {
    let mut at = 0;
    for _ in 0..times {
        at = (words[at].load(SeqCst) == 1) as usize;
    }
    at
}

fn load_often(times: u32) -> usize {
    let words: Box<[AtomicU64; 2]> = black_box(Box::default());
    follow_bare(&words, times)
}

/// Two boxes that a worker and a flusher exchange through one pointer, in one thread. The result is the rounds that were made.
#[inline(never)]
fn exchange(slot: &AtomicPtr<u64>, mut mine: *mut u64, mut theirs: *mut u64, times: u32) -> u32 {
    for _ in 0..times {
        mine = slot.swap(mine, SeqCst);
        theirs = slot.swap(theirs, SeqCst);
    }
    for last in [mine, theirs, slot.load(SeqCst)] {
        drop(unsafe { Box::from_raw(last) });
    }
    times
}

fn exchange_often(times: u32) -> u32 {
    let boxed = |value: u64| Box::into_raw(Box::new(value));
    exchange(&AtomicPtr::new(boxed(1)), boxed(2), boxed(3), times)
}

/// A phase word beside the pointer, with the same five steps on it as the cell has, and a load of each party.
#[inline(never)]
fn exchange_by_phase(slot: &AtomicPtr<u64>, mut mine: *mut u64, times: u32) -> u32 {
    let phase = black_box(AtomicU64::new(0));
    for round in 0..times {
        if phase.compare_exchange(0, 1, SeqCst, SeqCst).is_err() || phase.load(SeqCst) != 1 {
            return round;
        }
        phase.store(2, SeqCst);
        mine = slot.swap(mine, SeqCst);
        phase.store(3, SeqCst);
        if phase.load(SeqCst) < 3 {
            return round;
        }
        phase.fetch_add(1, SeqCst);
        let half = slot.swap(std::ptr::null_mut(), SeqCst);
        slot.swap(half, SeqCst);
        phase.fetch_sub(4, SeqCst);
    }
    for last in [mine, slot.load(SeqCst)] {
        drop(unsafe { Box::from_raw(last) });
    }
    times
}

fn exchange_by_phase_often(times: u32) -> u32 {
    let boxed = |value: u64| Box::into_raw(Box::new(value));
    exchange_by_phase(&AtomicPtr::new(boxed(1)), boxed(2), times)
}

fn per_call(start: Instant, times: u32) -> f64 {
    start.elapsed().as_nanos() as f64 / f64::from(times)
}

fn main() {
    let word = env::args().nth(1);
    let Some(word) = word.as_deref() else {
        println!("asked: cell {}", poll_often(COUNTED));
        println!("a turn and a take: {}", exchange_often(COUNTED));
        println!("asked, no pointer before the word: cell {}", load_often(COUNTED));
        println!("a turn and a take by a phase word: {}", exchange_by_phase_often(COUNTED));
        return;
    };
    let time = |measure: &str| word == "time" || word == measure;
    if time("asked") {
        let start = Instant::now();
        black_box(poll_often(TIMED_POLLS));
        println!("asked: {:.3} ns", per_call(start, TIMED_POLLS));
    }
    if time("exchange") {
        let start = Instant::now();
        black_box(exchange_often(TIMED));
        println!("a turn and a take: {:.3} ns", per_call(start, TIMED));
    }
    if time("bare") {
        let start = Instant::now();
        black_box(load_often(TIMED_POLLS));
        println!("asked, no pointer before the word: {:.3} ns", per_call(start, TIMED_POLLS));
    }
    if time("phase") {
        let start = Instant::now();
        black_box(exchange_by_phase_often(TIMED));
        println!("a turn and a take by a phase word: {:.3} ns", per_call(start, TIMED));
    }
}
