//! What stands beside `replay` and `run`: `load W E`, `bins V..`, and `micro`, the cost of one known event.

use std::hint::black_box;
use std::sync::Barrier;
use std::time::Instant;

use super::*;

/// Script `w` of the `load` command: `events` events from a linear congruential generator.
pub fn play_load<W: Words>(worker: &mut Worker<W>, w: u64, events: u64) -> FileEnd {
    let mut end = FileEnd::default();
    let mut x = w;
    let mut key = String::new();
    for _ in 0..events {
        x = x.wrapping_mul(6364136223846793005).wrapping_add(1442695040888963407);
        let r = x >> 33;
        let (i, j) = (r / 4, r / 2048);
        key.clear();
        let _ = match r % 4 {
            0 | 1 => write!(key, "root c{}", i % 512),
            2 => write!(key, "root h{}", i % 16),
            _ => write!(key, "root g{w}"),
        };
        let key = key.as_bytes();
        let event = match r % 4 {
            0 | 1 => Event::Inc { key, n: j % 1000 },
            2 => Event::Rec { key, v: j % 100_000 },
            _ => Event::Gauge { key, set: false, n: j % 1000 },
        };
        if worker.apply(&event) { end.accepted += 1 } else { end.dropped += 1 }
    }
    end
}

pub fn load(words: &[String]) -> Option<i32> {
    let (threads, words) = match words {
        [option, rest @ ..] if option == "--run" => (true, rest),
        _ => (false, words),
    };
    let [w, e] = words else { return None };
    let (scripts, events) = (number(w.as_bytes(), 32)?, number(e.as_bytes(), MAX_EVENTS)?);
    if scripts == 0 || events == 0 {
        return None;
    }
    let jobs: Vec<_> = (1..=scripts).map(|script| Job::Load { script, events }).collect();
    let (ends, view) = play_all(threads, &jobs);
    let (accepted, dropped) = ends.iter().fold((0, 0), |(a, d), end| (a + end.accepted, d + end.dropped));
    let total = |kind| view.rows(kind).fold((0, 0u64), |(n, sum), (id, _)| (n + 1, sum.wrapping_add(view.words[id])));
    let (counters, units) = total(Kind::Counter);
    let (gauges, sum) = total(Kind::Gauge);
    let mut bins = vec![0u64; BINS];
    for (id, _) in view.rows(Kind::Histogram) {
        view.bins[id].0.iter().for_each(|&(i, n)| bins[i] += n);
    }
    let (histograms, values) = (view.by_kind[Kind::Histogram as usize].len(), bins.iter().sum::<u64>());
    let mut out = format!("# load {scripts} {events}\nevents {} accepted {accepted} dropped {dropped}\n", accepted + dropped);
    let _ = writeln!(out, "counters {counters} units {units}\ngauges {gauges} sum {sum}");
    let _ = writeln!(out, "histograms {histograms} values {values}");
    for (i, n) in bins.iter().enumerate().filter(|&(_, &n)| n > 0) {
        let (val, exp) = bin_at(i);
        let _ = writeln!(out, "bin {val} {exp} {n}");
    }
    Some(write_out(&out, 0))
}

pub fn bins(words: &[String]) -> Option<i32> {
    if !(1..=64).contains(&words.len()) {
        return None;
    }
    let mut out = String::new();
    for word in words {
        let (val, exp) = bin_of(number(word.as_bytes(), u64::MAX)?);
        let _ = writeln!(out, "{word} {val} {exp}");
    }
    Some(write_out(&out, 0))
}

/// CPU time of this process so far.
fn cpu_ns() -> f64 {
    unsafe extern "C" {
        fn getrusage(who: i32, usage: *mut [i64; 18]) -> i32;
    }
    let mut usage = [0; 18];
    unsafe { getrusage(0, &mut usage) };
    (usage[0] + usage[2]) as f64 * 1e9 + (usage[1] + usage[3]) as f64 * 1e3
}

/// Prints `peer;op;threads;wall ns;cpu ns` lines: ns of one event on a name that the worker's cache knows (poll, hash, look-up, word).
pub fn micro() -> Option<i32> {
    let store = Store::new((0..MAX_METRICS).map(|_| AtomicU64::new(0)).collect::<Vec<_>>());
    let names: Vec<String> = (0..512).map(|i| format!("root c{i}")).collect();
    let bench = |op: &str, threads: usize, event: &(dyn Fn(usize, u64) -> Event<'static> + Sync)| {
        let ops = 4_000_000 / threads as u64;
        let barrier = Barrier::new(threads + 1);
        let (wall, cpu) = thread::scope(|scope| {
            for t in 0..threads {
                let (barrier, store, names) = (&barrier, &store, &names);
                scope.spawn(move || {
                    let mut worker = Worker::new(store);
                    names.iter().for_each(|name| _ = worker.apply(&Event::Inc { key: name.as_bytes(), n: 0 }));
                    worker.apply(&event(t, 0));
                    barrier.wait();
                    barrier.wait();
                    for i in 0..ops {
                        black_box(worker.apply(black_box(&event(t, i))));
                    }
                    barrier.wait();
                });
            }
            barrier.wait();
            let (start, cpu) = (Instant::now(), cpu_ns());
            barrier.wait();
            barrier.wait();
            (start.elapsed().as_nanos() as f64, cpu_ns() - cpu)
        });
        println!("plain;{op};{threads};{:.2};{:.2}", wall / ops as f64, cpu / (ops * threads as u64) as f64);
    };
    let keys: [&'static [u8]; 4] = [b"root c300", b"root c17", b"root c130", b"root c450"];
    bench("counter by name", 1, &|_, _| Event::Inc { key: keys[0], n: 1 });
    bench("counter by name", 4, &|_, _| Event::Inc { key: keys[0], n: 1 });
    bench("distinct counters by name", 4, &|t, _| Event::Inc { key: keys[t], n: 1 });
    bench("gauge by name", 1, &|_, _| Event::Gauge { key: b"root g1", set: false, n: 5 });
    bench("histogram by name", 1, &|_, i| Event::Rec { key: b"root h1", v: i % 100_000 });
    bench("histogram by name", 4, &|_, i| Event::Rec { key: b"root h1", v: i % 100_000 });
    Some(0)
}
