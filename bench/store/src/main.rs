//! store: Envoy-style stats from event files, written the usual way (std only, no proofs).
//!
//! One shared book of names behind a mutex, value words that are plain cells for `replay` and atomics
//! for `run`, a name cache per worker, and log-linear histogram tables per worker, merged at the end.
//! The only bootstrap is `-`, the usual configuration.

use std::cell::Cell;
use std::collections::HashMap;
use std::fmt::Write as _;
use std::fs::File;
use std::hash::{BuildHasherDefault, Hasher};
use std::io::{Read, Write as _};
use std::process::exit;
use std::sync::Mutex;
use std::sync::atomic::{AtomicU64, Ordering::*};
use std::thread;

mod extra;

const USAGE: &str = "usage: store run|replay [--format statsd|prom|admin] - FILE.. | load [--run] W E | bins V..";
const MAX_FILE: usize = 8_388_608;
const MAX_EVENTS: u64 = 131_072;
const MAX_LINE: usize = 1_024;
const MAX_METRICS: usize = 16_384;
const MAX_HISTOGRAMS: u32 = 1_024;
/// Upper bounds of the Prometheus buckets, doubled so that 0.5 is whole.
const BOUNDS: [u64; 19] = [
    1, 2, 10, 20, 50, 100, 200, 500, 1_000, 2_000, 5_000, 10_000, 20_000, 60_000, 120_000, 600_000, 1_200_000,
    3_600_000, 7_200_000,
];
/// Label and thousandths of each quantile of the admin text.
const QUANTILES: [(&str, u64); 10] = [
    ("P0", 0), ("P25", 250), ("P50", 500), ("P75", 750), ("P90", 900), ("P95", 950), ("P99", 990), ("P99.5", 995),
    ("P99.9", 999), ("P100", 1000),
];

// ---- events

#[derive(Clone, Copy, PartialEq, Eq, PartialOrd, Ord)]
enum Kind { Counter, Gauge, Histogram, Text }

/// One event. `key` is the slice `LABEL NAME` of the line, which is also the key of the name cache.
enum Event<'a> {
    Inc { key: &'a [u8], n: u64 },
    /// `sub` is an `add` of the negative.
    Gauge { key: &'a [u8], set: bool, n: u64 },
    Rec { key: &'a [u8], v: u64 },
    Text { key: &'a [u8], text: &'a [u8] },
    Open { label: &'a [u8], prefix: &'a [u8] },
    Release { label: &'a [u8] },
}

/// Splits at the first space, which is dropped.
fn cut(bytes: &[u8]) -> Option<(&[u8], &[u8])> {
    let at = bytes.iter().position(|&b| b == b' ')?;
    Some((&bytes[..at], &bytes[at + 1..]))
}

fn is_graphic(bytes: &[u8]) -> bool {
    (1..=255).contains(&bytes.len()) && bytes.iter().all(|b| b.is_ascii_graphic())
}

fn is_label(bytes: &[u8]) -> bool {
    (1..=32).contains(&bytes.len()) && bytes.iter().all(|&b| b.is_ascii_alphanumeric() || b == b'_')
}

/// A decimal number without sign or leading zeros.
fn number(bytes: &[u8], max: u64) -> Option<u64> {
    if bytes.is_empty() || bytes.len() > 20 || (bytes[0] == b'0' && bytes.len() > 1) {
        return None;
    }
    let mut n = 0u64;
    for &b in bytes {
        let digit = b.wrapping_sub(b'0');
        if digit > 9 {
            return None;
        }
        n = n.checked_mul(10)?.checked_add(digit as u64)?;
    }
    (n <= max).then_some(n)
}

/// Splits `LABEL NAME REST` into the key `LABEL NAME` and REST.
fn keyed(bytes: &[u8]) -> Option<(&[u8], &[u8])> {
    let (label, after) = cut(bytes)?;
    let (name, rest) = cut(after)?;
    (is_label(label) && is_graphic(name)).then(|| (&bytes[..label.len() + 1 + name.len()], rest))
}

fn parse(line: &[u8]) -> Option<Event<'_>> {
    let (verb, rest) = cut(line)?;
    match verb {
        b"inc" => {
            let (key, n) = keyed(rest)?;
            Some(Event::Inc { key, n: number(n, u32::MAX as u64)? })
        }
        b"rec" => {
            let (key, v) = keyed(rest)?;
            Some(Event::Rec { key, v: number(v, u64::MAX)? })
        }
        b"add" | b"sub" | b"set" => {
            let (key, rest) = keyed(rest)?;
            let (mode, n) = cut(rest)?;
            // The mode matters only to an importing parent, so it is checked and dropped.
            if !matches!(mode, b"uninit" | b"acc" | b"never") {
                return None;
            }
            let n = number(n, i64::MAX as u64)?;
            Some(Event::Gauge { key, set: verb == b"set", n: if verb == b"sub" { n.wrapping_neg() } else { n } })
        }
        b"text" => {
            let (key, text) = keyed(rest)?;
            text.iter().all(|b| (0x20..0x7f).contains(b)).then_some(Event::Text { key, text })
        }
        b"open" => {
            let (label, prefix) = cut(rest)?;
            if !is_label(label) || !is_graphic(prefix) {
                return None;
            }
            let prefix = prefix.strip_suffix(b".").unwrap_or(prefix);
            Some(Event::Open { label, prefix: if prefix == b"-" { b"" } else { prefix } })
        }
        b"release" => is_label(rest).then_some(Event::Release { label: rest }),
        _ => None,
    }
}

// ---- hash maps

/// Folded-multiply hash of 8 bytes at a time. The number of keys is bounded by `MAX_METRICS`.
#[derive(Default)]
struct FastHasher(u64);

impl Hasher for FastHasher {
    fn write(&mut self, bytes: &[u8]) {
        let mut chunks = bytes.chunks_exact(8);
        for chunk in &mut chunks {
            self.write_u64(u64::from_le_bytes(chunk.try_into().unwrap()));
        }
        let mut last = [0; 8];
        let rest = chunks.remainder();
        last[..rest.len()].copy_from_slice(rest);
        self.write_u64(u64::from_le_bytes(last));
    }
    fn write_u64(&mut self, word: u64) {
        let product = (self.0 ^ word ^ 0x9e37_79b9_7f4a_7c15) as u128 * 0xa076_1d64_78bd_642f;
        self.0 = product as u64 ^ (product >> 64) as u64;
    }
    fn write_usize(&mut self, word: usize) {
        self.write_u64(word as u64);
    }
    fn finish(&self) -> u64 {
        self.0
    }
}

type FastMap<V> = HashMap<Box<[u8]>, V, BuildHasherDefault<FastHasher>>;

// ---- histograms

/// One count per bin: 0, then 90 bins (10 to 99) for each power of ten.
const BINS: usize = 1 + 20 * 90;

/// Value and exponent of a value's bin: its first two digits, and its digits less one.
fn bin_of(v: u64) -> (u64, u32) {
    match v {
        0 => (0, 0),
        1..=9 => (v * 10, 0),
        _ => {
            let exp = v.ilog10();
            (v / 10u64.pow(exp - 1), exp)
        }
    }
}

fn bin_index(v: u64) -> usize {
    match bin_of(v) {
        (0, _) => 0,
        (val, exp) => exp as usize * 90 + (val as usize - 10) + 1,
    }
}

fn bin_at(index: usize) -> (u64, u32) {
    match index.checked_sub(1) {
        None => (0, 0),
        Some(i) => ((i % 90 + 10) as u64, (i / 90) as u32),
    }
}

/// A worker's counts of one histogram; a worker sees at most 32 * 131,072 values.
type Half = Box<[u32; BINS]>;

/// All non-empty bins of one histogram in rising order.
#[derive(Clone, Default)]
struct Bins(Vec<(usize, u64)>);

impl Bins {
    fn merge(halves: &[&Half]) -> Bins {
        let mut sums = vec![0u64; BINS];
        for half in halves {
            for (sum, &n) in sums.iter_mut().zip(half.iter()) {
                *sum += n as u64;
            }
        }
        Bins(sums.into_iter().enumerate().filter(|&(_, n)| n > 0).collect())
    }

    fn count(&self) -> u64 {
        self.0.iter().map(|&(_, n)| n).sum()
    }

    /// Values of the bins that lie wholly at or below a doubled bound.
    fn at_most(&self, halves: u64) -> u64 {
        let below = |&&(i, _): &&(usize, u64)| {
            let largest = match bin_at(i) {
                (val, 0) => (val / 10) as u128,
                (val, exp) => (val as u128 + 1) * 10u128.pow(exp - 1) - 1,
            };
            2 * largest <= halves as u128
        };
        self.0.iter().take_while(below).map(|&(_, n)| n).sum()
    }

    /// The sum by bin middles, in twentieths.
    fn sum_twentieths(&self) -> u128 {
        let part = |&(i, n): &(usize, u64)| match bin_at(i) {
            (0, _) => 0,
            (val, exp) => (2 * val as u128 + 1) * 10u128.pow(exp) * n as u128,
        };
        self.0.iter().map(part).sum()
    }

    /// The quantile in thousandths, interpolated within its bin.
    fn quantile(&self, thousandths: u64) -> u128 {
        let rank = (thousandths * self.count()).div_ceil(1000);
        let mut before = 0;
        for &(i, n) in &self.0 {
            if before + n >= rank {
                let (val, exp) = bin_at(i);
                let width = if i == 0 { 0 } else { 100 * 10u128.pow(exp) };
                return val as u128 * width + width * (rank - before) as u128 / n as u128;
            }
            before += n;
        }
        0
    }
}

/// Prints a fixed-point number without final zeros.
fn put_decimal(out: &mut String, n: u128, unit: u128, digits: usize) {
    let _ = write!(out, "{}", n / unit);
    let rest = n % unit * 10u128.pow(digits as u32) / unit;
    if rest > 0 {
        let text = format!("{rest:0digits$}");
        let _ = write!(out, ".{}", text.trim_end_matches('0'));
    }
}

// ---- store

struct Metric {
    kind: Kind,
    name: String,
    text: String,
}

/// Scopes and names. Only opens, releases, text and first uses of a name come here.
struct Book {
    scopes: FastMap<Box<[u8]>>,
    metrics: Vec<Metric>,
    ids: [FastMap<u32>; 4],
    histograms: u32,
}

impl Book {
    fn new() -> Book {
        let mut scopes = FastMap::default();
        scopes.insert(b"root".as_slice().into(), [].into());
        Book { scopes, metrics: Vec::new(), ids: Default::default(), histograms: 0 }
    }

    fn find(&mut self, kind: Kind, key: &[u8]) -> Option<u32> {
        let (label, local) = cut(key)?;
        let prefix = self.scopes.get(label)?;
        let full = if prefix.is_empty() { local.to_vec() } else { [prefix, b".".as_slice(), local].concat() };
        if let Some(&id) = self.ids[kind as usize].get(full.as_slice()) {
            return Some(id);
        }
        if self.metrics.len() == MAX_METRICS || (kind == Kind::Histogram && self.histograms == MAX_HISTOGRAMS) {
            return None;
        }
        self.histograms += (kind == Kind::Histogram) as u32;
        let id = self.metrics.len() as u32;
        let name = String::from_utf8_lossy(&full).into_owned();
        self.metrics.push(Metric { kind, name, text: String::new() });
        self.ids[kind as usize].insert(full.into(), id);
        Some(id)
    }
}

/// The value words, one per metric.
trait Words {
    fn add(&self, id: u32, n: u64);
    fn set(&self, id: u32, n: u64);
    fn get(&self, id: u32) -> u64;
}

impl Words for Vec<Cell<u64>> {
    fn add(&self, id: u32, n: u64) { self.set(id, self.get(id).wrapping_add(n)) }
    fn set(&self, id: u32, n: u64) { self[id as usize].set(n) }
    fn get(&self, id: u32) -> u64 { self[id as usize].get() }
}

impl Words for Vec<AtomicU64> {
    fn add(&self, id: u32, n: u64) { self[id as usize].fetch_add(n, Relaxed); }
    fn set(&self, id: u32, n: u64) { self[id as usize].store(n, Relaxed) }
    fn get(&self, id: u32) -> u64 { self[id as usize].load(Relaxed) }
}

struct Store<W> {
    book: Mutex<Book>,
    /// Releases so far: a worker that sees a new number drops its cache.
    releases: AtomicU64,
    words: W,
}

impl<W: Words> Store<W> {
    fn new(words: W) -> Store<W> {
        Store { book: Mutex::new(Book::new()), releases: AtomicU64::new(0), words }
    }
}

struct Worker<'a, W> {
    store: &'a Store<W>,
    releases_seen: u64,
    cache: [FastMap<u32>; 4],
    halves: Vec<Option<Half>>,
}

impl<'a, W: Words> Worker<'a, W> {
    fn new(store: &'a Store<W>) -> Self {
        Worker { store, releases_seen: 0, cache: Default::default(), halves: Vec::new() }
    }

    fn find(&mut self, kind: Kind, key: &[u8]) -> Option<u32> {
        let cache = &mut self.cache[kind as usize];
        if let Some(&id) = cache.get(key) {
            return Some(id);
        }
        let id = self.store.book.lock().unwrap().find(kind, key)?;
        cache.insert(key.into(), id);
        Some(id)
    }

    fn half(&mut self, id: u32) -> &mut Half {
        let id = id as usize;
        if id >= self.halves.len() {
            self.halves.resize(id + 1, None);
        }
        self.halves[id].get_or_insert_with(|| Box::new([0; BINS]))
    }

    /// Applies one event and tells whether it was accepted.
    fn apply(&mut self, event: &Event) -> bool {
        let releases = self.store.releases.load(Acquire);
        if releases != self.releases_seen {
            self.releases_seen = releases;
            self.cache.iter_mut().for_each(HashMap::clear);
        }
        match *event {
            Event::Inc { key, n } => {
                let Some(id) = self.find(Kind::Counter, key) else { return false };
                self.store.words.add(id, n);
            }
            Event::Gauge { key, set, n } => {
                let Some(id) = self.find(Kind::Gauge, key) else { return false };
                if set { self.store.words.set(id, n) } else { self.store.words.add(id, n) }
            }
            Event::Rec { key, v } => {
                let Some(id) = self.find(Kind::Histogram, key) else { return false };
                self.half(id)[bin_index(v)] += 1;
            }
            Event::Text { key, text } => {
                let Some(id) = self.find(Kind::Text, key) else { return false };
                self.store.book.lock().unwrap().metrics[id as usize].text = String::from_utf8_lossy(text).into_owned();
            }
            Event::Open { label, prefix } => {
                let scopes = &mut self.store.book.lock().unwrap().scopes;
                if scopes.contains_key(label) {
                    return false;
                }
                scopes.insert(label.into(), prefix.into());
            }
            Event::Release { label } => {
                let mut book = self.store.book.lock().unwrap();
                if book.scopes.remove(label).is_none() {
                    return false;
                }
                self.store.releases.fetch_add(1, Release);
            }
        }
        true
    }
}

// ---- files

#[derive(Default)]
struct FileEnd {
    accepted: u64,
    dropped: u64,
    /// Status and text of the fault that ended the file.
    fault: Option<(i32, String)>,
}

fn play<W: Words>(worker: &mut Worker<W>, path: &str) -> FileEnd {
    let mut end = FileEnd::default();
    let Ok(file) = File::open(path) else {
        end.fault = Some((4, ": not opened".into()));
        return end;
    };
    let mut bytes = Vec::with_capacity(file.metadata().map_or(0, |m| m.len().min(MAX_FILE as u64) as usize + 2));
    let failed = file.take(MAX_FILE as u64 + 1).read_to_end(&mut bytes).is_err();
    let too_big = bytes.len() > MAX_FILE;
    bytes.truncate(MAX_FILE);
    let mut rest = bytes.as_slice();
    for line_number in 1u64.. {
        let newline = rest.iter().position(|&b| b == b'\n');
        let line = &rest[..newline.unwrap_or(rest.len())];
        if line.len() > MAX_LINE {
            end.fault = Some((3, format!(" line {line_number}: line too long")));
            return end;
        }
        if newline.is_none() && (failed || too_big || line.is_empty()) {
            break;
        }
        if !line.is_empty() && line[0] != b'#' {
            let Some(event) = parse(line) else {
                end.fault = Some((3, format!(" line {line_number}: no event")));
                return end;
            };
            if end.accepted + end.dropped == MAX_EVENTS {
                end.fault = Some((3, ": too many events".into()));
                return end;
            }
            if worker.apply(&event) { end.accepted += 1 } else { end.dropped += 1 }
        }
        match newline {
            Some(at) => rest = &rest[at + 1..],
            None => break,
        }
    }
    if failed {
        end.fault = Some((4, ": read failed".into()));
    } else if too_big {
        end.fault = Some((3, ": too big".into()));
    }
    end
}

// ---- texts

/// What one flush shows: metrics by kind in byte order of names, words and merged bins by id.
struct View {
    metrics: Vec<Metric>,
    by_kind: [Vec<u32>; 4],
    words: Vec<u64>,
    bins: Vec<Bins>,
}

impl View {
    fn new<W: Words>(store: Store<W>, halves: Vec<Vec<Option<Half>>>) -> View {
        let metrics = store.book.into_inner().unwrap().metrics;
        let mut by_kind: [Vec<u32>; 4] = Default::default();
        let mut bins = vec![Bins::default(); metrics.len()];
        for (id, metric) in metrics.iter().enumerate() {
            by_kind[metric.kind as usize].push(id as u32);
            if metric.kind == Kind::Histogram {
                let parts: Vec<&Half> = halves.iter().filter_map(|h| h.get(id)?.as_ref()).collect();
                bins[id] = Bins::merge(&parts);
            }
        }
        for ids in &mut by_kind {
            ids.sort_unstable_by_key(|&id| &metrics[id as usize].name);
        }
        let words = (0..metrics.len() as u32).map(|id| store.words.get(id)).collect();
        View { metrics, by_kind, words, bins }
    }

    fn rows(&self, kind: Kind) -> impl Iterator<Item = (usize, &Metric)> {
        self.by_kind[kind as usize].iter().map(|&id| (id as usize, &self.metrics[id as usize]))
    }

    fn statsd(&self, out: &mut String) {
        for (id, m) in self.rows(Kind::Counter).filter(|&(id, _)| self.words[id] > 0) {
            let _ = writeln!(out, "envoy.{}:{}|c", m.name.replace([':', '|'], "_"), self.words[id]);
        }
        for (id, m) in self.rows(Kind::Gauge) {
            let _ = writeln!(out, "envoy.{}:{}|g", m.name.replace([':', '|'], "_"), self.words[id] as i64);
        }
    }

    fn prom(&self, out: &mut String) {
        let mut rows: Vec<(String, Kind, &str, String, usize)> = Vec::new();
        for kind in [Kind::Counter, Kind::Gauge, Kind::Histogram] {
            for (id, m) in self.rows(kind) {
                let (extracted, tags) = extract_tags(&m.name);
                rows.push((format!("envoy_{}", prom_name(&extracted)), kind, &m.name, tags, id));
            }
        }
        rows.sort_unstable();
        let mut group = None;
        for (name, kind, _, tags, id) in &rows {
            if group != Some((name, kind)) {
                let word = ["counter", "gauge", "histogram"][*kind as usize];
                let _ = writeln!(out, "# TYPE {name} {word}");
                group = Some((name, kind));
            }
            let _ = match kind {
                Kind::Counter => writeln!(out, "{name}{{{tags}}} {}", self.words[*id]),
                Kind::Gauge => writeln!(out, "{name}{{{tags}}} {}", self.words[*id] as i64),
                _ => {
                    put_prom_histogram(out, name, tags, &self.bins[*id]);
                    Ok(())
                }
            };
        }
    }

    fn admin(&self, out: &mut String) {
        for (_, m) in self.rows(Kind::Text) {
            let _ = writeln!(out, "{}: \"{}\"", m.name, m.text);
        }
        let mut rows: Vec<_> = self.rows(Kind::Counter).chain(self.rows(Kind::Gauge)).collect();
        rows.sort_unstable_by_key(|&(_, m)| (&m.name, m.kind));
        for (id, m) in rows {
            let _ = match m.kind {
                Kind::Counter => writeln!(out, "{}: {}", m.name, self.words[id]),
                _ => writeln!(out, "{}: {}", m.name, self.words[id] as i64),
            };
        }
        for (id, m) in self.rows(Kind::Histogram) {
            let _ = write!(out, "{}:", m.name);
            for (label, thousandths) in QUANTILES {
                // There is one flush, so its interval is the whole run.
                let value = self.bins[id].quantile(thousandths);
                let _ = write!(out, " {label}(");
                put_decimal(out, value, 1000, 3);
                out.push(',');
                put_decimal(out, value, 1000, 3);
                out.push(')');
            }
            out.push('\n');
        }
    }
}

fn prom_name(text: &str) -> String {
    text.replace(|c: char| !c.is_ascii_alphanumeric() && c != '_', "_")
}

fn put_prom_histogram(out: &mut String, name: &str, tags: &str, bins: &Bins) {
    let comma = if tags.is_empty() { "" } else { "," };
    for halves in BOUNDS {
        let _ = write!(out, "{name}_bucket{{{tags}{comma}le=\"");
        put_decimal(out, halves as u128, 2, 1);
        let _ = writeln!(out, "\"}} {}", bins.at_most(halves));
    }
    let count = bins.count();
    let _ = write!(out, "{name}_bucket{{{tags}{comma}le=\"+Inf\"}} {count}\n{name}_sum{{{tags}}} ");
    put_decimal(out, bins.sum_twentieths(), 20, 2);
    let _ = writeln!(out, "\n{name}_count{{{tags}}} {count}");
}

/// The four default tag rules by hand: the extracted name, and the tags as Prometheus text.
fn extract_tags(name: &str) -> (String, String) {
    let mut tags = String::new();
    let mut tag = |key: &str, value: &str| {
        let comma = if tags.is_empty() { "" } else { "," };
        let value = value.replace('\\', "\\\\").replace('"', "\\\"");
        let _ = write!(tags, "{comma}{key}=\"{value}\"");
    };
    let (mut head, mut tail, mut end) = (String::new(), name, "");
    let tail_code = name.len().checked_sub(7).and_then(|at| Some((at, name[at..].strip_prefix("_rq_")?.as_bytes())));
    match tail_code {
        Some((at, code)) if code.iter().all(u8::is_ascii_digit) => {
            tag("envoy_response_code", &name[at + 4..]);
            tail = &name[..at + 3];
        }
        Some((at, code)) if code[0].is_ascii_digit() && &code[1..] == b"xx" => {
            tag("envoy_response_code_class", &name[at + 4..at + 5]);
            tail = &name[..at + 4];
            end = "xx";
        }
        _ => {}
    }
    for (first, key) in [("cluster.", "envoy_cluster_name"), ("http.", "envoy_http_conn_manager_prefix")] {
        if let Some((value, rest)) = name.strip_prefix(first).and_then(|rest| rest.split_once('.')) {
            tag(key, value);
            head.push_str(first);
            tail = &tail[name.len() - rest.len()..];
        }
    }
    (head + tail + end, tags)
}

// ---- main

enum Job {
    File(String),
    Load { script: u64, events: u64 },
}

impl Job {
    fn play<W: Words>(&self, worker: &mut Worker<W>) -> FileEnd {
        match self {
            Job::File(path) => play(worker, path),
            Job::Load { script, events } => extra::play_load(worker, *script, *events),
        }
    }
}

/// Plays all jobs, by one worker or with a worker and a thread for each.
fn play_all(threads: bool, jobs: &[Job]) -> (Vec<FileEnd>, View) {
    if !threads {
        let store = Store::new(vec![Cell::new(0); MAX_METRICS]);
        let mut worker = Worker::new(&store);
        let ends = jobs.iter().map(|job| job.play(&mut worker)).collect();
        let halves = vec![worker.halves];
        return (ends, View::new(store, halves));
    }
    let store = Store::new((0..MAX_METRICS).map(|_| AtomicU64::new(0)).collect::<Vec<_>>());
    let (ends, halves) = thread::scope(|scope| {
        let start = |job| {
            let mut worker = Worker::new(&store);
            scope.spawn(move || (Job::play(job, &mut worker), worker.halves))
        };
        let handles: Vec<_> = jobs.iter().map(start).collect();
        handles.into_iter().map(|h| h.join().unwrap()).unzip()
    });
    (ends, View::new(store, halves))
}

fn files(threads: bool, words: &[String]) -> Option<i32> {
    let (format, words) = match words {
        [option, format, rest @ ..] if option == "--format" => (format.as_str(), rest),
        _ => ("statsd", words),
    };
    let (boot, paths) = words.split_first()?;
    let bad_path = |p: &String| p.is_empty() || p.starts_with('-');
    if !["statsd", "prom", "admin"].contains(&format) || boot != "-" || !(1..=32).contains(&paths.len()) || paths.iter().any(bad_path) {
        return None;
    }
    let jobs: Vec<_> = paths.iter().cloned().map(Job::File).collect();
    let (ends, view) = play_all(threads, &jobs);
    let mut out = String::from("# last\n");
    match format {
        "prom" => view.prom(&mut out),
        "admin" => view.admin(&mut out),
        _ => view.statsd(&mut out),
    }
    let mut status = 0;
    for (i, end) in ends.iter().enumerate() {
        let w = i + 1;
        let _ = writeln!(out, "# worker {w}: {} accepted, {} dropped", end.accepted, end.dropped);
        if let Some((code, text)) = &end.fault {
            status = if status == 0 { *code } else { status };
            eprintln!("file {w}{text}");
        }
    }
    Some(write_out(&out, status))
}

fn write_out(out: &str, status: i32) -> i32 {
    if std::io::stdout().lock().write_all(out.as_bytes()).is_ok() {
        return status;
    }
    eprintln!("write failed");
    5
}

fn main() {
    let words: Vec<String> = std::env::args().skip(1).collect();
    let status = match words.split_first() {
        Some((verb, rest)) if verb == "replay" => files(false, rest),
        Some((verb, rest)) if verb == "run" => files(true, rest),
        Some((verb, rest)) if verb == "load" => extra::load(rest),
        Some((verb, rest)) if verb == "bins" => extra::bins(rest),
        Some((verb, _)) if verb == "micro" => extra::micro(),
        _ => None,
    };
    exit(status.unwrap_or_else(|| {
        eprintln!("{USAGE}");
        1
    }));
}
