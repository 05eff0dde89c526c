//! The yardstick of the texts' benchmark: the same two views, and the same texts of them, as plain Rust would write them.

use std::env;
use std::fmt::Write;
use std::hint::black_box;
use std::time::Instant;

const COUNTERS: u32 = 16_384;
const HISTOGRAMS: u32 = 1_024;
const METRICS: u32 = 64;
const VALUES: u64 = 64;
/// Bounds of buckets, as twice their numbers.
const HALVES: [u64; 19] = [
    1, 2, 10, 20, 50, 100, 200, 500, 1_000, 2_000, 5_000, 10_000, 20_000, 60_000, 120_000, 600_000, 1_200_000,
    3_600_000, 7_200_000,
];
/// Label and thousandths of each quantile of the admin text.
const QUANTILES: [(&str, u64); 10] = [
    ("P0", 0), ("P25", 250), ("P50", 500), ("P75", 750), ("P90", 900), ("P95", 950), ("P99", 990), ("P99.5", 995),
    ("P99.9", 999), ("P100", 1000),
];

struct Tagged {
    extracted: String,
    tags: Vec<(String, String)>,
}

struct Counter {
    name: String,
    tagged: Tagged,
    total: u64,
}

/// Bins in rising order: two digits, an exponent and a count.
type Bins = Vec<(u8, i8, u64)>;

struct Histogram {
    name: String,
    tagged: Tagged,
    interval: Bins,
    cumulative: Bins,
    bounds: Vec<u64>,
}

fn name_of(i: u32) -> String {
    format!("cluster.service_{}.upstream_metric_{}_rq_200", i / METRICS, i % METRICS)
}

fn tagged_of(i: u32) -> Tagged {
    let tag = |name: &str, value: &str| (name.to_string(), value.to_string());
    Tagged {
        extracted: format!("cluster.upstream_metric_{}_rq", i % METRICS),
        tags: vec![
            tag("envoy.response_code", "200"),
            tag("envoy.cluster_name", &format!("service_{}", i / METRICS)),
            tag("region", "eu-1"),
        ],
    }
}

fn counter_of(i: u32) -> Counter {
    Counter { name: name_of(i), tagged: tagged_of(i), total: 7_919 * i as u64 }
}

fn bin_of(v: u64) -> (u8, i8) {
    match v {
        0 => (0, 0),
        1..=9 => (10 * v as u8, 0),
        _ => ((v / 10u64.pow(v.ilog10() - 1)) as u8, v.ilog10() as i8),
    }
}

fn bins_of(i: u32) -> Bins {
    let mut bins: Vec<(i8, u8)> = (0..VALUES).map(|k| bin_of(i as u64 + k * k * k)).map(|(val, exp)| (exp, val)).collect();
    bins.sort_unstable();
    bins.chunk_by(|a, b| a == b).map(|same| (same[0].1, same[0].0, same.len() as u64)).collect()
}

fn histogram_of(i: u32) -> Histogram {
    Histogram { name: name_of(i), tagged: tagged_of(i), interval: bins_of(i), cumulative: bins_of(i), bounds: HALVES.to_vec() }
}

fn count(bins: &Bins) -> u64 {
    bins.iter().map(|bin| bin.2).sum()
}

fn at_most(bins: &Bins, halves: u64) -> u64 {
    let below = |bin: &&(u8, i8, u64)| {
        let largest = match **bin {
            (val, 0, _) => val as u128 / 10,
            (val, exp, _) => (val as u128 + 1) * 10u128.pow(exp as u32 - 1) - 1,
        };
        2 * largest <= halves as u128
    };
    bins.iter().take_while(below).map(|bin| bin.2).sum()
}

fn sum_twentieths(bins: &Bins) -> u128 {
    let part = |&(val, exp, n): &(u8, i8, u64)| match val {
        0 => 0,
        _ => (2 * val as u128 + 1) * 10u128.pow(exp as u32) * n as u128,
    };
    bins.iter().map(part).sum()
}

fn quantile(bins: &Bins, thousandths: u64) -> u128 {
    let rank = (thousandths * count(bins)).div_ceil(1000);
    let mut before = 0;
    for &(val, exp, n) in bins {
        if before + n >= rank {
            let width = if val == 0 { 0 } else { 100 * 10u128.pow(exp as u32) };
            return val as u128 * width + width * (rank - before) as u128 / n as u128;
        }
        before += n;
    }
    0
}

/// A number of so many parts of a unit, without final zeros.
fn put_decimal(out: &mut String, n: u128, unit: u128, digits: usize) {
    let _ = write!(out, "{}", n / unit);
    let rest = n % unit * 10u128.pow(digits as u32) / unit;
    if rest > 0 {
        let text = format!("{rest:0digits$}");
        let _ = write!(out, ".{}", text.trim_end_matches('0'));
    }
}

fn printed(text: &str) -> String {
    text.replace(|c: char| !c.is_ascii_alphanumeric() && c != '_', "_")
}

fn label(name: &str) -> String {
    let printed = printed(name);
    if printed.starts_with(|c: char| c.is_ascii_digit()) { format!("_{printed}") } else { printed }
}

fn labels(tags: &[(String, String)]) -> String {
    let mut text = String::new();
    for (name, value) in tags {
        let comma = if text.is_empty() { "" } else { "," };
        let value = value.replace('\\', "\\\\").replace('"', "\\\"").replace('\n', "\\n");
        let _ = write!(text, "{comma}{}=\"{value}\"", label(name));
    }
    text
}

enum Row<'a> {
    Counter(&'a Counter),
    Histogram(&'a Histogram),
}

impl Row<'_> {
    fn tagged(&self) -> &Tagged {
        match self {
            Row::Counter(row) => &row.tagged,
            Row::Histogram(row) => &row.tagged,
        }
    }
    fn kind(&self) -> &'static str {
        match self {
            Row::Counter(_) => "counter",
            Row::Histogram(_) => "histogram",
        }
    }
}

fn put_histogram(out: &mut String, name: &str, tags: &str, row: &Histogram) {
    let comma = if tags.is_empty() { "" } else { "," };
    for &halves in &row.bounds {
        let _ = write!(out, "{name}_bucket{{{tags}{comma}le=\"");
        put_decimal(out, halves as u128, 2, 1);
        let _ = writeln!(out, "\"}} {}", at_most(&row.cumulative, halves));
    }
    let count = count(&row.cumulative);
    let _ = write!(out, "{name}_bucket{{{tags}{comma}le=\"+Inf\"}} {count}\n{name}_sum{{{tags}}} ");
    put_decimal(out, sum_twentieths(&row.cumulative), 20, 2);
    let _ = writeln!(out, "\n{name}_count{{{tags}}} {count}");
}

#[inline(never)]
fn prom(counters: &[Counter], histograms: &[Histogram]) -> String {
    let rows = counters.iter().map(Row::Counter).chain(histograms.iter().map(Row::Histogram));
    let mut rows: Vec<_> = rows.map(|row| (format!("envoy_{}", printed(&row.tagged().extracted)), row)).collect();
    rows.sort_by(|a, b| a.0.cmp(&b.0));
    let mut out = String::new();
    let mut before = None;
    for (name, row) in &rows {
        if before != Some((name, row.kind())) {
            let _ = writeln!(out, "# TYPE {name} {}", row.kind());
            before = Some((name, row.kind()));
        }
        let tags = labels(&row.tagged().tags);
        match row {
            Row::Counter(row) => _ = writeln!(out, "{name}{{{tags}}} {}", row.total),
            Row::Histogram(row) => put_histogram(&mut out, name, &tags, row),
        }
    }
    out
}

#[inline(never)]
fn admin(counters: &[Counter], histograms: &[Histogram]) -> String {
    let mut out = String::new();
    for row in counters {
        let _ = writeln!(out, "{}: {}", row.name, row.total);
    }
    for row in histograms {
        let _ = write!(out, "{}:", row.name);
        for (label, thousandths) in QUANTILES {
            let _ = write!(out, " {label}(");
            put_decimal(&mut out, quantile(&row.interval, thousandths), 1000, 3);
            out.push(',');
            put_decimal(&mut out, quantile(&row.cumulative, thousandths), 1000, 3);
            out.push(')');
        }
        out.push('\n');
    }
    out
}

fn main() {
    let times = env::args().nth(1).and_then(|word| word.parse().ok()).unwrap_or(1).max(1);
    let only = env::args().nth(2);
    let counters: Vec<_> = (0..COUNTERS).map(counter_of).collect();
    let histograms: Vec<_> = (0..HISTOGRAMS).map(histogram_of).collect();
    type Text = fn(&[Counter], &[Histogram]) -> String;
    let texts: [(&str, Text, &[Counter], &[Histogram]); 4] = [
        ("prom-counters", prom, &counters, &[]),
        ("prom-histograms", prom, &[], &histograms),
        ("admin-counters", admin, &counters, &[]),
        ("admin-histograms", admin, &[], &histograms),
    ];
    for (name, write, counters, histograms) in texts.into_iter().filter(|text| only.as_ref().is_none_or(|only| only == text.0)) {
        let start = Instant::now();
        let mut bytes = 0;
        for _ in 0..times {
            bytes = black_box(write(black_box(counters), black_box(histograms))).len();
        }
        println!("{name}: {bytes} bytes");
        if times > 1 {
            println!("{name}: {} us", start.elapsed().as_micros() / times);
        }
    }
}
