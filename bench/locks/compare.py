#!/usr/bin/env python3
"""Runs the lock's benchmark and the plain Rust program in turn, and prints nanoseconds per call and their ratio.

usage: bench/locks/compare.py [ROUNDS] [cpu]      at the top of the repository, with `rt` and `cargo` on the path

Both programs print a line "NAME: X ns" per measure when they are given their word. Each figure is the least time of all rounds.
The first ratio is that of the least times, and the second the median of the rounds' ratios, since the two programs of one round ran one
after the other. Where threads contend the median tells more: the least time is that of a round in which a thread had to wait. What only
the plain program measures stands at the end.

With the word `cpu` both programs are told the processor time of all their threads in place of the time of day, so that the figures say
something on a machine that is busy with other work. A thread that sleeps takes none, and one that spins does. This needs `cc`.
"""
import os
import re
import statistics
import subprocess
import sys
import tempfile
from pathlib import Path

TOP = Path(__file__).resolve().parents[2]
OURS = TOP / "crates/threads_bench/out/threads_bench"
PLAIN = TOP / "bench/locks/target/release/locks"
LIMIT = {"releases": 1.2}
OTHERS = 2.0

# Stands before the C library's clock, which both programs ask.
PROCESSOR_CLOCK = """
#define _GNU_SOURCE
#include <time.h>
#include <unistd.h>
#include <sys/syscall.h>
int clock_gettime(clockid_t clock, struct timespec *time) { return syscall(SYS_clock_gettime, CLOCK_PROCESS_CPUTIME_ID, time); }
"""


def build():
    subprocess.run(["rt", "run"], cwd=TOP / "crates/threads_bench", check=True, capture_output=True)
    subprocess.run(["cargo", "build", "--release", "--quiet", "--offline"], cwd=TOP / "bench/locks", check=True)


def processor_clock(folder):
    source, library = Path(folder) / "clock.c", Path(folder) / "clock.so"
    source.write_text(PROCESSOR_CLOCK)
    subprocess.run(["cc", "-O2", "-shared", "-fPIC", "-o", str(library), str(source)], check=True)
    return {**os.environ, "LD_PRELOAD": str(library)}


def measure(program, word, environment):
    text = subprocess.run([str(program), word], check=True, capture_output=True, text=True, env=environment).stdout
    return {name: float(ns) for name, ns in re.findall(r"^(.*): ([0-9.]+) ns$", text, re.M)}


def main():
    words = sys.argv[1:]
    rounds = int(next((word for word in words if word.isdigit()), 9))
    build()
    ours, plain = [], []
    with tempfile.TemporaryDirectory() as folder:
        environment = processor_clock(folder) if "cpu" in words else None
        for _ in range(rounds):
            ours.append(measure(OURS, "locks", environment))
            plain.append(measure(PLAIN, "time", environment))
    print(f"{'measure':40} {'lock':>11} {'plain Rust':>11} {'least':>6} {'median':>6}")
    for name in ours[0]:
        a = min(o[name] for o in ours)
        b = min(p[name] for p in plain)
        limit = LIMIT.get(name, OTHERS)
        median = statistics.median(o[name] / p[name] for o, p in zip(ours, plain))
        print(f"{name:40} {a:8.2f} ns {b:8.2f} ns {a / b:6.2f} {median:6.2f}" + ("" if median <= limit else f"   above {limit}"))
    for name in plain[0].keys() - ours[0].keys():
        print(f"{name:40} {'':11} {min(p[name] for p in plain):8.2f} ns")
    print(f"{rounds} rounds, load at the end {os.getloadavg()[0]:.1f}, {os.cpu_count()} processors")


if __name__ == "__main__":
    main()
