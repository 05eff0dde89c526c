#!/usr/bin/env python3
"""Runs the words' benchmark and the plain Rust program in turn, and prints nanoseconds per call and their ratio.

usage: bench/words/compare.py [ROUNDS]      at the top of the repository, with `rt` and `cargo` on the path

Both programs print a line "NAME: X ns" per measure when they are given the word `time`. Each figure is the least time of all rounds.
The first ratio is that of the least times, and the second the median of the rounds' ratios, since the two programs of one round ran one
after the other. Where threads contend the median tells more: the least time is that of a round in which a thread had to wait. What only
the plain program measures stands at the end.
"""
import re
import statistics
import subprocess
import sys
from pathlib import Path

TOP = Path(__file__).resolve().parents[2]
OURS = TOP / "crates/threads_bench/out/threads_bench"
PLAIN = TOP / "bench/words/target/release/words"
LIMIT = 1.2


def build():
    subprocess.run(["rt", "run"], cwd=TOP / "crates/threads_bench", check=True, capture_output=True)
    subprocess.run(["cargo", "build", "--release", "--quiet", "--offline"], cwd=TOP / "bench/words", check=True)


def measure(program, word):
    text = subprocess.run([str(program), word], check=True, capture_output=True, text=True).stdout
    return {name: float(ns) for name, ns in re.findall(r"^(.*): ([0-9.]+) ns$", text, re.M)}


def main():
    rounds = int(sys.argv[1]) if len(sys.argv) > 1 else 9
    build()
    ours, plain = [], []
    for _ in range(rounds):
        ours.append(measure(OURS, "words"))
        plain.append(measure(PLAIN, "time"))
    print(f"{'measure':40} {'words':>11} {'plain Rust':>11} {'least':>6} {'median':>6}")
    for name in ours[0]:
        a = min(o[name] for o in ours)
        b = min(p[name] for p in plain)
        median = statistics.median(o[name] / p[name] for o, p in zip(ours, plain))
        print(f"{name:40} {a:8.2f} ns {b:8.2f} ns {a / b:6.2f} {median:6.2f}" + ("" if median <= LIMIT else f"   above {LIMIT}"))
    for name in plain[0].keys() - ours[0].keys():
        print(f"{name:40} {'':11} {min(p[name] for p in plain):8.2f} ns")


if __name__ == "__main__":
    main()
