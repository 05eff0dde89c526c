#!/usr/bin/env python3
"""Runs the cell's benchmark and the plain Rust program in turn, and prints nanoseconds per call and their ratio.

usage: bench/turns/compare.py [ROUNDS]      at the top of the repository, with `rt` and `cargo` on the path

Each measure is a run of its own: both programs print a line "NAME: X ns" when they are given its word. Wall time is what that line says;
user time is what the system counted for the whole run, and tells more where other programs run beside. Each figure is the least of all
rounds. What only the plain program measures stands at the end.
"""
import os
import re
import subprocess
import sys
from pathlib import Path

TOP = Path(__file__).resolve().parents[2]
OURS = TOP / "crates/threads_bench/out/threads_bench"
PLAIN = TOP / "bench/turns/target/release/turns"
POLLS, ROUNDS = 100_000_000, 4_000_000
SHARED = {"asked": POLLS, "exchange": ROUNDS}
PLAIN_ONLY = {"bare": POLLS, "phase": ROUNDS}
LIMIT = {"asked": 1.2}


def build():
    subprocess.run(["rt", "run"], cwd=TOP / "crates/threads_bench", check=True, capture_output=True)
    subprocess.run(["cargo", "build", "--release", "--quiet", "--offline"], cwd=TOP / "bench/turns", check=True)


def measure(program, word, times):
    """The name of the measure, and nanoseconds per call by the clock and of user time."""
    child = subprocess.Popen([str(program), word], stdout=subprocess.PIPE, text=True)
    text = child.stdout.read()
    _, status, usage = os.wait4(child.pid, 0)
    child.returncode = os.waitstatus_to_exitcode(status)
    if child.returncode != 0:
        sys.exit(f"{program} {word}: status {child.returncode}")
    name, wall = re.fullmatch(r"(.*): ([0-9.]+) ns\n", text).groups()
    return name, float(wall), usage.ru_utime * 1e9 / times


def main():
    rounds = int(sys.argv[1]) if len(sys.argv) > 1 else 9
    build()
    ours = {word: [] for word in SHARED}
    plain = {word: [] for word in SHARED | PLAIN_ONLY}
    for _ in range(rounds):
        for word, times in SHARED.items():
            ours[word].append(measure(OURS, word, times))
        for word, times in (SHARED | PLAIN_ONLY).items():
            plain[word].append(measure(PLAIN, word, times))
    print(f"load {os.getloadavg()[0]:.1f}, {os.cpu_count()} processors, least of {rounds} rounds")
    for at, kind in ((2, "user time"), (1, "wall time")):
        print(f"{kind:40} {'cell':>11} {'plain Rust':>11} {'ratio':>6}")
        for word in SHARED:
            a, b = min(o[at] for o in ours[word]), min(p[at] for p in plain[word])
            limit = LIMIT.get(word)
            above = f"   above {limit}" if limit and a / b > limit else ""
            print(f"{ours[word][0][0]:40} {a:8.2f} ns {b:8.2f} ns {a / b:6.2f}{above}")
        for word in PLAIN_ONLY:
            print(f"{plain[word][0][0]:40} {'':11} {min(p[at] for p in plain[word]):8.2f} ns")


if __name__ == "__main__":
    main()
