#!/usr/bin/env python3
"""calls.py [ROUNDS]: what the calls of a store that threads share cost.

usage: bench/run/calls.py [ROUNDS]      at the top of the repository, with `cargo` and `valgrind` on the path, once
                                         `rt ci store_bench` or `rt run` has built crates/store_bench

Runs `store_bench` and the plain atomic adds of bench/words in turn. Times are the least of the rounds. A ratio is that of
two measures of one round: the least of the rounds, and the median in brackets. Instructions of a call are the difference
of two runs by the calls that one has more, and so is its processor time, which tells more than the clock where other
programs keep threads from their processors: the load of the machine before and after is told.
"""
import os
import re
import statistics
import subprocess
import sys
from pathlib import Path

TOP = Path(__file__).resolve().parents[2]
OURS = TOP / "crates/store_bench/out/store_bench"
PLAIN = TOP / "bench/words/target/release/words"
# The most rounds of a measure, and the calls of one thread in a round.
TIMED, CALLS = 130, 8000
KINDS = ("counter", "gauge", "histogram", "poll", "event")
SHARED = "add, four threads on one counter"
GOALS = {"counter": 45, "poll": 6}
THREADS = {"counter": 1, "counter-2": 2, "counter-4": 4, "event-4": 4, "event-4-beside": 4}
RATIOS = (
    ("two threads on two counters, to one", "counter-2", "counter", 1.2),
    ("four threads on four counters, to one", "counter-4", "counter", 1.2),
    ("four threads on one counter, to two plain adds", "counter-4-shared", SHARED, 1.2),
    ("four threads with a flusher and a reader, to without", "event-4-beside", "event-4", 1.1),
)


def figures(words):
    text = subprocess.run(words, check=True, capture_output=True, text=True).stdout
    return {name: float(ns) for name, ns in re.findall(r"^(.*): ([0-9.]+) ns$", text, re.M)}


def plain_adds():
    """The adds come first; the rest of that program is not waited for."""
    with subprocess.Popen([str(PLAIN), "time"], stdout=subprocess.PIPE, stderr=subprocess.DEVNULL, text=True) as child:
        for line in child.stdout:
            if line.startswith(SHARED):
                child.kill()
                return {SHARED: float(line.split()[-2])}


def instructions(kind, rounds):
    words = ["valgrind", "--tool=callgrind", "--callgrind-out-file=/dev/null", str(OURS), str(rounds), kind]
    said = subprocess.run(words, check=True, stdout=subprocess.DEVNULL, stderr=subprocess.PIPE).stderr
    return int(re.search(rb"Collected : (\d+)", said).group(1))


def processor(name):
    """Nanoseconds of processor time of a call, of all threads of the run together."""
    def used(rounds):
        child = subprocess.Popen([str(OURS), str(rounds), name], stdout=subprocess.DEVNULL)
        usage = os.wait4(child.pid, 0)[2]
        child.returncode = 0
        return usage.ru_utime + usage.ru_stime
    return (used(TIMED) - used(2)) / ((TIMED - 2) * CALLS * THREADS[name]) * 1e9


def told(goal, value):
    return "" if value <= goal else f"   above {goal}"


def main():
    rounds = int(sys.argv[1]) if len(sys.argv) > 1 else 9
    subprocess.run(["cargo", "build", "--release", "--quiet", "--offline"], cwd=TOP / "bench/words", check=True)
    before = os.getloadavg()[0]
    runs, spent = [], []
    for _ in range(rounds):
        runs.append(figures([str(OURS), str(TIMED)]) | plain_adds())
        spent.append({name: processor(name) for name in THREADS})
    print(f"load {before:.1f} to {os.getloadavg()[0]:.1f}, {os.cpu_count()} processors, {rounds} rounds")
    for name in runs[0]:
        least = min(run[name] for run in runs)
        print(f"{name}: {least:.2f} ns{told(GOALS.get(name, least), least)}")
    for name, ours, other, goal in RATIOS:
        each = [run[ours] / run[other] for run in runs]
        print(f"{name}: {min(each):.2f} ({statistics.median(each):.2f}){told(goal, min(each))}")
    for name in THREADS:
        each = [one[name] for one in spent]
        print(f"processor time, {name}: {min(each):.2f} ({statistics.median(each):.2f}) ns")
    for kind in KINDS:
        count = (instructions(kind, 12) - instructions(kind, 2)) / (10 * CALLS)
        print(f"{kind}: {count:.0f} instructions{told(300, count)}")


main()
