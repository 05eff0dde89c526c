#!/usr/bin/env python3
"""rounds.py [awake] [ROUNDS [WORKERS..]]: what flushes and readings beside its workers cost a run.

usage: bench/run/rounds.py [awake] [ROUNDS [WORKERS..]]    at the top of the repository, once `rt run` in
                                                            crates/run_bench has built the program

Runs `run_bench` with 64 flushes and 64 readings and with none in turn, 9 rounds and 1 and 4 workers where nothing else is
said, with 131,072 events a worker that lie in memory. The time is that of the call `run_files`: no file is read from
disk, and nothing is written. `same` are workers that count under the same names, `own` each under its own. A pair is two
runs one behind the other, the first of them now with rounds, now without: its ratio sees the same load of the machine,
which is told before and after. Where there are fewer processors than threads, rounds take them from workers.

A worker wakes the flusher once a round. With the word `awake` no processor sleeps, and so none has to be woken by the
host of a virtual machine: on each there is a process of the idle class, which gives way to all others (`awake.c`; it
needs a C compiler). It may slow the other thread of its core.
"""
import contextlib
import os
import re
import statistics
import subprocess
import sys
import tempfile
from pathlib import Path

HERE = Path(__file__).resolve().parent
PROGRAM = HERE.parents[1] / "crates/run_bench/out/run_bench"
EVENTS, MOST, GOAL = 131_072, 64, 1.1


def names_of(own):
    return "own" if own else "same"


def run(workers, rounds, own):
    """Milliseconds of one run, which made what it was asked for."""
    words = [str(PROGRAM), str(workers), str(rounds), str(rounds)] + own
    text = subprocess.run(words, check=True, capture_output=True, text=True).stdout
    made = f"{names_of(own)} names: {workers * EVENTS} events, {rounds} flushes, {rounds} readings\n"
    told = re.fullmatch(re.escape(made) + r"run: (\d+) ns\n", text)
    if told is None:
        sys.exit(f"{' '.join(words)}: {text}")
    return int(told.group(1)) / 1e6


def pair(workers, own, number):
    """A run with rounds and one without."""
    if number % 2:
        without = run(workers, 0, own)
        return run(workers, MOST, own), without
    return run(workers, MOST, own), run(workers, 0, own)


def told(name, times):
    return f"{name}: least {min(times):.1f} ms, median {statistics.median(times):.1f} ms"


def measure(workers, own, rounds):
    run(workers, MOST, own)
    pairs = [pair(workers, own, number) for number in range(rounds)]
    beside, alone = zip(*pairs)
    leasts = min(beside) / min(alone)
    middle = statistics.median(a / b for a, b in pairs)
    print(f"{workers} workers, {names_of(own)} names")
    print("  " + told(f"{MOST} flushes and {MOST} readings", beside))
    print("  " + told("none", alone))
    print(f"  ratio of the leasts {leasts:.3f}{'' if leasts <= GOAL else f'   above {GOAL}'}, "
          f"median of the pairs' ratios {middle:.3f}", flush=True)


@contextlib.contextmanager
def awake():
    """While no processor that this may use sleeps."""
    with tempfile.TemporaryDirectory() as place:
        program = str(Path(place) / "awake")
        subprocess.run(["cc", "-O1", "-o", program, str(HERE / "awake.c")], check=True)
        ones = [subprocess.Popen([program, str(number)]) for number in os.sched_getaffinity(0)]
        try:
            yield
        finally:
            for one in ones:
                one.kill()
                one.wait()


def main():
    words = sys.argv[1:]
    keeps = words[:1] == ["awake"]
    numbers = [int(word) for word in words[keeps:]]
    rounds, counts = (numbers or [9])[0], numbers[1:] or [1, 4]
    before = os.getloadavg()[0]
    with awake() if keeps else contextlib.nullcontext():
        for workers in counts:
            for own in ([], ["own"]):
                measure(workers, own, rounds)
    print(f"load {before:.1f} to {os.getloadavg()[0]:.1f}, {os.cpu_count()} processors"
          f"{' kept awake' if keeps else ''}, {rounds} rounds")


main()
