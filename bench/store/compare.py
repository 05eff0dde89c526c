#!/usr/bin/env python3
"""Runs the program and a plain Rust store over the same event files in turn, and prints figures of both and their ratios.

usage: bench/store/compare.py [ROUNDS]      at the top of the repository, with `cargo` and `valgrind` on the path, once the
                                             program was built by `./envoy_stats`

The plain program is what a user would write instead: the same event files and texts, without a bootstrap, symbols or a log.
Instructions of an event are half of what a file of 65,536 events takes more than one of 32,768 does, of a new name likewise.
User time and memory are medians of the rounds, over whole files of 131,072 events.
"""
import os
import re
import statistics
import subprocess
import sys
import tempfile
from pathlib import Path

TOP = Path(__file__).resolve().parents[2]
OURS = TOP / "crates/envoy_stats/out/envoy_stats"
PLAIN = TOP / "bench/store/target/release/store"
FULL = 131_072


def numbers(script):
    """A linear congruential generator, a run of its own for each script."""
    word = script
    while True:
        word = (6364136223846793005 * word + 1442695040888963407) % 2**64
        yield word >> 33


def increments(count, script=1, width=4):
    """Increments of 512 counters whose names have at least so many bytes."""
    for _, r in zip(range(count), numbers(script)):
        yield "inc root %s %d" % (("c%d" % ((r >> 2) % 512)).ljust(width, "x"), (r >> 11) % 1000)


def mix(count, script=1):
    """Half increments, a quarter values of 16 histograms, a quarter moves of one gauge."""
    for _, r in zip(range(count), numbers(script)):
        i, j, kind = r >> 2, r >> 11, r & 3
        if kind < 2:
            yield "inc root c%d %d" % (i % 512, j % 1000)
        elif kind == 2:
            yield "rec root h%d %d" % (i % 16, j % 100000)
        else:
            yield "add root g%d acc %d" % (script, j % 1000)


def names(count):
    """As many counters of 40 bytes, once each."""
    return ("inc root %s 1" % ("name_%d" % (i * 7919 % 16384)).ljust(40, "x") for i in range(count))


def comings(count):
    """One scope opened, used and released again and again."""
    for i in range(count // 4):
        yield from ("open s p%d" % (i % 100), "inc s a 1", "inc s b 1", "release s")


def written(folder, name, lines):
    path = os.path.join(folder, name)
    with open(path, "w") as out:
        out.writelines(line + "\n" for line in lines)
    return path


def instructions(program, files):
    words = ["valgrind", "--tool=cachegrind", "--cache-sim=no", "--cachegrind-out-file=/dev/null", str(program), "replay", "-", *files]
    said = subprocess.run(words, stdout=subprocess.DEVNULL, stderr=subprocess.PIPE, check=True).stderr
    return int(re.search(rb"I\s+refs:\s+([\d,]+)", said).group(1).replace(b",", b""))


def count(folder, name, lines, most):
    few, many = (written(folder, "lines%d" % n, lines(n)) for n in (most // 2, most))
    ours, plain = ((instructions(it, [many]) - instructions(it, [few])) * 2 / most for it in (OURS, PLAIN))
    print(f"{name}: {ours:.0f} instructions, plain {plain:.0f}, ratio {ours / plain:.2f}", flush=True)


def one_run(program, files):
    """User seconds and most memory in kB of one run."""
    words = ["/usr/bin/time", "-q", "-f", "%U %M", str(program), "replay", "-", *files]
    said = subprocess.run(words, stdout=subprocess.DEVNULL, stderr=subprocess.PIPE, check=True).stderr.split()
    return float(said[-2]), int(said[-1])


def time_both(rounds, name, files):
    runs = [[one_run(it, files) for it in (OURS, PLAIN)] for _ in range(rounds)]
    seconds, memory = ([[statistics.median(run[k][part] for run in runs) for k in (0, 1)] for part in (0, 1)])
    print(f"{name}: user {seconds[0]:.2f} s, plain {seconds[1]:.2f} s, ratio {seconds[0] / max(seconds[1], 0.01):.2f}; "
          f"memory {memory[0]} kB, plain {memory[1]} kB", flush=True)


def main():
    rounds = int(sys.argv[1]) if len(sys.argv) > 1 else 7
    if not OURS.exists():
        sys.exit("build the program first: ./envoy_stats bins 7")
    subprocess.run(["cargo", "build", "--release", "--quiet", "--offline"], cwd=TOP / "bench/store", check=True)
    with tempfile.TemporaryDirectory() as folder:
        for width in (4, 10, 25, 40):
            count(folder, "an increment, names of %d bytes" % width, lambda n: increments(n, width=width), 65_536)
        count(folder, "an event of the mix", mix, 65_536)
        count(folder, "a new name of 40 bytes", names, 8_192)
        count(folder, "a line of an opening, two increments and a release", comings, 65_536)
        for name, lines in (("increments", increments), ("mix", mix)):
            files = [written(folder, f"{name}{k}", lines(FULL, k)) for k in range(1, 33)]
            for n in (1, 4, 32):
                time_both(rounds, f"{name}, {n} files", files[:n])


if __name__ == "__main__":
    main()
