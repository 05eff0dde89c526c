#!/usr/bin/env python3
"""Runs the texts' benchmark and the plain Rust program in turn, and prints time and instructions of each text and their ratios.

usage: bench/texts/compare.py [ROUNDS]      at the top of the repository, with `rt`, `cargo` and `valgrind` on the path

The first word of both programs says how often a text is written, and the second one, if any, which text. Each time is the least of all
rounds. The instructions of a text are half of what writing it three times takes more than writing it once.
"""
import re
import subprocess
import sys
import tempfile
from pathlib import Path

TOP = Path(__file__).resolve().parents[2]
OURS = TOP / "crates/texts_bench/out/texts_bench"
PLAIN = TOP / "bench/texts/target/release/texts"
LIMIT = 1.2


def build():
    subprocess.run(["rt", "run"], cwd=TOP / "crates/texts_bench", check=True, capture_output=True)
    subprocess.run(["cargo", "build", "--release", "--quiet", "--offline"], cwd=TOP / "bench/texts", check=True)


def measure(program, unit):
    text = subprocess.run([str(program), "20"], check=True, capture_output=True, text=True).stdout
    return {name: int(n) for name, n in re.findall(rf"^(.*): ([0-9]+) {unit}$", text, re.M)}


def run_counted(program, times, name):
    with tempfile.NamedTemporaryFile() as out:
        command = ["valgrind", "--tool=callgrind", f"--callgrind-out-file={out.name}", str(program), str(times), name]
        subprocess.run(command, check=True, capture_output=True)
        return int(re.search(r"^summary: ([0-9]+)", Path(out.name).read_text(), re.M).group(1))


def instructions(program, name):
    return (run_counted(program, 3, name) - run_counted(program, 1, name)) // 2


def main():
    build()
    if measure(OURS, "bytes") != measure(PLAIN, "bytes"):
        sys.exit("the texts differ in length")
    ours, plain = [], []
    for _ in range(int(sys.argv[1]) if len(sys.argv) > 1 else 5):
        ours.append(measure(OURS, "us"))
        plain.append(measure(PLAIN, "us"))
    print(f"{'text':18} {'ours':>9} {'plain Rust':>11} {'ratio':>6}   {'instructions':>12} {'plain Rust':>12} {'ratio':>6}")
    for name in ours[0]:
        a, b = min(o[name] for o in ours), min(p[name] for p in plain)
        i, k = instructions(OURS, name), instructions(PLAIN, name)
        above = "" if i / k <= LIMIT else f"   above {LIMIT}"
        print(f"{name:18} {a:6} us {b:8} us {a / b:6.2f}   {i:12} {k:12} {i / k:6.2f}{above}")


if __name__ == "__main__":
    main()
