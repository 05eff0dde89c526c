#!/usr/bin/env python3
"""Runs the program over random files and looks at all that it writes.

usage: soak.py PROGRAM [RUNS [SEED]]       200 runs where none are said; each of 8 files with 20 flushes and 20 readings

Each run draws a bootstrap, files, a format, and whether symbols are asked for. A file is a plain one or a pipe, whose
text comes in pieces of random lengths, cut anywhere in its lines. Each run is replayed too. What the events come to is
told by `model.py`, which knows no threads; `checks.py` compares. A line says of each fault what was wrong, and where
its files are; the last line is what was done. The status is the number of runs with a fault, at most 100.
"""
import collections
import json
import os
import random
import re
import subprocess
import sys
import tempfile
import threading
import time

from checks import Output, check
from model import Model
from scripts import Script, boot_of

FILES, FLUSHES, READS = 8, 20, 20
LONGEST = 120  # seconds that a call may take
FORMATS = ["statsd", "prom", "admin"]


def write(place, name, text):
    with open(os.path.join(place, name), "w", encoding="ascii") as file:
        file.write(text)


def pour(rng, path, text):
    """Writes a text into a pipe, a piece at a time, until its reader goes away."""
    try:
        pipe = os.open(path, os.O_WRONLY)
        while text:
            size = rng.choice([1, 7, rng.randrange(1, 100), rng.randrange(1, 9000)])
            text = text[os.write(pipe, text[:size]):]
        os.close(pipe)
    except OSError:
        pass


def open_pipes(rng, place, piped):
    """Makes the pipes of these files, each with a thread that pours the file's text into it."""
    for name in piped:
        path = os.path.join(place, name + ".pipe")
        os.mkfifo(path)
        with open(os.path.join(place, name), "rb") as file:
            text = file.read()
        threading.Thread(target=pour, args=(random.Random(rng.random()), path, text), daemon=True).start()


def close_pipes(place, piped):
    """Lets a thread go whose pipe was not opened, and takes the pipes away."""
    for name in piped:
        path = os.path.join(place, name + ".pipe")
        os.close(os.open(path, os.O_RDONLY | os.O_NONBLOCK))
        os.remove(path)


def prepare(rng, place):
    """Writes a bootstrap and its files, and gives what they come to."""
    goes, quarrels = rng.random() < 0.6, rng.random() < 0.4
    most = rng.choice([3000, 3000, 3000, 15000])
    scripts = [Script(rng, worker, goes, quarrels).lines(rng.randrange(200, most)) for worker in range(1, FILES + 1)]
    boot = boot_of(rng, FLUSHES, READS, sum(map(len, scripts)))
    write(place, "boot", json.dumps(boot))
    for worker, script in enumerate(scripts, 1):
        write(place, "f%d" % worker, "".join(line + "\n" for line in script))
    return Model(boot, scripts)


def call(rng, program, place, words):
    files = ["f%d" % worker for worker in range(1, FILES + 1)]
    piped = [name for name in files if rng.random() < 0.3]
    names = ["boot"] + [name + ".pipe" if name in piped else name for name in files]
    open_pipes(rng, place, piped)
    try:
        done = subprocess.run([program] + words + names, cwd=place, capture_output=True, timeout=LONGEST)
    except subprocess.TimeoutExpired:
        return -1, "", "not done after %d s" % LONGEST
    finally:
        close_pipes(place, piped)
    return done.returncode, done.stdout.decode("ascii", "replace"), done.stderr.decode("ascii", "replace")


def faults_of(rng, program, place, model, command, fmt, symbols, tally):
    """What is wrong with one call."""
    words = [command] + (["--symbols"] if symbols else []) + ["--format", fmt]
    status, out, err = call(rng, program, place, words)
    wrong = ["status %d, %r" % (status, err)] if status or err else []
    runs = command == "run"
    asked = {"format": fmt, "symbols": symbols, "prefix": "soak",
             "flushes": FLUSHES if runs else 0, "reads": READS if runs else 0}
    wrong += check(model, asked, out)
    if runs and not wrong:
        count(out, tally)
    return wrong


def count(text, tally):
    """Counts the flushes and readings behind which one has more, since workers were at work when they came."""
    out = Output(text)
    for before, now in zip(out.flushes, out.flushes[1:-1]):
        news = [line for line in set(now) - set(before) if not re.search(r":0\|c$", line)]
        tally["flushes at work"] += bool(news)
    for before, now in zip(out.reads, out.reads[1:]):
        tally["readings at work"] += before != now


def main():
    program = os.path.abspath(sys.argv[1])
    runs = int(sys.argv[2]) if len(sys.argv) > 2 else 200
    seed = int(sys.argv[3]) if len(sys.argv) > 3 else 1
    bad, tally, began = 0, collections.Counter(), time.time()
    for run in range(runs):
        rng = random.Random(seed * 1_000_003 + run)
        place = tempfile.mkdtemp(prefix="soak")
        model = prepare(rng, place)
        fmt, symbols = rng.choice(FORMATS), rng.random() < 0.5
        wrong = []
        for command in ("run", "replay"):
            faults = faults_of(rng, program, place, model, command, fmt, symbols, tally)
            wrong += ["%s: %s" % (command, what) for what in faults]
        tally[fmt] += 1
        tally["events"] += sum(events for _, _, events in model.workers)
        for what in wrong[:5]:
            print("wrong: run %d, %s, %s" % (run, fmt, what))
        if wrong:
            bad += 1
            print("its files are in %s" % place)
        else:
            subprocess.run(["rm", "-r", place], check=True)
    whats = FORMATS + ["events", "flushes at work", "readings at work"]
    told = ", ".join("%d %s" % (tally[what], what) for what in whats)
    print("%d runs with %d faulty ones (%s) in %.0f s" % (runs, bad, told, time.time() - began))
    sys.exit(min(bad, 100))


if __name__ == "__main__":
    main()
