#!/usr/bin/env python3
"""loads.py PROGRAM [PLAIN]: what `load` and `load --run` write and cost.

PROGRAM is the built program. It writes the same bytes by `load W E` and by `load --run W E`, for some W and E; the first
wrong one is told, and the status is 1. PLAIN is another program that takes the same words; where it is given its bytes
are compared too, and both run in turn: instructions (by valgrind, of one load on one thread) and the least user and
wall time of some rounds, with the ratios. The number of processors is told, and the most memory of a load.
"""
import os
import re
import subprocess
import sys
import time

SAME = [(1, 1), (3, 1), (2, 1000), (32, 1), (7, 4096), (32, 10000)]
FULL = (32, 131072)
ROUNDS = 5


def written(program, words):
    done = subprocess.run([program, "load"] + words, stdout=subprocess.PIPE, stderr=subprocess.PIPE)
    if done.returncode or done.stderr:
        sys.exit("WRONG: %s load %s: status %d, %r" % (program, " ".join(words), done.returncode, done.stderr[:200]))
    return done.stdout


def compare(programs):
    for scripts, events in SAME + [FULL]:
        size = [str(scripts), str(events)]
        texts = [written(program, words) for program in programs for words in (size, ["--run"] + size)]
        if any(text != texts[0] for text in texts):
            sys.exit("WRONG: load %d %d: the texts differ" % (scripts, events))
        print("ok: load %d %d: %d bytes by each" % (scripts, events, len(texts[0])))


def instructions(words):
    done = subprocess.run(
        ["valgrind", "--tool=cachegrind", "--cache-sim=no", "--cachegrind-out-file=/dev/null"] + words,
        stdout=subprocess.DEVNULL, stderr=subprocess.PIPE, check=True)
    return int(re.search(rb"refs:\s+([\d,]+)", done.stderr).group(1).replace(b",", b""))


def once(words):
    """Wall and user time in ms, and the most memory in MB, of one run."""
    start = time.perf_counter()
    child = subprocess.Popen(words, stdout=subprocess.DEVNULL)
    _, status, used = os.wait4(child.pid, 0)
    wall = (time.perf_counter() - start) * 1000
    if status:
        sys.exit("WRONG: %s: status %d" % (" ".join(words), status))
    return wall, used.ru_utime * 1000, used.ru_maxrss / 1024


def measure(programs):
    size = [str(n) for n in FULL]
    kinds = {"load": ["load"] + size, "load --run": ["load", "--run"] + size}
    found = {(kind, program): [] for kind in kinds for program in programs}
    for _ in range(ROUNDS):
        for kind, words in kinds.items():
            for program in programs:
                found[kind, program].append(once([program] + words))
    for kind in kinds:
        least = [[min(run[part] for run in found[kind, program]) for part in (0, 1, 2)] for program in programs]
        told = "%s: wall %.0f ms, user %.0f ms, at most %.0f MB" % (kind, *least[0])
        if len(programs) > 1:
            told += "; plain %.0f, %.0f, %.0f; ratios %.2f and %.2f" % (
                *least[1], least[0][0] / least[1][0], least[0][1] / least[1][1])
        print(told)
    alone, beside = (min(run[0] for run in found[kind, programs[0]]) for kind in kinds)
    print("load --run takes %.2f of the wall time of load, on %d processors" % (beside / alone, os.cpu_count()))
    counted = [instructions([program, "load", "4", "131072"]) for program in programs]
    told = "load 4 131072: %.0f instructions an event" % (counted[0] / (4 * FULL[1]))
    if len(programs) > 1:
        told += "; plain %.0f; ratio %.2f" % (counted[1] / (4 * FULL[1]), counted[0] / counted[1])
    print(told)


def main():
    if len(sys.argv) not in (2, 3):
        sys.exit(__doc__.strip())
    compare(sys.argv[1:])
    measure(sys.argv[1:])


main()
