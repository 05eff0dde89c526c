#!/usr/bin/env python3
"""figures.py PROGRAM [PLAIN]: what an event costs in `run` and in `replay`.

PROGRAM is the built program. PLAIN is another one that takes `run|replay - FILE..`; the two run in turn on the same
files, and the figures of PLAIN come beside, with the ratio. Instructions are counted by valgrind, as the difference of
two files, so what a start and the first event of each name cost is left out. Times are the least of nine rounds.
"""
import json
import os
import re
import subprocess
import sys
import tempfile
import time

FULL = 131072
ROUNDS = 9


def mixed(seed, count, own, histograms=16):
    """Half increments of 512 counters, a quarter values of some histograms, a quarter moves of one gauge."""
    x = seed
    for _ in range(count):
        x = (6364136223846793005 * x + 1442695040888963407) % 2**64
        r = x >> 33
        i, j, kind = r >> 2, r >> 11, r & 3
        if kind < 2:
            yield "inc root c%d%s %d" % (i % 512, own, j % 1000)
        elif kind == 2:
            yield "rec root h%d%s %d" % (i % histograms, own, j % 100000)
        else:
            yield "add root g%d acc %d" % (seed, j % 1000)


KINDS = {
    "inc": lambda i: "inc root upstream_rq_total.%06d %d" % (i * 7919 % 512, i % 1000),
    "gauge": lambda i: "add root upstream_rq_active%05d acc %d" % (i * 7919 % 512, i % 1000),
    "rec": lambda i: "rec root upstream_rq_time_%06d %d" % (i * 7919 % 16, i * 37 % 100000),
}


def write(folder, name, lines):
    path = os.path.join(folder, name)
    with open(path, "w") as out:
        out.writelines(line + "\n" for line in lines)
    return path


def instructions(words):
    done = subprocess.run(
        ["valgrind", "--tool=cachegrind", "--cache-sim=no", "--cachegrind-out-file=/dev/null"] + words,
        stdout=subprocess.DEVNULL, stderr=subprocess.PIPE, check=True)
    return int(re.search(rb"refs:\s+([\d,]+)", done.stderr).group(1).replace(b",", b""))


def once(words):
    """Wall, user and system time in ms, and the most memory in MB, of one run."""
    start = time.perf_counter()
    # GNU time tells the memory of its child: a child forked from here would begin with that of this script.
    child = subprocess.Popen(["/usr/bin/time", "-q", "-f", "%M"] + words,
                             stdout=subprocess.DEVNULL, stderr=subprocess.PIPE)
    said = child.stderr.read()
    _, status, used = os.wait4(child.pid, 0)
    child.returncode = os.waitstatus_to_exitcode(status)
    if child.returncode:
        sys.exit("%s: status %d" % (" ".join(words[:3]), child.returncode))
    wall = (time.perf_counter() - start) * 1e3
    return wall, used.ru_utime * 1e3, used.ru_stime * 1e3, int(said.split()[-1]) / 1024


def first_byte(words):
    """Wall time in ms until the first byte of the output, which is written once all files were read and counted."""
    start = time.perf_counter()
    child = subprocess.Popen(words, stdout=subprocess.PIPE, stderr=subprocess.DEVNULL)
    os.read(child.stdout.fileno(), 1)
    wall = (time.perf_counter() - start) * 1e3
    while os.read(child.stdout.fileno(), 1 << 20):
        pass
    if child.wait():
        sys.exit("%s: status %d" % (" ".join(words[:3]), child.returncode))
    return wall


def least(commands):
    """The least of each figure of each command, which run in turn."""
    rounds = [[once(words) for words in commands] for _ in range(ROUNDS)]
    return [[min(row[at][k] for row in rounds) for k in range(4)] for at in range(len(commands))]


def by_kind(folder, programs):
    """Instructions of an event of each kind in one file, and user time of 1, 4 and 32 files of that kind."""
    for kind, line in KINDS.items():
        short, long = (write(folder, kind + str(n), map(line, range(n))) for n in (FULL // 8, FULL // 4))
        for verb in ("run", "replay"):
            counts = [(instructions([p, verb, "-", long]) - instructions([p, verb, "-", short])) / (FULL // 8)
                      for p in programs]
            print("instructions, %s, %s:" % (verb, kind), " to ".join("%.0f" % c for c in counts), flush=True)
        files = [write(folder, "%s%d" % (kind, w), map(line, range(w, w + FULL))) for w in range(32)]
        for count in (1, 4, 32):
            users = [row[1] for row in least([[p, "run", "-"] + files[:count] for p in programs])]
            print("user time, %d files, %s:" % (count, kind), " to ".join("%.0f ms" % u for u in users), flush=True)


def paced(folder, name, **run):
    """A bootstrap with flushes and readings of the run."""
    return write(folder, name, [json.dumps({"stats_run": run})])


def of_many(folder, programs):
    """Instructions of 1, 4 and 32 files of 16,384 events and of full ones, and memory where 64 histograms are warm in
    each worker: in the half that it fills alone, where there is no flush, and in both, where there are four."""
    for events in (FULL // 8, FULL):
        files = [write(folder, "of%d" % w, mixed(w, events, "")) for w in range(1, 33)]
        for count in (1, 4, 32):
            counts = [instructions([p, "run", "-"] + files[:count]) for p in programs]
            said = " to ".join("%.1f million" % (c / 1e6) for c in counts)
            print("instructions, %d files of %d events: %s" % (count, events, said), flush=True)
    warm = [write(folder, "warm%d" % w, mixed(w, FULL, "", 64)) for w in range(1, 33)]
    turned = paced(folder, "turned", flushes=4, flush_every=32 * FULL // 5)
    rows = least([[p, "run", "-"] + warm for p in programs] + [[programs[0], "run", turned] + warm])
    print("32 files, 64 histograms:", "; ".join(map(told, rows[:-1])), "; with four flushes", told(rows[-1]), flush=True)


def of_processes(program, files):
    """Wall time in ms of a process for each file, all at once: the least of the rounds."""
    times = []
    for _ in range(ROUNDS):
        start = time.perf_counter()
        children = [subprocess.Popen([program, "run", "-", file], stdout=subprocess.DEVNULL) for file in files]
        if any([child.wait() for child in children]):
            sys.exit("a process failed")
        times.append((time.perf_counter() - start) * 1e3)
    return min(times)


def told(figures):
    """The figures, with the processors that the run got."""
    wall, user, system, _ = figures
    return "wall %.0f ms, user %.0f ms, system %.0f ms, %.1f MB, %.1f processors" % (*figures, (user + system) / wall)


def main():
    if len(sys.argv) not in (2, 3):
        sys.exit(__doc__)
    programs = sys.argv[1:]
    print("load %.1f of %d processors" % (os.getloadavg()[0], os.cpu_count()))
    with tempfile.TemporaryDirectory() as folder:
        by_kind(folder, programs)
        of_many(folder, programs)
        same = [write(folder, "same%d" % w, mixed(w, FULL, "")) for w in range(1, 33)]
        apart = [write(folder, "apart%d" % w, mixed(w, FULL, "w%d" % w)) for w in range(1, 5)]
        for count in (1, 4, 32):
            rows = least([[p, "run", "-"] + same[:count] for p in programs])
            print("%d files: %s" % (count, "; ".join(map(told, rows))))
            if len(rows) == 2:
                print("  ratios: " + ", ".join("%.2f" % (a / max(b, 1)) for a, b in zip(*rows)), flush=True)
        for name, files in (("the same 512 names", same[:4]), ("differing names", apart)):
            run, replay = least([[programs[0], verb, "-"] + files for verb in ("run", "replay")])
            print("4 files of %s, run beside replay: %s; %s; wall %.2f" % (name, told(run), told(replay), run[0] / replay[0]))
        one, four = least([[programs[0], "run", "-"] + apart[:count] for count in (1, 4)])
        print("4 files, %s; beside 1 of them, %s: wall %.2f, user %.2f"
              % (told(four), told(one), four[0] / one[0], four[1] / one[1]))
        alone, together = (of_processes(programs[0], apart[:count]) for count in (1, 4))
        print("4 processes of a file each beside 1 of them: wall %.2f" % (together / alone))
        rounds = paced(folder, "paced", flushes=64, flush_every=4 * FULL // 64, reads=64)
        for name, files in (("the same 512 names", same[:4]), ("differing names", apart)):
            none, many = least([[programs[0], "run", boot] + files for boot in ("-", rounds)])
            print("4 files of %s, 64 flushes and 64 readings: %s; beside none: wall %.2f, user %.2f"
                  % (name, told(many), many[0] / none[0], many[1] / none[1]), flush=True)
            before = [min(first_byte([programs[0], "run", boot] + files) for _ in range(ROUNDS)) for boot in ("-", rounds)]
            print("  until the first byte of the output: %.1f ms, %.1f ms, %.2f" % (*before, before[1] / before[0]), flush=True)
    print("load %.1f" % os.getloadavg()[0])


main()
