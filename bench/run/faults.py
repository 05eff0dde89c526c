#!/usr/bin/env python3
"""Runs the program over files with faults, with few threads or none, and with one call of the system failing at every
place.

usage: faults.py PROGRAM

Each run has three workers, two flushes and two readings. It looks at the status, at standard error and at standard
output, and that each run ends. But for the first part it needs a C compiler, and Linux for LD_PRELOAD, as
`bench/faults` does.
"""
import collections
import json
import os
import re
import subprocess
import sys
import tempfile
from pathlib import Path

from checks import check
from model import Model

HERE = Path(__file__).resolve().parent
BOOT = {"stats_run": {"scopes": [{"label": "web", "prefix": "http.web."}], "flushes": 2, "flush_every": 2, "reads": 2}}
EVENTS = ["inc web c.n 1", "open mine%d cluster.c", "inc mine%d c.n 2", "rec web h.v 12", "add web g.sum acc 3",
          "release mine%d", "inc web c.n 4"]
USUAL = [[line.replace("%d", str(worker)) for line in EVENTS] for worker in (1, 2, 3)]
ASKED = {"format": "statsd", "symbols": True, "flushes": 2, "reads": 2, "prefix": "envoy"}
LONGEST = 30  # seconds that a run may take
# The statuses that a failing call of a kind may have, besides 0 where it is not the program's own.
STATUSES = {"alloc": {6}, "open": {4}, "read": {4}, "write": {5}}


def prepare(place, scripts, boot=BOOT):
    """Writes the files of these lines; None is a file that is not there, and `dir` a directory."""
    for worker, script in enumerate(scripts, 1):
        path = os.path.join(place, "f%d" % worker)
        if script == "dir":
            os.mkdir(path)
        elif script is not None:
            Path(path).write_text("".join(line + "\n" for line in script))
    Path(place, "boot").write_text(boot if isinstance(boot, str) else json.dumps(boot))


def run(program, place, files, out=subprocess.PIPE, **more):
    words = [program, "run", "--symbols", "boot"] + ["f%d" % (worker + 1) for worker in range(files)]
    env = dict(os.environ, **more)
    try:
        done = subprocess.run(words, cwd=place, stdout=out, stderr=subprocess.PIPE, env=env, timeout=LONGEST)
    except subprocess.TimeoutExpired:
        return -1, "", "not done after %d s" % LONGEST
    return done.returncode, (done.stdout or b"").decode(), done.stderr.decode()


def case(program, what, scripts, counted, status, said, boot=BOOT, out=subprocess.PIPE):
    """One run over files with faults; `counted` are the lines that are events of each file, or None where nothing may
    be written. Gives whether it is wrong."""
    with tempfile.TemporaryDirectory() as place:
        prepare(place, scripts, boot)
        got = run(program, place, len(scripts), out)
    faults = []
    if got[0] != status:
        faults.append("status %d, and not %d" % (got[0], status))
    if not re.fullmatch(said, got[2]):
        faults.append("said %r" % got[2])
    if counted is None:
        faults += ["wrote %r" % got[1][:60]] if got[1] else []
    else:
        faults += check(Model(BOOT, counted), ASKED, got[1])
    print("%s: %s" % ("wrong" if faults else "ok", what) + "".join("; " + fault for fault in faults[:3]))
    return bool(faults)


def cases(program):
    one, two, three = USUAL
    long_line = "# " + "x" * 1023
    wrong = 0
    wrong += case(program, "no fault", USUAL, USUAL, 0, "")
    wrong += case(program, "a file that is not there", [one, None, three], [one, [], three], 4, "file 2: not opened\n")
    wrong += case(program, "a directory", ["dir", two, three], [[], two, three], 4,
                  "file 1: (not opened|read failed)\n")
    wrong += case(program, "no event in line 2", [one, two[:1] + ["inc web"] + two, three], [one, two[:1], three], 3,
                  "file 2 line 2: no event\n")
    wrong += case(program, "a line that is too long", [one, two, [long_line] + three], [one, two, []], 3,
                  "file 3 line 1: line too long\n")
    wrong += case(program, "two files with a fault", [one[:3] + ["?"], two, None], [one[:3], two, []], 3,
                  "file 1 line 4: no event\nfile 3: not opened\n")
    wrong += case(program, "no file is there", [None, None, None], [[], [], []], 4,
                  "".join("file %d: not opened\n" % worker for worker in (1, 2, 3)))
    wrong += case(program, "a bootstrap that is no JSON", USUAL, None, 2, "boot: not json\n", boot="{")
    with open("/dev/full", "wb") as full:
        wrong += case(program, "a full device", USUAL, None, 5, "write failed\n", out=full)
    return wrong


def is_right(kind, status, out, err):
    """Whether a run in which one call failed may have ended so."""
    model = Model(BOOT, USUAL)
    if status == 0:
        return not err and not check(model, ASKED, out)
    if status not in STATUSES[kind] or not err:
        return False
    if kind in ("open", "read") and out:
        # A file that could not be opened has no events; one that could not be read on has those that were read, all in
        # the first read or none.
        missing = {int(number) for number in re.findall(r"file (\d+): (?:not opened|read failed)", err)}
        scripts = [[] if worker in missing else script for worker, script in enumerate(USUAL, 1)]
        read = kind == "read" and not check(model, ASKED, out)
        return read or not check(Model(BOOT, scripts), ASKED, out)
    return out == "" or out.startswith("# ")


def compile_shim(place, source):
    """A library that is loaded before the program."""
    shim = os.path.join(place, source.stem + ".so")
    subprocess.run(["cc", "-shared", "-fPIC", "-O1", "-o", shim, str(source), "-ldl"], check=True)
    return shim


def few_threads(program):
    """So many threads can be made, from none on: the output is that of some order."""
    wrong = 0
    with tempfile.TemporaryDirectory() as place:
        shim = compile_shim(place, HERE / "threads.c")
        prepare(place, USUAL)
        for most in range(6):
            got = run(program, place, 3, LD_PRELOAD=shim, THREADS_AT_MOST=str(most))
            faults = check(Model(BOOT, USUAL), ASKED, got[1]) if got[0] == 0 else ["status %d, %r" % (got[0], got[2])]
            told = "".join("; " + what for what in faults[:3])
            print("%s: at most %d threads%s" % ("wrong" if faults else "ok", most, told))
            wrong += bool(faults)
    return wrong


def every_place(program):
    """Each allocation, opening, read and write failing in turn, until in three runs in a row there is no such call."""
    wrong = 0
    with tempfile.TemporaryDirectory() as place:
        shim = compile_shim(place, HERE.parent / "faults" / "fail.c")
        prepare(place, USUAL)
        for kind in STATUSES:
            seen, at, unfailed = collections.Counter(), 0, 0
            while unfailed < 3:
                told = os.path.join(place, "seen")
                status, out, err = run(program, place, 3, LD_PRELOAD=shim, FAIL_KIND=kind, FAIL_AT=str(at),
                                       FAIL_SEEN=told)
                failed = os.path.exists(told)
                if failed:
                    os.remove(told)
                if not is_right(kind, status, out, err):
                    wrong += 1
                    print("wrong: %s %d: status %d, %r, %r" % (kind, at, status, out[:60], err))
                seen[status, err.strip()] += 1
                unfailed = 0 if failed else unfailed + 1
                at += 1
            print("%s: %s" % (kind, ", ".join("%d times status %d %s" % (n, *key) for key, n in seen.items())))
    return wrong


def main():
    program = os.path.abspath(sys.argv[1])
    wrong = cases(program) + few_threads(program) + every_place(program)
    sys.exit(min(wrong, 100))


if __name__ == "__main__":
    main()
