#!/usr/bin/env python3
"""refusals.py PROGRAM [TESTS NAME..]: each request for memory refused in turn.

PROGRAM is the built program. It replays six events over two scopes that share a counter, and it runs two files with a
flush and a reading. TESTS is a built program of tests (`rt test` in a crate leaves it as `out/CRATE_tests`), and each
NAME one of its tests, as `rt test` prints it. In each run one request for memory is refused, the first one in the first
run, until so many runs in a row had no refusal.

A run ends as it would have without the refusal, or with want of memory: status 6 and a front of the output, or a test
that gives this error. Whatever else comes is wrong, a run that does not end too. The tests whose names begin with
`goes_on` give a refused event again or pass it over, so some of their runs go on to the end of the store; where none
does, that is wrong. A line for each subject tells how many runs there were, in how many a request was refused, and in
how many of these want of memory was told. The status is the number of wrong runs. It needs a C compiler, and Linux for
LD_PRELOAD.

The native build asks the C library for each block that the program asks for. `rt try --test --fail-alloc N` refuses the
same requests of a build with checks, one number a build, which takes a minute or two.
"""
import collections
import os
import re
import subprocess
import sys
import tempfile
from pathlib import Path

from faults import BOOT, EVENTS, WHOLE

HERE = Path(__file__).resolve().parent
LONGEST = 30  # seconds that a run may take
QUIET = 5  # runs in a row without a refusal, behind which there is none
ROUNDS = b'{"stats_run":{"scopes":[{"label":"web","prefix":"http.web."}],"flushes":1,"flush_every":2,"reads":1}}'
FILES = [b"inc web a 1\nrec web h 7\nopen s p\ninc s c 2\nrelease s\n", b"add web g acc 3\ntext web t x\nrec web h 9\n"]
# What the last lines of the run are, and the units of its counters over all flushes, whatever the flush and the reading
# among the events came to.
LAST = re.compile(rb"\nenvoy\.http\.web\.g:3\|g\n# read 1: [0-2] counters, [0-3] units\n"
                  rb"# worker 1: 5 accepted, 0 dropped\n# worker 2: 3 accepted, 0 dropped\n\Z")
UNITS = {b"envoy.http.web.a": 1, b"envoy.p.c": 2}


def replay_ended(status, out, err):
    if status == 0:
        return "whole" if out == WHOLE and not err else "wrong"
    return "refused" if status == 6 and err == b"out of memory\n" and WHOLE.startswith(out) else "wrong"


def units_in(out):
    """The units of each counter in a text, over all its flushes."""
    sums = collections.Counter()
    for name, units in re.findall(rb"^([^#:\n]+):(\d+)\|c$", out, re.M):
        sums[name] += int(units)
    return sums


def run_ended(status, out, err):
    if status == 0:
        whole = out.startswith(b"# flush 1\n") and LAST.search(out) and units_in(out) == UNITS
        return "whole" if whole and not err else "wrong"
    few = all(units <= UNITS.get(name, -1) for name, units in units_in(out).items())
    front = not out or out.startswith(b"# flush 1\n") and few
    return "refused" if status == 6 and err == b"out of memory\n" and front else "wrong"


def test_ended(status, out, err):
    if status == 0:
        return "whole"
    # A test gives the error. One that stops, as where it looks at what came of its calls, told something else.
    told = re.search(rb"^error: .*\b(NoMemory|AllocFailed|AllocError)\b", err, re.M)
    return "refused" if status == 101 and told else "wrong"


def refuse_each(name, words, ended, place, shim):
    """One subject: gives how many of its runs were wrong."""
    counts, refusals, at, quiet = {"whole": 0, "refused": 0, "wrong": 0}, 0, 0, 0
    went_on, seen = 0, os.path.join(place, "seen")
    while quiet < QUIET:
        env = dict(os.environ, LD_PRELOAD=shim, FAIL_KIND="alloc", FAIL_AT=str(at), FAIL_SEEN=seen)
        try:
            done = subprocess.run(words, cwd=place, env=env, capture_output=True, timeout=LONGEST)
            told = done.returncode, done.stdout, done.stderr
        except subprocess.TimeoutExpired:
            told = -1, b"", b"not done"
        how, refused = ended(*told), os.path.exists(seen)
        if how == "wrong" or how == "refused" and not refused:
            how = "wrong"
            print("wrong: %s, request %d: status %d, %r, %r" % (name, at, told[0], told[1][-100:], told[2][-200:]))
        counts[how] += 1
        if refused:
            os.remove(seen)
            refusals += 1
            went_on += how == "whole"
        quiet = 0 if refused else quiet + 1
        at += 1
    print("%s: %d runs, a request refused in %d: want of memory told in %d, went on to the end in %d, wrong %d"
          % (name, at, refusals, counts["refused"], went_on, counts["wrong"]), flush=True)
    if "goes_on" in name and went_on == 0:
        print("wrong: %s never went on" % name)
        return counts["wrong"] + 1
    return counts["wrong"]


def main():
    program, tests = os.path.abspath(sys.argv[1]), sys.argv[2:]
    wrong = 0
    with tempfile.TemporaryDirectory() as place:
        shim = os.path.join(place, "fail.so")
        subprocess.run(["cc", "-shared", "-fPIC", "-O1", "-o", shim, str(HERE / "fail.c"), "-ldl"], check=True)
        for name, content in (("f", EVENTS), ("b", BOOT), ("rounds", ROUNDS), ("f1", FILES[0]), ("f2", FILES[1])):
            Path(place, name).write_bytes(content)
        replay = [program, "replay", "--symbols", "b", "f"]
        wrong += refuse_each("replay of two scopes that share a counter", replay, replay_ended, place, shim)
        run = [program, "run", "rounds", "f1", "f2"]
        wrong += refuse_each("run of two files", run, run_ended, place, shim)
        for name in tests[1:]:
            words = [os.path.abspath(tests[0]), name]
            wrong += refuse_each(name, words, test_ended, place, shim)
    sys.exit(min(wrong, 100))


if __name__ == "__main__":
    main()
