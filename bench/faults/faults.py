#!/usr/bin/env python3
"""faults.py PROGRAM: one fault at every place.

It runs `replay --symbols` over two scopes that share a counter, with each allocation, opening, read and write to
standard output failing in turn, and looks at the status, at standard output, which has to be nothing, the whole output
or a front of it, and at standard error. It needs a C compiler, and Linux for LD_PRELOAD.
"""
import collections
import os
import subprocess
import sys
import tempfile

HERE = os.path.dirname(os.path.abspath(__file__))
EVENTS = b"open p cluster.c\nopen q cluster.c.\ninc p n 1\ninc q n 2\nrelease p\ninc q n 4\n"
BOOT = b'{"stats_run":{"scopes":[{"label":"web","prefix":"http.web."}]}}'
WHOLE = (b"# last\nenvoy.cluster.c.n:7|c\n# symbols\ncluster.c.n counter - 03010203 1=cluster 2=c 3=n\n"
         b"# worker 1: 6 accepted, 0 dropped\n")
# The statuses that a fault of a kind may have, besides 0 where the call that fails is not the program's own.
STATUSES = {"alloc": {6}, "open": {4}, "read": {4}, "write": {5}}


def run(program, shim, words, kind, at):
    """Status, standard output and standard error, and whether the call failed: there may be fewer."""
    seen = shim + ".seen"
    env = dict(os.environ, LD_PRELOAD=shim, FAIL_KIND=kind, FAIL_AT=str(at), FAIL_SEEN=seen)
    done = subprocess.run([program] + words, env=env, capture_output=True)
    failed = os.path.exists(seen)
    if failed:
        os.remove(seen)
    return done.returncode, done.stdout, done.stderr, failed


def main():
    program = os.path.abspath(sys.argv[1])
    wrong = 0
    with tempfile.TemporaryDirectory() as place:
        shim = os.path.join(place, "fail.so")
        subprocess.run(["cc", "-shared", "-fPIC", "-O1", "-o", shim, os.path.join(HERE, "fail.c"), "-ldl"], check=True)
        for name, content in (("f", EVENTS), ("b", BOOT)):
            with open(os.path.join(place, name), "wb") as file:
                file.write(content)
        words = ["replay", "--symbols", os.path.join(place, "b"), os.path.join(place, "f")]
        for kind, allowed in STATUSES.items():
            seen = collections.Counter()
            unfailed = 0
            at = 0
            while unfailed < 3:
                status, out, err, failed = run(program, shim, words, kind, at)
                whole = status == 0 and out == WHOLE and err == b""
                front = status in allowed and WHOLE.startswith(out) and err
                # A file that could not be opened or read leaves the output without its events.
                empty = status == 4 and out in (b"", b"# last\n# symbols\n# worker 1: 0 accepted, 0 dropped\n")
                if not (whole or front or empty):
                    wrong += 1
                    print(f"wrong: {kind} {at}: status {status}, {out!r}, {err!r}")
                seen[status, err.decode(errors="replace").strip()] += 1
                unfailed = 0 if failed else unfailed + 1
                at += 1
            told = ", ".join(f"{n} times status {s} ({e})" if s else f"{n} times status 0" for (s, e), n in seen.items())
            print(f"{kind}: {told}")
    sys.exit(min(wrong, 100))


if __name__ == "__main__":
    main()
