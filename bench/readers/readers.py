#!/usr/bin/env python3
"""readers.py [FILE..]: other programs read what this one writes.

FILE is an output in the format `prom` or `statsd`, which its name ends in; without one, each such file of `examples/`
is read. A Prometheus text goes to `promtool check metrics` and to the parser of the Python client, by the Python that
runs this script or by /usr/bin/python3. A StatsD text goes to a parser of this script, of the lines `NAME:V|c`,
`NAME:V|g` and `NAME:V|ms`. Debian has the first two in its packages `prometheus` and `python3-prometheus-client`.

It prints a line for each reader and file, and one for each reader that is not there. Each reader is first given texts
that it must refuse. The status is 1 where a reader refused a file or took one of those texts, and else 0.

What counts as refused, and what does not:

- An output has a text for each flush, and each is given on its own, as a scrape has one. All in one would have a second
  `# TYPE` line for a name, which promtool refuses.
- promtool ends with 1 where it cannot read a text, and with 3 where it can and its lint has remarks: on a metric that
  has no `# HELP` line, on a counter whose name does not end in `_total`, on a unit such as `ms` in a name. The names
  are those of the events, and the format asks for no help, so 3 is no refusal; the line tells how many remarks there
  were.
- The client must find as many samples as there are lines that are no comments.
- A StatsD server knows no comments: the lines that begin with `#` are passed over here, and whoever sends the others on
  leaves them out too.
"""
import re
import shutil
import subprocess
import sys
from pathlib import Path

EXAMPLES = Path(__file__).resolve().parents[2] / "examples"
CLIENT = """import sys
from prometheus_client.parser import text_string_to_metric_families as families
print(sum(len(family.samples) for family in families(sys.stdin.read())))
"""
STATSD = re.compile(r"[!-~]+:-?[0-9]+\|(c|g|ms)")
SYMBOL = "shop.pay.waiting gauge acc 03010405 1=shop 4=pay 5=waiting\n"
BROKEN = {
    "prom": [SYMBOL, "# TYPE envoy_a counter\nenvoy_a{} one\n", "# TYPE envoy_a counter\nenvoy_a{b=\"c} 1\n"],
    "statsd": [SYMBOL, "envoy.a:one|c\n", "envoy.a:1\n", "envoy.a:1|\n"],
}


def samples(text):
    return [line for line in text.split("\n") if line and not line.startswith("#")]


def promtool(text):
    """Why the text is refused, or None, and what else there is to tell."""
    done = subprocess.run(["promtool", "check", "metrics"], input=text, text=True, capture_output=True)
    told = done.stderr.splitlines()
    if done.returncode in (0, 3):
        return None, "%d remarks" % len(told)
    return " ".join(told) or "status %d" % done.returncode, ""


def client_of(python):
    """The client's parser, by that Python; what it answers is as `promtool`'s."""
    def client(text):
        done = subprocess.run([python, "-c", CLIENT], input=text, text=True, capture_output=True)
        if done.returncode:
            return (done.stderr.splitlines() or ["status %d" % done.returncode])[-1], ""
        if int(done.stdout) != len(samples(text)):
            return "%d samples of %d lines" % (int(done.stdout), len(samples(text))), ""
        return None, "%d samples" % int(done.stdout)
    return client


def statsd(text):
    for line in samples(text):
        if not STATSD.fullmatch(line):
            return "no line of StatsD: " + line, ""
    return None, "%d lines" % len(samples(text))


def readers():
    """Each reader as its name, the ending of what it reads, and how it reads; None where it is not there."""
    has = promtool if shutil.which("promtool") else None
    pythons = [python for python in (sys.executable, "/usr/bin/python3") if shutil.which(python) and not subprocess.run(
        [python, "-c", "import prometheus_client"], stderr=subprocess.DEVNULL).returncode]
    return [("promtool", "prom", has), ("the Python client", "prom", client_of(pythons[0]) if pythons else None),
            ("the parser for StatsD", "statsd", statsd)]


def texts_of(output):
    """The texts of an output, one for each flush."""
    return [text for text in re.split(r"(?m)^(?=# (?:flush [0-9]+|last)$)", output) if text]


def main(names):
    files = [Path(name) for name in names] or sorted([*EXAMPLES.glob("*.prom"), *EXAMPLES.glob("*.statsd")])
    if any(file.suffix[1:] not in BROKEN for file in files):
        sys.exit("usage: readers.py [FILE.prom|FILE.statsd ..]")
    wrong = 0
    for name, ending, read in readers():
        if not read:
            print("not there: %s" % name)
            continue
        taken = [text for text in BROKEN[ending] if read(text)[0] is None]
        for text in taken:
            print("WRONG: %s takes %r" % (name, text))
        wrong += len(taken)
        for file in files:
            if file.suffix != "." + ending:
                continue
            texts = texts_of(file.read_bytes().decode())
            found = [read(text) for text in texts]
            refused = [why for why, _ in found if why is not None]
            if refused:
                print("WRONG: %s refuses %s: %s" % (name, file.name, refused[0]))
                wrong += 1
            else:
                print("ok: %s reads %s: %s" % (name, file.name, ", ".join(told for _, told in found)))
    return 1 if wrong else 0


if __name__ == "__main__":
    sys.exit(main(sys.argv[1:]))
