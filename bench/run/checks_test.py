#!/usr/bin/env python3
"""Tries `checks.py`: the outputs in `examples/`, and those of a plain store whose threads take turns at random, pass,
and outputs that were changed do not.

usage: checks_test.py
"""
import collections
import json
import random
import re
import sys
from pathlib import Path

from checks import QUANTILES, check, printed
from model import Model, bins_of, given_prefix, largest, quantile_text, signed, sum_text
from scripts import Script, boot_of

EXAMPLES = Path(__file__).resolve().parents[2] / "examples"
KINDS = {"inc": "counter", "rec": "histogram", "text": "text"}


class Store:
    """A store in which no metric is ever gone. It applies one event at a time."""

    def __init__(self, model):
        self.model, self.scopes, self.metrics = model, dict(model.configured), {}
        self.flushed = collections.Counter()
        self.numbers = {}

    def apply(self, words):
        kind, label = words[:2]
        if kind == "open":
            return label not in self.scopes and self.scopes.setdefault(label, given_prefix(words[2])) is not None
        if kind == "release":
            return self.scopes.pop(label, None) is not None
        if label not in self.scopes:
            return False
        name = (self.scopes[label] + "." if self.scopes[label] else "") + words[2]
        if not self.model.admits(name):
            return False
        key = KINDS.get(kind, "gauge"), name
        for token in name.split("."):
            self.numbers.setdefault(token, len(self.numbers) + 1)
        if kind == "rec":
            self.metrics.setdefault(key, []).append(int(words[3]))
        elif kind == "text":
            self.metrics[key] = words[3]
        elif kind == "inc":
            self.metrics[key] = self.metrics.get(key, 0) + int(words[3])
        else:
            n = int(words[4])
            self.metrics[key] = n if kind == "set" else self.metrics.get(key, 0) + (n if kind == "add" else -n)
        return True

    def rows(self, kind):
        return sorted((name, value) for (of, name), value in self.metrics.items() if of == kind)

    def statsd(self):
        text = ""
        for name, value in self.rows("counter"):
            if value:
                text += "soak.%s:%d|c\n" % (name, value - self.flushed[name])
            self.flushed[name] = value
        return text + "".join("soak.%s:%d|g\n" % (name, signed(value)) for name, value in self.rows("gauge"))

    def prom(self):
        text = ""
        for name, value in self.rows("counter"):
            text += "# TYPE %s counter\n%s{} %d\n" % (printed(name), printed(name), value)
        for name, value in self.rows("gauge"):
            text += "# TYPE %s gauge\n%s{} %d\n" % (printed(name), printed(name), signed(value))
        for name, values in self.rows("histogram"):
            text += "# TYPE %s histogram\n" % printed(name)
            for bound in ("10", "1000", "100000"):
                at_most = sum(n for of, n in bins_of(values) if largest(of) <= int(bound))
                text += '%s_bucket{le="%s"} %d\n' % (printed(name), bound, at_most)
            text += '%s_bucket{le="+Inf"} %d\n' % (printed(name), len(values))
            text += "%s_sum{} %s\n%s_count{} %d\n" % (printed(name), sum_text(values), printed(name), len(values))
        return text

    def admin(self):
        text = "".join('%s: "%s"\n' % row for row in self.rows("text"))
        numbers = self.rows("counter") + [(name, signed(value)) for name, value in self.rows("gauge")]
        text += "".join("%s: %d\n" % row for row in sorted(numbers))
        for name, values in self.rows("histogram"):
            shown = [quantile_text(values, q) for q in QUANTILES]
            text += "%s: %s\n" % (name, " ".join("P%g(nan,%s)" % (q / 10, of) for q, of in zip(QUANTILES, shown)))
        return text

    def symbols(self):
        text = "# symbols\n"
        for kind, name in sorted(self.metrics, key=lambda key: key[::-1]):
            numbers = [self.numbers[token] for token in name.split(".")]
            pairs = " ".join("%d=%s" % pair for pair in zip(numbers, name.split(".")))
            text += "%s %s - %s %s\n" % (name, kind, bytes([len(numbers)] + numbers).hex(), pairs)
        return text


def output_of(rng, model, asked):
    """What the plain store writes, where workers, flusher and reader take turns at random."""
    store, text, reads, told = Store(model), "", "", [[0, 0] for _ in model.scripts]
    turns = [("event", worker) for worker, script in enumerate(model.scripts) for _ in script]
    turns += [("flush", 0)] * asked["flushes"] + [("read", 0)] * asked["reads"]
    rng.shuffle(turns)
    places, flush, read = [0] * len(model.scripts), 0, 0
    write = getattr(store, asked["format"])
    for turn, worker in turns:
        if turn == "event":
            took = store.apply(model.scripts[worker][places[worker]])
            places[worker] += 1
            told[worker][0 if took else 1] += 1
        elif turn == "flush":
            flush += 1
            text += "# flush %d\n" % flush + write()
        else:
            read += 1
            counters = store.rows("counter")
            reads += "# read %d: %d counters, %d units\n" % (read, len(counters), sum(value for _, value in counters))
    text += "# last\n" + write() + reads + (store.symbols() if asked["symbols"] else "")
    return text + "".join("# worker %d: %d accepted, %d dropped\n" % (w, *t) for w, t in enumerate(told, 1))


def changed(rng, text):
    """The output with a fault of its own, and what was done."""
    lines = text.split("\n")[:-1]
    rows = [at for at, line in enumerate(lines) if not line.startswith("#")]
    at = rng.choice(rows)
    heads = [place for place, line in enumerate(lines) if re.match("# (flush|last|read|worker)", line)]
    head = rng.choice(heads)
    return rng.choice([
        ("a section less", lines[:head] + lines[head + 1:]),
        ("a section twice", lines[:head + 1] + lines[head:]),
        ("a worker's event less", [re.sub(r"(\d+) accepted", lambda m: "%d accepted" % (int(m[1]) - 1), line)
                                   for line in lines]),
        ("an event dropped in place of accepted", lines[:-1] + [re.sub(
            r"(\d+) accepted, (\d+)", lambda m: "%d accepted, %d" % (int(m[1]) - 1, int(m[2]) + 1), lines[-1])]),
        ("a row of no form", lines[:at] + ["?" + lines[at].replace(":", "").replace(" ", "")] + lines[at:]),
        ("the end of a line cut", lines[:-1] + [lines[-1][:-1]]),
        ("a reading of too much", [re.sub(r"(\d+) units", lambda m: "%d units" % 2**70, line) for line in lines]),
        ("a counter in a flush more", more_of(lines)),
        ("a number of two tokens", [re.sub(r"\d+=(\w+)$", r"1=\1", line) for line in lines]),
    ])


def more_of(lines):
    """The last row of a counter that every run has, raised."""
    for at in range(len(lines) - 1, -1, -1):
        match = re.match(r"((?:soak\.)?(?:envoy_)?cluster[._]api[._]c[._]rq(?:\{\})?[: ]+)(\d+)(.*)", lines[at])
        if match:
            return lines[:at] + [match[1] + str(int(match[2]) + 1) + match[3]] + lines[at + 1:]
    return lines


def check_examples():
    """What is wrong with the outputs in `examples/` of a replay and of a run."""
    wrong = []
    for name, files, prefix in (("edge", ["web", "api"], "edge"), ("run", ["east", "west"], "pair")):
        boot = json.loads((EXAMPLES / (name + ".json")).read_text())
        # The model reads no regular expressions; the only one of these names such an end.
        boot["stats_config"].setdefault("stats_matcher", {"exclusion_list": {"patterns": []}})
        patterns = boot["stats_config"]["stats_matcher"]["exclusion_list"]["patterns"]
        patterns[:] = [{"suffix": ".debug"} if "safe_regex" in pattern else pattern for pattern in patterns]
        model = Model(boot, [(EXAMPLES / (file + ".events")).read_text().split("\n") for file in files])
        asked = {"symbols": False, "prefix": prefix, "flushes": boot["stats_run"].get("flushes", 0),
                 "reads": boot["stats_run"].get("reads", 0)}
        for fmt in ("statsd", "admin"):
            text = (EXAMPLES / (name + "." + fmt)).read_text()
            wrong += ["%s.%s: %s" % (name, fmt, what) for what in check(model, {"format": fmt, **asked}, text)]
    return wrong


def main():
    wrong, refused = 0, collections.Counter()
    for what in check_examples():
        wrong += 1
        print("wrong: " + what)
    for run in range(60):
        rng = random.Random(run)
        goes, quarrels = run % 2 == 0, run % 5 == 0
        scripts = [Script(rng, worker, goes, quarrels).lines(rng.randrange(50, 400)) for worker in range(1, 4)]
        scripts[0] += ["inc api c.rq 1"]
        fmt = ["statsd", "prom", "admin"][run % 3]
        asked = {"format": fmt, "symbols": run % 4 < 2, "prefix": "soak", "flushes": run % 6, "reads": run % 5}
        model = Model(boot_of(rng, asked["flushes"], asked["reads"], 1000), scripts)
        text = output_of(rng, model, asked)
        for what in check(model, asked, text):
            wrong += 1
            print("wrong: run %d, %s: %s" % (run, fmt, what))
        for _ in range(8):
            what, lines = changed(rng, text)
            bad = "\n".join(lines) + "\n"
            if bad == text or (what.startswith("an event dropped") and quarrels):
                continue
            refused[what] += 1
            if not check(model, asked, bad):
                wrong += 1
                print("passed: run %d, %s: %s" % (run, fmt, what))
    print("%d outputs pass, and %d changed ones do not (%s); %d wrong" % (
        60, sum(refused.values()), ", ".join("%d times %s" % (n, what) for what, n in sorted(refused.items())), wrong))
    sys.exit(min(wrong, 100))


if __name__ == "__main__":
    main()
