#!/usr/bin/env python3
"""What bootstraps and names that the limits allow cost: time and memory of `replay`, each case in a run of its own.

usage: bench/store/bootstraps.py [CASE ..]     at the top of the repository, once the program was built by `./envoy_stats`

Without cases, all are run. Names are of 511 bytes where a case says long names.
"""
import json
import os
import subprocess
import sys
import tempfile
import time
from pathlib import Path

TOP = Path(__file__).resolve().parents[2]
OURS = TOP / "crates/envoy_stats/out/envoy_stats"
METRICS, EVENTS = 16_384, 131_072


def tags(rules):
    return {"stats_config": {"use_all_default_tags": False, "stats_tags": rules}}


def increments(names, label="root"):
    return "".join("inc %s %s 1\n" % (label, name) for name in names)


def short_names(count):
    return ("name_%d" % i for i in range(count))


def in_a_long_scope(boot, count):
    """Names of 511 bytes in parts of 7 bytes: a prefix of 255 bytes, a dot and a name of 255 bytes."""
    boot["stats_run"] = {"scopes": [{"label": "s", "prefix": ("abcdef." * 37)[:254] + "p"}]}
    return boot, [increments((("n%d." % i + "abcdef." * 40)[:254] + "x" for i in range(count)), "s")]


def fixed_tags():
    """64 fixed tags of 500 bytes, name and value, of which StatsD text shows none."""
    rules = [{"tag_name": ("t%d" % k).ljust(250, "t"), "fixed_value": ("v%d" % k).ljust(250, "v")} for k in range(64)]
    return tags(rules), [increments(short_names(METRICS))]


def long_tags():
    """64 rules that each give a tag of nearly the whole name."""
    rules = [{"tag_name": "t%d" % k, "regex": "^((.+)%s)$" % ("." * k)} for k in range(64)]
    return in_a_long_scope(tags(rules), METRICS)


def refused_names():
    """32 files of 131,072 names each, none of which is admitted."""
    boot = {"stats_config": {"stats_matcher": {"reject_all": True}}}
    return boot, [increments("n%d" % (k * EVENTS + i) for i in range(EVENTS)) for k in range(32)]


def alternations():
    """64 rules that are alternations of some 1,000 bytes without a common beginning, against 64 names of 511 bytes that
    nearly match everywhere."""
    words = ["%s%02d" % ("ab"[i % 2] * 8, i) for i in range(90)]
    rules = [{"tag_name": "t%d" % k, "regex": "((%s)%d)" % ("|".join(words), k)} for k in range(64)]
    boot = tags(rules)
    boot["stats_run"] = {"scopes": [{"label": "s", "prefix": "a" * 255}]}
    return boot, [increments(("a" * 252 + "%03d" % i for i in range(64)), "s")]


def rules_and_patterns():
    """64 rules and 32 patterns of some 1,024 bytes against 16,384 names of 200 bytes."""
    words = "|".join("service_%d" % i for i in range(90))
    rules = [{"tag_name": "t%d" % k, "regex": "^cluster\\.((%s)_%d\\.)" % (words, k)} for k in range(64)]
    boot = tags(rules)
    patterns = [{"safe_regex": {"regex": "(%s)_%d" % (words, k)}} for k in range(32)]
    boot["stats_config"]["stats_matcher"] = {"exclusion_list": {"patterns": patterns}}
    return boot, [increments(("cluster.name_%d." % i).ljust(200, "x") for i in range(METRICS))]


CASES = {it.__name__: it for it in (fixed_tags, long_tags, refused_names, alternations, rules_and_patterns)}


def run(name, folder):
    boot, texts = CASES[name]()
    (folder / "boot").write_text(json.dumps(boot))
    files = []
    for k, text in enumerate(texts):
        (folder / ("f%d" % k)).write_text(text)
        files.append("f%d" % k)
    words = ["/usr/bin/time", "-q", "-f", "%U %S %M", str(OURS), "replay", "boot", *files]
    start = time.time()
    done = subprocess.run(words, cwd=folder, stdout=subprocess.DEVNULL, stderr=subprocess.PIPE)
    user, system, memory = done.stderr.split()[-3:]
    print(f"{name}: status {done.returncode}, {time.time() - start:.2f} s, user {float(user):.2f} s, system "
          f"{float(system):.2f} s, {int(memory) / 1000:.0f} MB of 1,000 kB", flush=True)
    for line in done.stderr.decode().splitlines()[:2]:
        if not line[0].isdigit():
            print("   ", line)


def main():
    if not OURS.exists():
        sys.exit("build the program first: ./envoy_stats bins 7")
    for name in sys.argv[1:] or CASES:
        with tempfile.TemporaryDirectory() as folder:
            run(name, Path(folder))


main()
