#!/usr/bin/env python3
"""hostile.py PROGRAM [CASE..]: files that somebody made to hurt the program.

Makes the files of each case in a temporary folder and runs `replay` and `run` over them. It looks at the status, at
standard error and at the end of the output, and prints the time and the peak of memory, beside those of ordinary files
of the same sizes: scripts of `load`, which are half increments of 512 counters, a quarter values of 16 histograms and a
quarter moves of a gauge, at most as many events as a file may have. Beside a bootstrap of patterns stands an ordinary
one, of as many patterns of that size, each a list of names. A case is wrong where the status or what was written is
another one, where more than 4 GB were in use, or where it took more than ten times as long as the ordinary files; times
below a twentieth of a second count as that. Its own status is the number of cases that were wrong.

Words behind PROGRAM are the names of the cases to run; all where there is none. It needs GNU time, and Linux.
"""
import json
import os
import random
import re
import signal
import subprocess
import sys
import tempfile
import threading
import time
from pathlib import Path

EVENTS = 131072  # events that a file may have
BYTES = 8388608  # bytes that it may have
BOOT_BYTES = 1048576  # bytes that a bootstrap may have
METRICS = 16384  # metrics that a store makes
MOST_MEMORY = 4 << 20  # kB
LONGEST = 300  # seconds
USUAL = "-"
LINE = 18  # bytes of a line of `load`, with its end
NAME = "upstream_rq_"
LETTERS = "abcdefghijklmnopqrstuvwxyz0123456789_"


class Case:
    """Words behind the command, and what is to come of them. `beside` are the sizes of the ordinary files, or other
    files to compare with, and `beside_boot` is their bootstrap."""

    def __init__(self, words, status=0, err="", ends=None, boot=USUAL, beside=None, beside_boot=USUAL, feeds=(),
                 out=None):
        self.words, self.status, self.err, self.ends = words, status, err, ends
        self.boot, self.beside, self.beside_boot, self.feeds, self.out = boot, beside, beside_boot, feeds, out


def put(name, content):
    """Writes a file of these lines or bytes, and gives its name."""
    if not isinstance(content, bytes):
        content = "".join(line + "\n" for line in content).encode()
    Path(name).write_bytes(content)
    return name


def put_boot(name, boot):
    return put(name, json.dumps(boot).encode())


def ordinary(size, script):
    """Lines of about so many bytes: those of a script of `load`, with longer names where such a file has too many."""
    more = (NAME * (size // EVENTS))[:max(0, size // EVENTS - LINE)]
    lines, held, x = [], 0, script
    while held < size and len(lines) < EVENTS:
        x = 6364136223846793005 * x + 1442695040888963407 & (1 << 64) - 1
        r = x >> 33
        i, j = r >> 2, r >> 11
        rest = ("c%d %d" % (i % 512, j % 1000), "c%d %d" % (i % 512, j % 1000), "h%d %d" % (i % 16, j % 100000),
                "g%d acc %d" % (script, j % 1000))[r & 3]
        line = "%s root %s%s" % (("inc", "inc", "rec", "add")[r & 3], more, rest)
        held += len(line) + 1
        if held > BYTES:
            break
        lines.append(line)
    return lines


def accepted(out):
    """How many events each file had accepted, and how many dropped."""
    return [tuple(map(int, m)) for m in re.findall(r"^# worker \d+: (\d+) accepted, (\d+) dropped$", out, re.M)]


def once(program, words, out, feeds=()):
    """Status, standard output's end, standard error, seconds and kB of one run."""
    for feed in feeds:
        threading.Thread(target=feed, daemon=True).start()
    started = time.perf_counter()
    command = ["/usr/bin/time", "-q", "-f", "%e %M", "-o", "figures", program] + words
    with open(out or "out", "wb") as to, open("err", "wb") as err:
        process = subprocess.Popen(command, stdout=to, stderr=err, start_new_session=True)
        # A wait with a time limit looks now and then whether the program has ended, up to 50 ms late.
        ender = threading.Timer(LONGEST, os.killpg, [process.pid, signal.SIGKILL])
        ender.start()
        status = process.wait()
        ender.cancel()
    wall = time.perf_counter() - started
    if wall > LONGEST:
        return -1, "", "not done after %d s" % LONGEST, LONGEST, 0
    memory = int(Path("figures").read_text().split()[-1])
    return status, "" if out else Path("out").read_text(errors="replace"), Path("err").read_text(), wall, memory


def ordinary_time(program, words):
    """The seconds of ordinary files, over which the program has no fault."""
    status, _, err, wall, _ = once(program, words, None)
    assert status == 0 and not err, err
    return wall


def in_turn(program, command, case):
    """One run of the case and the seconds of ordinary files: of each the fastest of three in turn, since a machine has
    faster and slower moments. A case that feeds the program runs once."""
    words, others = [command, case.boot] + case.words, [command, case.beside_boot] + beside(case)
    runs, usual = [], []
    for _ in range(1 if case.feeds else 3):
        runs.append(once(program, words, case.out, case.feeds))
        usual.append(ordinary_time(program, others))
    return min(runs, key=lambda run: run[3]), min(usual)


def beside(case):
    """Ordinary files of the same sizes, or the files that the case names."""
    if isinstance(case.beside, list):
        return case.beside
    sizes = case.beside or tuple(os.path.getsize(f) if os.path.isfile(f) else BYTES for f in case.words)
    return [put("ordinary%d" % at, ordinary(size, at)) for at, size in enumerate(sizes, 1)]


def cost_faults(wall, usual, memory):
    faults = []
    if memory > MOST_MEMORY:
        faults.append("more than 4 GB")
    if wall > 10 * max(usual, 0.05):
        faults.append("%.0f times the time of an ordinary one" % (wall / usual))
    return faults


def faults_of(case, run, usual):
    status, out, err, wall, memory = run
    faults = cost_faults(wall, usual, memory)
    if status != case.status:
        faults.append("status %d, and not %d" % (status, case.status))
    if not re.fullmatch(case.err, err):
        faults.append("said %r" % err[-200:])
    told = accepted(out)
    if case.ends and not case.ends(told):
        faults.append("ended with %r" % told[:4])
    return faults


def told_wrong(name, command, ended, figures, faults):
    """Prints the line of a case, and gives whether it was wrong. Figures are the seconds, the ordinary ones, and kB."""
    wall, usual, memory = figures
    told = "WRONG: " + ", ".join(faults) if faults else ""
    print("%-20s %-6s %s, %7.3f s (ordinary %6.3f), %6.1f MB%s"
          % (name, command, ended, wall, usual, memory / 1024, told and "; " + told), flush=True)
    return bool(faults)


def same_name(count, line):
    return [put("f%d" % at, line) for at in range(1, count + 1)]


# What follows are the cases: each makes its files, and gives them.

def many_releases():
    boot = put_boot("b", {"stats_run": {"scopes": [{"label": "s", "prefix": "p"}]}})
    files = same_name(32, ["release s"])
    return Case(files, boot=boot, ends=lambda told: sorted(told) == [(0, 1)] * 31 + [(1, 0)])


def open_and_release():
    files = same_name(32, ["open s p", "inc s a 1", "release s"] * 10000)
    return Case(files, ends=lambda told: len(told) == 32 and all(a + d == 30000 for a, d in told))


def dots():
    """16,384 names of 511 bytes with 255 dots, of tokens of one byte."""
    prefix = ".".join("pqrstuvw" * 16)
    tokens = [LETTERS[at % 16] for at in range(128)]
    lines = []
    for at in range(METRICS):
        for place in range(4):
            tokens[place * 37] = LETTERS[at >> 4 * place & 15] if place else LETTERS[16 + (at & 15)]
        lines.append("inc s %s 1" % ".".join(tokens))
    boot = put_boot("b", {"stats_run": {"scopes": [{"label": "s", "prefix": prefix}]}})
    assert len(prefix) == 255 and len(lines[0]) == 255 + 8 and len(set(lines)) == METRICS
    return Case([put("f", lines)], boot=boot, ends=lambda told: told == [(METRICS, 0)])


def only_dots():
    """Names of dots alone, the longest of 511 empty tokens and one."""
    prefix = "." * 254 + "p"
    lines = ["inc s %s 1" % ("." * at + "a") for at in range(255)] * 64
    boot = put_boot("b", {"stats_run": {"scopes": [{"label": "s", "prefix": prefix}]}})
    return Case([put("f", lines)], boot=boot, ends=lambda told: told == [(len(lines), 0)])


def warm_histograms():
    """1,024 histograms in each of 32 workers, with values of all sizes, and halves that turn."""
    boot = put_boot("b", {"stats_run": {"flushes": 8, "flush_every": 262144}})
    files = []
    for worker in range(1, 33):
        rng = random.Random(worker)
        lines = ["rec root h%d %d" % (at % 1024, rng.randrange(1 << rng.randrange(1, 64))) for at in range(EVENTS)]
        files.append(put("f%d" % worker, lines))
    return Case(files, boot=boot, ends=lambda told: told == [(EVENTS, 0)] * 32)


def churn():
    """65,536 openings and releases beside 31 files whose names come and go with the scope."""
    files = [put("f1", ["open s p", "release s"] * (EVENTS // 2))]
    for worker in range(2, 33):
        files.append(put("f%d" % worker, ("inc s n%d 1" % (at % 7) for at in range(EVENTS))))
    return Case(files, ends=lambda told: told[0][0] + told[0][1] == EVENTS and len(told) == 32)


def ordinary_rules(count=64, patterns=32):
    """A bootstrap of so many tag rules and patterns of 1,024 bytes, each a list of names."""
    names = lambda at: "|".join("cluster_%02d_%02d" % (at, n) for n in range(72))
    rules = [{"tag_name": "t%02d" % at, "regex": r"\.((?:%s)\.)" % names(at)} for at in range(count)]
    regexes = [{"safe_regex": {"regex": r"http\.(?:%s)\.rq" % names(at)}} for at in range(patterns)]
    config = {"use_all_default_tags": False, "stats_tags": rules}
    if patterns:
        config["stats_matcher"] = {"exclusion_list": {"patterns": regexes}}
    return put_boot("ordinary_boot", {"stats_config": config})


def rules_of(count, names):
    """64 tag rules and 32 patterns of 1,024 bytes, each with a star in a star, and so many names of 511 bytes."""
    rules, patterns = [], []
    for at in range(64):
        word = "%02d" % at
        regex = ("((a*)*" + "(?:a*)*" * 144 + "b" + word).ljust(1023, "c") + ")"
        rules.append({"tag_name": "t" + word, "regex": regex})
    for at in range(32):
        patterns.append({"safe_regex": {"regex": ("(?:a*)*" * 145 + "b%02d" % at).ljust(1024, "d")}})
    config = {"use_all_default_tags": False, "stats_tags": rules,
              "stats_matcher": {"exclusion_list": {"patterns": patterns}}}
    scopes = [{"label": "s", "prefix": "a" * 255}]
    boot = put_boot("b%d" % count, {"stats_config": config, "stats_run": {"scopes": scopes}})
    lines = ["inc s %s%03d 1" % ("a" * 252, at) for at in range(names)]
    return Case([put("f%d" % count, lines)], boot=boot, beside_boot=ordinary_rules(),
                ends=lambda told: told == [(names, 0)])


def rules():
    return rules_of(1, 8)


def twice_the_names():
    return rules_of(2, 16)


def searched_rules():
    """As many such patterns over names that have the parts of which each match has one, and no match."""
    words = ["b%02d" % at for at in range(64)]
    rules = [{"tag_name": "t" + w, "regex": "((a*)*%s%s)[cd]" % ("(?:a*)*" * 144, w)} for w in words]
    patterns = [{"safe_regex": {"regex": ".*%s%s[cd].*" % ("(?:a*)*" * 144, w)}} for w in words[:32]]
    config = {"use_all_default_tags": False, "stats_tags": rules,
              "stats_matcher": {"exclusion_list": {"patterns": patterns}}}
    boot = put_boot("b", {"stats_config": config, "stats_run": {"scopes": [{"label": "s", "prefix": "a" * 255}]}})
    lines = ["inc s %s%s%03d 1" % ("a" * 60, "".join(words), at) for at in range(64)]
    return Case([put("f", lines)], boot=boot, beside_boot=ordinary_rules(), ends=lambda told: told == [(64, 0)])


def late_matches():
    """64 tag rules that match each name, though another way is tried first, at all bytes of the name."""
    regex = "^(?:" + "(?:[a.]*)*" * 100 + "x|(.*))%s$"
    rules = [{"tag_name": "t%02d" % at, "regex": regex % ("z" * (at % 8))} for at in range(64)]
    boot = put_boot("b", {"stats_config": {"use_all_default_tags": False, "stats_tags": rules},
                          "stats_run": {"scopes": [{"label": "s", "prefix": "a" * 255}]}})
    lines = ["inc s %s%s 1" % ("a" * (247 - at), "z" * 8) for at in range(64)]
    return Case([put("f", lines)], boot=boot, beside_boot=ordinary_rules(64, 0), ends=lambda told: told == [(64, 0)])


def folded(a, b):
    product = a * b
    return product & (1 << 64) - 1 ^ product >> 64


def fed(state, text):
    """What the toolchain's hasher makes of a text, by its public definition."""
    state, at, n = state + len(text) & (1 << 64) - 1, 0, len(text)
    if n <= 8:
        word = (int.from_bytes(text[:4], "little") | int.from_bytes(text[-4:], "little") << 32) if n >= 4 else \
            text[0] | text[n // 2] << 8 | text[-1] << 16
        return folded(state - n & (1 << 64) - 1 ^ word, FACTOR ^ 2 * n)
    while n - at > 16:
        first, second = (int.from_bytes(text[at + k:at + k + 8], "little") for k in (0, 8))
        state, at = folded(first ^ state, second ^ FACTOR), at + 16
    first, second = (int.from_bytes(text[k:k + 8], "little") for k in (n - 16, n - 8))
    return folded(first ^ state, second ^ FACTOR)


LABEL_BYTES = b"ABCDEFGHIJKLMNOPQRSTUVWXYZ" + LETTERS.encode()
FACTOR, BEGUN = 0x9E3779B97F4A7C15, 0x243F6A8885A308D3


def names_of_one_hash(before, count, may=lambda b: 0x21 <= b <= 0x7E and b not in b".:|"):
    """Names of 32 bytes that all have one hash behind these texts, under the hasher without a key: their third word is
    the state, so that the product is 0 whatever the fourth word is. Its bytes are those that `may` stand in a name."""
    state, rng = BEGUN, random.Random(1)
    for text in before:
        state = fed(state, text)
    start = state + 32 & (1 << 64) - 1
    while True:
        front = bytes(rng.choice(LETTERS.encode()) for _ in range(16))
        first, second = (int.from_bytes(front[k:k + 8], "little") for k in (0, 8))
        word = folded(first ^ start, second ^ FACTOR).to_bytes(8, "little")
        if all(may(b) for b in word):
            break
    ends = ("".join(LETTERS[at // 37**k % 37] for k in range(8)) for at in range(count))
    return [(front + word).decode() + end for end in ends]


def of_many_hashes(texts):
    """The same texts with the first byte of the third word changed, so that no two have one hash."""
    return [text[:16] + ("a" if text[16] != "a" else "b") + text[17:] for text in texts]


def one_hash():
    """Names that all have one hash without a key: as a seat's table of keys asks for them, behind a label, and alone."""
    chosen = names_of_one_hash([b"root"], METRICS // 2) + names_of_one_hash([], METRICS // 2)
    plain = of_many_hashes(chosen)
    lines = lambda names: ["inc root %s 1" % name for name in names] * 4
    return Case([put("f", lines(chosen))], beside=[put("plain", lines(plain))],
                ends=lambda told: told == [(4 * METRICS, 0)])


def labels_of_one_hash():
    """Scopes whose labels all have one hash without a key, each opened and used."""
    count = METRICS // 4
    chosen = names_of_one_hash([], count, may=lambda b: b in LABEL_BYTES)
    plain = of_many_hashes(chosen)
    lines = lambda labels: [form % label for label in labels for form in ("open %s p", "inc %s a 1")] \
        + ["inc %s a 1" % label for label in labels] * 2
    return Case([put("f", lines(chosen))], beside=[put("plain", lines(plain))],
                ends=lambda told: told == [(4 * count, 0)])


def fed_for_ever(name):
    os.mkfifo(name)

    def feed():
        line = b"inc root a 1\n" * 4096
        try:
            with open(name, "wb", buffering=0) as to:
                while True:
                    to.write(line)
        except BrokenPipeError:
            pass
    return feed


def endless_pipe():
    feed = fed_for_ever("p")
    return Case(["p"], 3, r"file 1: too many events\n", ends=lambda told: told == [(EVENTS, 0)], feeds=[feed])


def endless_bootstrap():
    feed = fed_for_ever("b")
    return Case([put("f", ["inc root a 1"])], 2, r"boot: too big\n", boot="b", feeds=[feed])


def directory():
    os.mkdir("d")
    return Case(["d", put("f", ["inc root a 1"])], 4, r"file 1: (not opened|read failed)\n", beside=(13, 13),
                ends=lambda told: told == [(0, 0), (1, 0)])


def bootstrap_directory():
    os.mkdir("d")
    return Case([put("f", ["inc root a 1"])], 4, r"boot: read failed\n", boot="d")


def zeros():
    return Case(["/dev/zero", put("f", ["inc root a 1"])], 3, r"file 1 line 1: line too long\n", beside=(8192, 13),
                ends=lambda told: told == [(0, 0), (1, 0)])


def bootstrap_zeros():
    return Case([put("f", ["inc root a 1"])], 2, r"boot: too big\n", boot="/dev/zero")


def full_device():
    return Case([put("f", ordinary(200000, 1))], 5, r"write failed\n", out="/dev/full")


def most_events():
    return Case([put("f", ["inc root a 1"] * EVENTS)], ends=lambda told: told == [(EVENTS, 0)])


def an_event_too_many():
    return Case([put("f", ["inc root a 1"] * (EVENTS + 1))], 3, r"file 1: too many events\n",
                ends=lambda told: told == [(EVENTS, 0)])


def most_bytes():
    return Case([put("f", b"\n" * BYTES)], ends=lambda told: told == [(0, 0)])


def a_byte_too_many():
    return Case([put("f", b"\n" * (BYTES + 1))], 3, r"file 1: too big\n", ends=lambda told: told == [(0, 0)])


def big_bootstrap():
    return Case([put("f", ["inc root a 1"])], 2, r"boot: too big\n", boot=put("b", b"{}".ljust(BOOT_BYTES + 1)))


def deep_bootstrap():
    boot = put("b", (b"[" * (BOOT_BYTES // 2)).ljust(BOOT_BYTES, b"]"))
    return Case([put("f", ["inc root a 1"])], 2, r"boot: not json\n", boot=boot)


def longest_lines():
    lines = ["#" * 1024, "inc %s %s 4294967295" % ("l" * 32, "n" * 255), "text root t %s" % ("t" * 1012)] * 3500
    return Case([put("f", lines)], ends=lambda told: told == [(3500, 3500)])


def a_line_too_long():
    return Case([put("f", ["inc root a 1", "#" * 1025, "inc root a 1"])], 3, r"file 1 line 2: line too long\n",
                ends=lambda told: told == [(1, 0)])


def odd_bytes():
    return Case([put("f", b"#\0\xff\ninc root a 1\ninc root \xff 1\n"), put("g", b"inc root a\0 1\n")], 3,
                r"file 1 line 3: no event\nfile 2 line 1: no event\n", ends=lambda told: told == [(1, 0), (0, 0)])


CASES = [many_releases, open_and_release, dots, only_dots, warm_histograms, churn, rules, twice_the_names,
         searched_rules, late_matches, one_hash, labels_of_one_hash, endless_pipe, endless_bootstrap, directory, bootstrap_directory,
         zeros, bootstrap_zeros, full_device, most_events, an_event_too_many, most_bytes, a_byte_too_many, big_bootstrap,
         deep_bootstrap, longest_lines, a_line_too_long, odd_bytes]


def try_case(program, make):
    """Makes the files of a case in a folder of its own, and runs both commands over them."""
    wrong = 0
    for command in ("replay", "run"):
        with tempfile.TemporaryDirectory() as place:
            os.chdir(place)
            case = make()
            run, usual = in_turn(program, command, case)
            faults = faults_of(case, run, usual)
            os.chdir("/")
        figures = run[3], usual, run[4]
        wrong += told_wrong(make.__name__, command, "status %d" % run[0], figures, faults)
    return wrong


def opened_below(process, path):
    """Whether the program that `time` started has the file open."""
    try:
        children = Path("/proc/%d/task/%d/children" % (process.pid, process.pid)).read_text().split()
        return any(os.path.realpath(link) == path for child in children for link in Path("/proc", child, "fd").iterdir())
    except OSError:
        return False


def replaced(program, command):
    """A file is replaced by another one of its name while a second file, a pipe, holds the program up. What was opened
    before is read to its end. A run has opened the first file by then, and a replay has read it. The time is that from
    the first byte of the pipe on."""
    with tempfile.TemporaryDirectory() as place:
        os.chdir(place)
        put("f", ["inc root old 1"] * 3)
        put("new", ["inc root new 1"] * 5)
        others = [command, USUAL, "f", put("g", ["inc root p 1"])]
        usual = min(ordinary_time(program, others) for _ in range(3))
        os.mkfifo("p")
        timed = ["/usr/bin/time", "-q", "-f", "%M", "-o", "figures"]
        process = subprocess.Popen(timed + [program, command, USUAL, "f", "p"], stdout=subprocess.PIPE,
                                   stderr=subprocess.PIPE)
        patience = time.time() + 10
        while command == "run" and not opened_below(process, os.path.join(place, "f")) and time.time() < patience:
            time.sleep(0.01)
        time.sleep(0.3)
        os.rename("new", "f")
        started = time.perf_counter()
        with open("p", "w") as to:
            to.write("inc root p 1\n")
        out, err = process.communicate(timeout=LONGEST)
        wall, memory = time.perf_counter() - started, int(Path("figures").read_text())
        os.chdir("/")
    whole = (b"# last\nenvoy.old:3|c\nenvoy.p:1|c\n"
             b"# worker 1: 3 accepted, 0 dropped\n# worker 2: 1 accepted, 0 dropped\n")
    faults = cost_faults(wall, usual, memory)
    if process.returncode != 0 or err or out != whole:
        faults.append("ended with %r, %r" % (out, err))
    return told_wrong("replaced", command, "status %d" % process.returncode, (wall, usual, memory), faults)


def rewritten(program, command):
    """A file is cut and written anew again and again while it is read: the program ends, with what a file may give."""
    with tempfile.TemporaryDirectory() as place:
        os.chdir(place)
        lines = b"inc root a 1\n" * EVENTS
        path, done = os.path.join(place, "f"), threading.Event()
        put(path, lines)
        others = [command, USUAL, put("usual", ordinary(len(lines), 1))]
        usual = min(ordinary_time(program, others) for _ in range(3))

        def write():
            while not done.is_set():
                with open(path, "wb") as to:
                    for at in range(0, len(lines), 65536):
                        to.write(lines[at:at + 65536])
        threading.Thread(target=write, daemon=True).start()
        runs = [once(program, [command, USUAL, path], None) for _ in range(20)]
        done.set()
        time.sleep(0.1)
        os.chdir("/")
    said = re.compile(r"|file 1 line \d+: (no event|line too long)\n|file 1: too many events\n")
    wall, memory = max(run[3] for run in runs), max(run[4] for run in runs)
    faults = cost_faults(wall, usual, memory)
    faults += ["status %d, said %r" % (status, err) for status, out, err, _, _ in runs
               if status not in (0, 3) or not said.fullmatch(err) or not accepted(out)]
    ended = "statuses %s" % sorted({run[0] for run in runs})
    return told_wrong("rewritten", command, ended, (wall, usual, memory), faults)


def main():
    program, asked = os.path.abspath(sys.argv[1]), sys.argv[2:]
    print("load %.1f of %d processors" % (os.getloadavg()[0], os.cpu_count()))
    wrong = sum(try_case(program, make) for make in CASES if not asked or make.__name__ in asked)
    for make in (replaced, rewritten):
        if not asked or make.__name__ in asked:
            wrong += make(program, "replay") + make(program, "run")
    print("load %.1f; %d wrong" % (os.getloadavg()[0], wrong))
    sys.exit(min(wrong, 100))


if __name__ == "__main__":
    main()
