"""Reads what a run or a replay writes, and says what is wrong with it."""
import collections
import re

from model import bins_of, largest, quantile_text, sum_text

QUANTILES = [0, 250, 500, 750, 900, 950, 990, 995, 999, 1000]
READ = re.compile(r"# read (\d+): (\d+) counters, (\d+) units")
WORKER = re.compile(r"# worker (\d+): (\d+) accepted, (\d+) dropped")
SAMPLE = re.compile(r"(\w+)\{([^}]*)\} (\S+)")
SYMBOLS = re.compile(r"(\S+) (counter|gauge|histogram|text) (-|uninit|acc|never) ([0-9a-f]+)((?: \d+=\S*)+)")
LATE = "is not as the order of the sections asks"


class Output:
    """The sections of an output: each flush's lines, the readings, the lines of symbols and the workers' lines."""

    def __init__(self, text):
        self.wrong, self.flushes, self.reads, self.symbols, self.workers = [], [], [], None, []
        if text and not text.endswith("\n"):
            self.wrong.append("the output ends within a line")
        here = None
        for line in text.split("\n")[:-1]:
            if line == "# last" or line == "# flush %d" % (len(self.flushes) + 1):
                self.in_order(line, not (self.reads or self.symbols is not None or self.workers or here == "last"))
                here = "last" if line == "# last" else "flush"
                self.flushes.append([])
            elif READ.fullmatch(line):
                number, counters, units = map(int, READ.fullmatch(line).groups())
                self.in_order(line, here == "last" and number == len(self.reads) + 1)
                self.in_order(line, self.symbols is None and not self.workers)
                self.reads.append((counters, units))
            elif line == "# symbols":
                self.in_order(line, here == "last" and self.symbols is None and not self.workers)
                self.symbols = []
            elif WORKER.fullmatch(line):
                number, accepted, dropped = map(int, WORKER.fullmatch(line).groups())
                self.in_order(line, here == "last" and number == len(self.workers) + 1)
                self.workers.append((accepted, dropped))
            elif self.symbols is not None and not self.workers:
                self.symbols.append(line)
            elif self.flushes and not (self.reads or self.workers) and (line[:2] != "# " or line[:7] == "# TYPE "):
                self.flushes[-1].append(line)
            else:
                self.in_order(line, False)

    def in_order(self, line, is_so):
        if not is_so:
            self.wrong.append("%r %s" % (line, LATE))


def check(model, asked, text):
    """What is wrong with an output, as a list of texts; `asked` has format, symbols, flushes, reads and prefix."""
    out = Output(text)
    wrong = list(out.wrong)
    if len(out.flushes) != asked["flushes"] + 1:
        wrong.append("%d flushes, and not %d" % (len(out.flushes), asked["flushes"] + 1))
    if len(out.reads) != asked["reads"]:
        wrong.append("%d readings, and not %d" % (len(out.reads), asked["reads"]))
    if wrong:
        return wrong
    wrong += check_workers(model, out)
    wrong += check_reads(model, out)
    wrong += check_symbols(model, out, asked["symbols"])
    by_format = {"statsd": check_statsd, "prom": check_prom, "admin": check_admin}
    return wrong + by_format[asked["format"]](model, out, asked)


def check_workers(model, out):
    wrong = []
    if len(out.workers) != len(model.workers):
        return ["%d workers, and not %d" % (len(out.workers), len(model.workers))]
    for number, ((accepted, dropped), (least, most, events)) in enumerate(zip(out.workers, model.workers), 1):
        if accepted + dropped != events:
            wrong.append("worker %d: %d + %d events, and not %d" % (number, accepted, dropped, events))
        if not least <= accepted <= most:
            wrong.append("worker %d: %d accepted, and not %d to %d" % (number, accepted, least, most))
    return wrong


def check_reads(model, out):
    """Readings are at most what the counters come to, and fall only where a counter may be gone."""
    counters = model.metrics["counter"].values()
    most = sum(metric.units()[1] for metric in counters)
    wrong = []
    before = (0, 0)
    for number, reading in enumerate(out.reads, 1):
        if reading[1] > most:
            wrong.append("reading %d: %d units of at most %d" % (number, reading[1], most))
        if all(metric.stays for metric in counters):
            if reading[0] > len(counters):
                wrong.append("reading %d: %d counters of %d" % (number, reading[0], len(counters)))
            if reading[0] < before[0] or reading[1] < before[1]:
                wrong.append("reading %d: %r behind %r" % (number, reading, before))
        before = reading
    return wrong


def check_symbols(model, out, asked):
    """Names are their tokens, a number has one token and a token one number, and the stored name has the numbers."""
    if (out.symbols is not None) != asked:
        return ["the symbols are there where they were not asked for, or are not"]
    wrong, number_of, token_of, live = [], {}, {}, set()
    for line in out.symbols or []:
        match = SYMBOLS.fullmatch(line)
        if not match:
            wrong.append("no line of symbols: %r" % line)
            continue
        name, kind, _, stored, pairs = match.groups()
        pairs = [pair.split("=", 1) for pair in pairs.split()]
        if ".".join(token for _, token in pairs) != name:
            wrong.append("tokens of another name: %r" % line)
        for number, token in pairs:
            if number_of.setdefault(token, number) != number or token_of.setdefault(number, token) != token:
                wrong.append("a number of two tokens, or a token of two numbers: %r" % line)
        if numbers_in(bytes.fromhex(stored)) != [int(number) for number, _ in pairs]:
            wrong.append("the stored name has other numbers: %r" % line)
        if (kind, name) in live:
            wrong.append("live twice: %r" % line)
        live.add((kind, name))
    if asked:
        for kind, metrics in model.metrics.items():
            for name, metric in metrics.items():
                if metric.stays and metric.sure and (kind, name) not in live:
                    wrong.append("%s %s is not live" % (kind, name))
    return wrong


def numbers_in(stored):
    """The numbers of a stored name in groups of seven bits, the first of which is the length of the others."""
    numbers, number, place = [], 0, 0
    starts = []
    for at, byte in enumerate(stored):
        if place == 0:
            starts.append(at)
        number |= (byte & 127) << place
        place += 7
        if byte < 128:
            numbers.append(number)
            number = place = 0
    if place or not numbers or len(starts) < 2 or numbers[0] != len(stored) - starts[1]:
        return None
    return numbers[1:]


def check_totals(model, kind, told, what):
    """The last totals of the counters that stay are their units; no other total is above the most units of its name."""
    wrong = []
    for name, totals in told.items():
        if name not in model.metrics[kind]:
            wrong.append("%s: no event of %s" % (what, name))
            continue
        metric = model.metrics[kind][name]
        if max(totals) > metric.units()[1]:
            wrong.append("%s: %s has %d of at most %d" % (what, name, max(totals), metric.units()[1]))
        if metric.stays and totals != sorted(totals):
            wrong.append("%s: %s falls: %r" % (what, name, totals))
    for name, metric in model.metrics[kind].items():
        least = metric.units()[0]
        if metric.stays and metric.sure and (told.get(name) or [-1])[-1] < least:
            wrong.append("%s: %s ends with %r, and not %d" % (what, name, told.get(name), least))
    return wrong


def check_gauges(model, last):
    wrong = []
    for name, metric in model.metrics["gauge"].items():
        words = metric.words()
        if words is not None and last.get(name) not in words:
            wrong.append("gauge %s ends with %r, and not one of %r" % (name, last.get(name), sorted(words)[:3]))
    return wrong


def check_statsd(model, out, asked):
    """The deltas of each counter sum up to its units, also where it was gone and made again."""
    wrong, sums, last = [], collections.Counter(), {}
    prefix = asked["prefix"] + "."
    for number, lines in enumerate(out.flushes, 1):
        rows = []
        last = {}
        for line in lines:
            match = re.fullmatch(r"([^:|]+):(-?\d+)\|([cg])", line)
            if not match or not match[1].startswith(prefix):
                wrong.append("no StatsD line: %r" % line)
                continue
            name, value, kind = match[1][len(prefix):], int(match[2]), match[3]
            rows.append((kind, name))
            if kind == "c":
                sums[name] += value
            else:
                last[name] = value
        if rows != sorted(rows):
            wrong.append("flush %d: the rows are not in the order of their names" % number)
    for name, units in sums.items():
        if name not in model.metrics["counter"]:
            wrong.append("no event of %s" % name)
    for name, metric in model.metrics["counter"].items():
        least, most = metric.units()
        if not least <= sums[name] <= most:
            wrong.append("deltas of %s: %d, and not %d to %d" % (name, sums[name], least, most))
    return wrong + check_gauges(model, last)


def printed(name):
    return "envoy_" + re.sub(r"[^A-Za-z0-9_]", "_", name)


def check_prom(model, out, asked):
    """Totals and cumulative bins never fall, and the last ones are those of all events."""
    wrong = []
    names = {kind: {printed(name): name for name in metrics} for kind, metrics in model.metrics.items()}
    totals, last = collections.defaultdict(list), {}
    buckets = collections.defaultdict(list)
    for lines in out.flushes:
        kind, last = None, {}
        for line in lines:
            if line.startswith("# TYPE "):
                kind = line.split(" ")[3]
                continue
            match = SAMPLE.fullmatch(line)
            if not match or kind is None:
                wrong.append("no line of the Prometheus text: %r" % line)
                continue
            name, labels, value = match.groups()
            if kind == "counter":
                totals[names["counter"].get(name, name)].append(int(value))
            elif kind == "gauge":
                last[names["gauge"].get(name, name)] = int(value)
            else:
                bound = re.search(r'le="([^"]+)"', labels)
                buckets[name, bound[1] if bound else ""].append(value)
    totals = {name: rows for name, rows in totals.items()}
    wrong += check_totals(model, "counter", totals, "total")
    wrong += check_gauges(model, last)
    return wrong + check_buckets(model, names["histogram"], buckets)


def check_buckets(model, names, buckets):
    wrong = []
    for full, name in names.items():
        metric = model.metrics["histogram"][name]
        if not metric.stays or not metric.sure:
            continue
        values = metric.values()
        ends = {"_count": lambda: str(len(values)), "_sum": lambda: sum_text(values)}
        for (told, bound), rows in buckets.items():
            if not told.startswith(full) or told[len(full):] not in ("_bucket", "_count", "_sum"):
                continue
            if list(map(float, rows)) != sorted(map(float, rows)):
                wrong.append("%s %s falls: %r" % (told, bound, rows))
            if values is None:
                continue
            most = float(bound or 0)
            end = ends.get(told[len(full):], lambda: str(sum(n for of, n in bins_of(values) if largest(of) <= most)))()
            if rows[-1] != end:
                wrong.append("%s %s ends with %s, and not %s" % (told, bound, rows[-1], end))
        if (full + "_count", "") not in buckets:
            wrong.append("no histogram %s" % name)
    return wrong


def check_admin(model, out, asked):
    """Totals never fall; the last texts, totals, words and quantiles of all values are those of all events."""
    wrong, totals, last, texts, quantiles = [], collections.defaultdict(list), {}, {}, {}
    for lines in out.flushes:
        last, texts, quantiles = {}, {}, {}
        for line in lines:
            name, found, shown = line.partition(": ")
            if not found:
                wrong.append("no line of the admin text: %r" % line)
            elif shown.startswith('"') and shown.endswith('"') and len(shown) > 1:
                texts[name] = shown[1:-1]
            elif shown.startswith("P0(") or shown == "No recorded values":
                quantiles[name] = shown
            elif not re.fullmatch(r"-?\d+", shown):
                wrong.append("no line of the admin text: %r" % line)
            elif name in model.metrics["counter"]:
                totals[name].append(int(shown))
            else:
                last[name] = int(shown)
    wrong += check_totals(model, "counter", totals, "total")
    wrong += check_gauges(model, last)
    for name, metric in model.metrics["text"].items():
        if metric.texts() is not None and texts.get(name) not in metric.texts():
            wrong.append("text %s ends with %r" % (name, texts.get(name)))
    for name, metric in model.metrics["histogram"].items():
        if metric.stays and metric.sure and metric.values():
            parts = re.findall(r"\(([^,]+),([^)]+)\)", quantiles.get(name, ""))
            if [of_all for _, of_all in parts] != [quantile_text(metric.values(), q) for q in QUANTILES]:
                wrong.append("quantiles of %s: %s" % (name, quantiles.get(name)))
    return wrong
