"""What event files come to, whatever order their workers take, and the numbers that texts show.

It knows nothing of threads: of each event it says whether it takes effect, or that this depends on the order, and of
each metric what it has at the end, where that does not depend on it.
"""
import collections

WORD = 2**64


def bin_of(value):
    """A value's bin: its first two decimal digits, or ten times its one digit, and how many digits follow the first."""
    text = str(value)
    return (value * 10 if len(text) == 1 else int(text[:2]), len(text) - 1)


def low(of):
    """A thousand times the low end of a bin."""
    return of[0] * 100 * 10 ** of[1]


def bins_of(values):
    """The bins of a list of values with their counts, rising."""
    return sorted(collections.Counter(map(bin_of, values)).items(), key=lambda pair: low(pair[0]))


def largest(of):
    """The largest whole number in a bin."""
    return of[0] // 10 if of[1] == 0 else (of[0] + 1) * 10 ** (of[1] - 1) - 1


def decimal(thousandths):
    """A number of thousandths, up to its last digit that is not 0."""
    part = thousandths % 1000
    return str(thousandths // 1000) + ("." + ("%03d" % part).rstrip("0") if part else "")


def sum_text(values):
    """The sum, each value counting as the middle of its bin."""
    return decimal(50 * sum((2 * of[0] + 1) * 10 ** of[1] for of in map(bin_of, values) if of[0]))


def quantile_text(values, quantile):
    """A quantile in thousandths, interpolated in its bin, or `nan` without values."""
    rank = (quantile * len(values) + 999) // 1000
    for of, count in bins_of(values):
        if rank <= count:
            width = 100 * 10 ** of[1] if of[0] else 0
            return decimal(low(of) + width * rank // count)
        rank -= count
    return "nan"


def words_of(line):
    """The words of an event's line; None where it has none."""
    if not line or line.startswith("#"):
        return None
    words = line.split(" ")
    return words[:3] + [" ".join(words[3:])] if words[0] == "text" else words


class Metric:
    """What the events of one metric come to."""

    def __init__(self):
        self.sure = []  # (worker, event) of each event that surely takes effect, in each worker's order
        self.open = []  # those of which it depends on the order
        self.stays = True  # no scope that may bear it is ever released

    def units(self):
        """The least and the most units of a counter."""
        least = sum(int(event[3]) for _, event in self.sure)
        return least, least + sum(int(event[3]) for _, event in self.open)

    def values(self):
        """The values of a histogram; None where they depend on the order."""
        return None if self.open else [int(event[3]) for _, event in self.sure]

    def words(self):
        """The words that a gauge may have at the end; None where it may be any."""
        if self.open or not self.stays:
            return None
        by_worker = collections.defaultdict(list)
        for worker, event in self.sure:
            by_worker[worker].append((event[0], int(event[4])))
        if all(kind != "set" for moves in by_worker.values() for kind, _ in moves):
            total = sum(n if kind == "add" else -n for moves in by_worker.values() for kind, n in moves)
            return {signed(total)}
        if len(by_worker) == 1:
            word = 0
            for kind, n in next(iter(by_worker.values())):
                word = n if kind == "set" else word + (n if kind == "add" else -n)
            return {signed(word)}
        if all(moves[-1][0] == "set" for moves in by_worker.values()):
            return {signed(moves[-1][1]) for moves in by_worker.values()}
        return None

    def texts(self):
        """The texts that a readout may have at the end; None where it may have any."""
        if self.open or not self.stays:
            return None
        return set(dict((worker, event[3]) for worker, event in self.sure).values())


def signed(word):
    word %= WORD
    return word - WORD if word >= WORD // 2 else word


class Model:
    """What files of events come to under a bootstrap, of which it reads the scopes and the simple exclusions."""

    def __init__(self, boot, scripts):
        scopes = boot.get("stats_run", {}).get("scopes", [])
        self.configured = {"root": ""}
        self.configured.update({scope["label"]: without_dot(scope["prefix"]) for scope in scopes})
        matcher = boot.get("stats_config", {}).get("stats_matcher", {})
        self.excluded = matcher.get("exclusion_list", {}).get("patterns", [])
        self.metrics = {kind: collections.defaultdict(Metric) for kind in ("counter", "gauge", "histogram", "text")}
        self.workers = []
        self.scripts = [[words for words in map(words_of, script) if words] for script in scripts]
        self.look_at_labels()
        for worker, script in enumerate(self.scripts):
            self.run(worker, script)

    def look_at_labels(self):
        users, movers = collections.defaultdict(set), collections.defaultdict(set)
        self.released, self.prefixes = set(), collections.defaultdict(set)
        for worker, script in enumerate(self.scripts):
            for words in script:
                users[words[1]].add(worker)
                if words[0] in ("open", "release"):
                    movers[words[1]].add(worker)
                if words[0] == "release":
                    self.released.add(words[1])
                if words[0] == "open":
                    self.prefixes[words[1]].add(given_prefix(words[2]))
        for label, prefix in self.configured.items():
            self.prefixes[label].add(prefix)
        # Whether such a label has a scope depends on the order.
        self.shared = {label for label in movers if len(users[label]) > 1}

    def admits(self, name):
        tests = {
            "exact": lambda text: name == text,
            "prefix": name.startswith,
            "suffix": name.endswith,
            "contains": lambda text: text in name,
        }
        return not any(tests[how](text) for pattern in self.excluded for how, text in pattern.items())

    def run(self, worker, script):
        scopes = dict(self.configured)
        sure = unsure = 0
        for words in script:
            kind, label = words[0], words[1]
            if label in self.shared:
                unsure += self.may_do(worker, words)
            elif kind == "open":
                sure += label not in scopes
                scopes.setdefault(label, given_prefix(words[2]))
            elif kind == "release":
                sure += scopes.pop(label, None) is not None
            elif label in scopes:
                sure += self.does(worker, words, scopes[label])
        self.workers.append((sure, sure + unsure, len(script)))

    def metric_of(self, words, prefix):
        kind = {"inc": "counter", "rec": "histogram", "text": "text"}.get(words[0], "gauge")
        name = prefix + "." + words[2] if prefix else words[2]
        if not self.admits(name):
            return None
        metric = self.metrics[kind][name]
        metric.stays = metric.stays and words[1] not in self.released
        return metric

    def does(self, worker, words, prefix):
        metric = self.metric_of(words, prefix)
        if metric is None:
            return False
        metric.sure.append((worker, words))
        return True

    def may_do(self, worker, words):
        if words[0] in ("open", "release"):
            return True
        may = False
        for prefix in sorted(self.prefixes[words[1]]):
            metric = self.metric_of(words, prefix)
            if metric is not None:
                metric.open.append((worker, words))
                may = True
        return may


def without_dot(prefix):
    return prefix[:-1] if prefix.endswith(".") else prefix


def given_prefix(text):
    return "" if text == "-" else without_dot(text)
