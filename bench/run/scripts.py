"""Random bootstraps and event files: all kinds of events, and scopes that come and go."""

TOKENS = ["rq", "cx", "total", "active", "retry", "bytes", "open", "time"]
STEADY = [{"label": "web", "prefix": "http.web."}, {"label": "api", "prefix": "cluster.api"},
          {"label": "api2", "prefix": "cluster.api."}]
GOING = ["cluster.canary", "cluster.blue", "http.web", "-"]


def boot_of(rng, flushes, reads, events):
    """A bootstrap with so many flushes and readings, spread over so many events in all files."""
    return {
        "stats_config": {
            "use_all_default_tags": False,
            "stats_matcher": {"exclusion_list": {"patterns": [{"prefix": "debug."}, {"suffix": ".secret"}]}},
            "histogram_bucket_settings": [{"match": {"suffix": ".ms"}, "buckets": [10, 100, 1000, 100000]}],
        },
        "stats_sinks": [{"name": "envoy.stat_sinks.statsd", "typed_config": {"prefix": "soak"}}],
        "stats_run": {
            "scopes": STEADY,
            "flushes": flushes,
            "flush_every": max(1, events * rng.choice([1, 1, 2, 3]) // (2 * (max(flushes, reads) + 1))),
            "reads": reads,
        },
    }


class Script:
    """One worker's events. Scopes of its own have labels that no other worker uses; `goes` says whether it releases any
    of them, and `quarrels` whether it moves a label that others move too."""

    def __init__(self, rng, worker, goes, quarrels):
        self.rng, self.worker, self.goes, self.quarrels = rng, worker, goes, quarrels
        self.own = []

    def event(self):
        rng = self.rng
        draw = rng.random()
        if draw < 0.01:
            return rng.choice(["", "# a comment", "#"])
        if draw < 0.05:
            return self.scope_event()
        if self.quarrels and draw < 0.07:
            return rng.choice(["open both contest", "release both", "inc both n %d" % rng.randrange(9)])
        return self.metric_event(self.label())

    def scope_event(self):
        rng = self.rng
        label = "w%d_%d" % (self.worker, rng.randrange(3))
        if label in self.own and self.goes and rng.random() < 0.7:
            self.own.remove(label)
            return "release " + label
        if label not in self.own:
            self.own.append(label)
        return "open %s %s" % (label, rng.choice(GOING))

    def label(self):
        rng = self.rng
        draw = rng.random()
        if draw < 0.02:
            return "nowhere"
        if draw < 0.3 and self.own:
            return rng.choice(self.own)
        return rng.choice(["root", "web", "api", "api2"])

    def name(self):
        rng = self.rng
        draw = rng.random()
        if draw < 0.02:
            return "debug." + rng.choice(TOKENS)
        if draw < 0.04:
            return rng.choice(TOKENS) + ".secret"
        return ".".join(rng.choice(TOKENS) for _ in range(rng.choice([1, 1, 2])))

    def metric_event(self, label):
        rng = self.rng
        draw, name = rng.random(), self.name()
        if draw < 0.6:
            return "inc %s c.%s %d" % (label, name, rng.choice([0, 1, 1, 1, 7, rng.randrange(2**32)]))
        if draw < 0.85:
            value = rng.choice([0, rng.randrange(100), rng.randrange(10**6), rng.randrange(2**64)])
            return "rec %s h.%s%s %d" % (label, rng.choice(TOKENS), rng.choice(["", ".ms"]), value)
        if draw < 0.97:
            return self.gauge_event(label, name)
        return "text %s t%d.%s %s" % (label, self.worker, rng.choice(TOKENS), rng.choice(["", "1.30 beta", " x "]))

    def gauge_event(self, label, name):
        """Gauges named `own` are moved by this worker alone, and those named `sum` are only added to."""
        rng = self.rng
        kind = rng.choice(["own%d" % self.worker, "sum", "set"])
        move = rng.choice(["add", "sub"] if kind == "sum" else ["add", "sub", "set"])
        mode = rng.choice(["uninit", "acc", "never"])
        return "%s %s g.%s.%s %s %d" % (move, label, kind, name, mode, rng.choice([1, 5, rng.randrange(2**63)]))

    def lines(self, events):
        return [self.event() for _ in range(events)]
