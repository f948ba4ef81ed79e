"""What a run over inputs reached, as a file that is added to those of other runs."""

import collections
import hashlib
import json
import os
import time

PARTS = ("seed", "programs", "inputs", "ranges", "seen", "places", "failed", "seconds")


def digest_of_file(path):
    with open(path, "rb") as file:
        return hashlib.sha256(file.read()).hexdigest()


def joined(ranges):
    """The same numbers in as few ranges, in their order; an error where a number comes twice."""
    found = []
    for begin, end in sorted(ranges):
        if found and begin < found[-1][1]:
            raise ValueError(f"the inputs {begin} to {min(end, found[-1][1]) - 1} are counted twice")
        if found and begin == found[-1][1]:
            found[-1][1] = end
        else:
            found.append([begin, end])
    return found


class Report:
    """Which inputs of which seed were tried with which programs, what they reached, and what failed. `inputs` says from which scripts and by which rules
    they are made: only where that is the same has a number the same input. `places` is how many calls of a create can fail."""

    def __init__(self, seed, programs, inputs):
        self.seed, self.programs, self.inputs = seed, programs, inputs
        self.ranges, self.seen, self.places, self.failed, self.seconds = [], collections.Counter(), 0, [], 0.0

    def add(self, begin, end, seen, failed):
        """Inputs that were tried now."""
        self.ranges = joined([*self.ranges, [begin, end]])
        self.seen.update(seen)
        self.failed += failed

    def tried(self):
        return sum(end - begin for begin, end in self.ranges)

    def save(self, path):
        """Writes the report; a run that is killed leaves the one that it wrote before."""
        with open(f"{path}.new", "w", encoding="utf-8") as file:
            json.dump({it: getattr(self, it) for it in PARTS}, file, indent=1, sort_keys=True)
            file.write("\n")
        os.replace(f"{path}.new", path)

    @classmethod
    def load(cls, path):
        with open(path, encoding="utf-8") as file:
            parts = json.load(file)
        found = cls(parts["seed"], parts["programs"], parts["inputs"])
        found.add_all(parts)
        return found

    def add_all(self, parts):
        self.ranges, self.failed = parts["ranges"], parts["failed"]
        self.seen.update(parts["seen"])
        self.places, self.seconds = parts["places"], parts["seconds"]

    def lines(self, wanted):
        """What was reached, and of each kind of thing in `wanted` what never."""
        for name in sorted(self.seen, key=lambda it: (it.split(" ")[0], it.rjust(20))):
            yield f"{name}: {self.seen[name]}"
        calls = {"calls of a create": [f"call {k}" for k in range(1, self.places)]}
        for what, names in {**wanted, **calls}.items():
            never = [it.split(" ", 1)[1] for it in names if not self.seen[it]]
            yield f"{what} never met: {', '.join(never) or 'none'}"

    def origin(self):
        """Which inputs of which programs these are."""
        programs = ", ".join(f"{name} {digest[:16]}" for name, digest in sorted(self.programs.items()))
        return f"seed {self.seed}, made by {self.inputs[:16]}; {programs}"

    def told_of(self):
        ranges = ", ".join(f"{begin} to {end - 1}" for begin, end in self.ranges) or "none"
        return f"inputs {ranges} of {self.origin()}"


def merged(paths):
    """The sum of these reports, and a line on each group of them that has the same seed, programs and inputs; an error where an input is in two."""
    whole, groups, spans = Report(0, {}, ""), {}, collections.defaultdict(list)
    for path in paths:
        it = Report.load(path)
        spans[it.seed, it.inputs] += it.ranges
        joined(spans[it.seed, it.inputs])
        group = groups.setdefault((it.seed, it.inputs, *sorted(it.programs.items())), Report(it.seed, it.programs, it.inputs))
        group.ranges = joined([*group.ranges, *it.ranges])
        whole.seen.update(it.seen)
        whole.failed += it.failed
        whole.places = max(whole.places, it.places)
        whole.seconds += it.seconds
    return whole, sum(it.tried() for it in groups.values()), [it.told_of() for it in groups.values()]


class Progress:
    """Says now and then how far a run has come."""

    def __init__(self, report, wanted, every):
        self.report, self.wanted, self.every = report, wanted, every
        self.began = self.last = time.monotonic()

    def step(self, path, now=False):
        """Tells of the run and saves its report, if that is due."""
        at = time.monotonic()
        if at - self.last < self.every and not now:
            return
        self.last, self.report.seconds = at, at - self.began
        tried, rate = self.report.tried(), self.report.tried() / (at - self.began)
        left = f", {(self.wanted - tried) / rate / 60:.0f} minutes left" if rate and not now else ""
        print(f"{time.strftime('%H:%M:%S')} {tried} of {self.wanted} inputs, {rate:.1f} a second, {len(self.report.failed)} failed{left}", flush=True)
        if path:
            self.report.save(path)
