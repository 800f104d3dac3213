"""paper: what a million logins a day cost, computed from what was measured. Nothing here is
measured itself: docs/SCALE.md has the rule of each column.
"""
from measuring import tables
from measuring.results import Missing, part, text_of

LOGINS, REFRESHES, SITES = 1_000_000, (0, 8, 24), (1, 4, 16)
MAX_MEMORY, MAX_START, DAY = 16 * 2**30, 60, 86_400  # what a site bears: bytes, seconds


class Costs:
    """What one login, one refresh and one fact cost, from the parts that measured them."""

    def __init__(self, parts):
        memory, start = part(parts, "memory"), part(parts, "start")
        speed, push = part(parts, "speed"), part(parts, "push")
        self.used = [memory, start, part(parts, "carried"), push, speed]
        self.bytes = {place: [memory.median("bytes of a %s, %s" % (kind, place))
                              for kind in ("login", "refresh")]
                      for place in ("memory", "on the wire", "in a log")}
        self.start = self.start_of(start)
        self.carried = self.carried_of(part(parts, "carried"))
        self.pushed = push.median("bundles of 128: processor of a fact in µs") / 1e6
        code, refresh = (speed.median("%s with --log, processor in µs" % it) / 1e6
                         for it in ("code", "refresh"))
        self.made = [2 * code, refresh]  # a code is two requests

    @staticmethod
    def start_of(start):
        """Seconds of a fact: the longest start less the one with nothing, by its facts."""
        size = start.numbers("families (.*): ms until it listens")[-1]
        most, least = (start.median("families %s: ms until it listens" % format(it, ","))
                       for it in (size, 0))
        return (most - least) / 1e3 / (2 * size)

    @staticmethod
    def carried_of(carried):
        """Seconds of a fact: a run less one with nothing to carry, by its facts."""
        seconds = carried.median("seconds") - carried.median("seconds with nothing to carry")
        return max(seconds, 0) / carried.median("facts")


class Day:
    """A day of a number of sites, each of which gets its part of the logins and holds all facts."""

    def __init__(self, costs, sites, refreshes):
        def both(pair):
            return LOGINS * (pair[0] + refreshes * pair[1])

        self.sites, self.refreshes = sites, refreshes
        self.facts = LOGINS * (2 + refreshes)
        self.memory = both(costs.bytes["memory"])
        self.log = both(costs.bytes["in a log"]) / sites
        self.traffic = both(costs.bytes["on the wire"]) * (sites - 1)
        self.start = self.facts * costs.start
        self.carry = self.facts * (sites - 1) * costs.carried
        taken = self.facts * (sites - 1) / sites
        self.processor = both(costs.made) / sites + taken * costs.pushed

    def limits(self):
        """Days until each limit is met, by its name. A rate that is too great is met at once."""
        return {"memory": MAX_MEMORY / self.memory, "start": MAX_START / self.start,
                "carry": 0 if self.carry > DAY else float("inf"),
                "processor": 0 if self.processor > DAY else float("inf")}


def days(parts):
    costs = Costs(parts)
    return costs, [Day(costs, sites, refreshes) for sites in SITES for refreshes in REFRESHES]


def day(parts):
    """A line for each number of sites and of refreshes: what one day takes."""
    costs, found = days(parts)
    rows = [[str(it.sites), str(it.refreshes), "%d million" % (it.facts / 1e6),
             tables.number(it.memory / 1e9) + " GB", tables.number(it.log / 1e9) + " GB",
             tables.number(it.traffic / 1e9) + " GB", tables.number(it.start) + " s",
             tables.number(it.carry / 3600) + " h", tables.number(100 * it.processor / DAY) + " %"]
            for it in found]
    return costs.used, text_of(["sites", "refreshes", "facts", "memory", "log", "traffic",
                                "start", "`carry`", "processor"], rows)


def left(parts):
    """What the logins of a day leave once they are over, if a region prunes."""
    it = part(parts, "ledger")
    for size, in it.found("bytes left of a family, (.*) facts"):
        of = it.median("bytes left of a family, %s facts" % size)
        return [it], text_of(["a pruned family leaves", "a million logins leave"],
                             [[tables.number(of) + " bytes", tables.number(of / 1e3) + " GB"]])
    raise Missing("ledger has no prunes")


def when(number):
    """When a limit is met."""
    if number == float("inf"):
        return "never"
    return "after %s days" % tables.number(number) if number else "at once"


def breaks(parts):
    """A line for each number of sites and of refreshes: which limit is first."""
    costs, found = days(parts)
    rows = []
    for it in found:
        limits = it.limits()
        first = min(limits, key=limits.get)
        rows.append([str(it.sites), str(it.refreshes), *map(when, limits.values()), first])
    return costs.used, text_of(["sites", "refreshes", "memory", "start", "`carry`", "processor",
                                "breaks first"], rows)
