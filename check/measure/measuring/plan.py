"""plan: what many users need, computed from assumptions and from figures of docs/MEASURED.md
and docs/SCALE.md.

Nothing here is measured. A figure is one of a site alone, of one machine, and what is computed of
it for many sites was never run. A consent, a revocation and a sign-out are each taken as a refresh,
since these have no figure of them. A revocation goes with its login, and the other two last.
Clients are left out: they are few.
"""
import math
from typing import Callable, NamedTuple

DAY, YEAR = 86_400, 365  # seconds, days
PAGE = 64  # dots of a page in memory, docs/DECISIONS.md, "Facts in memory"
RUN, RUN_MARKS = 21, 1024  # bytes of a run of marks in a file, docs/FORMATS.md, and its marks


class Option(NamedTuple):
    """A number that may be given: whole if its default is."""
    default: float
    least: float
    most: float
    about: str


ASSUMED = {
    "logins": Option(0.1, 0, 1000, "logins of a user a day"),
    "refreshes": Option(24, 0, 10_000, "refreshes of a login"),
    "introspections": Option(10, 0, 1e6, "introspections of an access token"),
    "revocations": Option(0.1, 0, 1000, "revocations of a login, log-outs among them"),
    "sign-outs": Option(0.1, 0, 1000, "sign-outs everywhere of a user a year"),
    "consents": Option(1, 0, 1000, "consents of a user"),
    "peak": Option(3, 1, 1000, "rate at the peak by the mean rate"),
    "access": Option(3600, 1, 86_400, "seconds of an access token"),
    "family": Option(2_592_000, 1, 315_360_000, "seconds of a family"),
    "prune": Option(7, 0, 10_000, "days between two prunes"),
    "margin": Option(2, 1, 10_000, "days of a prune's margin"),
    "regions": Option(2, 1, 65_535, "sites of a cell, each with a region that runs"),
    "directory": Option(2, 0, 65_535, "sites of the directory, if there are several cells"),
    "memory": Option(64.0, 0.001, 1e6,
                     "GB of memory that a site may use; compact takes as much again"),
    "full": Option(0.5, 0.001, 1, "part of it that is used at first; the rest is for growth"),
    "busy": Option(0.5, 0.001, 1, "part of its processor that a site uses at the peak"),
    "longest": Option(3600, 1, 1e9, "seconds that a start may take"),
    "starts": Option(12, 0, 1e6, "starts of a site a year"),
    "numbers": Option(65_535, 1, 65_535, "region numbers"),
    "slots": Option(64, 1, 1e9, "slots of subjects: SLOTS of examples/cells/tables.py"),
}

FIGURES = {
    # docs/MEASURED.md, "Sizes", the first table
    "login-memory": Option(927, 0, 1e9, "bytes of a login in memory"),
    "login-wire": Option(284, 0, 1e9, "bytes of a login on the wire"),
    "login-log": Option(295, 0, 1e9, "bytes of a login in a log"),
    "refresh-memory": Option(396, 0, 1e9, "bytes of a refresh in memory"),
    "refresh-wire": Option(137, 0, 1e9, "bytes of a refresh on the wire"),
    "refresh-log": Option(143, 0, 1e9, "bytes of a refresh in a log"),
    # docs/MEASURED.md, "A prune": 500,000 pruned logins leave 88 KiB more than 20,001 do
    "left": Option(0, 0, 1e9, "bytes that a pruned login leaves in memory"),
    # docs/SCALE.md, "A hundred days": the place of a mark on a page that has a fact
    "place": Option(24, 0, 1e9, "bytes of a mark beside a fact that lasts"),
    # docs/SCALE.md, "Several sites behind HAProxy", one site; a code is one of two requests
    "introspected": Option(19_751, 1, 1e9, "introspections a second of a site"),
    "refreshed": Option(8829, 1, 1e9, "refreshes a second of a site"),
    "coded": Option(8569, 1, 1e9, "requests a second of logins of a site"),
    # docs/MEASURED.md, "A push", bundles of 128 facts, with --log-taken
    "taken": Option(200_596, 1, 1e9, "facts of other sites a second that a site takes in"),
    # docs/MEASURED.md, "A start": 200,000 facts in 875 ms, less 1.14 ms for none
    "loaded": Option(228_869, 1, 1e9, "facts a second of a start"),
    # docs/SCALE.md, "A hundred days", the last row: the marks, by the seconds of a start with
    # the files, which have some facts too. The machine was busy: a quiet one takes fewer seconds
    "marked": Option(614_673, 1, 1e9, "marks a second of a start"),
}

OPTIONS = {**ASSUMED, **FIGURES}


class Row(NamedTuple):
    """A line: its name, the rule of its value, and what computes it of a plan."""
    name: str
    rule: str
    value: Callable


class Plan:
    """What a number of users needs. `of` has each option's number by its name."""

    def __init__(self, users, of):
        self.users, self.of = users, of
        self.logins = users * of["logins"]
        self.facts_of_login = 2 + of["refreshes"] + of["revocations"]
        self.logins_peak = self.logins / DAY * of["peak"]
        self.refreshes_peak = self.logins_peak * of["refreshes"]
        self.asked_peak = self.logins_peak * (1 + of["refreshes"]) * of["introspections"]
        self.days = of["family"] / DAY + of["prune"] + of["margin"]
        self.consents = users * of["consents"]
        self.alive = self.logins * self.days * self.facts_of_login + self.consents
        self.tokens = self.logins * (1 + of["refreshes"]) * of["access"] / DAY
        self.cells = math.ceil(max(1, self.cells_by_memory(), self.cells_by_processors(),
                                   self.cells_by_start()))
        self.has_directory = self.cells > 1
        self.sites = self.cells * of["regions"] + self.has_directory * of["directory"]

    def bytes_of_login(self, place):
        """The bytes of a login with all of its facts: in memory, on the wire or in a log."""
        return self.of["login-" + place] + (self.facts_of_login - 2) * self.of["refresh-" + place]

    def processors(self):
        """How many processors serve the peak of all cells."""
        of, logins = self.of, self.logins_peak
        made = logins * self.facts_of_login
        return (self.asked_peak / of["introspected"] + 2 * logins / of["coded"]
                + (self.refreshes_peak + logins * of["revocations"]) / of["refreshed"]
                + made * (of["regions"] - 1) / of["taken"])

    def memory_at_first(self):
        """Bytes of all logins that are kept and of all consents, of one site of each cell."""
        lasting = self.of["refresh-memory"] + PAGE * self.of["place"]
        return self.logins * self.days * self.bytes_of_login("memory") + self.consents * lasting

    def cells_by_memory(self):
        return self.memory_at_first() / (self.of["memory"] * 1e9 * self.of["full"])

    def cells_by_processors(self):
        return self.processors() / (self.of["regions"] * self.of["busy"])

    def cells_by_start(self):
        return self.alive / (self.of["loaded"] * self.of["longest"])

    def memory(self):
        return self.memory_at_first() / self.cells

    def marks(self):
        """Facts of a cell that a year's prunes drop; each leaves a mark."""
        return self.logins * YEAR * self.facts_of_login / self.cells

    def sign_outs(self):
        """Sign-outs of all users in a year: each cell has a fact of each, and the directory."""
        return self.users * self.of["sign-outs"]

    def lasting(self):
        """Facts that last and that a year adds to a site."""
        return (1 + self.has_directory) * self.sign_outs()

    def memory_grows(self):
        kept = min(self.sign_outs() * PAGE, self.marks()) * self.of["place"]
        left = self.logins * YEAR * self.of["left"] / self.cells
        return self.lasting() * self.of["refresh-memory"] + kept + left

    def traffic(self):
        """Bytes a day between all sites."""
        of = self.of
        outs = self.sign_outs() / YEAR * of["refresh-wire"]
        own = (self.logins * self.bytes_of_login("wire") + outs * self.cells) * (of["regions"] - 1)
        return own + self.has_directory * outs * (self.sites - 1)

    def disk(self):
        """Bytes a day that a site writes to its log, of its own facts and of those it takes in."""
        made = self.logins / self.cells * self.bytes_of_login("log")
        return made + self.lasting() / YEAR * self.of["refresh-log"]

    def compacted(self):
        kept = self.logins * self.days * self.bytes_of_login("wire")
        return (kept + self.consents * self.of["refresh-wire"]) / self.cells

    def runs(self):
        """Runs of marks of a year: a fact that lasts ends one."""
        return min(self.marks() / RUN_MARKS + self.lasting(), self.marks())

    def compacted_grows(self):
        return self.runs() * RUN + self.lasting() * self.of["refresh-wire"]

    def start(self):
        return self.alive / self.cells / self.of["loaded"]

    def start_grows(self):
        return self.marks() / self.of["marked"] + self.lasting() / self.of["loaded"]

    def starts(self):
        """Starts of each site until all numbers are used."""
        return self.of["numbers"] // self.sites if self.sites else 0

    def limits(self):
        """Years until each limit is met, by its name, the first one first."""
        of, located = self.of, self.cells * self.of["regions"]
        found = {
            "slots": 0 if self.has_directory and located > of["slots"] else math.inf,
            "start": ratio(max(of["longest"] - self.start(), 0), self.start_grows()),
            "memory": ratio(max(of["memory"] * 1e9 - self.memory(), 0), self.memory_grows()),
            "numbers": ratio(self.starts(), of["starts"]),
        }
        return dict(sorted(found.items(), key=lambda it: it[1]))


def ratio(room, growth):
    """Years for which a room lasts."""
    return room / growth if growth else math.inf


def limit(name):
    return lambda it: it.limits()[name]


def first(plan):
    """The limit that is met first, and when."""
    name, years = next(iter(plan.limits().items()))
    if years == math.inf:
        return "nothing"
    return "%s, %s" % (name, "after %s years" % text_of(years) if years else "at once")


ROWS = (
    Row("logins a day", "users × logins", lambda it: it.logins),
    Row("logins a second at the peak", "logins a day / 86400 × peak",
        lambda it: it.logins_peak),
    Row("refreshes a second at the peak", "logins a second × refreshes",
        lambda it: it.refreshes_peak),
    Row("introspections a second at the peak",
        "logins a second × (1 + refreshes) × introspections", lambda it: it.asked_peak),
    Row("processors at the peak",
        "introspections / introspected + 2 × logins / coded + (refreshes + logins × revocations) / "
        "refreshed + logins × (2 + refreshes + revocations) × (regions - 1) / taken",
        Plan.processors),
    Row("access tokens that live", "logins a day × (1 + refreshes) × access / 86400",
        lambda it: it.tokens),
    Row("days that a login is kept", "family / 86400 + prune + margin", lambda it: it.days),
    Row("facts that are alive",
        "logins a day × days × (2 + refreshes + revocations) + users × consents",
        lambda it: it.alive),
    Row("cells by memory",
        "(logins a day × days × (login-memory + (refreshes + revocations) × refresh-memory) + "
        "users × consents × (refresh-memory + 64 × place)) / (memory × full)",
        Plan.cells_by_memory),
    Row("cells by processors", "processors / (regions × busy)", Plan.cells_by_processors),
    Row("cells by a start", "facts that are alive / (loaded × longest)", Plan.cells_by_start),
    Row("cells", "the greatest of these three, rounded up", lambda it: it.cells),
    Row("sites", "cells × regions + directory; without a directory if there is one cell",
        lambda it: it.sites),
    Row("dropped facts of a cell a year",
        "logins a day × 365 × (2 + refreshes + revocations) / cells", Plan.marks),
    Row("lasting facts of a site a year",
        "users × sign-outs × 2, of which the directory made half; × 1 if there is one cell",
        Plan.lasting),
    Row("memory of a site, GB", "cells by memory × memory × full / cells",
        lambda it: it.memory() / 1e9),
    Row("more memory of a site a year, GB",
        "lasting facts × refresh-memory + users × sign-outs × 64 × place (at most dropped facts × "
        "place) + logins a day × 365 × left / cells", lambda it: it.memory_grows() / 1e9),
    Row("traffic between sites a day, GB",
        "logins a day × (login-wire + (refreshes + revocations) × refresh-wire) × (regions - 1), "
        "and sign-outs × refresh-wire: in each cell to its other sites, by the directory to all",
        lambda it: it.traffic() / 1e9),
    Row("disk of a site a day, GB",
        "logins a day × (login-log + (refreshes + revocations) × refresh-log) / cells + "
        "lasting facts / 365 × refresh-log", lambda it: it.disk() / 1e9),
    Row("disk of a site after `compact`, GB",
        "(logins a day × days × (login-wire + (refreshes + revocations) × refresh-wire) + "
        "users × consents × refresh-wire) / cells", lambda it: it.compacted() / 1e9),
    Row("more after `compact` a year, GB",
        "(dropped facts / 1024 + lasting facts, at most dropped facts) × 21 + "
        "lasting facts × refresh-wire",
        lambda it: it.compacted_grows() / 1e9),
    Row("start of a site, s", "facts that are alive / cells / loaded", Plan.start),
    Row("longer a year, s", "dropped facts / marked + lasting facts / loaded", Plan.start_grows),
    Row("starts of a site that the numbers last", "numbers / sites, rounded down", Plan.starts),
    Row("years that the slots last", "0 if there are several cells, and cells × regions > slots",
        limit("slots")),
    Row("years that a start is short", "(longest - start of a site) / longer a year",
        limit("start")),
    Row("years that the memory lasts", "(memory - memory of a site) / more memory a year",
        limit("memory")),
    Row("years that the numbers last", "starts of a site / starts", limit("numbers")),
    Row("breaks first", "the least of these four", first),
)


def text_of(value):
    """A value as text: three digits that count, or a whole number below a million."""
    if isinstance(value, str):
        return value
    if value == math.inf:
        return "for ever"
    for unit, name in (1e12, " trillion"), (1e9, " billion"), (1e6, " million"):
        if value >= unit:
            value = float("%.3g" % (value / unit))
            return format(value, "g") + name
    return "%.0f" % value if value >= 100 or value == int(value) else "%.3g" % value
