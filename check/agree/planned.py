"""planned: the figures of check/measure/planned against the tables of docs/MEASURED.md and
docs/SCALE.md, its sums against sums made by hand, the table of docs/CELLS.md against what it
prints, and its refusals.
"""
import json
import math
import os
import re
import subprocess
import sys
import tempfile

from lib import TOP
from measuring import plan
from texts import MEASURED, SCALE, differ, rows, same, text_of

COMMAND = "check/measure/planned"
DOCUMENT = "docs/CELLS.md"
HOME = "check/measure/measuring/plan.py"

# where a figure is a cell of a table: the table, the beginning of the row, and the column
CELLS = {
    "login-memory": ("memory", ["a login"], 1), "refresh-memory": ("memory", ["a refresh"], 1),
    "login-wire": ("memory", ["a login"], 2), "refresh-wire": ("memory", ["a refresh"], 2),
    "login-log": ("memory", ["a login"], 3), "refresh-log": ("memory", ["a refresh"], 3),
    "introspected": ("scaled", ["introspections, a connection for each, a second"], 1),
    "refreshed": ("scaled", ["refreshes, a second"], 1),
    "coded": ("scaled", ["codes, a second"], 1),
    "taken": ("push", ["128", "with `--log-taken`"], 2)}

# round figures, of which each sum below is made by hand
ROUND = {
    "logins": 0.1, "refreshes": 8, "introspections": 10, "revocations": 0.1, "sign-outs": 0.073,
    "consents": 1, "peak": 8.64, "access": 8640, "family": 2_592_000, "prune": 7, "margin": 3,
    "regions": 2, "directory": 2, "memory": 47.4, "full": 0.5, "busy": 0.5, "longest": 1000,
    "starts": 10, "numbers": 65_535, "slots": 16, "login-memory": 1000, "login-wire": 280,
    "login-log": 300, "refresh-memory": 400, "refresh-wire": 140, "refresh-log": 150, "left": 10,
    "place": 25, "introspected": 10_000, "refreshed": 1000, "coded": 1000, "taken": 10_100,
    "loaded": 100_000, "marked": 250_000}
SUMS = {
    "logins a day": 1_000_000,
    "logins a second at the peak": 100,  # 1,000,000 / 86,400 is 11.574, and 8.64 times that
    "refreshes a second at the peak": 800,
    "introspections a second at the peak": 9000,  # nine access tokens a login, ten of each
    "processors at the peak": 2.01,  # 0.9 + 0.2 + 0.81, and 1,010 facts of 10,100
    "access tokens that live": 900_000,  # nine million a day, each for a tenth of a day
    "days that a login is kept": 40,
    "facts that are alive": 414_000_000,  # 40 days of 10,100,000, and ten million consents
    "cells by memory": 8,  # 169.6 GB of logins and 20 GB of consents, by 23.7 GB
    "cells by processors": 2.01,
    "cells by a start": 4.14,
    "cells": 8,
    "sites": 18,
    "dropped facts of a cell a year": 460_812_500,  # 3,686,500,000 by eight
    "lasting facts of a site a year": 1_460_000,  # twice 730,000 sign-outs
    "memory of a site, GB": 23.7,
    # 1,460,000 of 400 bytes, 730,000 with 64 places of 25 bytes, 45,625,000 logins leave 10 each
    "more memory of a site a year, GB": 0.584 + 1.168 + 0.45625,
    # 1,400 bytes a login, 14 of revocations; 2,000 sign-outs of 140 bytes go 8 and 17 ways
    "traffic between sites a day, GB": 1.4 + 0.014 + 0.007,
    "disk of a site a day, GB": 0.189375 + 0.0006,  # 125,000 of 1,515 bytes, 4,000 of 150
    "disk of a site after `compact`, GB": 7.245,  # 56.56 GB and 1.4 GB, by eight
    # 450,012.2 full runs, and one of each of 1,460,000 facts
    "more after `compact` a year, GB": 0.04011025634765625 + 0.2044,
    "start of a site, s": 517.5,  # 51,750,000 facts
    "longer a year, s": 1843.25 + 14.6,
    "starts of a site that the numbers last": 3640,  # 18 times 3,640 is 65,520
    "years that the slots last": math.inf,  # 16 sites have slots, of 16
    "years that a start is short": 482.5 / 1857.85,
    "years that the memory lasts": 23.7 / 2.20825,
    "years that the numbers last": 364,
    "breaks first": "start, after 0.26 years"}

# the columns of the table in docs/CELLS.md, and the lines that they are of
COLUMNS = {
    "cells": "cells", "sites": "sites", "start, s": "start of a site, s",
    "start is short": "years that a start is short",
    "memory": "years that the memory lasts", "numbers": "years that the numbers last",
    "breaks first": "breaks first"}
WRONG = (["--logins", "-1"], ["--refreshes", "0.5"], ["--memory", "nan"], ["--regions", "0"],
         ["--users", "0"], ["--users", "many"], ["--users"], ["--numbers", "65536"],
         ["--unknown", "1"], ["--sign", "1"], ["7"], ["--json", "/"])


def run(*words):
    return subprocess.run([sys.executable, os.path.join(TOP, COMMAND), *words],
                          capture_output=True, text=True, check=False)


def plain(text):
    """The number at the beginning of a cell."""
    return float(text.split()[0].replace(",", ""))


def measured():
    """Both documents with measured figures, as one text."""
    return text_of(MEASURED) + text_of(SCALE)


def cell(mark, begin, column):
    """A number of a measured table; nothing if there is no such row."""
    block = measured().partition("<!-- measured: %s -->" % mark)[2].partition("<!-- end")[0]
    for line in block.splitlines():
        cells = line.strip("| ").split(" | ")
        if cells[:len(begin)] == begin:
            return plain(cells[column])
    return differ(MEASURED + " or " + SCALE, "the table %s has no row %s" % (mark, begin))


def made():
    """The figures that are made of several measured numbers."""
    text = re.sub(r"\s+", " ", measured())
    most, least = (cell("start", [families], 1) for families in ("100,000", "0"))
    growth = re.search(r"grew by (\S+) KiB with the marks of (\S+) logins \(.*?\), and by "
                       r"(\S+) KiB with those of (\S+?)[:.]", text)
    grown, logins, grown_before, logins_before = map(plain, growth.groups())
    return {
        "loaded": math.floor(200_000 / (most - least) * 1e3),
        "marked": math.floor((cell("days", ["100"], 1) - cell("days", ["100"], 2))
                             / cell("days", ["100"], 8)),
        "left": max(0, round((grown - grown_before) * 1024 / (logins - logins_before))),
        "place": plain(re.search(r"whose marks each had a place of (\d+) bytes", text)[1])}


def compare_figures():
    wanted = {name: cell(*where) for name, where in CELLS.items()} | made()
    same(HOME, "the figures", sorted(wanted), sorted(plan.FIGURES))
    for name, it in plan.FIGURES.items():
        same(HOME, "the measured figure " + name, wanted.get(name), it.default)


def is_same(wanted, found):
    if isinstance(wanted, str) or isinstance(found, str):
        return wanted == found
    return math.isclose(wanted, found, rel_tol=1e-9)


def compare_sums():
    """Compares a plan of round figures with sums made by hand."""
    it = plan.Plan(10_000_000, ROUND)
    same(HOME, "the rows", list(SUMS), [row.name for row in plan.ROWS])
    for row in plan.ROWS:
        if not is_same(SUMS[row.name], row.value(it)):
            differ(HOME, "%s: %r, by hand %r" % (row.name, row.value(it), SUMS[row.name]))
    few = plan.Plan(10_000_000, ROUND | {"slots": 15}).limits()
    same(HOME, "the first limit of 16 sites and 15 slots", ("slots", 0), next(iter(few.items())))
    more, one = plan.Plan(11_000_000, ROUND), plan.Plan(1_000_000, ROUND)
    same(HOME, "the cells and sites of a tenth more", (9, 20), (more.cells, more.sites))
    same(HOME, "the cells and sites of a tenth", (1, 2), (one.cells, one.sites))
    same(HOME, "the lasting facts of one cell", 73_000, round(one.lasting()))


def compare_printed(folder):
    """What is printed and what --json writes: the same values, and each with its rule."""
    path = os.path.join(folder, "planned.json")
    said = run("--json", path, "--users", "10000000", "--logins", "0.2")
    same(COMMAND, "the status", (0, ""), (said.returncode, said.stderr))
    with open(path, encoding="utf-8") as file:
        kept = json.load(file)
    same(COMMAND, "`computed` in its data", True, kept["computed"])
    text = re.sub(r"\s+", " ", said.stdout)
    for row in kept["rows"]:
        value = math.inf if row["values"][0] is None else row["values"][0]
        line = "%s %s = %s" % (row["name"], plan.text_of(value), row["rule"])
        if line not in text:
            differ(COMMAND, "doesn't print the line %r" % line)
    same(COMMAND, "the logins of its data", [2_000_000], kept["rows"][0]["values"])


def compare_table():
    """Each row of the table in docs/CELLS.md, whose options are named above it."""
    text, found = text_of(DOCUMENT), 0
    named = {name: words.split() for name, words in
             re.findall(r"^- \*(\w+)\*: `%s(.*?)`" % re.escape(COMMAND), text, re.M)}
    for users, kind, *cells in rows(text, "users | logins | cells | "):
        count = float(users.split()[0]) * {"million": 1e6, "billion": 1e9}[users.split()[1]]
        words = named[kind]
        given = {it[2:]: float(value) for it, value in zip(words[::2], words[1::2])}
        it = plan.Plan(int(count), {name: option.default for name, option in plan.OPTIONS.items()}
                       | given)
        values = {row.name: plan.text_of(row.value(it)) for row in plan.ROWS}
        same(DOCUMENT, "what %s users need, %s" % (users, kind),
             [values[name] for name in COLUMNS.values()], cells)
        found += 1
    same(DOCUMENT, "the rows of the table of `planned`", 3 * len(named) or "some", found)


def compare_refusals():
    for words in WRONG:
        said = run(*words)
        is_line = re.fullmatch("planned: .*\n", said.stderr) is not None
        same(COMMAND, "status, output and line of " + " ".join(words), (2, "", True),
             (said.returncode, said.stdout, is_line))


def compare():
    compare_figures()
    compare_sums()
    with tempfile.TemporaryDirectory() as folder:
        compare_printed(folder)
    compare_table()
    compare_refusals()
