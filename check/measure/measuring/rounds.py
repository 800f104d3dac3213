"""rounds: runs a measurement of each program several times, and shows what came of it.

A measurement is a function of a program and of whether the sizes are to be small. It returns a
number for each of its names. The programs take turns, so that a machine that is busy for a while
is so for all of them.
"""
import argparse
import os
import signal
import sys

from lib import BUILT, Absent, Broken
from lib.command import end
from measuring import tables

ABSENT = 3
PYTHON = "/usr/bin/python3"  # the distribution's, which its packages are for


def arguments(about, rounds):
    """What a command of check/measure was given. Ends with status 2 if that is wrong."""
    parser = argparse.ArgumentParser(description=about.split("\n")[0])
    parser.add_argument("--rounds", type=int, metavar="N")
    parser.add_argument("--small", action="store_true", help="small sizes, and one round")
    parser.add_argument("--json", metavar="FILE", help="writes the data of the table too")
    parser.add_argument("program", nargs="*", default=[os.environ.get("TOKEND") or BUILT])
    given = parser.parse_args()
    if given.rounds is None:
        given.rounds = 1 if given.small and rounds else rounds
    elif given.rounds < 1:
        parser.error("at least one round")
    given.program = [os.path.abspath(it) for it in given.program]
    for program in given.program:
        if not os.access(program, os.X_OK) or os.path.isdir(program):
            parser.error("no program at %s" % program)
    return given


def collect(measure, given):
    """For each name, a list of each program's numbers."""
    rows = {}
    for _ in range(given.rounds):
        for at, program in enumerate(given.program):
            for name, number in measure(program, given.small).items():
                rows.setdefault(name, [[] for _ in given.program])[at].append(number)
    return rows


def run(measure, about, rounds, read=arguments):
    """The whole command: returns its status."""
    given = read(about, rounds)
    name = os.path.basename(sys.argv[0])
    signal.signal(signal.SIGTERM, end)
    machine = tables.about_machine()
    try:
        rows = collect(measure, given)
    except Absent as why:
        print("%s: passed over: %s" % (name, why), file=sys.stderr)
        return ABSENT
    except (Broken, OSError) as why:
        print("%s: %s" % (name, why), file=sys.stderr)
        return 1
    found = tables.data(name, about, machine, given, rows)
    if given.json:
        tables.write(given.json, found)
    print(tables.machine(machine) + "\n\n" + tables.table(found))
    return 0
