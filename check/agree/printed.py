"""printed: the table that check/measure/ledger prints of two trees, if both have prunes and if one
alone has them, and what check/measure/report writes of a pruned family, against tables written by
hand."""
import importlib.machinery
import importlib.util
import os
import tempfile
import types
from pathlib import Path

from lib import TOP
from measuring import blocks, results, rounds, tables
from texts import same

COMMAND, REPORT, PRUNING = "check/measure/ledger", "check/measure/report", ".pruning"
PROGRAM = "#!/bin/sh\n"  # in place of a built program; its digest is a8076d3d28d2
RATES = """\
ledger: The ledger alone, facts, statuses and prunes
1 round, small sizes; older (a8076d3d28d2); newer (a8076d3d28d2)

|                                                  | older   | newer   | ratio |
| ------------------------------------------------ | ------- | ------- | ----- |
| facts added a second, 1,000 families             | 1,500   | 3,000   | 2.00  |
| statuses a second, 1,000 families                | 200,000 | 400,000 | 2.00  |
| look-ups of a status, 1,000 families             | 8       | 8       | 1.00  |
| bytes of memory a family, 1,000 families         | 1,250   | 1,250   | 1.00  |
| facts added a second, 10,000 families            | 15,000  | 30,000  | 2.00  |
| statuses a second, 10,000 families               | 200,000 | 400,000 | 2.00  |
| look-ups of a status, 10,000 families            | 8       | 8       | 1.00  |
| bytes of memory a family, 10,000 families        | 1,250   | 1,250   | 1.00  |
"""
PRUNES_OF_ONE = """\
| seconds of a prune, 30,000 facts                 |         | 0.25    |       |
| MB resident with no family, 30,000 facts         |         | 2       |       |
| MB resident before the prune, 30,000 facts       |         | 40      |       |
| MB resident after the prune, 30,000 facts        |         | 38      |       |
| MB resident with as many new facts, 30,000 facts |         | 42      |       |
| bytes left of a family, 30,000 facts             |         | 200     |       |
"""
PRUNES_OF_BOTH = """\
| seconds of a prune, 30,000 facts                 | 0.5     | 0.25    | 0.50  |
| MB resident with no family, 30,000 facts         | 2       | 2       | 1.00  |
| MB resident before the prune, 30,000 facts       | 40      | 40      | 1.00  |
| MB resident after the prune, 30,000 facts        | 38      | 38      | 1.00  |
| MB resident with as many new facts, 30,000 facts | 42      | 42      | 1.00  |
| bytes left of a family, 30,000 facts             | 200     | 200     | 1.00  |
"""
LEFT_OF_FAMILY = """\
| a pruned family leaves | a million logins leave |
| --- | --- |
| 200 bytes | 0.2 GB |"""


def points(program, families):
    """Returns facts, look-ups, seconds and bytes as the lines of a program would have them.

    Everything takes the older tree twice as long.
    """
    facts, factor = 3 * families, 2 if Path(program).name.startswith("older") else 1
    if program.endswith(PRUNING):
        return [(0, 0, 0, 2e6), (facts, 0, factor, 40e6), (0, 0, 1.25 * factor, 38e6),
                (facts, 0, 2 * factor, 42e6), (0, 0, 2.25 * factor, 42e6),
                (facts, 0, 3 * factor, 44e6), (0, 0, 3.25 * factor, 44e6)]
    return [(0, 0, 0, 2e6), (0, 0, factor, 2e6), (facts, 0, 3 * factor, 1250 * families),
            (facts, 1_600_000, 3.5 * factor, 1250 * families)]


def loaded():
    """Returns the command as a module that builds and measures nothing."""
    loader = importlib.machinery.SourceFileLoader("ledger", os.path.join(TOP, COMMAND))
    module = importlib.util.module_from_spec(importlib.util.spec_from_loader("ledger", loader))
    loader.exec_module(module)
    module.points = points
    return module


def data_of(ledger, programs):
    """Returns the data of one round of small sizes."""
    given = types.SimpleNamespace(program=list(map(str, programs)), rounds=1, small=True)
    rows = rounds.collect(ledger.measure, given)
    return tables.data("ledger", ledger.__doc__, {}, given, rows)


def compare_table(what, wanted, found):
    same(COMMAND, "the table of " + what, wanted, tables.table(found) + "\n")


def compare_left(what, wanted, found):
    """Compares what is left of a family that was pruned in the first tree, or why it is missing."""
    try:
        _, said = blocks.ALL["left"]({"ledger": results.Part(found)})
    except results.Missing as why:
        said = str(why)
    same(REPORT, "the table `left` of " + what, wanted, said)


def compare():
    ledger = loaded()
    with tempfile.TemporaryDirectory() as folder:
        programs = [Path(folder, name) for name in ("older", "newer")]
        for it in programs:
            it.write_text(PROGRAM, encoding="utf-8")
            it.chmod(0o755)
        Path(folder, "newer" + PRUNING).touch()
        found, what = data_of(ledger, programs), "a tree without prunes and of one with them"
        compare_table(what, RATES + PRUNES_OF_ONE, found)
        compare_left(what, "ledger has no prunes", found)
        found = data_of(ledger, programs[::-1])
        compare_left("a tree with prunes and of one without them", LEFT_OF_FAMILY, found)
        Path(folder, "older" + PRUNING).touch()
        found, what = data_of(ledger, programs), "two trees with prunes"
        compare_table(what, RATES + PRUNES_OF_BOTH, found)
        compare_left(what, LEFT_OF_FAMILY, found)
