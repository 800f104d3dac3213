"""results: what `--json` wrote, of one measurement or of all, and numbers of it by their names."""
import json
import re
import statistics

from measuring import tables


class Missing(Exception):
    """A measurement, or a number of one, that the results don't have."""


class Part:
    """The data of one measurement. Of two programs it has the first one's, and no empty row."""

    def __init__(self, data):
        self.data = data
        self.rows = {it["name"]: it["values"][0] for it in data["rows"] if it["values"][0]}

    def values(self, name):
        if name not in self.rows:
            raise Missing("%s has no %r" % (self.data["command"], name))
        return self.rows[name]

    def median(self, name):
        return statistics.median(self.values(name))

    def cell(self, name):
        """The median with its spread, as text."""
        return tables.cell(self.values(name))

    def number(self, name):
        """The median alone, as text."""
        return tables.number(self.median(name))

    def both(self, name):
        """The median and the 99th of 100 of a request, as text."""
        return "%s, %s" % (self.number(name + ", median in µs"),
                           self.number(name + ", 99th of 100 in µs"))

    def found(self, form):
        """For each name that a form matches whole, the groups of the match, each once, in order."""
        matches = (re.fullmatch(form, it) for it in self.rows)
        return list(dict.fromkeys(it.groups() for it in matches if it))

    def numbers(self, form):
        """The one group of each match as a number, ascending."""
        return sorted(whole(it[0]) for it in self.found(form))

    def caption(self):
        """The command, the number of rounds, and the program."""
        rounds, program = self.data["rounds"], self.data["programs"][0]
        many = "1 round" if rounds == 1 else "medians of %d rounds (least to greatest)" % rounds
        return "`check/measure/%s`, %s%s, %s of digest %s." % (
            self.data["command"], many, ", **small sizes**" if self.data["small"] else "",
            program["version"] or program["name"], program["digest"])


def whole(text):
    return int(text.replace(",", ""))


def read(paths):
    """The parts of all files, by command. A later file replaces what an earlier one has."""
    parts = {}
    for path in paths:
        with open(path, encoding="utf-8") as file:
            data = json.load(file)
        for it in data if isinstance(data, list) else [data]:
            parts[it["command"]] = Part(it)
    return parts


def part(parts, name):
    if name not in parts:
        raise Missing("no results of check/measure/%s" % name)
    return parts[name]


def servers_of(it):
    """The servers that check/measure/peers measured, tokend first."""
    return [name for name, in it.found("(.*): active after a reuse")]


def states_of(it):
    """How much they held, as the names have it, least first, each with its number of logins."""
    found = [where for where, in it.found("tokend, (.*): memory in KiB")]
    return [(where, 0 if where == "fresh" else whole(where.split()[0])) for where in found]


def text_of(head, rows):
    """A Markdown table."""
    lines = [head, ["---"] * len(head), *rows]
    return "\n".join("| %s |" % " | ".join(it) for it in lines)
