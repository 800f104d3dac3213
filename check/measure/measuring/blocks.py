"""blocks: the tables of docs/MEASURED.md and docs/SCALE.md, each made from the results of one
measurement."""
import re

from measuring import paper, tables
from measuring.results import part, servers_of, states_of, text_of

BEHIND = ", requests a second"


def speed_rows(it, names, beside):
    """A line for each kind of request, and its part of the rate of each C server."""
    return [[name, it.cell(name + BEHIND), it.both(name), it.number(name + ", processor in µs")]
            + [it.number("%s, of the %s" % (name, floor)) if floor else "1" for floor in beside]
            for name in names]


HEAD = ["request", "a second", "median, 99th in µs", "processor in µs"]


def speed(parts):
    it, floor = part(parts, "speed"), "C server"
    rows = speed_rows(it, [floor], [None])
    rows += speed_rows(it, ["introspect", "refresh", "code"], [floor])
    return it, text_of(HEAD + ["of its rate"], rows)


def logged(parts):
    it, floors = part(parts, "speed"), ["C server that appends", "C server that syncs"]
    rows = [speed_rows(it, [name], [])[0] + ["", ""] for name in floors]
    rows += speed_rows(it, ["refresh with --log", "code with --log"], floors)
    return it, text_of(HEAD + ["of the first's", "of the second's"], rows)


def calls(parts):
    """A line for each name, and a column for each kind of request."""
    it = part(parts, "calls")
    kinds = list(dict.fromkeys(kind for kind, _ in it.found("(.*): (.*)")))
    names = dict.fromkeys(name for _, name in it.found("(.*): (.*)"))
    rows = [[name] + [it.number("%s: %s" % (kind, name)) if "%s: %s" % (kind, name) in it.rows
                      else "" for kind in kinds] for name in names]
    return it, text_of(["of one"] + kinds, rows)


def profile(parts):
    """A line for each crate, with its part of all instructions of each kind of request."""
    it, kinds = part(parts, "profile"), ("introspect", "refresh", "code")
    groups = dict.fromkeys(group for _, group in it.found("([^,]*): (.*)") if group != "all")

    def cell(kind, group):
        name = "%s: %s" % (kind, group)
        if name not in it.rows:
            return ""
        return "%s (%.0f %%)" % (it.number(name), 100 * it.median(name) / it.median(kind + ": all"))

    rows = [[group] + [cell(kind, group) for kind in kinds] for group in groups]
    rows.append(["all"] + [it.number(kind + ": all") for kind in kinds])
    return it, text_of(["instructions of", *kinds], rows)


PROXIED = {"direct": "direct, a connection for each request",
           "proxied, new": "by HAProxy, a connection for each request",
           "proxied, kept": "by HAProxy, whose clients keep theirs",
           "direct, --keep": "direct, kept connections",
           "proxied, --keep": "by HAProxy, kept connections on both sides"}


def many_row(it, label, name):
    """A line of clients at the same time; the numbers' names begin with a text."""
    return [label, it.cell(name + "requests a second"),
            "%s, %s" % (it.number(name + "median in µs"), it.number(name + "99th of 100 in µs")),
            it.number(name + "processor in µs")]


def proxied(parts):
    it = part(parts, "proxied")
    rows = [many_row(it, label, name + ", ") for name, label in PROXIED.items()]
    return it, text_of(["introspections"] + HEAD[1:], rows)


def clients(parts):
    it = part(parts, "clients")
    rows = [many_row(it, str(many), "clients %d: " % many)
            for many in it.numbers(r"clients (\d+): requests a second")]
    return it, text_of(["clients"] + HEAD[1:], rows)


CONNECTIONS = {"new": "a new one each", "kept": "kept"}


def turns(parts):
    """A line for each kind of request, log and number of clients, of all servers."""
    it, rows = part(parts, "turns"), []
    for what, how, log, many in it.found(r"(.*), (.*), (.*), clients (\d+): requests a second"):
        name = "%s, %s, %s, clients %s: " % (what, how, log, many)
        of = [name + "of the rate of " + other for other in ("C server", "Redis")]
        rows.append([what, log, CONNECTIONS[how], *many_row(it, many, name)]
                    + [it.number(one) if one in it.rows else "" for one in of])
    return it, text_of(["request", "log", "connections", "clients"] + HEAD[1:]
                       + ["of the C server's rate", "of Redis'"], rows)


def growth(parts):
    """A line for each number of families."""
    it, rows = part(parts, "growth"), []
    for size in it.numbers("families (.*): memory in KiB"):
        name = "families %s: " % format(size, ",")
        rows.append([format(size, ","), it.cell(name + "introspections a second"),
                     "%s, %s" % (it.number(name + "median in µs"),
                                 it.number(name + "99th of 100 in µs")),
                     it.number(name + "processor in µs"), it.number(name + "memory in KiB"),
                     it.number(name + "push of the new ones in s")])
    return it, text_of(["families", "a second", "median, 99th in µs", "processor in µs",
                        "memory in KiB", "push in s"], rows)


def generations(parts):
    """A line for each number of refreshes of a login."""
    it, rows = part(parts, "growth"), []
    for size in it.numbers("generation (.*): refreshes a second"):
        name = "generation %s: " % format(size, ",")
        rows.append([format(size, ","), it.cell(name + "introspections a second"),
                     it.cell(name + "refreshes a second"),
                     it.number(name + "processor of a refresh in µs")])
    return it, text_of(["generation", "introspections a second", "refreshes a second",
                        "processor of a refresh in µs"], rows)


def memory(parts):
    it = part(parts, "memory")
    places = "memory", "on the wire", "in a log"
    rows = [["a " + kind] + [it.number("bytes of a %s, %s" % (kind, place)) for place in places]
            for kind in ("login", "refresh", "refresh of a token that is kept",
                         "change of a secret", "change of a secret by an operator")]
    return it, text_of(["bytes of", *places], rows)


def start(parts):
    """A line for each number of families."""
    it, rows = part(parts, "start"), []
    for size in it.numbers("families (.*): memory in KiB"):
        name = "families %s: " % format(size, ",")
        rows.append([format(size, ","), it.cell(name + "ms until it listens"),
                     it.number(name + "processor in ms"), it.number(name + "memory in KiB")])
    return it, text_of(["families", "ms until it listens", "processor in ms", "memory in KiB"],
                       rows)


def sized(command, head, which, unit):
    """A table with a line for each size, and a column for each of some times."""
    def made(parts):
        """Returns the measurement and its table."""
        it, rows = part(parts, command), []
        for size in it.numbers("%s (.*): %s in %s" % (command, which[0], unit)):
            name = "%s %s: " % (command, format(size, ","))
            rows.append([format(size, ",")] + [it.cell("%s%s in %s" % (name, one, unit))
                                               for one in which])
        return it, text_of([head, *("%s, %s" % (one, unit) for one in which)], rows)
    return made


def signouts(parts):
    """A line for each number of codes, and a column for each kind of push."""
    it, rows = part(parts, "signouts"), []
    pushes = ("one that stops all", "128 later ones", "128 early ones", "one that stops one",
              "128 that stop all")
    for size in it.numbers("codes (.*): one that stops all in ms"):
        name = "codes %s: " % format(size, ",")
        rows.append([format(size, ",")] + [it.cell("%s%s in ms" % (name, one)) for one in pushes])
    return it, text_of(["codes of the subject", *(one + ", ms" for one in pushes)], rows)


def days(parts):
    """A line for each day with a start: what it took, without pruning and with it."""
    it, rows, servers = part(parts, "days"), [], ("never pruned", "--prune-margin")
    for day in it.numbers(r"day (\d+), never pruned: a start, s"):
        names = ["day %d, %s: " % (day, server) for server in servers]
        rows.append(
            [str(day)] + [it.number(name + "facts") for name in names]
            + [tables.number(it.median("%s%s in KiB" % (name, what)) / 1024)
               for what in ("memory", "files") for name in names]
            + [it.number(name + "a start, s") for name in names])
    return it, text_of(["day"] + [one for what in ("facts", "MiB of memory", "MiB of files",
                                                   "s of a start")
                                  for one in (what + ", never pruned", "pruned")], rows)


def push(parts):
    """A line for each size of a bundle and each server, the C servers among them."""
    it, rows = part(parts, "push"), []
    for size, server in it.found(r"bundles of (\d+)(.*): facts a second"):
        name = "bundles of %s%s: " % (size, server)
        beside = [one for one, in it.found(re.escape(name) + "(of the .*)")]
        label = re.sub("(--[a-z-]+)", r"`\1`", server.strip(", ") or "with --log alone")
        rows.append([size, label, it.cell(name + "facts a second"),
                     it.number(name + "processor of a fact in µs"),
                     it.number(name + beside[0]) if beside else "1"])
    return it, text_of(["facts in a bundle", "server", "facts a second",
                        "processor of a fact in µs", "of the C server's rate"], rows)


def plain(name, head):
    """A table of a line for each number of a measurement."""
    def make(parts):
        it = part(parts, name)
        return it, text_of(head, [[row, it.cell(row)] for row in it.rows])
    return make


def joins(parts):
    """A line for each history and each kind of page."""
    it, what = part(parts, "joins"), ("pages", "bytes", "pulls in s", "pushes in s")
    rows = [[history, kind, *(it.number("%s, %s: %s" % (history, kind, one)) for one in what)]
            for history, kind in it.found("(.*), (.*): pages")]
    return it, text_of(["history", "", "pages", "bytes", "pulls, s", "pushes, s"], rows)


def revoked(parts):
    it, what = part(parts, "revoked"), ("median", "90th of 100", "99th of 100")
    rows = [[way] + [it.cell("%s: %s in ms" % (way, one)) for one in what]
            for way, in it.found("(.*): median in ms")]
    return it, text_of(["way", *(one + ", ms" for one in what)], rows)


def fanned(parts):
    it, what = part(parts, "fanned"), ("median", "longest of 20")
    rows = [[way] + [it.cell("%s: %s in ms" % (way, one)) for one in what]
            for way, in it.found("(.*): median in ms")]
    return it, text_of(["way", *(one + ", ms" for one in what)], rows)


SCALED = {"introspect, kept": "introspections, kept connections",
          "introspect, new": "introspections, a connection for each",
          "refresh": "refreshes", "code": "codes"}


def scaled(parts):
    """A line for each kind of request, with a column for each number of sites."""
    it, rows = part(parts, "scaled"), []
    counts = it.numbers(r"sites (\d+), refresh: requests a second")
    for kind, label in SCALED.items():
        names = ["sites %d, %s" % (count, kind) for count in counts]
        rows.append([label + ", a second"] + [it.cell(name + ": requests a second")
                                              for name in names])
        rows.append(["median, 99th in µs"] + [
            "%s, %s" % (it.number(name + ": median in µs"),
                        it.number(name + ": 99th of 100 in µs")) for name in names])
    return it, text_of(["sites"] + [str(count) for count in counts], rows)


def cells(parts):
    """A line for each size and each kind of connection, with a column for each number of cells."""
    it = part(parts, "cells")
    counts = it.numbers(r"cells (\d+), logins")

    def line(label, name, cell):
        return [label] + [cell("cells %d, %s" % (count, name)) for count in counts]

    def share(name):
        return "%.3f" % (it.median(name) / it.median("cells 1, bytes of the logins"))

    rows = [line("logins of a site", "logins", it.number),
            line("memory of the directory, bytes", "bytes of the directory", it.number),
            line("memory of the logins, bytes", "bytes of the logins", it.number),
            line("of that of one cell", "bytes of the logins", share)]
    for kind in "introspect, kept", "introspect, new":
        rows.append(line(SCALED[kind] + ", a second", kind + ": requests a second", it.cell))
        names = ["cells %d, %s" % (count, kind) for count in counts]
        rows.append(["median, 99th in µs"] + [
            "%s, %s" % (it.number(name + ": median in µs"),
                        it.number(name + ": 99th of 100 in µs")) for name in names])
    return it, text_of(["cells"] + [str(count) for count in counts], rows)


def spread(parts):
    """A line for each number of sites and kind of load."""
    it, what = part(parts, "scaled"), ("median", "90th of 100", "longest")
    rows = [[count, where, it.cell("sites %s, %s: facts a second" % (count, where))]
            + [it.cell("sites %s, %s: %s in ms" % (count, where, one)) for one in what]
            for count, where in it.found(r"sites (\d+), (\w+): median in ms")]
    rows += [[count, "from a log", it.cell("sites %s, facts a second" % count), "", "", ""]
             for count, in it.found(r"sites (\d+), facts a second")]
    return it, text_of(["sites", "", "facts a second", *(one + ", ms" for one in what)], rows)


def peers(parts):
    """A line for each server, kind of request and state that was asked for it."""
    it, rows = part(parts, "peers"), []
    for kind in "introspect", "refresh", "code":
        for where, _ in states_of(it):
            for server in servers_of(it):
                name = "%s, %s: %s" % (server, where, kind)
                if name + BEHIND in it.rows:
                    rows.append([kind, where, server, it.cell(name + BEHIND), it.both(name),
                                 it.number(name + ", processor in µs")])
    return it, text_of(["request", "logins", "server", "a second", "median, 99th in µs",
                        "processor in µs"], rows)


def beside(parts):
    """What is no speed: memory, a reuse, and regions."""
    it, rows = part(parts, "peers"), []
    states = [where for where, _ in states_of(it)]
    for server in servers_of(it):
        memory_of = [it.median("%s, %s: memory in KiB" % (server, where)) / 1024
                     for where in (states[0], states[-1])]
        lives = it.median(server + ": active after a reuse")
        rows.append([server, *map(tables.number, memory_of), "no" if lives else "yes",
                     "each has all facts" if server == "tokend" else "one shared database"])
    return it, text_of(["server", "MiB, fresh", "MiB, " + states[-1],
                        "a reuse ends the family", "two regions"], rows)


def ledger(parts):
    """A line for each number of families."""
    it, rows = part(parts, "ledger"), []
    for size in it.numbers("statuses a second, (.*) families"):
        of = ", %s families" % format(size, ",")
        rows.append([format(size, ","), it.cell("facts added a second" + of),
                     it.cell("statuses a second" + of), it.number("look-ups of a status" + of),
                     it.number("bytes of memory a family" + of)])
    return it, text_of(["families", "facts added a second", "statuses a second", "look-ups of one",
                        "memory a family, bytes"], rows)


def pruned(parts):
    it = part(parts, "ledger")
    rows = [[what, it.cell("%s, %s facts" % (what, size))]
            for what, size in it.found("(.*), (.*) facts")]
    return it, text_of(["a prune of %s facts" % it.found(".*, (.*) facts")[0][0] if rows
                        else "a prune", ""], rows)


ALL = {
    "speed": speed, "logged": logged, "calls": calls, "profile": profile, "proxied": proxied,
    "clients": clients, "turns": turns, "growth": growth, "generations": generations,
    "memory": memory, "start": start, "prunes": plain("prunes", ["a prune", ""]),
    "uses": sized("uses", "redemptions of a code", ("lowest serials", "highest serials"), "ms"),
    "signouts": signouts, "push": push, "days": days,
    "consents": sized("consents", "consents before", ("withdrawn", "for another scope"), "µs"),
    "lists": sized("lists", "entries", (
        "clients, first page", "clients, in the middle", "logins, first page",
        "logins, in the middle"), "µs"),
    "carried": plain("carried", ["`carry` to an empty server", ""]), "joins": joins,
    "revoked": revoked,
    "fanned": fanned, "scaled": scaled, "spread": spread, "cells": cells, "peers": peers,
    "beside": beside, "ledger": ledger, "pruned": pruned,
    "idle": plain("idle", ["beside", "the longest that another request took"]),
    "killed": plain("killed", ["SIGKILL under load", ""]),
    "day": paper.day, "breaks": paper.breaks, "left": paper.left}
