"""charts: pictures of measured data, as SVG by gnuplot.

They have no background, and colours that can be read on a light page and on a dark one.
"""
import collections
import subprocess

from lib import Broken
from measuring import paper
from measuring.results import part, servers_of, states_of

FILE, INK = "measured-%s.svg", "#808080"
COLOURS = "#3d87d8", "#d97f26", "#3f9e6a", "#b65fae"
FORM = """
set terminal svg size 760,420 font "sans-serif,14" enhanced
set output "%(path)s"
set encoding utf8
set border 3 linecolor rgb "%(ink)s"
set tics nomirror textcolor rgb "%(ink)s"
set xlabel "%(across)s" textcolor rgb "%(ink)s"
set ylabel "%(up)s" textcolor rgb "%(ink)s"
set key outside top center horizontal textcolor rgb "%(ink)s"
set grid ytics linecolor rgb "%(ink)s" linewidth 0.3
set style fill solid noborder
set format y "%%.0f"
%(settings)s
plot %(curves)s
"""

# A curve is a name and its points; a chart has its settings for gnuplot and how it plots a curve.
Chart = collections.namedtuple("Chart", "across up settings how curves")
LINES = "using 1:2 with linespoints pointtype 7 pointsize 0.7 linewidth 2"


def held_of(it, server, what):
    """A server's number in each state, by how much it holds: 100 in place of a fresh one."""
    return [(size or 100, it.median(name)) for where, size in states_of(it)
            for name in ["%s, %s: %s" % (server, where, what)]]


HELD = """
set logscale xy
set xrange [80:130000]
set xtics ("fresh" 100, "1,000" 1000, "10,000" 10000, "100,000" 100000)
"""
PLAIN_BARS = """
set yrange [0:*]
set style data histogram
set style histogram clustered gap 1
set bmargin 4
"""
BARS = PLAIN_BARS + """
set logscale y
set yrange [0.1:*]
set format y "%g"
"""


def growth(parts):
    """How fast each server introspects as it holds more."""
    it = part(parts, "peers")
    curves = [(name, held_of(it, name, "introspect, requests a second"))
              for name in servers_of(it)]
    return Chart("logins held", "introspections a second", HELD, LINES, curves)


def memory(parts):
    """The memory of each server as it holds more."""
    it = part(parts, "peers")
    curves = [(name, [(size, kib / 1024) for size, kib in held_of(it, name, "memory in KiB")])
              for name in servers_of(it)]
    return Chart("logins held", "memory in MiB", HELD, LINES, curves)


def delay(parts):
    """How long a revocation takes to another region, each way."""
    it = part(parts, "revoked")
    ways = [way for way, in it.found("(.*): median in ms")]
    bars = [(way, way.replace(" logins", "").replace(", ", "\\n")) for way in ways]
    curves = [(one, [(bar, it.median("%s: %s in ms" % (way, one))) for way, bar in bars])
              for one in ("median", "99th of 100")]
    return Chart("", "ms", BARS, "using 2:xtic(1)", curves)


def clients(parts):
    """How many introspections a second, by the number of clients."""
    it, form = part(parts, "clients"), "clients %d: requests a second"
    sizes = it.numbers(r"clients (\d+): requests a second")
    curves = [("tokend", [(size, it.median(form % size)) for size in sizes])]
    settings = "set logscale x 2\nset yrange [0:*]"
    return Chart("clients", "introspections a second", settings, LINES, curves)


def turns(parts):
    """How many requests a second of clients that keep their connections, beside Redis."""
    it, form = part(parts, "turns"), "%s, kept, %s, clients %d: requests a second"
    bars = [("%s\\n%d clients\\n%s" % (kind, many, log), kind, log, many)
            for kind, log in (("introspect", "no log"), ("refresh", "1 ms a sync"))
            for many in (16, 64)]
    curves = [(name, [(bar, it.median(form % (one or kind, log, many)))
                      for bar, kind, log, many in bars])
              for name, one in (("tokend", None), ("Redis: GET, SET", "Redis"))]
    return Chart("", "requests a second", PLAIN_BARS + "set bmargin 5", "using 2:xtic(1)", curves)


def days(parts):
    """Memory and files of each day, of a server that never prunes and of one that does."""
    it = part(parts, "days")
    curves = [("%s, %s" % (what, name),
               [(day, it.median("day %d, %s: %s in KiB" % (day, server, what)) / 1024)
                for day in it.numbers(r"day (\d+), never pruned: memory in KiB")])
              for what in ("memory", "files")
              for name, server in (("never pruned", "never pruned"), ("pruned", "--prune-margin"))]
    return Chart("days", "MiB", "set yrange [0:*]", "using 1:2 with lines linewidth 2", curves)


def sites(parts):
    """How long `carry` is at work for a day of a million logins, by the number of sites."""
    costs, most = paper.Costs(parts), paper.SITES[-1]
    curves = [("%s refreshes of each login" % (many or "no"),
               [(size, paper.Day(costs, size, many).carry / 3600) for size in range(1, most + 1)])
              for many in paper.REFRESHES]
    curves.append(("a day", [(1, 24), (most, 24)]))
    return Chart("sites", "hours of carry", "set yrange [0:*]\nset xtics 1, 1", LINES, curves)


ALL = {"growth": growth, "memory": memory, "delay": delay, "clients": clients, "turns": turns,
       "days": days, "sites": sites}
TITLES = {
    "growth": "Introspections a second, by the logins that a server holds",
    "memory": "Memory in MiB, by the logins that a server holds",
    "delay": "From a revocation until another region knows it, in ms",
    "clients": "Introspections a second, by the clients at the same time",
    "turns": "Requests a second of clients that keep their connections, beside Redis",
    "days": "Memory and files by days, of a server that prunes and of one that never does",
    "sites": "Hours that carry is at work for a day of a million logins, by sites"}


def block(number, points):
    """Points as data of gnuplot."""
    lines = ['"%s" %s' % it if isinstance(it[0], str) else "%s %s" % it for it in points]
    return "$curve%d << EOD\n%s\nEOD\n" % (number, "\n".join(lines))


def draw(chart, title, path):
    """Writes a chart to a file."""
    blocks = "".join(block(at, points) for at, (_, points) in enumerate(chart.curves))
    curves = ", ".join('$curve%d %s linecolor rgb "%s" title "%s"'
                       % (at, chart.how, COLOURS[at % len(COLOURS)], name)
                       for at, (name, _) in enumerate(chart.curves))
    text = blocks + FORM % {"path": path, "ink": INK, "across": chart.across, "up": chart.up,
                            "settings": chart.settings, "curves": curves}
    done = subprocess.run(["gnuplot"], input=text, capture_output=True, text=True, check=False)
    if done.returncode:
        raise Broken("gnuplot: %s" % done.stderr.strip())
    with open(path, encoding="utf-8") as file:
        drawn = file.read()
    with open(path, "w", encoding="utf-8") as file:
        file.write(drawn.replace("<title>Gnuplot</title>", "<title>%s</title>" % title))
