"""Limits: FORMATS.md's table against definitions and constants, and the numbers of the other
documents against that table."""
import os
import re

from lib import TOP
from texts import FORMATS, MEASURED, SCALE, coded, differ, numbers, rows, text_of

# numbers with a comma that aren't limits: what was measured, and what the table's numbers make
OTHERS = {MEASURED, SCALE, "docs/GATE.md"}
DERIVED = {"docs/OPERATING.md": {8191}, "docs/FORMATS.md": {1020}}

# numbers without a comma, by the words around them
PHRASES = (
    (r"\b(\d+) fields\b", "fields of a head"),
    (r"\b(?:first|of|most) (\d+) (?:facts|items)\b", "items of a bundle without runs"),
    (r"\b1 to (\d+) (?:visible bytes|bytes of visible)", "subject, and operator, bytes"),
    (r"\b(\d+) to \d+ unreserved", "challenge and verifier, least bytes"),
    (r"\b\d+ to (\d+) unreserved", "challenge and verifier, bytes"),
    (r"\b1 to (\d+) absolute URIs", "redirection URIs of a client"),
    (r"\bwhole (\d+) seconds after", "seconds of a request"))


def value(path, name):
    """The numbers of a definition, or of a constant."""
    text = text_of(path)
    m = re.findall(r"^(?:abbrev pub )?%s\b[^\n]*? = ([^\n]+)" % name, text, re.M)
    m += re.findall(r"const %s: \w+ = ([^;]+);" % name, text)
    found = set()
    for right in m:
        right = right.replace("_", "")
        if right == "maxserial - 1":
            found.add(value("crates/tk_handle/specs/Ranges.antt", "max_serial").pop() - 1)
        elif re.fullmatch(r"\d+", right):
            found.add(int(right))
    return found


def compare_table():
    """The greatest number of each row."""
    greatest = {}
    for what, limit, home in rows(text_of(FORMATS), "what | limit | home"):
        crate = home.split()[0]
        place, name = coded(home)
        path = "crates/%s/src/%s" % (crate, place)
        if not place.endswith(".rt"):
            path = "crates/%s/specs/%s.antt" % (crate, place)
        said = set(numbers(limit))
        greatest[what] = max(said)
        greatest.update({(what, n): n for n in said})
        wanted = value(path, name) if os.path.exists(os.path.join(TOP, path)) else set()
        if not wanted or not wanted <= said:
            differ(FORMATS, "%s is %s, and %s in %s has %s" % (what, limit, name, path, wanted))
    return greatest


def documents():
    names = [n for n in os.listdir(os.path.join(TOP, "docs")) if n.endswith(".md")]
    return ["README.md"] + sorted("docs/" + n for n in names)


def compare_phrases(greatest):
    """Compares numbers in phrases of the documents with the limits of FORMATS.md."""
    millis = greatest["milliseconds of a request, and of its reply"]
    greatest = greatest | {"seconds of a request": millis / 1000}
    for name in documents():
        text = text_of(name)
        for phrase, what in PHRASES:
            for n in re.findall(phrase, text):
                if int(n) != greatest[what]:
                    differ(name, "%s isn't that of %s in %s" % (n, what, FORMATS))


def compare():
    """Names each number with commas that is no limit of FORMATS.md."""
    greatest = compare_table()
    compare_phrases(greatest)
    allowed = set(greatest.values())
    for name in documents():
        if name in OTHERS:
            continue
        for text in re.findall(r"(?<![\d.,:])\d{1,3}(?:,\d{3})+(?![\d,])", text_of(name)):
            n = int(text.replace(",", ""))
            if n not in allowed | DERIVED.get(name, set()):
                differ(name, "%s is no limit of %s" % (text, FORMATS))
