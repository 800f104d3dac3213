"""The documents as texts and tables, and the list of differences."""
import os
import re

from lib import TOP

README, OPERATING, PAGE = "README.md", "docs/OPERATING.md", "docs/tokend.1"
MEASURED, SCALE = "docs/MEASURED.md", "docs/SCALE.md"
HTTP, FORMATS, SCRIPT, QUICKSTART = (
    "docs/HTTP.md", "docs/FORMATS.md", "docs/SCRIPT.md", "docs/QUICKSTART.md")
found = []


def differ(where, what):
    found.append(where)
    print("%s: %s" % (where, what))


def same(where, what, wanted, said):
    if wanted != said:
        differ(where, "%s is %r, and not %r" % (what, said, wanted))


def text_of(name):
    with open(os.path.join(TOP, name), encoding="utf-8") as f:
        return f.read()


def rows(text, head):
    """The cells of each row of each table whose first line begins so."""
    tables = r"^\| %s.*\n\|[-|]+\n((?:\|.*\n)*)" % re.escape(head)
    for table in re.findall(tables, text, re.M):
        for row in table.splitlines():
            yield [cell.strip() for cell in row.strip("|").split("|")]


def coded(cell):
    """The texts in backticks."""
    return re.findall(r"`([^`]*)`", cell)


def numbers(text):
    """The numbers of a text, written with commas or without."""
    return [int(n.replace(",", "")) for n in re.findall(r"\b\d[\d,]*\b", text)]
