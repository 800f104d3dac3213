"""The heads of specs and proof files: each name that a head lists is one that its file defines.

A head is the comment that a file begins with. Its list has lines of names, a gap, and what they
are. A list in a Lib.antt has files of its folder in the place of names, and behind the gap names
that the file defines.
"""
import os
import re

from lib import TOP
from texts import differ, text_of

NAME = r"[^\s,]+"
LISTED = re.compile(r"--   (%s(?:(?:, | \.\. )%s)*),?(?: \.\.)?(?: .*)?" % (NAME, NAME))
RESULT = re.compile(r"\bKey results?: `?([^\s,.`]+)`?[,.](?:\s|$)")
BEHIND = re.compile(r"(?:^|[;,] )([A-Za-z]+_\w+|[A-Z][a-z]+[A-Z]\w+)(?=[,;.]|$)")
DEFINED = re.compile(r"^ *(?:[a-z]+ +)*?(?:(?:record|data) +(\S+)|(\S+) +:(?= |$))", re.M)
CASE = re.compile(r"^    ([A-Z]\w+)(?:,|\(.*\),| \{)$", re.M)  # of an enum


def files():
    """The specs and proofs of all crates."""
    for crate in sorted(os.listdir(os.path.join(TOP, "crates"))):
        for part in "specs", "proofs":
            for folder, _, names in os.walk(os.path.join(TOP, "crates", crate, part)):
                place = os.path.relpath(folder, TOP)
                yield from (os.path.join(place, it) for it in sorted(names)
                            if it.endswith(".antt"))


def head_of(text):
    """The lines of the comment that a text begins with."""
    return re.match(r"(?:--.*\n)*", text)[0].splitlines()


def names_of(head):
    """The names that a head lists. A line of its list that isn't one stands for itself."""
    for line in head:
        listed = LISTED.fullmatch(line)
        if listed:
            yield from re.split(r", | \.\. ", listed[1])
        elif line.startswith("--   ") and line[5] != " ":
            yield line
    yield from RESULT.findall(" ".join(it.removeprefix("-- ") for it in head))


def cases_of(name):
    """The cases of the types of a crate's sources, of which specs have no file of their own."""
    folder = os.path.join(TOP, *name.split(os.sep)[:2], "src")
    for place, _, names in os.walk(folder):
        for it in names:
            yield from CASE.findall(text_of(os.path.join(place, it)))


def known_to(name, text):
    """The names that a head of this file may list."""
    if os.path.basename(name) == "Lib.antt":
        beside = os.listdir(os.path.join(TOP, os.path.dirname(name)))
        return {it.removesuffix(".antt") for it in beside}
    return {it.strip("◌") for both in DEFINED.findall(text) for it in both}


def is_known(it, known):
    """Whether a name is known; one that ends in `..` is how some known names begin."""
    if it.endswith(".."):
        return any(other.startswith(it[:-2]) for other in known)
    return it in known


def compare_files(name, head):
    """The names that a Lib.antt lists behind a file of its folder are in that file."""
    for file, told in re.findall(r"^--   (\w+)  +(.*)$", "\n".join(head), re.M):
        place = os.path.join(os.path.dirname(name), file + ".antt")
        if os.path.exists(os.path.join(TOP, place)):
            known = known_to(place, text_of(place))
            for it in BEHIND.findall(told):
                if it not in known:
                    differ(name, "it lists %s, which %s doesn't define" % (it, place))


def compare():
    """Names each definition of a head that its file lacks."""
    for name in files():
        text = text_of(name)
        head, known = head_of(text), known_to(name, text)
        if os.path.basename(name) == "Lib.antt":
            compare_files(name, head)
        missing = [it for it in names_of(head) if not is_known(it, known)]
        cases = set(cases_of(name)) if missing else ()
        for it in missing:
            if it not in cases:
                differ(name, "its head lists %s, which the file doesn't define" % it)
