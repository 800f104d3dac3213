"""The walks of ARCHITECTURE.md: each name is in the file that stands beside it. And crates.txt:
each crate is listed behind those that it stands on."""
import os
import re

from lib import TOP
from texts import differ, text_of

WALKS, CRATES = "docs/ARCHITECTURE.md", "crates.txt"
CODE, CRATE, FILE = r"`([A-Za-z][\w:]*)`", r"\b(tk_\w+|tokend)\b", r"`(\w+\.rt)`"
BESIDE = re.compile(r"(?:%s\s)?\(([^()]*%s[^()]*)\)" % (CODE, FILE))
OF = re.compile(r"%s of %s(?: %s)?" % (CODE, CRATE, FILE))


def sources(crate=None, file=None):
    """The places of sources, of one crate or of all, with that name or any."""
    crates = [crate] if crate else sorted(os.listdir(os.path.join(TOP, "crates")))
    for it in crates:
        for folder, _, names in os.walk(os.path.join(TOP, "crates", it, "src")):
            place = os.path.relpath(folder, TOP)
            yield from (os.path.join(place, name) for name in names if file in (None, name))


def defines(place, name):
    """Whether a source defines a function or a type, or for `Type::name` that of the type."""
    text, (owner, _, last) = text_of(place), name.rpartition("::")
    if not owner:
        return bool(re.search(r"\b(?:fn|struct|enum|trait|type) %s\b" % last, text))
    if re.search(r"\benum %s\b[^}]*?\b%s\b" % (owner, last), text):
        return True
    parts = re.split(r"^(?=(?:pub )?(?:impl|trait)\b)", text, flags=re.M)[1:]
    return any(re.search(r"\b%s\b" % owner, it.split("{")[0])
               and re.search(r"\bfn %s\b" % last, it) for it in parts)


def pairs(text):
    """Each name with the crate, if one is given, and the files that stand beside it."""
    for before, inside, _ in BESIDE.findall(text):
        crate = re.search(CRATE, inside)
        files = re.findall(FILE, inside)
        for name in [before] * bool(before) + re.findall(CODE, inside):
            yield name, crate and crate[1], files
    for name, crate, file in OF.findall(text):
        yield name, crate, [file or None]


def compare_walks():
    """Names each file that isn't there, and each name that isn't in its file."""
    text = text_of(WALKS)
    for file in sorted(set(re.findall(FILE, text))):
        if not any(sources(None, file)):
            differ(WALKS, "no source is %s" % file)
    for name, crate, files in pairs(text):
        places = [place for file in files for place in sources(crate, file)]
        if not any(defines(place, name) for place in places):
            differ(WALKS, "%s isn't in %s %s" % (
                name, crate or "any crate's", ", ".join(it or "" for it in files)))


def compare_order():
    """The order of crates.txt: what a crate stands on is built before it."""
    lines = [it.partition(":") for it in text_of(CRATES).splitlines() if not it.startswith("#")]
    listed, ours = set(), {crate for crate, _, _ in lines}
    for crate, _, named in lines:
        for it in named.split():
            if it in ours and it not in listed:
                differ(CRATES, "%s stands before %s, which it names" % (crate, it))
        listed.add(crate)


def compare():
    compare_walks()
    compare_order()
