"""Markdown: links, names behind links, homes of definitions, widths, the size of README.md, and
words that docs are written without."""
import os
import re

from lib import TOP
from limits import documents
from texts import README, differ, text_of

WIDTH, README_LINES, README_BYTES = 100, 140, 8192
DEFINITIONS = "docs/DEFINITIONS.md", "docs/SERVER.md"
LINK = r"\[([^\]\n]*(?:\n[^\]\n]*)?)\]\(([^)\s]+)\)"
# each is another word's place: "out of memory", "arguments", "random words", "N bytes"
UNWANTED = r"want of memory|memory is at hand|so many bytes|the six words|wrong bod(?:y|ies)"


def everything():
    """The documents, and the pages of checks, examples and packaging."""
    found = documents()
    for top in "check", "examples", "packaging":
        for folder, _, names in os.walk(os.path.join(TOP, top)):
            place = os.path.relpath(folder, TOP)
            found += [os.path.join(place, n) for n in names if n.endswith(".md")]
    return sorted(found)


def headings(text):
    """The anchors of a document's headings, as GitHub makes them, and its own."""
    found = set(re.findall(r'<a name="([^"]+)"', text))
    for line in re.findall(r"^#+ (.*)$", text, re.M):
        plain = re.sub(r"[^\w\- ]", "", line.lower())
        found.add(plain.replace(" ", "-"))
    return found


def compare_link(name, words, target):
    """Names a link without its file, its heading, or the name that it is for."""
    path, _, anchor = target.partition("#")
    place = os.path.normpath(os.path.join(os.path.dirname(name), path)) if path else name
    if not os.path.exists(os.path.join(TOP, place)):
        differ(name, "the link %s leads nowhere" % target)
        return
    if anchor and anchor not in headings(text_of(place)):
        differ(name, "the link %s names no heading" % target)
    code = re.fullmatch(r"`([\w:.]+)`", words)
    if code and re.search(r"\.(rt|antt)$", place):
        last = code.group(1).split("::")[-1]
        stem = os.path.basename(place)
        if last not in (stem, stem.rsplit(".", 1)[0]):
            if not re.search(r"\b%s\b" % re.escape(last), text_of(place)):
                differ(name, "%s isn't in %s" % (code.group(1), place))


def compare_links(name, text):
    """Looks at the links of a document outside its blocks of code."""
    plain = re.sub(r"^```.*?^```$", "", text, flags=re.M | re.S)
    targets = dict(re.findall(r"^\[(\w+)\]: (\S+)$", plain, re.M))
    for words, key in re.findall(r"\[([^\]\n]+)\]\[(\w+)\]", plain):
        compare_link(name, words, targets.get(key, "nothing"))
    for words, target in re.findall(LINK, plain):
        if not re.match(r"https?:", target):
            compare_link(name, words, target)


def compare_sections(name, text):
    """A heading that is named behind a document is one of it."""
    named = r'(?:docs/|\()([A-Z]+\.md)\)?,\s+"([^"]+)"'
    for document, heading in re.findall(named, text):
        heads = re.findall(r"^#+ (.*)$", text_of("docs/" + document), re.M)
        if re.sub(r"\s+", " ", heading) not in heads:
            differ(name, "%s has no heading %r" % (document, heading))


def compare_home(name, term, home):
    """Each name of a home is in the file that the home names."""
    crate, path = "", None
    for word, code, colon in re.findall(r"\b(tk_\w+|tokend)\b(?! `\w+\.rt)|`(\w+)`(:?)", home):
        if word:
            crate, path = word, None
        elif colon:
            path = "crates/%s/specs/%s.antt" % (crate, code)
            if not os.path.exists(os.path.join(TOP, path)):
                differ(name, "%s: no %s" % (term, path))
                path = None
        elif not (is_named(crate, path, code) or is_named(crate, None, code)):
            differ(name, "%s: %s isn't in %s" % (term, code, path or crate))


def is_named(crate, path, name):
    if path:
        return bool(re.search(r"\b%s\b" % name, text_of(path)))
    sources = os.path.join("crates", crate, "src")
    return any(re.search(r"(?:struct|enum|trait) %s\b" % name, text_of(os.path.join(sources, f)))
               for f in os.listdir(os.path.join(TOP, sources)) if f.endswith(".rt"))


def compare_homes():
    for name in DEFINITIONS:
        text = re.sub(r"\n +", " ", text_of(name))
        for term, home in re.findall(r"^- \*\*([^*]+)\*\*.*? Home: (.*)$", text, re.M):
            compare_home(name, term, home)


def compare_widths(name, text):
    """The width of each line; tables that `check/measure/report` writes are as wide as they are."""
    written = False
    for number, line in enumerate(text.splitlines(), 1):
        written = line.startswith("<!-- measured:") or written and line != "<!-- end -->"
        if len(line) > WIDTH and not written:
            differ(name, "line %d has %d columns" % (number, len(line)))


def compare():
    """Looks at links, sections, widths and words of each document, and at README's size."""
    for name in everything():
        text = text_of(name)
        compare_links(name, text)
        compare_sections(name, text)
        compare_widths(name, text)
        for words in re.findall(UNWANTED, text):
            differ(name, "has the words %r" % words)
    text = text_of(README)
    if len(text.splitlines()) > README_LINES or len(text.encode()) > README_BYTES:
        differ(README, "has %d lines and %d bytes" % (len(text.splitlines()), len(text.encode())))
    compare_homes()
