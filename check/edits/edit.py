"""Edit: a mutant, or a refused claim, as its file says it, and the function that it is in."""
import os

import source


class Bad(Exception):
    """An edit that can't be applied as its file says."""


class Edit:
    """Pairs of texts by the file that they are in. `of` is the function that they change, None if
    they change more than one, or what is in none."""

    def __init__(self, path):
        self.name = os.path.basename(path).removesuffix(".edit")
        self.crate = os.path.dirname(os.path.dirname(path))
        self.pairs = list(pairs_in(path))
        self.of = self.function()

    def function(self):
        """The function that the pairs in src/ are in. A line that imports names counts for none."""
        changed = [it for it in self.pairs if it[0].startswith("src/")]
        if not changed or any(it[0].startswith("specs/") for it in self.pairs):
            return None
        places = [source.function_at(os.path.join(self.crate, at), old)
                  for at, old, _ in changed if not old.startswith("ghost use ")]
        return places[0] if places and None not in places and len(set(places)) == 1 else None

    def places(self, folder=None):
        """Where each pair changes the crate, or a copy of it, by file: None if one changes what
        another made."""
        found = {}
        for at, old, new in self.pairs:
            text = text_of(folder or self.crate, at)
            if text.count(old) != 1:
                return None
            found.setdefault(at, []).append((text.index(old), old, new))
        return found

    def clashes(self, other):
        """Whether both are in one function, or change one text."""
        theirs = other.places()
        return self.of == other.of or any(
            start < at + len(text) and at < start + len(old)
            for path, places in self.places().items() for start, old, _ in places
            for at, text, _ in theirs.get(path, ()))

    def texts(self, folder):
        """The files that the edit makes of those of a crate, pair by pair."""
        found = {}
        for at, old, new in self.pairs:
            text = found.get(at) or text_of(folder, at)
            if text.count(old) != 1:
                raise Bad("%s: `%s` is %d times in %s" % (self.name, old, text.count(old), at))
            found[at] = text.replace(old, new)
        return found

    def apply(self, folder):
        """Changes a copy of the crate."""
        for at, text in self.texts(folder).items():
            write(folder, at, text)


def text_of(folder, at):
    with open(os.path.join(folder, at), encoding="utf-8") as f:
        return f.read()


def write(folder, at, text):
    with open(os.path.join(folder, at), "w", encoding="utf-8") as f:
        f.write(text)


def apply_all(edits, folder):
    """Changes a copy of the crate by one edit, or by some that change other places each."""
    if len(edits) == 1:
        edits[0].apply(folder)
        return
    changes = {}
    for it in edits:
        for at, places in it.places(folder).items():
            changes.setdefault(at, []).extend(places)
    for at, places in changes.items():
        text = text_of(folder, at)
        for start, old, new in sorted(places, reverse=True):
            text = text[:start] + new + text[start + len(old):]
        write(folder, at, text)


def pairs_in(path):
    """Each pair of an edit's file: where it is, the old text, the new one."""
    at = old = None
    with open(path, encoding="utf-8") as f:
        for line in f.read().split("\n"):
            word, _, text = line.partition(":")
            text = text.removeprefix(" ")
            if word == "file":
                at = text.strip()
            elif word == "old":
                old = text
            elif word == "new":
                if not at or not old:
                    raise Bad("%s: a line `new:` before its `file:` and `old:`" % path)
                yield at, old, text


def edits_of(crate):
    """The edits of a crate's folder, by name, each of which can be applied."""
    folder = os.path.join(crate, FOLDER)
    names = os.listdir(folder) if os.path.isdir(folder) else []
    found = [Edit(os.path.join(folder, it)) for it in sorted(names) if it.endswith(".edit")]
    for it in found:
        it.texts(crate)
    return found


FOLDER = "must-fail"
