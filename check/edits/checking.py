"""checking: checks of a crate's copies by the prover, over the libraries that `rt ci` proved."""
import os
import re
import shutil
import subprocess
import tempfile
import threading

import edit

PARTS = ("src", "specs", "proofs")
PROVED, REFUSED, HIDDEN = "proved", "refused", "hidden"
# `rt ci` may run beside a check: its own come first, for processors and for memory
BEHIND = ("nice", "-n", "10", "choom", "-n", "500", "--")
RUNNING, ENDING = set(), threading.Event()  # the checks that run; whether no more may begin


class Failed(Exception):
    """A check came to no verdict on functions: what it said."""


def kit():
    """The folder of the kit: the first page lies in it."""
    page = subprocess.run(["rt", "doc"], capture_output=True, text=True, check=True).stdout
    return os.path.dirname(page.strip())


class Tree:
    """The repository, or a copy of it, where `rt ci` left what it built, or will leave it."""

    def __init__(self, top):
        self.top = top
        with open(os.path.join(top, "crates.txt"), encoding="utf-8") as f:
            lines = [it.split("#")[0].partition(":") for it in f]
        self.wanted = {name.strip(): wanted.split() for name, _, wanted in lines if name.strip()}

    def with_edits(self):
        """The crates that have edits, the lowest first."""
        return [it for it in self.wanted
                if os.path.isdir(os.path.join(self.folder(it), edit.FOLDER))]

    def below(self, name):
        """The crates of the repository that one stands on, at once or by others."""
        found = []
        for it in self.wanted[name]:
            if it in self.wanted:
                found += [more for more in [*self.below(it), it] if more not in found]
        return found

    def folder(self, name):
        return os.path.join(self.top, "crates", name)

    def library(self, name):
        return os.path.join(self.folder(name), "out/rlib")

    def kept_of(self, name):
        """What the last `rt check` in the crate's folder kept."""
        return os.path.join(self.folder(name), "out/incremental")

    def is_program(self, name):
        return os.path.exists(os.path.join(self.folder(name), "src/main.rt"))

    def command(self, name):
        """The words that check the crate whose copy is the working directory."""
        home = kit()
        words = [os.path.join(home, "bin/rattle"), "check", "--crate-name", name,
                 "src/main.rt" if self.is_program(name) else "src/lib.rt"]
        for it in ["std", *self.wanted[name]]:
            place = self.library(it) if it in self.wanted else os.path.join(home, "rlibs")
            words += ["--extern", "%s=%s/%s.rlib" % (it, place, it)]
        for place in [os.path.join(home, "rlibs"), *map(self.library, self.below(name))]:
            words += ["-L", "dependency=" + place]
        return words + ["--antt-project", os.path.join(home, "rattle/logic/antt-project.json"),
                        "--logic-built", os.path.join(home, "logic_built"), "--links", name + "="]


def copied(crate, to):
    """Copies what a check of a crate reads."""
    for part in PARTS:
        if os.path.isdir(os.path.join(crate, part)):
            shutil.copytree(os.path.join(crate, part), os.path.join(to, part))


def linked(kept, to):
    """Copies what was proved. A check replaces such files, and changes none."""
    def copy(one, other):
        return os.link(one, other) if one.endswith(".oantt") else shutil.copy2(one, other)
    shutil.copytree(kept, to, symlinks=True, copy_function=copy)


def checked(words, crate, kept, edits=(), jobs=1):
    """Checks a copy of the crate with some edits, over what was kept, which it adds to. The status,
    and the lines that it printed. With several edits a function is looked at also if it calls one
    that is refused: that one is taken by its contract."""
    with tempfile.TemporaryDirectory(prefix="edits-") as room:
        copied(crate, room)
        edit.apply_all(edits, room)
        flags = ["--incremental", kept, "--jobs", str(jobs)]
        flags += ["--allow-holes"] if len(edits) > 1 else []
        return output_of([*BEHIND, *words, *flags], room)


def output_of(words, folder):
    """Status and lines of a command."""
    if ENDING.is_set():
        raise Failed("the trials ended")
    with subprocess.Popen(words, cwd=folder, stdin=subprocess.DEVNULL, stdout=subprocess.PIPE,
                          stderr=subprocess.STDOUT, text=True, errors="replace") as child:
        RUNNING.add(child)
        try:
            said = child.communicate()[0]
        finally:
            RUNNING.discard(child)
    return child.returncode, said.split("\n")


def stop():
    """Ends all checks."""
    ENDING.set()
    for it in list(RUNNING):
        it.kill()


def verdicts_in(lines):
    """The verdict of each function: proved, refused for its own body, or neither."""
    said = (re.match(r"fn (\S+): (.*)", line) for line in lines)
    return {it[1]: verdict_of(it[1], it[2]) for it in said if it}


def verdict_of(name, text):
    """The verdict on a function, from the output of a check with several edits.

    A function is refused for its own body if an answer to one of its own goals is refused, or if a
    goal of its own has no answer.
    """
    if text.startswith(("proved", "no holes", "depends on a hole")):
        return PROVED
    crate, *within = name.split("::")
    own = "`Rattle.%s.proofs.%s." % (crate, ".".join(within))
    is_own = text == "not proved" or "`search` did not prove" in text or own in text
    return REFUSED if is_own else HIDDEN


def is_of(name, function):
    """Whether a printed name is a function's, or that of a closure within it. That of a method has
    the module of its type, which may be another than its file's."""
    crate, *within, last = name.split("::")
    place = "::".join(within)
    if "fn::%s::" % function.name in name + "::":
        return not function.module or place.startswith(function.module) or bool(function.owner)
    if last != function.name:
        return False
    return place.endswith("::" + function.owner) or place == function.owner if function.owner \
        else place == function.module


def verdict_on(function, verdicts):
    """What was said of a function and its closures: None if nothing was."""
    said = {it for name, it in verdicts.items() if is_of(name, function)}
    return next((it for it in (REFUSED, HIDDEN, PROVED) if it in said), None)
