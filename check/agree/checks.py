"""Checks: the folders of check/ against its index and check/run, and paths below check/ that the
documents name."""
import os
import re

from lib import TOP
from markdown import everything
from texts import differ, rows, same, text_of

INDEX, GATE, DOCUMENT = "check/README.md", "check/run", "docs/GATE.md"
COMMAND = r"^%scheck/(\w+)/(?:run|prove)"  # of the gate


def folders():
    """The names of all checks: `run` in its folder runs each, but measure, which has commands."""
    top = os.path.join(TOP, "check")
    return sorted(it for it in os.listdir(top)
                  if it == "measure" or os.path.exists(os.path.join(top, it, "run")))


def compare_paths(name):
    """A path is there; a check is named by its command, but rows and measure by their folders."""
    for path in re.findall(r"\bcheck/[\w./]*\w", text_of(name)):
        if "NAME" not in path and not os.path.exists(os.path.join(TOP, path)):
            differ(name, "there is no %s" % path)
        if path[6:] in set(folders()) - {"rows", "measure"}:
            differ(name, "%s is a folder, and %s/run its command" % (path, path))


def compare():
    """Compares the index of checks with their folders, the gate, and the paths in documents."""
    listed = {re.search(r"\w+", it[0])[0]: it[-2] for it in rows(text_of(INDEX), "check | ")}
    same(INDEX, "the checks", folders(), sorted(listed))
    run = list(dict.fromkeys(re.findall(COMMAND % "", text_of(GATE), re.M)))
    same(INDEX, "the checks of the gate", sorted(run),
         sorted(name for name, part in listed.items() if part.startswith("yes")))
    same(DOCUMENT, "the checks of the gate", run,
         re.findall(COMMAND % r"\| `", text_of(DOCUMENT), re.M))
    for name in folders():
        if not os.path.exists(os.path.join(TOP, "check", name, "README.md")):
            differ("check/" + name, "has no README.md")
    drivers = ["check/%s/run" % it for it in folders() if it != "measure"]
    for name in everything() + [GATE] + drivers:
        compare_paths(name)
