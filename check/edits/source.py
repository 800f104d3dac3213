"""source: the functions of a crate, by its text."""
import collections
import functools
import os
import re

FN = re.compile(r"^( *)(?:pub(?:\([\w ]+\))? )?(?:const )?(?:unsafe )?fn (\w+)", re.M)
IMPL = re.compile(r"^impl(?:<[^{]*?>)? (?:([\w:]+)(?:<.*>)? for )?&?(?:mut )?([\w:]+).*\{$", re.M)
# module: of its file, `server`. owner: what its impl is of and its trait, as the prover prints it:
# `Server`, `ServerService`, or None. name: `part`.
Function = collections.namedtuple("Function", "module owner name")


def module_of(path):
    """The module of a file: `choices::read` of src/choices/read.rt, and nothing of the root."""
    inside = path[path.rindex("src/") + 4:].removesuffix(".rt")
    return "" if inside in ("main", "lib") else inside.replace("/", "::")


def end_of(text, start, indent):
    """Where an item that starts here ends: at the first brace of its own width."""
    closing = text.find("\n%s}" % indent, start)
    return len(text) if closing < 0 else closing


@functools.lru_cache(maxsize=None)
def functions_in(path):
    """Each function of a file, with where it starts and ends, and the text."""
    with open(path, encoding="utf-8") as f:
        text = f.read()
    impls = [(it.start(), end_of(text, it.start(), ""),
              it[2].split("::")[-1] + (it[1] or "").split("::")[-1]) for it in IMPL.finditer(text)]
    found = []
    for it in FN.finditer(text):
        owner = next((name for start, end, name in impls if start < it.start() < end), None)
        found.append((Function(module_of(path), owner, it[2]), it.start(),
                      end_of(text, it.start(), it[1])))
    return found, text


def function_at(path, old):
    """The function that holds a text which is once in the file, or None."""
    found, text = functions_in(path)
    at = text.find(old)
    last = at + len(old) - 1
    return next((it for it, start, end in reversed(found) if start <= last and at <= end), None)
