"""Proved laws: PROOFS.md lists each file of specs/ that imports proofs, and no other."""
import os
import re

from heads import files
from texts import differ, same, text_of

PROOFS = "docs/PROOFS.md"
LISTED = re.compile(r"^- (tk_\w+)'s (.*(?:\n  .*)*)", re.M)
IMPORT = re.compile(r"^use Rattle\.[\w.]*proofs\.[\w.]*\.\{(.*)\}$", re.M)
TYPES = {"Vec", "Box", "Global"}  # of std, which only its proofs define


def proved():
    """The crate and name of each file of specs/ that imports more of proofs than types."""
    for name in files():
        parts = name.split(os.sep)
        if parts[2] != "specs":
            continue
        used = {it for names in IMPORT.findall(text_of(name)) for it in names.split(", ")}
        if used - TYPES:
            yield parts[1], parts[-1].removesuffix(".antt")


def compare():
    """Compares the files that PROOFS.md lists with those that import proofs."""
    part = re.search(r"^Some files of `specs/` import proofs\.(.*?)^#", text_of(PROOFS),
                     re.M | re.S)
    if not part:
        return differ(PROOFS, "lists no files of laws")
    specs = {name for name in files() if os.sep + "specs" + os.sep in name}
    listed = {(crate, it) for crate, names in LISTED.findall(part[1])
              for it in re.findall(r"`(\w+)`", names)
              if os.path.join("crates", crate, "specs", it + ".antt") in specs}
    same(PROOFS, "the files of specs/ with laws", sorted(proved()), sorted(listed))
