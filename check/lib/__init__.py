"""lib: what several checks share.

Each check's `run` puts the parent of this folder on Python's path. The modules of examples/carry,
which read bundles and vectors, are found from here on too, and the starter's of base URLs.
"""
import os
import sys

TOP = os.path.dirname(os.path.dirname(os.path.dirname(os.path.abspath(__file__))))
BUILT = os.path.join(TOP, "crates/tokend/out/tokend")
sys.path.insert(2, os.path.join(TOP, "examples/carry"))
sys.path.insert(2, os.path.join(TOP, "starter"))


class Absent(Exception):
    """Something that a check needs isn't on this machine."""


class Broken(Exception):
    """A server didn't do what it must."""
