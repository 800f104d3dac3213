"""site: a site of examples/scale-out, or one that another command starts."""
import contextlib
import http.client
import os
import subprocess
from pathlib import Path

from bases import UNIX
from lib import TOP, command
from lib.server import Child, Tokend
from lib.waiting import free_port

OUT = os.path.join(TOP, "examples/scale-out")


class Site(Child, Tokend):
    """A site with a folder and a port of its own, or one or two sockets; `child` is its run.

    The second socket is the inner one.
    """

    def __init__(self, folder, first, count=99, sockets=0):
        if sockets:
            inner = os.path.join(folder, "inner") if sockets == 2 else None
            super().__init__(os.path.join(folder, "socket"), inner)
        else:
            super().__init__(free_port())
        self.folder, self.first = Path(folder), first
        self.numbers = "%d-%d" % (first, first + count - 1)
        for name in "log", "old":
            (self.folder / name).mkdir(parents=True)

    @property
    def word(self):
        """The site as spread is given it."""
        return "%s=%s" % (self.url, self.folder)

    def begin(self, neighbours=(), options="", before=(), script="scale-out/start", program=None):
        """Starts the next run. Its output goes to a file. A command may be put before it."""
        variables = {"TOKEND": program or command.GIVEN.program, "TOKEND_OPTIONS": options,
                     "TOKEND_NEIGHBOURS": " ".join(str(it.folder) for it in neighbours),
                     "TOKEND_INNER": self.inner or ""}
        place = UNIX + self.socket if self.socket else str(self.port)
        with open(self.folder / "said", "ab") as said:
            self.child = subprocess.Popen(
                [*before, os.path.join(TOP, "examples", script), str(self.folder), place,
                 self.numbers],
                env=os.environ | variables, stdin=subprocess.DEVNULL, stdout=said, stderr=said)
        return self

    def is_up(self):
        if self.child.poll() is not None:
            raise AssertionError("a site ended: %s" % self.said())
        with contextlib.suppress(OSError, http.client.HTTPException):
            return self.ask("/sync/vector")[0] == 200
        return False

    def said(self):
        return (self.folder / "said").read_text(encoding="utf-8")

    def add(self, count=1):
        """Makes as many facts."""
        for _ in range(count):
            self.add_client()

    def write(self, number, data, folder="old"):
        """Adds to the log of a number."""
        with open(self.folder / folder / ("%05d.otb" % number), "ab") as file:
            file.write(data)
