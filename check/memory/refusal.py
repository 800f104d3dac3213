"""refusal: runs a program whose allocations fail where the tester says. refuse.c is the means."""
import mmap
import os
import struct
import subprocess
import tempfile
import threading

from lib import Broken

HERE = os.path.dirname(os.path.abspath(__file__))
SECONDS = 60
FIELDS = "seen mark pass at span clock marks count refused".split()
FOR_GOOD = 1 << 62  # a span without end
MAX_FAULTS = 3  # of one sweep


class Table:
    """The numbers that refuse.c and its tester share."""

    def __init__(self, folder):
        file, self.path = tempfile.mkstemp(dir=folder, prefix="table-")
        os.truncate(file, 8 * len(FIELDS))
        self.map = mmap.mmap(file, 8 * len(FIELDS))
        os.close(file)

    def read(self, name):
        return struct.unpack_from("<Q", self.map, 8 * FIELDS.index(name))[0]

    def write(self, **values):
        for name, value in values.items():
            struct.pack_into("<Q", self.map, 8 * FIELDS.index(name), value)

    def clear(self):
        self.write(**dict.fromkeys(FIELDS, 0))

    def environment(self, shim):
        return {"LD_PRELOAD": shim, "CHECK_REFUSE": self.path}


class Ran:
    """What a run printed, its status, and what became of its allocations."""

    def __init__(self, status, output, errors, table):
        self.status, self.output, self.errors = status, output, errors
        self.seen, self.marks, self.refused = (table.read(n) for n in ("seen", "marks", "refused"))

    def lines(self):
        return self.output.splitlines()

    def is_out_of_memory(self):
        """Whether the program ended before its first line, out of memory."""
        return (self.status, self.output, self.errors) == (1, b"", b"tokend: memory\n")


class Lab:
    """A program, and a folder in which it is run with its allocations counted."""

    def __init__(self, program, folder):
        self.program, self.folder = os.path.abspath(program), folder
        self.shim = os.path.join(folder, "refuse.so")
        self.own = threading.local()
        self.runs, self.lock = 0, threading.Lock()
        source = os.path.join(HERE, "refuse.c")
        words = ["cc", "-O2", "-shared", "-fPIC", "-o", self.shim, source]
        try:
            built = subprocess.run(words, capture_output=True, text=True, timeout=SECONDS)
        except OSError:
            raise Broken("there is no C compiler, cc") from None
        if built.returncode:
            raise Broken("cc refuses refuse.c: %s" % built.stderr.strip())
        if not self.run(["--version"], b"").seen:
            raise Broken("%s doesn't take its memory from the C library's malloc (as a build of"
                           " rt try, which has AddressSanitizer's)" % program)

    def table(self):
        """The table of this thread, cleared."""
        if not hasattr(self.own, "table"):
            self.own.table = Table(self.folder)
        self.own.table.clear()
        return self.own.table

    def count(self):
        """Counts a run of a sweep. Runs of fresh programs don't count."""
        with self.lock:
            self.runs += 1

    def run(self, words, script, **refusal):
        """Runs the program with these arguments on a script, with a table that has these values.

        A run that takes longer than a minute has no status.
        """
        table = self.table()
        table.write(**refusal)
        try:
            ran = subprocess.run([self.program] + words, capture_output=True, timeout=SECONDS,
                                 env=table.environment(self.shim), cwd=self.folder, input=script)
        except subprocess.TimeoutExpired:
            return Ran(None, b"", b"", table)
        return Ran(ran.returncode, ran.stdout, ran.stderr, table)


def sweep(lab, title, trial, is_whole, offset, stride):
    """Yields what is wrong when allocations of a run fail, each time in a new run.

    Each run has another first allocation that fails: number `offset` + 1, and from there on each
    `stride`-th one. It fails alone, or with `is_whole` all that follow fail too.

    `trial(at, span)` makes a run whose allocations fail from number `at` on, `span` of them. It
    returns how many failed, and what is wrong, or None.
    """
    at, faults, span = 1 + offset, 0, FOR_GOOD if is_whole else 1
    while faults < MAX_FAULTS:
        lab.count()
        refused, wrong = trial(at, span)
        if at == 1 and not refused:
            wrong = "no allocation is counted"
        if wrong:
            faults += 1
            yield "%s, allocation %d%s: %s" % (title, at, " on" if is_whole else "", wrong)
        if not refused:
            return
        at += stride
