"""clock: clocks that a file has, so that days go by in seconds. It needs cc."""
import mmap
import os
import struct
import subprocess

SOURCE = os.path.join(os.path.dirname(os.path.abspath(__file__)), "clock.c")
SECONDS = struct.Struct("=q")


def make_shim(path):
    """Compiles the library by which a program has such clocks."""
    subprocess.run(["cc", "-O2", "-shared", "-fPIC", "-o", path, SOURCE], check=True)


class Clock:
    """The wall clock of a program: a file, some seconds off the moment of the run.

    `words` are arguments of `env` before the program. If it rises, so do clocks that only rise.
    """

    def __init__(self, path, shim, moment, rises=False):
        self.words = ["LD_PRELOAD=%s" % shim, "CHECK_CLOCK=%s" % path]
        self.words += ["CHECK_CLOCK_RISES=1"] if rises else []
        self.skew, self.moment = 0, 0
        with open(path, "w+b") as file:
            file.write(bytes(SECONDS.size))
            file.flush()
            self.file = mmap.mmap(file.fileno(), 0)
        self.set(moment)

    def set(self, moment):
        self.moment = moment + self.skew
        SECONDS.pack_into(self.file, 0, self.moment)
