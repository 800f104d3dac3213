"""fronts: HAProxy before sites of one machine, as examples/scale-out has them."""
import os
import re
import shutil
import subprocess
import zlib

from lib import Absent, Broken
from lib.server import Child
from lib.site import OUT
from lib.waiting import free_port, listens_soon

FIRST = {"one": 1, "two": 8192, "three": 16384, "four": 24576}  # names of sites, first numbers
PARTS, PATIENCE, WORD = 16, 10, "word"
HAPROXY = shutil.which("haproxy", path=os.environ.get("PATH", "") + ":/usr/sbin")


def part_of(subject):
    """The sixteenth that a subject is in, as HAProxy computes it."""
    return zlib.crc32(subject.encode()) % PARTS


def map_evenly(folder, names):
    """Writes the maps for some of the sites alone."""
    with open(os.path.join(folder, "sites.map"), "w", encoding="ascii") as file:
        file.writelines("%d:%d %s\n" % (FIRST[it], FIRST[it] + 8190, it) for it in names)
    with open(os.path.join(folder, "subjects.map"), "w", encoding="ascii") as file:
        file.writelines("%d %s\n" % (part, names[part * len(names) // PARTS])
                        for part in range(PARTS))


def copy_maps(folder):
    for name in "sites.map", "subjects.map":
        shutil.copy(os.path.join(OUT, name), folder)


def address(place):
    """A port or a socket, as HAProxy is given it."""
    return "127.0.0.1:%d" % place if isinstance(place, int) else "unix@" + place


class Front(Child):
    """HAProxy by examples/scale-out/haproxy.cfg, without TLS and without a limit of rates.

    The folder has the maps. `places` are ports or sockets of sites by their names; the others
    aren't there.
    """

    def __init__(self, folder, places, subjects=()):
        if not HAPROXY:
            raise Absent("no HAProxy (haproxy)")
        self.port, self.inner = free_port(), free_port()
        self.output = os.path.join(folder, "haproxy.out")
        words = {"DIR": folder, "INNER": self.inner, "RATE": 10**9}
        words |= {name.upper(): address(places.get(name) or free_port()) for name in FIRST}
        with open(os.path.join(OUT, "haproxy.cfg"), encoding="utf-8") as file:
            text = re.sub("@FRONT@ ssl .*", str(self.port), file.read())
        text = re.sub("@([A-Z]+)@", lambda it: str(words[it[1]]), text)
        path = os.path.join(folder, "haproxy.cfg")
        with open(path, "w", encoding="utf-8") as file:
            file.write(text)  # which ends with the users
            file.writelines("    user %s insecure-password %s\n" % (it, WORD) for it in subjects)
        with open(self.output, "wb") as output:
            self.child = subprocess.Popen([HAPROXY, "-f", path], stdin=subprocess.DEVNULL,
                                          stdout=output, stderr=output)

    def await_port(self):
        if not listens_soon(self.child, self.port, PATIENCE):
            raise Broken("HAProxy doesn't listen: %s" % self.said()[-300:])

    def said(self):
        with open(self.output, encoding="utf-8") as file:
            return file.read()
