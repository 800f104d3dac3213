"""room: a folder for one case, in which a site is started by the starter that is tried."""
import email.utils
import os
import re
import shutil
import subprocess
import tempfile
import time

from lib import TOP, Broken
from lib.facts import DOT, read_dot, retirement
from lib.server import LISTENING, Process, Tokend
from lib.waiting import PATIENCE, free_port

START = os.environ.get("STARTER") or os.path.join(TOP, "starter", "tokend-start")
BACKUP = os.environ.get("BACKUP") or os.path.join(TOP, "examples", "two-regions", "backup")
COMPACT = os.environ.get("COMPACT") or os.path.join(TOP, "examples", "two-regions", "compact")


def wanted(it, what, said=None):
    if not it:
        raise Broken(what if said is None else "%s: %r" % (what, said))


def retirements(region, first, last):
    """Facts of a region number, in the order of their serials."""
    return [retirement((region, it), (region, 1)) for it in range(first, last + 1)]


def vector(**entries):
    """A vector of entries such as r5=9."""
    pairs = sorted((int(name[1:]), serial) for name, serial in entries.items())
    return b"OTV1" + len(pairs).to_bytes(2, "big") + b"".join(DOT.pack(*it) for it in pairs)


def dated(server, seconds, spell=email.utils.formatdate):
    """The replies of a server behind a proxy whose clock is as many seconds behind this one."""
    def reply(path, body):
        status, said = server.ask(path, body or None)
        return status, {"Date": spell(time.time() - seconds, usegmt=True)}, said
    return reply


class Child(Process, Tokend):
    """A process of this case, with what it prints in files."""

    begin_with = b""
    first_lines = re.compile(rb"(?s:.*?\n)??" + LISTENING + rb"(?s:.*)")

    def __init__(self, room, words, environ=(), folder=None):
        super().__init__(words, room.folder, errors="child-%d" % len(room.children),
                         cwd=folder or room.folder, env={**room.environ, **dict(environ)})
        room.children.append(self)

    def listening(self, patience=PATIENCE):
        return super().listening(patience)

    def ended(self, patience=PATIENCE):
        """Its status."""
        try:
            self.output += self.child.communicate(timeout=patience)[0]
        except subprocess.TimeoutExpired:
            raise Broken("it still runs after %d s" % patience) from None
        return self.child.returncode

    def arguments(self):
        """Those of the program that runs."""
        with open("/proc/%d/cmdline" % self.child.pid, encoding="utf-8") as file:
            return file.read().split("\0")

    def add_client(self):
        """Has the server make a fact: the region number and the serial of it."""
        return read_dot(super().add_client())

    def push(self, items, horizon=None):
        status, said = super().push(items, horizon)
        wanted(status == 200, "a push was refused", said)


class Room:
    """A folder of one case, and the processes that it began."""

    def __init__(self, program):
        self.folder = os.path.realpath(tempfile.mkdtemp())
        self.program, self.children, self.port = program, [], free_port()
        self.environ = {name: os.environ[name] for name in ("PATH", "HOME") if name in os.environ}
        self.environ["TOKEND"] = program

    def __enter__(self):
        return self

    def __exit__(self, *_):
        for child in self.children:
            child.stop()
        shutil.rmtree(self.folder)

    def path(self, *names):
        return os.path.join(self.folder, *names)

    def folder_of_another(self, name):
        """A folder that another user has: a new one of this name, if root makes it."""
        if os.geteuid() != 0:
            return "/usr"
        folder = self.path(name)
        os.mkdir(folder)
        os.chown(folder, 65534, 65534)
        return folder

    def start(self, numbers="1-9", site="site", peers=(), folder=None, **environ):
        """The next run of a site; it may not listen yet."""
        if peers:
            environ["TOKEND_PEERS"] = " ".join(peers)
        return Child(self, [START, site, str(self.port), numbers], environ, folder)

    def serve(self, region, *options):
        """A server of another site."""
        with open(self.path("seed"), "wb") as seed:
            seed.write(os.urandom(32))
        words = [self.program, "serve", "--region", str(region), "--port", "0", "--seed",
                 self.path("seed"), *options]
        return Child(self, words).listening()

    def write(self, name, content, mode=0o600):
        os.makedirs(os.path.dirname(self.path(name)), exist_ok=True)
        with open(self.path(name), "wb") as file:
            file.write(content)
        os.chmod(self.path(name), mode)
        return self.path(name)

    def read(self, name):
        with open(self.path(name), "rb") as file:
            return file.read()

    def number(self, site="site"):
        """The number that a site took last; 0 for none."""
        try:
            return int(self.read(os.path.join(site, "number")))
        except FileNotFoundError:
            return 0
