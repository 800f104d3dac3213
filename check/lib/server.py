"""server: programs that serve on a free port, above all `tokend serve`."""
import contextlib
import json
import os
import re
import select
import signal
import subprocess
import tempfile
import time

from bundles import FROM_THE_START, Vector, read_bundle, read_vector, write_pull
from lib import Absent, Broken
from lib.asking import CLIENT, REDIRECT_TEXT, Asked, authorize, basic, body_of, request
from lib.facts import CURSOR, EMPTY_VECTOR, MARK, bundle, facts_of

PATIENCE = 600  # seconds that a start with a long history may take
FULL = 128  # items of a page that isn't the last
SECRET, WORD = "s3cret", "res0urce"
# where a server listens: at an inner socket, at a port, at a socket
LISTENING = rb"(?:inner unix:(.*)\n)?listening (?:127\.0\.0\.1:(\d+)|unix:(.*))\n"


def push(sent):
    return request("POST", "/sync/push", sent)


class Tokend(Asked):
    """A region, by its place."""

    def __init__(self, place, inner=None):
        self.port, self.socket = (place, None) if isinstance(place, int) else (None, place)
        self.inner = inner

    def push(self, items, horizon=None):
        """Status and body of the reply to one bundle."""
        return self.ask("/sync/push", bundle(items, horizon))

    def push_all(self, bundles):
        for it in bundles:
            self.wanted(200, push(it))

    def add_client(self):
        """Has the region make a fact, a client: returns its id."""
        status, said = self.ask("/admin/client", CLIENT)
        if status != 201:
            raise Broken("no client was added: %d, %r" % (status, said))
        return json.loads(said)["client_id"]

    def fill(self):
        """Adds the clients of a page as long as pages get."""
        uris = " ".join("https://a.example/%d/" % n + "x" * 490 for n in range(8))
        scope = " ".join("%d" % n + "s" * 30 for n in range(31))
        for _ in range(FULL):
            self.form("/admin/client", {"kind": "public", "scope": scope, "redirects": uris},
                      status=201)

    def vector(self):
        return read_vector(self.ask("/sync/vector")[1])

    def held_to(self):
        """The vector, by region."""
        return dict(self.vector().entries)

    def page(self):
        """The first page."""
        return read_bundle(self.ask("/sync/pull", write_pull(FROM_THE_START, Vector()))[1])

    def held(self):
        """The items of the first page."""
        return list(self.page().items)

    def pages(self, vector=EMPTY_VECTOR):
        """The pages, as bytes, of what a vector doesn't cover."""
        cursor, count = CURSOR, FULL
        while count == FULL:
            page = body_of(self.wanted(200, request("POST", "/sync/pull", cursor + vector)))
            yield page
            items = facts_of(page)
            count, cursor = len(items), items[-1][:MARK] if items else CURSOR


class Child:
    """What runs a process, its `child`."""

    child = None

    def used(self):
        """Seconds of processor that the child has used."""
        path = "/proc/%d/schedstat" % self.child.pid
        if not os.path.exists(path):
            raise Absent("the kernel has no %s" % path)
        with open(path, encoding="ascii") as file:
            return int(file.read().split()[0]) / 1e9

    def resident(self):
        """Bytes of memory that the child has."""
        with open("/proc/%d/status" % self.child.pid, encoding="ascii") as file:
            return next(int(it.split()[1]) * 1024 for it in file if it.startswith("VmRSS"))

    def stop(self, kind=signal.SIGKILL):
        if self.child.poll() is None:
            self.child.send_signal(kind)
        self.child.wait(PATIENCE)
        if self.child.stdout:
            self.child.stdout.close()


class Process(Child, Asked):
    """A child that prints where it listens, and its errors to a file of its folder."""

    first_lines = re.compile(rb"(?:dropped \d+ bytes\n)?(?:pruned \d+\n)?" + LISTENING)
    begin_with = b"dropped ", b"pruned ", b"inner ", b"listening "

    def __init__(self, words, folder, errors="errors", **options):
        self.folder, self.errors_name, self.output = folder, errors, b""
        self.cwd = options.get("cwd") or os.getcwd()
        with open(self.path(errors), "wb") as file:
            self.child = subprocess.Popen(words, **{
                "stdin": subprocess.DEVNULL, "bufsize": 0, "stdout": subprocess.PIPE,
                "stderr": file} | options)

    def path(self, name):
        return os.path.join(self.folder, name)

    def content(self, name):
        with open(self.path(name), "rb") as file:
            return file.read()

    def errors(self):
        return self.content(self.errors_name).decode(errors="replace")

    def open_connections(self):
        """How many connections the child has open, beside those sockets at which it listens."""
        folder, count = "/proc/%d/fd" % self.child.pid, -2 if self.inner else -1
        for name in os.listdir(folder):
            with contextlib.suppress(FileNotFoundError):  # it was closed meanwhile
                count += os.readlink(os.path.join(folder, name)).startswith("socket:")
        return count

    def listening(self, patience=PATIENCE):
        """Waits until it listens. What doesn't is ended."""
        end = time.monotonic() + patience
        while not (found := self.first_lines.fullmatch(self.output)):
            left = max(0, end - time.monotonic())
            is_there = select.select([self.child.stdout], [], [], left)[0]
            piece = os.read(self.child.stdout.fileno(), 65536) if is_there else b""
            self.output += piece
            lines = self.output.split(b"\n")[:-1]
            if not piece or not all(it.startswith(self.begin_with) for it in lines):
                self.give_up(10 if is_there and not piece else 0)
        inner, port, path = found.groups()
        self.inner, self.socket = (it and self.absolute(it.decode()) for it in (inner, path))
        self.port = port and int(port)
        return self

    def absolute(self, path):
        return os.path.join(self.cwd, path)

    def give_up(self, seconds):
        """Ends it, unless it ends within some seconds without a signal."""
        with contextlib.suppress(subprocess.TimeoutExpired):
            self.child.wait(seconds)
        self.stop()
        raise Broken("%s didn't start: %s" % (os.path.basename(self.child.args[0]), (
            self.errors().strip() or "it printed %r" % self.output)))


class Server(Process, Tokend):
    """A running `tokend serve`, with a client, a resource server and a consent once enrolled."""

    def __init__(self, program, *options, region=1, folder=None, load=None, before=(), **more):
        """Starts it in a folder, or in one of its own; in an option, {} is that folder.

        With `load`, it loads these bytes and has a log. Words may stand before the program, of a
        command that starts it. Without --socket among the options it takes a free port.
        """
        self.own = None if folder else tempfile.TemporaryDirectory()
        folder = folder or self.own.name
        seed, old, log = (os.path.join(folder, it) for it in ("seed", "old", "log"))
        with open(seed, "wb") as file:
            file.write(self.seed())
        place = [] if "--socket" in options else ["--port", "0"]
        words = [*before, program, "serve", "--region", str(region), *place, "--seed", seed]
        if load is not None:
            with open(old, "wb") as file:
                file.write(load)
            words += ["--load", old, "--log", log]
        super().__init__(words + [it.format(folder) for it in options], folder, **more)
        try:
            self.listening()
        except BaseException:
            self.end()
            raise

    def seed(self):
        return os.urandom(32)

    def end(self):
        """Stops it; its own folder is gone then."""
        self.stop()
        if self.own:
            self.own.cleanup()

    def __enter__(self):
        return self

    def __exit__(self, *_):
        self.end()

    def parts(self):
        """The names of the parts of its log, in order; none of a log of one file."""
        return sorted(it for it in os.listdir(self.folder) if re.fullmatch(r"log[.]\d{4}", it))

    def logged(self):
        """The bytes of its log, or of the log's parts one behind the other."""
        return b"".join(map(self.content, self.parts() or ["log"]))

    def enrol(self, **more):
        """Adds a client, with these parameters too, a resource server, and ann's consent to the
        client."""
        rights = {"scope": "read write", "redirects": REDIRECT_TEXT}
        self.client_id, self.resource_id = (
            self.form("/admin/client", kind | rights, status=201)["client_id"]
            for kind in ({"kind": "confidential", "secret": SECRET} | more,
                         {"kind": "resource", "secret": WORD}))
        given = {"client_id": self.client_id, "subject": "ann", "scope": "read write"}
        self.consent_id = self.form("/admin/consent", given, status=201)["consent_id"]
        self.client = basic(self.client_id, SECRET)
        self.resource = basic(self.resource_id, WORD)
        self.authorize = authorize("/authorize", self.client_id)
        return self

    def enrol_as(self, other):
        """Goes on with the clients of another server, whose facts this one has."""
        self.client, self.resource = other.client, other.resource
        self.authorize = other.authorize
