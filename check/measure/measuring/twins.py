"""twins: two servers that are sent the same at the same moments, of which one prunes itself.

Both have one region number and one seed, so they give the same tokens. Their clocks are files, and
move only between two requests. Their folders are those of sites.
"""
import glob
import json
import os
import re
import shutil
import subprocess
import tempfile
import urllib.parse

from lib import TOP, Broken
from lib.asking import REDIRECT_TEXT, body_of, dial, is_whole, request
from lib.clock import Clock, make_shim
from lib.facts import MARK, end_of_bundle, facts_of
from lib.server import Server
from lib.waiting import until

BEGIN, SEED, NUMBER, OTHER = 1_800_000_000, bytes(range(32)), 1, 2
KEEP = 3600  # seconds of the clock, for which a connection may be idle
FORM = "Content-Type: application/x-www-form-urlencoded"
VECTOR = request("GET", "/sync/vector")
FOLDERS = "old", "history", "log"
LOG = "--log", "{}/log/%05d.otb" % NUMBER, "--log-taken"
COMPACT = os.path.join(TOP, "examples/two-regions/compact")


def split(log):
    """Each of the bundles that are one behind the other."""
    at = 0
    while at < len(log):
        end = end_of_bundle(log, at)
        yield log[at:end]
        at = end


def has_marks(bundle):
    return bundle.startswith(b"OTB3")


def items_of(server):
    """What a server holds, facts and marks by their dots."""
    return {it[:MARK]: it for page in server.pages() for it in facts_of(page)}


class Twin(Server):
    """A server of a site's folder, with a log, a clock of its own, and a kept connection."""

    peer = None

    def __init__(self, program, shim, folder, options):
        self.clock = Clock(os.path.join(folder, "clock"), shim, BEGIN, rises=True)
        self.before, self.compared = ["env", *self.clock.words], {}
        for name in FOLDERS:
            os.mkdir(os.path.join(folder, name))
        super().__init__(program, "--keep", str(KEEP), *LOG, *options, region=NUMBER,
                         folder=folder, before=self.before)
        self.peer = dial(self.place)

    def seed(self):
        return SEED

    def end(self):
        if self.peer:
            self.peer.close()
        super().end()

    def answer(self, peer=None):
        """The reply to what was sent over the kept connection, or another, to its last byte."""
        peer = peer or self.peer
        said = peer.recv(65536)
        while said and not is_whole(said):
            piece = peer.recv(65536)
            said = said + piece if piece else b""
        if not said:
            raise Broken("a server closed its connection: %s" % self.errors())
        return said

    def files(self, *folders):
        """The paths of all logs and segments, or of those in some folders."""
        return [path for name in folders or FOLDERS
                for path in sorted(glob.glob(self.path(name) + "/*.otb"))]

    def size(self):
        """Bytes of all files that a start loads."""
        return sum(map(os.path.getsize, self.files()))

    def records(self):
        """The records that its log got since the last call, without those of marks."""
        found = b""
        for path in self.files("log"):
            with open(path, "rb") as file:
                file.seek(self.compared.get(path, 0))
                found += file.read()
                self.compared[path] = file.tell()
        return b"".join(it for it in split(found) if not has_marks(it))


class Twins:
    """The server that prunes itself, `pruning`, and the one that never prunes, `whole`.

    `now` is the moment of both clocks, `replies` is how many replies were compared.
    """

    def __init__(self, program, *options, pruning=()):
        self.program, self.room, self.now = program, tempfile.TemporaryDirectory(), BEGIN
        self.replies, self.both = 0, []
        shim = os.path.join(self.room.name, "clock.so")
        make_shim(shim)
        try:
            for name, more in ("pruning", pruning), ("whole", ()):
                folder = os.path.join(self.room.name, name)
                os.mkdir(folder)
                self.both.append(Twin(program, shim, folder, [*options, *more]))
        except BaseException:
            self.end()
            raise
        self.pruning, self.whole = self.both

    def __enter__(self):
        return self

    def __exit__(self, *_):
        self.end()

    def end(self):
        for it in self.both:
            it.end()
        self.room.cleanup()

    def tick(self, moment):
        """Moves both clocks to a moment."""
        self.now = moment
        for it in self.both:
            it.clock.set(moment)

    def ask(self, sent):
        """The reply to a request, which must be the same of both."""
        for it in self.both:
            it.peer.sendall(sent)
        pruning, whole = (it.answer() for it in self.both)
        if pruning != whole:
            raise Broken("at %d s %r is answered %r, and without a prune %r" % (
                self.now - BEGIN, sent, pruning, whole))
        self.replies += 1
        return pruning

    def post(self, target, credentials=None, **fields):
        """Status and body of the reply to a form."""
        headers = [FORM] + (["Authorization: Basic " + credentials] if credentials else [])
        said = self.ask(request("POST", target, urllib.parse.urlencode(fields).encode(), *headers))
        return int(said[9:12]), body_of(said)

    def made(self, target, **fields):
        """The id in the reply to a form of /admin/, which must be 201."""
        status, said = self.post(target, **fields)
        if status != 201:
            raise Broken("%s is answered %d, %r" % (target, status, said))
        return next(iter(json.loads(said).values()))

    def code(self, authorize, subject):
        """The code that a subject's browser gets."""
        said = self.ask(request("GET", authorize, b"", "X-Subject: " + subject))
        found = re.search(rb"[?&]code=([\w.~-]+)", said)
        if not found:
            raise Broken("%s is answered %r" % (authorize, said[:300]))
        return found[1].decode()

    def tokens(self, credentials, **fields):
        """The access token and the refresh token of a grant; None if it is refused."""
        status, said = self.post("/token", credentials, redirect_uri=REDIRECT_TEXT, **fields)
        found = json.loads(said)
        return (found["access_token"], found["refresh_token"]) if status == 200 else None

    def compare_vectors(self):
        self.ask(VECTOR)

    def compare_logs(self):
        """Compares what both logged since the last call, without the marks of `compact`."""
        if self.pruning.records() != self.whole.records():
            raise Broken("at %d s the logs differ" % (self.now - BEGIN))

    def compact(self, margin):
        """Has `compact` do with the site that prunes what the unit of a package does each week.

        The logs must have been compared. The other server gets as many requests as the marks that
        `compact` pushed took, so that both go on with the same random words.
        """
        it = self.pruning
        done = subprocess.run(
            [*it.before, "TOKEND=" + self.program, "TOKEND_PRUNE_MARGIN=%d" % margin,
             "TOKEND_PEERS=", COMPACT, "--push", it.url, it.folder],
            capture_output=True, text=True, check=False)
        if done.returncode:
            raise Broken("compact at %d s: %s" % (self.now - BEGIN, done.stderr))
        segment, = it.files("history")
        with open(segment, "rb") as file, dial(self.whole.place) as peer:
            for _ in filter(has_marks, split(file.read())):
                peer.sendall(VECTOR)
                self.whole.answer(peer)
        if not all(until(lambda it=it: it.open_connections() == 1) for it in self.both):
            raise Broken("a connection of `compact` stays open")

    def items(self):
        """What each holds, the one that prunes first: the other's facts, or marks of them."""
        pruning, whole = map(items_of, self.both)
        self.compare_items(pruning, whole)
        return pruning, whole

    def compare_items(self, found, whole):
        """Compares what a server holds with what the one that never prunes does."""
        if found.keys() != whole.keys():
            raise Broken("at %d s the dots differ" % (self.now - BEGIN))
        if any(len(it) != MARK and it != whole[dot] for dot, it in found.items()):
            raise Broken("at %d s the facts differ" % (self.now - BEGIN))

    def start(self, it, *options):
        """Processor seconds of a start of another number from a server's files, and the bytes of
        memory that it then has. What it holds is compared too."""
        load = os.path.join(self.room.name, "load")
        with open(load, "wb") as out:
            for path in it.files():
                with open(path, "rb") as file:
                    shutil.copyfileobj(file, out)
        with Server(self.program, "--load", load, *options, region=OTHER,
                    before=it.before) as started:
            taken = started.used(), started.resident()
            self.compare_items(items_of(started), self.items()[1])
        return taken
