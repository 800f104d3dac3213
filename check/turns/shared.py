"""shared: a server with a known seed, the syncs of its log, and what its replies have."""
import base64
import contextlib
import mmap
import os
import re
import socket
import struct
import subprocess
import tempfile
import unittest

from lib.asking import connect, request
from lib.command import GIVEN
from lib.facts import CURSOR, EMPTY_VECTOR, facts_of, whole_records
from lib.server import Server
from lib.waiting import until

FIGURES = []  # lines that are printed at the end
SECONDS = 30  # for anything that must happen, on a machine that does much else
SEED = bytes(range(32))
TRIES = 3  # of a figure that the machine may have spoilt
DOT = slice(0, 10)  # of a fact
GET = request("GET", "/sync/vector")
PULL = request("POST", "/sync/pull", CURSOR + EMPTY_VECTOR)
ENTRIES = 65536  # of a table of syncs.c
FIELDS = "allowed", "wait", "fail", "begun", "ended"
FREE = 1 << 62  # a number that no sync has


class Running(Server):
    """A server with the seed of the tests, at a port, or with --socket at a socket."""

    def __init__(self, *options, **more):
        place = ("--socket", "{}/socket") if GIVEN.socket else ()
        super().__init__(GIVEN.program, *place, *options, **more)

    def seed(self):
        return SEED

    def connect(self, sent=b"", is_narrow=False):
        return connect(self.place, sent, is_narrow, SECONDS)


class Syncs:
    """The syncs of a server's log: the table of syncs.c, which it is started with."""

    def __init__(self):
        self.room = tempfile.TemporaryDirectory()
        shim, table = (os.path.join(self.room.name, it) for it in ("syncs.so", "table"))
        source = os.path.join(os.path.dirname(os.path.abspath(__file__)), "syncs.c")
        subprocess.run(["cc", "-O2", "-shared", "-fPIC", "-o", shim, source], check=True)
        with open(table, "w+b") as file:
            os.truncate(file.fileno(), 8 * (len(FIELDS) + ENTRIES))
            self.table = mmap.mmap(file.fileno(), 0)
        self.before = "env", "LD_PRELOAD=" + shim, "CHECK_SYNCS=" + table
        self.write("allowed", FREE)

    def __enter__(self):
        return self

    def __exit__(self, *_):
        self.table.close()
        self.room.cleanup()

    def write(self, name, value):
        struct.pack_into("<Q", self.table, 8 * FIELDS.index(name), value)

    def read(self, name):
        return struct.unpack_from("<Q", self.table, 8 * FIELDS.index(name))[0]

    def covered(self, number):
        """How many bytes of the log a sync covers."""
        return struct.unpack_from("<Q", self.table, 8 * (len(FIELDS) + number))[0] if number else 0

    def hold(self):
        """Has the next sync wait, and returns the number of the last one."""
        last = self.read("ended")
        self.write("allowed", last)
        return last

    def await_begun(self, number):
        await_that(lambda: self.read("begun") >= number, "no sync %d" % number)


def await_that(holds, otherwise):
    if not until(holds, SECONDS, 0.002):
        raise AssertionError(otherwise)


def rest_of(peer, said=b""):
    """All that still comes, after `said`. A reset ends it too."""
    with contextlib.suppress(ConnectionError):
        while piece := peer.recv(65536):
            said += piece
    return said


def arrived(peer):
    """Whether a byte of a reply has come, or its end."""
    peer.setblocking(False)
    try:
        return peer.recv(1, socket.MSG_PEEK) is not None
    except BlockingIOError:
        return False
    except ConnectionError:
        return True
    finally:
        peer.settimeout(SECONDS)


def post(target, fields, client):
    """The bytes of a form that a client sends."""
    return request("POST", target, "&".join("%s=%s" % it for it in fields.items()).encode(),
                   "Authorization: Basic " + client)


def refreshing(server, token):
    fields = {"grant_type": "refresh_token", "refresh_token": token}
    return post(server.token, fields, server.client)


def handle_of(text):
    """The bytes of a token: its version and kind, its dot, and three random words."""
    return base64.urlsafe_b64decode(text)


def dot_of(text):
    """The dot of the fact that made a token."""
    return handle_of(text)[2:12]


def token_in(said, name="access_token"):
    return re.search(rb'"%s":"([\w-]+)"' % name.encode(), said)[1].decode()


def dots_in(log):
    """The dots of the facts in the whole records of a log."""
    return {it[DOT] for it in facts_of(log[:whole_records(log)])}


class Asking(unittest.TestCase):
    """Tests that run servers of their own, and read whole replies."""

    def served(self, *options, **more):
        """A server with these options, which ends with the test."""
        return self.enterContext(Running(*options, **more))

    def said(self, place, sent):
        """All that comes back of a connection that sends this."""
        with connect(place, sent, patience=SECONDS) as peer:
            return rest_of(peer)
