"""failing: a log that fails loses the replies of one turn, and the service then replies 503."""
import resource
import subprocess
import sys
import threading
import unittest

from lib.asking import status_of
from lib.command import GIVEN
from shared import (FREE, GET, SECONDS, Running, Syncs, dot_of, dots_in, post, refreshing, rest_of,
                    token_in)

CLIENTS, FAILS_AT = 12, 40
FAULT = "fault log"
# A file that may grow no further must fail a write, and not end the program.
IGNORING = "import os, signal, sys\nsignal.signal(signal.SIGXFSZ, signal.SIG_IGN)\n" \
    "os.execvp(sys.argv[1], sys.argv[1:])"


class Failing(unittest.TestCase):
    def setUp(self):
        self.syncs = self.enterContext(Syncs())
        before = [*self.syncs.before, sys.executable, "-c", IGNORING]
        self.server = self.enterContext(Running("--log", "{}/log", before=before))
        self.server.enrol()

    def faults(self):
        return self.server.errors().splitlines()

    def is_sealed(self):
        """Everybody gets 503: who asks for nothing, who sends nothing, who sends half a head."""
        for sent in GET, b"", GET[:10], b"\1":
            with self.server.connect(sent) as peer:
                self.assertEqual(status_of(rest_of(peer)), 503)

    def ask_behind(self, others):
        """The replies of one refresh, and of what came while its sync waited.

        The syncs behind the first refresh go on, and may fail.
        """
        token = self.server.log_in()["refresh_token"]
        first = self.syncs.hold() + 1
        peers = [self.enterContext(self.server.connect(refreshing(self.server, token)))]
        self.syncs.await_begun(first)
        peers += [self.enterContext(self.server.connect(sent)) for sent in others]
        self.fail_at(first + 1)
        self.syncs.write("allowed", FREE)
        return [rest_of(it) for it in peers]

    def fail_at(self, number):
        self.syncs.write("fail", number)

    def all_of_a_turn(self):
        """Refreshes, and an introspection, which makes no record."""
        pairs = [self.server.log_in() for _ in range(CLIENTS)]
        look = post("/introspect", {"token": pairs[0]["access_token"]}, self.server.resource)
        return [refreshing(self.server, it["refresh_token"]) for it in pairs] + [look]

    def lost(self, replies):
        """The first is right, and no other has a byte. Then everybody gets 503."""
        self.assertEqual(status_of(replies[0]), 200)
        self.assertEqual(set(replies[1:]), {b""})
        self.assertEqual(self.faults(), [FAULT])
        self.is_sealed()
        self.assertEqual(self.faults(), [FAULT])

    def test_no_reply_of_the_turn(self):
        """Neither that of a refresh nor that of an introspection. No sync follows."""
        self.lost(self.ask_behind(self.all_of_a_turn()))
        last = self.syncs.read("ended")
        self.is_sealed()
        self.assertEqual(self.syncs.read("begun"), last)

    def test_who_waits_at_the_failure(self):
        """A client that has sent half a request when the log fails gets 503 for all of it."""
        half = [self.enterContext(self.server.connect(GET[:10])) for _ in range(3)]
        self.lost(self.ask_behind(self.all_of_a_turn()))
        for it in half:
            it.sendall(GET[10:])
            self.assertEqual(status_of(rest_of(it)), 503)


class Full(Failing):
    """A log whose file takes a part of what a turn writes."""

    def fail_at(self, number):
        size = len(self.server.logged()) + 1000  # some records, and a part of one
        resource.prlimit(self.server.child.pid, resource.RLIMIT_FSIZE, (size, size))

    def test_what_is_left_of_the_log(self):
        replies = self.ask_behind(self.all_of_a_turn())
        log = self.server.logged()
        self.assertIn(dot_of(token_in(replies[0])), dots_in(log))
        ran = subprocess.run([GIVEN.program, "facts", "--check", self.server.path("log")],
                             capture_output=True, timeout=SECONDS, check=False)
        self.assertEqual(ran.returncode, 0, ran.stderr)
        self.assertIn(b"dropped", ran.stderr)


class Crowd(unittest.TestCase):
    def test_a_log_that_fails_under_clients(self):
        """Twelve clients refresh until they get no reply. Each reply's record was synced."""
        with Syncs() as syncs, Running("--log", "{}/log", before=syncs.before) as server:
            server.enrol()
            tokens = [server.log_in()["refresh_token"] for _ in range(CLIENTS)]
            fails = syncs.read("ended") + FAILS_AT
            syncs.write("fail", fails)
            clients = [Client(server, it) for it in tokens]
            for it in clients:
                it.start()
            for it in clients:
                it.join()
            covered = dots_in(server.logged()[:syncs.covered(fails - 1)])
            begun, errors = syncs.read("begun"), server.errors().splitlines()
        self.assertEqual({it.status for it in clients}, {503})
        self.assertEqual([it.said for it in clients if it.said not in (None, b"")], [])
        self.assertGreaterEqual([it.said for it in clients].count(b""), 1)
        self.assertLessEqual({dot for it in clients for dot in it.made}, covered)
        self.assertEqual(errors, [FAULT])
        self.assertEqual(begun, fails)


class Client(threading.Thread):
    """Refreshes until a reply isn't 200. `said` is what came in place of a reply, if that happened.

    `status` is that of its last reply, `made` has the dots of the others' facts.
    """

    def __init__(self, server, token):
        super().__init__()
        self.server, self.token = server, token
        self.made, self.said, self.status = [], None, None

    def run(self):
        while True:
            with self.server.connect(refreshing(self.server, self.token)) as peer:
                said = rest_of(peer)
            self.status = status_of(said)
            if self.status == 200:
                self.made.append(dot_of(token_in(said)))
                self.token = token_in(said, "refresh_token")
            elif self.status is None and self.said is None:
                self.said = said
            else:
                return
