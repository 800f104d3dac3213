"""refusing: a turn of four clients whose allocations fail, one by one, and from one on."""
import tempfile
import unittest
from signal import SIGCONT, SIGSTOP

from lib import Broken
from lib.asking import connect, status_of
from lib.command import GIVEN
from lib.facts import whole_records
from refusal import FOR_GOOD, Lab
from server import Server
from shared import (FIGURES, GET, SECONDS, Running, dot_of, dots_in, refreshing, rest_of, token_in)

CLIENTS, REGION = 4, 2
MOST = 2000  # allocations of a turn
TOKENS = "access_token", "refresh_token"


class Refusing(unittest.TestCase):
    def setUp(self):
        folder = self.enterContext(tempfile.TemporaryDirectory())
        try:
            self.lab = Lab(GIVEN.program, folder)
        except Broken as why:
            self.skipTest(str(why))
        with Running("--log", "{}/log") as server:
            server.enrol()
            self.requests = [refreshing(server, server.log_in()["refresh_token"])
                             for _ in range(CLIENTS)]
            self.old = server.logged()

    def turn(self, server, at, span):
        """The replies of a turn, whose allocations fail from number `at` on; and how many fail."""
        server.child.send_signal(SIGSTOP)
        peers = [self.enterContext(connect(server.port, it, patience=SECONDS))
                 for it in self.requests]
        server.refuse(at, span)
        server.child.send_signal(SIGCONT)
        replies = [rest_of(it) for it in peers]
        refused = server.refused()
        server.refuse(0, 0)
        return replies, refused

    def wanted(self, server, replies, refused):
        """Who has no reply had no memory. All others are served, and their facts are logged."""
        lost = replies.count(b"")
        self.assertLessEqual(lost, refused)
        self.assertEqual({status_of(it) for it in replies if it}, {200} if any(replies) else set())
        self.assertEqual(status_of(server.ask(GET)), 200)
        self.assertEqual(server.errors(), "fault memory\n" * lost)
        log = server.logged()
        self.assertEqual(whole_records(log), len(log))
        self.assertLessEqual({dot_of(token_in(it)) for it in replies if it}, dots_in(log))
        for sent, said in zip(self.requests, replies):
            again = server.ask(sent)
            self.assertIn(status_of(again), (400,) if said else (200, 400))
        return lost

    def sweep(self, span):
        lost = 0
        for at in range(1, MOST):
            with Server(self.lab, REGION, self.old) as server:
                server.table.write(clock=0)
                replies, refused = self.turn(server, at, span)
                with self.subTest(at=at):
                    lost += self.wanted(server, replies, refused)
            if not refused:
                break
        self.assertLess(1, at)
        return at - 1, lost

    def test_one_failed_allocation_loses_one_reply_at_most(self):
        counts = self.sweep(1)
        FIGURES.append("in a turn of %d clients each of %d allocations failed once: %d replies lost"
                       % (CLIENTS, *counts))

    def test_all_from_one_on(self):
        self.sweep(FOR_GOOD)


class Repeated(Refusing):
    """Refreshes that are repeated: a reply again, or none, and the login stays."""

    def wanted(self, server, replies, refused):
        """Returns how many replies were lost. All others, and all of a second time, are right."""
        lost = replies.count(b"")
        self.assertLessEqual(lost, refused)
        for sent, first, said in zip(self.requests, self.first, replies):
            for it in [said] * bool(said) + [server.ask(sent)]:
                self.assertEqual(status_of(it), 200)
                self.assertEqual([token_in(it, name) for name in TOKENS], first)
        return lost

    def sweep(self, span):
        lost, at = 0, 0
        with Server(self.lab, REGION, self.old, "--repeat 60") as server:
            server.table.write(clock=0)
            replies, _ = self.turn(server, 0, 0)
            self.first = [[token_in(it, name) for name in TOKENS] for it in replies]
            logged, refused = server.logged(), 1
            while refused and at < MOST:
                at += 1
                replies, refused = self.turn(server, at, span)
                with self.subTest(at=at):
                    lost += self.wanted(server, replies, refused)
            self.assertEqual(server.logged(), logged)
            self.assertEqual(server.errors(), "fault memory\n" * lost)
        self.assertLess(1, at)
        return at - 1, lost
