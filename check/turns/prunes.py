"""prunes: with --prune-margin a server skips the facts of families that are over, between turns."""
import os
import subprocess
import tempfile
import time
import unittest

from lib.clock import Clock, make_shim
from lib.command import GIVEN
from lib.facts import ACCESS, FAMILY, Maker, bundles, facts_of, handle, marks_in
from shared import FIGURES, Running, await_that

DAY = "86400"
MARGIN = "--prune-margin", DAY
LOGINS = 1_000  # of families that are over, and of others: a pass has some slices
IDLE = 3  # seconds, in which the first pass ends


def marks_of(server):
    """How many marks a server gives."""
    return sum(map(marks_in, server.pages()))


class Prunes(unittest.TestCase):
    @classmethod
    def setUpClass(cls):
        """What a server holds with logins of families that are over, and of others: its pages, and
        the access tokens of both."""
        with Running() as server:
            cls.first = server.enrol()
            maker, cls.tokens = Maker(60, server.client_id, server.consent_id, b"ann"), []
            for ago in 2 * FAMILY, 60:
                maker.now = int(time.time()) - ago
                dots, facts = maker.logins(LOGINS)
                server.push_all(bundles(facts))
                cls.tokens.append([handle(ACCESS, at) for at in dots])
            cls.load, cls.vector = b"".join(server.pages()), server.held_to()

    def clock(self):
        """A wall clock that a file has. The monotonic clock of the server stays the machine's."""
        room = self.enterContext(tempfile.TemporaryDirectory())
        shim, file = (os.path.join(room, it) for it in ("clock.so", "now"))
        make_shim(shim)
        return Clock(file, shim, int(time.time()))

    def started(self, *options, **more):
        """A server that holds all of it."""
        server = self.enterContext(Running(*options, load=self.load, region=2, **more))
        server.enrol_as(self.first)
        return server

    def assert_as_ever(self, server):
        """It knows all, and tokens are active exactly if their families live."""
        self.assertEqual(server.held_to(), self.vector)
        for tokens, is_active in zip(self.tokens, (False, True)):
            for token in tokens[::97]:
                self.assertEqual(server.is_active(token), is_active)

    def test_an_idle_server_ends_its_pass_and_rests(self):
        """A server that nobody asks ends its pass by itself, and then rests."""
        server = self.started(*MARGIN)
        time.sleep(IDLE)
        used = server.used()
        time.sleep(1)
        used = server.used() - used
        FIGURES.append("behind its pass an idle server takes %.1f ms a second" % (used * 1e3))
        self.assertLess(used, 0.2)
        self.assertEqual(marks_of(server), 2 * LOGINS)
        self.assert_as_ever(server)

    def test_a_pass_goes_on_between_requests(self):
        server = self.started(*MARGIN)
        end, asked, longest = time.monotonic() + IDLE, 0, 0.0
        while time.monotonic() < end:
            begun = time.monotonic()
            self.assertTrue(server.is_active(self.tokens[1][asked % LOGINS]))
            asked, longest = asked + 1, max(longest, time.monotonic() - begun)
        FIGURES.append("%d introspections beside a pass, the longest %.1f ms" % (
            asked, longest * 1e3))
        self.assertEqual(marks_of(server), 2 * LOGINS)
        self.assert_as_ever(server)

    def test_metrics_count_pruned_and_held_facts(self):
        """The metrics have how many facts went, and how many are held."""
        server = self.started(*MARGIN, "--metrics")
        await_that(lambda: marks_of(server) == 2 * LOGINS, "not pruned")
        time.sleep(1.1)  # after a second the text is made anew
        status, text = server.ask("/metrics")
        self.assertEqual(status, 200)
        self.assertIn(b"\ntokend_pruned_facts_total %d\n" % (2 * LOGINS), text)
        held = sum(len(facts_of(it)) - marks_in(it) for it in server.pages())
        self.assertIn(b"\ntokend_held_facts %d\n" % held, text)

    def test_pruning_appends_nothing_to_the_log(self):
        """The log gets the facts that are made, and no mark."""
        server = self.started(*MARGIN, "--log-taken")
        await_that(lambda: marks_of(server) == 2 * LOGINS, "not pruned")
        self.assertEqual(server.logged(), b"")
        server.add_client()
        self.assertEqual(len(facts_of(server.logged())), 1)
        self.assertEqual(marks_in(server.logged()), 0)

    def test_without_the_option_nothing_is_pruned(self):
        server = self.started()
        time.sleep(IDLE)
        self.assertEqual(marks_of(server), 0)
        self.assert_as_ever(server)

    def test_a_clock_that_jumps(self):
        """A clock that jumps ahead behind the start prunes nothing early, and once it is right
        again, no request is refused."""
        clock = self.clock()
        server = self.started(*MARGIN, before=("env", *clock.words))
        clock.set(int(time.time()) + 4 * FAMILY)
        await_that(lambda: marks_of(server) >= 2 * LOGINS, "not pruned")
        time.sleep(1)
        self.assertEqual(marks_of(server), 2 * LOGINS)
        clock.set(int(time.time()))
        self.assert_as_ever(server)

    def test_a_clock_that_is_late(self):
        """A clock that is set back behind the start prunes up to what it says."""
        clock = self.clock()
        server = self.started(*MARGIN, before=("env", *clock.words))
        clock.set(int(time.time()) - 3 * FAMILY)
        time.sleep(IDLE)
        self.assertEqual(marks_of(server), 0)
        clock.set(int(time.time()))
        self.assert_as_ever(server)

    def test_a_wrong_margin_is_refused_at_the_start(self):
        for value in "86399", "1000000000", "x", "":
            ended = subprocess.run(
                [GIVEN.program, "serve", "--region", "1", "--port", "0", "--seed", "none",
                 "--prune-margin", value], capture_output=True, check=False)
            self.assertEqual(ended.returncode, 2, value)
            self.assertIn(b"--prune-margin", ended.stderr)
