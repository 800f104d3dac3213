"""syncs: one sync for the records of a turn, and no reply before the sync that covers them."""
import threading
import time
import unittest

from lib.asking import status_of
from shared import (FIGURES, FREE, GET, Running, Syncs, arrived, await_that, dot_of, dots_in,
                    refreshing, rest_of, token_in)

CLIENTS, REFRESHES = 16, 5
SLOW = 50_000  # microseconds of a sync
SOON = 0.15  # seconds in which a reply arrives that isn't held back
MAX_SYNCS = 4  # of sixteen requests that are there at once: one would do, behind the first's


class Held(unittest.TestCase):
    """Syncs that end when the test says so."""

    def setUp(self):
        self.syncs = self.enterContext(Syncs())
        self.server = self.enterContext(Running("--log", "{}/log", before=self.syncs.before))
        self.server.enrol()

    def ask_all(self, requests):
        """Connections that sent these; all but the first while the sync of the first waits."""
        first = self.syncs.hold() + 1
        peers = [self.enterContext(self.server.connect(requests[0]))]
        self.syncs.await_begun(first)
        for sent in requests[1:]:
            peers.append(self.enterContext(self.server.connect(sent)))
        return peers, first

    def without_reply(self, peers, last):
        """Those that have none. The records of the others are covered by a sync."""
        covered = dots_in(self.server.logged()[:self.syncs.covered(last)])
        here = [it for it in peers if arrived(it)]
        for it in here:
            said = rest_of(it)
            self.assertEqual(status_of(said), 200)
            self.assertIn(dot_of(token_in(said)), covered, "its record isn't synced")
        return [it for it in peers if it not in here]

    def test_replies_wait_for_their_sync(self):
        """While a sync waits, only those have a reply whose record an earlier sync covers."""
        tokens = [self.server.log_in()["refresh_token"] for _ in range(CLIENTS)]
        left, first = self.ask_all([refreshing(self.server, it) for it in tokens])
        number = first
        while left:
            await_that(lambda: self.syncs.read("begun") >= number or all(map(arrived, left)),
                       "neither a sync nor replies")
            time.sleep(SOON)
            left = self.without_reply(left, number - 1)
            self.syncs.write("allowed", number)
            number += 1
        count = self.syncs.read("ended") - first + 1
        FIGURES.append("%d refreshes that were there at once took %d syncs" % (CLIENTS, count))
        self.assertLessEqual(count, MAX_SYNCS)

    def test_a_sync_covers_what_is_written(self):
        """No byte of the log is left that no sync covers, once all have their replies."""
        tokens = [self.server.log_in()["refresh_token"] for _ in range(CLIENTS)]
        peers, _ = self.ask_all([refreshing(self.server, it) for it in tokens])
        self.syncs.write("allowed", FREE)
        self.assertEqual({status_of(rest_of(it)) for it in peers}, {200})
        last = self.syncs.read("ended")
        self.assertEqual(self.syncs.covered(last), len(self.server.logged()))

    def test_no_record_no_sync(self):
        before = self.syncs.read("begun")
        peers = [self.enterContext(self.server.connect(GET)) for _ in range(CLIENTS)]
        self.assertEqual({status_of(rest_of(it)) for it in peers}, {200})
        self.assertEqual(self.syncs.read("begun"), before)


class Slow(unittest.TestCase):
    def test_a_slow_disk(self):
        """Sixteen clients, each with one refresh after the other, and syncs of 50 ms."""
        with Syncs() as syncs, Running("--log", "{}/log", before=syncs.before) as server:
            server.enrol()
            tokens = [server.log_in()["refresh_token"] for _ in range(CLIENTS)]
            syncs.write("wait", SLOW)
            before, begin = syncs.read("ended"), time.monotonic()
            wrong = []
            clients = [threading.Thread(target=refresh_on, args=(server, it, wrong))
                       for it in tokens]
            for it in clients:
                it.start()
            for it in clients:
                it.join()
            count, seconds = syncs.read("ended") - before, time.monotonic() - begin
        self.assertEqual(wrong, [])
        FIGURES.append("%d refreshes of %d clients took %d syncs and %.2f s, 50 ms a sync" % (
            CLIENTS * REFRESHES, CLIENTS, count, seconds))
        self.assertLess(count, CLIENTS * REFRESHES / 3)


def refresh_on(server, token, wrong):
    try:
        for _ in range(REFRESHES):
            token = server.refresh(token)["refresh_token"]
    except Exception as why:  # of any kind: a thread that ends of it would go unseen
        wrong.append(repr(why))
