"""watch: two sites with load, whose exchange is cut for minutes, with the alerts' own times."""
import threading
import time
import unittest

from lib.command import GIVEN
from world import Watched, need_all

CARRY, PAUSE = 5, 0.5  # seconds between two runs of carriers, and between requests
MAX_HEAP = 50_000_000  # bytes of the page's script
PICTURE = 1000, 1180, 0.8  # pixels of the page, and the scale of its picture


@need_all
class Watch(Watched):
    settings, is_short = {}, False

    @classmethod
    def setUpClass(cls):
        if not GIVEN.watch:
            raise unittest.SkipTest("passed over: no --watch")

    def keep_on(self, what, pause):
        """Does something again and again until the test ends."""
        ended = threading.Event()

        def go():
            while not ended.wait(pause):
                what()

        thread = threading.Thread(target=go)
        thread.start()
        self.addCleanup(thread.join)
        self.addCleanup(ended.set)

    def load(self):
        self.one.add(2)
        self.two.add(1)
        self.two.ask("/nowhere")

    def assert_none_bad(self):
        for it in "one", "two":
            self.assertNotIn("✗", self.row(it))

    def take_picture(self):
        self.browser.resize(*PICTURE)
        time.sleep(1)
        with open(GIVEN.picture, "wb") as file:
            file.write(self.browser.picture())

    def test_a_cut_of_minutes(self):
        fifth = GIVEN.watch * 60 / 5
        self.keep_on(self.load, PAUSE)
        self.keep_on(self.exchange, CARRY)
        time.sleep(fifth)
        self.assert_none_bad()
        self.is_cut = True
        time.sleep(3 * fifth)
        for it, other in ("one", "two"), ("two", "one"):
            self.assert_shown(it, "✓ clients are served", "✗ lacks ", " facts of " + other,
                              "it doesn't reach its peer " + self.ways[other])
            self.assert_fires("TokendPeerUnreached", it)
        if GIVEN.picture:
            self.take_picture()
        self.is_cut = False
        time.sleep(fifth)
        self.assert_none_bad()
        self.assert_said("#alerts", "TokendPeerUnreached one ended at")
        self.assertLess(self.browser.run("return performance.memory.usedJSHeapSize"), MAX_HEAP)
