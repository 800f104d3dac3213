"""states: what the page says, and which alerts fire, of sites with which something is wrong."""
import http.client
import os
import shutil
import signal
import time
import unittest

from lib import Broken
from lib.asking import dial
from lib.clock import Clock, make_shim
from lib.facts import code
from world import START, Watched, need_all

DAY = 86_400
AHEAD = 3 * DAY + 3600


@need_all
class States(Watched):
    def test_the_exchange_is_cut(self):
        """Each side lacks what the other has made; once the way is back, 100 facts are behind."""
        self.one.add(2)
        self.assertEqual(self.exchange(), [0, 0])
        for it in "one", "two":
            self.assert_lacks(it, 0)
            self.assert_shown(it, "clients are served", but=["lacks", "peer"])
        self.is_cut = True
        self.one.add(3)
        self.two.add(120)
        self.assertEqual(self.exchange(), [1, 1])
        self.assert_lacks("one", 120)
        self.assert_lacks("two", 3)
        self.assert_shown("one", "clients are served", "lacks 120 facts of two, for",
                          "it doesn't reach its peer " + self.ways["two"])
        self.assert_shown("two", "clients are served", "lacks 3 facts of one, for",
                          "it doesn't reach its peer " + self.ways["one"])
        self.assert_shown("one", "✗ lacks 120 facts")  # since it is late
        for it in "one", "two":
            self.assert_fires("TokendPeerUnreached", it)
        self.is_cut = False
        self.assert_fires("TokendBehind", "one")
        self.assertEqual(self.exchange(), [0, 0])
        for it in "one", "two":
            self.assert_lacks(it, 0)
            self.assert_shown(it, "clients are served", but=["lacks", "peer", "✗"])
        self.assert_said("#alerts", "TokendBehind one ended at")

    def test_a_log_that_has_failed(self):
        self.one.stop()
        self.next_run(self.one, program=self.small())
        with self.assertRaises((Broken, OSError, http.client.HTTPException)):
            self.one.add(100)
        self.assert_shown("one", "✗ each request gets 503: the log has failed",
                          but=["are served"])
        self.assert_shown("two", "✓ clients are served")
        self.assert_said("#said", "✗ Bad: one.")
        self.assert_fires("TokendSealed", "one")

    @unittest.skipUnless(shutil.which("cc"), "passed over: no cc")
    def test_a_clock_that_is_ahead(self):
        """Site two prunes by its clock, and site one takes the horizon of the marks."""
        ended = code((5000, 1), int(time.time()) + DAY, b"ann")
        self.assertEqual(self.two.push([ended])[0], 200)
        self.two.stop()
        make_shim(self.path("clock.so"))
        clock = Clock(self.path("clock"), self.path("clock.so"), int(time.time()))
        clock.skew = AHEAD
        self.clocks["two"] = clock
        clock.set(int(time.time()))
        self.two.begin(before=["env", *clock.words], script=START,
                       options="%s --prune %d" % (self.options, clock.moment - DAY))
        self.assert_shown("two", "clients are served", "1002",
                          "✗ its clock is ahead of this browser's by 3 days")
        self.assert_fires("TokendClockAhead", "two")
        self.assert_shown("one", "✓ clients are served", but=["horizon"])
        self.assertEqual(self.exchange(), [0, 0])
        self.assert_shown("one", "✗ clients get 503: the horizon is ahead of the clock",
                          "✗ its horizon is ahead: ", "✓ other regions are served")
        self.assert_fires("TokendRefusesClients", "one")

    def test_a_site_that_is_gone(self):
        """First its region, then its machine; then both are back, with the next number."""
        self.two.add(4)
        self.assert_lacks("one", 4)
        self.two.stop()
        self.assert_shown("two", "✗ no reply: the region or the way to it is gone (502)",
                          but=["are served", "no metrics"])
        self.assert_shown("one", "✓ clients are served", "lacks 4 facts of two, as last seen")
        self.assert_lacks("one", "4, as last seen")
        self.assert_fires("TokendDown", "two")
        self.doors["two"].terminate()
        self.assert_shown("two", "✗ no reply: the region or the way to it is gone (502)",
                          "! no metrics (502)")
        self.doors["two"].wait()
        self.next_run(self.two)
        self.assert_shown("two", "is gone (502)")
        self.open_door("two")
        self.assert_shown("two", "1002", "✓ clients are served", but=["no metrics", "is gone"])
        self.assert_said("#alerts", "TokendDown two ended at")

    def test_a_region_that_hangs(self):
        """It is asked in vain, and the other site is shown all the same."""
        self.one.child.send_signal(signal.SIGSTOP)
        self.assert_shown("one", "✗ no reply: the region or the way to it is gone (504)",
                          but=["are served"])
        self.two.add(1)
        self.assert_lacks("one", "1, as last seen")
        self.assert_shown("two", "✓ clients are served")
        self.assert_fires("TokendDown", "one")
        self.one.child.send_signal(signal.SIGCONT)
        self.assert_shown("one", "✓ clients are served", but=["no reply"])

    def test_what_it_shows_of_load(self):
        """Requests by their status, faults, facts, memory, files, and the last carry."""
        self.assertEqual(self.exchange(), [0, 0])
        with dial(self.one.place) as gone:  # before its reply, which is a fault
            gone.sendall(b"GET / HT")
        for _ in range(6):
            self.one.add(20)
            self.one.ask("/nowhere")
            time.sleep(0.5)
        for words in ("requests a second\n2xx: ", "requests a second, by endpoint\n",
                      "admin/client: ", "unknown: ", "last push taken in\nnever",
                      "facts known, made by\nown: 120, others: 0",
                      "facts held\n120", "last carry that ended well\none: ", "KiB",
                      "peers\n" + self.ways["two"], "open connections\n", "horizon\nnone", "MiB",
                      "numbers left\n999"):
            self.assert_said("#figures0", words)
        self.assert_said("#figures0", "faults since its start\nmemory: 0, read: 0, write: 1")
        names = self.browser.run("return [...document.querySelectorAll('#plots0 svg[role]')]"
                                 ".map(it => it.getAttribute('aria-label'))")
        self.assertEqual([it.split(".")[0] for it in names], [
            "Facts that it lacks", "Requests a second by status",
            "Requests a second by endpoint", "Facts", "Faults a second", "Open connections",
            "Memory"])
        self.assertRegex(names[1], "2xx: .*/s, at most [1-9].*; 4xx: .*/s, at most [0-9]")
        self.assertIn("introspect: ", names[2])
        self.assertIn("known, also skipped: 120, at most 120", names[3])
        points = self.browser.run("return document.querySelectorAll('#plots0 svg[role] polyline')"
                                  ".length")
        self.assertGreater(points, 8)
        self.assertEqual(os.listdir(self.one.folder / "log"), ["00001.otb"])
