"""spreading: what spread hands to which site, and what it does if a site, a log or itself fails."""
import os
import subprocess
import time
from pathlib import Path

from lib.cases import Case
from lib.facts import bundle, client, clients, mark, records
from lib.server import Child
from lib.site import OUT
from lib.waiting import until

QUIET = 0.5  # seconds in which spread looks at its logs a hundred times
MANY = 30_000  # facts of an earlier run


class Spread(Child):
    """A run of spread between some sites."""

    def __init__(self, sites, folder):
        self.output, self.errors = Path(folder) / "output", Path(folder) / "errors"
        with open(self.output, "wb") as output, open(self.errors, "wb") as errors:
            self.child = subprocess.Popen(
                [os.path.join(OUT, "spread"), "--verbose", *(it.word for it in sites)],
                stdin=subprocess.DEVNULL, stdout=output, stderr=errors)

    def said(self):
        return self.errors.read_text(encoding="utf-8")

    def handed(self, site):
        """The bundles that a site was handed: items of each, and how many were new."""
        lines = [it.split() for it in self.output.read_text(encoding="utf-8").splitlines()]
        return [(int(it[1]), int(it[3])) for it in lines if it[0] == site.url + ":"]

    def items(self, site):
        """How many items a site was handed."""
        return sum(count for count, _ in self.handed(site))


class Spreads(Case):
    def spread(self, *sites):
        folder = os.path.join(self.folder, "spread")
        os.makedirs(folder, exist_ok=True)
        it = Spread(sites, folder)
        self.addCleanup(it.stop)
        return it

    def begun(self):
        """Two sites, and a spread that has handed three facts of the first to the second."""
        one, two = self.site(1), self.site(101)
        spread = self.spread(one, two)
        one.add(3)
        self.assert_soon({1: 3}, two.held_to)
        return one, two, spread

    def test_each_site_gets_what_the_others_make(self):
        sites = [self.site(first, sockets=2 * (first == 101)) for first in (1, 101, 201)]
        spread = self.spread(*sites)
        for _ in range(3):
            for it in sites:
                it.add()
        for it in sites:
            self.assert_soon({1: 3, 101: 3, 201: 3}, it.held_to)
            self.assert_soon(6, lambda it=it: spread.items(it))
        self.assertEqual(spread.said(), "")

    def test_what_waits_goes_in_bundles_of_128(self):
        one, two = self.site(1), self.site(101)
        one.write(50, records(clients(50, *range(1, 301))))
        spread = self.spread(one, two)
        self.assert_soon({50: 300}, two.held_to)
        self.assert_soon([(128, 128), (128, 128), (44, 44)], lambda: spread.handed(two))
        self.assertEqual((spread.handed(one), one.held_to()), ([], {}))

    def test_what_is_written_now_does_not_wait_behind_earlier_logs(self):
        one, two, three = sites = [self.site(first) for first in (1, 101, 201)]
        one.write(50, records(clients(50, *range(1, MANY + 1))))
        spread = self.spread(*sites)
        self.assertTrue(until(lambda: spread.handed(three)))
        two.add()
        self.assertTrue(until(lambda: 101 in three.held_to()))
        self.assertLess(three.held_to()[50], MANY)
        self.assert_soon({50: MANY, 101: 1}, three.held_to)

    def test_a_site_is_away_and_back(self):
        one, two, three = sites = [self.site(first) for first in (1, 101, 201)]
        spread = self.spread(*sites)
        two.add(2)
        self.assert_soon({101: 2}, three.held_to)
        two.stop()
        one.add(3)
        self.assert_soon({1: 3, 101: 2}, three.held_to)
        self.assertEqual(spread.said().count("spread: %s/sync/" % two.url), 1)
        self.again(two)
        self.assert_soon({1: 3, 101: 2}, two.held_to)
        two.add()
        self.assert_soon({1: 3, 101: 2, 102: 1}, one.held_to)
        self.assertIn("spread: %s is back\n" % two.url, spread.said())
        self.assert_soon((3, 6), lambda: (spread.items(two), spread.items(three)))

    def test_a_site_that_starts_anew_has_forgotten_nothing(self):
        one, two, spread = self.begun()
        two.stop()
        self.again(two)
        self.assert_soon({1: 3}, two.held_to)
        self.assertEqual(spread.items(two), 3)

    def test_the_last_facts_of_a_lost_site(self):
        one, two = self.site(1), self.site(101)
        two.add(3)
        two.stop()
        self.spread(one, two)
        self.assert_soon({101: 3}, one.held_to)

    def test_spread_is_killed_and_started_again(self):
        one, two, spread = self.begun()
        spread.stop()
        one.add(2)
        two.add(4)
        spread = self.spread(one, two)
        self.assert_soon({1: 5, 101: 4}, one.held_to)
        self.assert_soon({1: 5, 101: 4}, two.held_to)
        self.assert_soon((4, 2), lambda: (spread.items(one), spread.items(two)))

    def test_a_cut_record_waits_for_its_rest(self):
        one, two = self.site(1), self.site(101)
        whole = records(clients(99, 1, 2))
        one.write(99, whole[:-5], "log")
        spread = self.spread(one, two)
        self.assert_soon({99: 1}, two.held_to)
        one.write(99, whole[-5:], "log")
        self.assert_soon({99: 2}, two.held_to)
        self.assertEqual(spread.said(), "")

    def test_a_malformed_piece_at_the_end_of_a_log(self):
        for number, end in enumerate((bytes(16), b"OTB9" + bytes(8), bundle([b"x" * 11])), 50):
            with self.subTest(end=end):
                one, two = self.site(number * 200), self.site(number * 200 + 100)
                whole = records(clients(number, 1, 2))
                one.write(number, whole + end + records(clients(number, 3)))
                spread = self.spread(one, two)
                self.assert_soon({number: 2}, two.held_to)
                one.add()
                self.assert_soon({number: 2, number * 200: 1}, two.held_to)
                self.assertRegex(spread.said(), r"^spread: \S+/old/000%d.otb: no record at byte %d:"
                                 r" .*: the rest is left out\n$" % (number, len(whole)))
                spread.stop()

    def test_what_was_taken_in_goes_in_no_circle(self):
        sites = [self.site(first) for first in (1, 101, 201)]
        spread = self.spread(*sites)
        for it in sites:
            it.add(2)
        sites[0].push(clients(500, 1, 2, 3))
        wanted = {1: 2, 101: 2, 201: 2, 500: 3}
        for it in sites:
            self.assert_soon(wanted, it.held_to)
        time.sleep(QUIET)
        self.assert_soon([4, 7, 7], lambda: [spread.items(it) for it in sites])
        spread.stop()
        spread = self.spread(*sites)
        time.sleep(QUIET)
        self.assertEqual([spread.items(it) for it in sites], [0, 0, 0])

    def test_facts_of_other_machines_are_handed_on(self):
        one, two = self.site(1), self.site(101)
        one.push(clients(500, 7, 9))
        one.push(clients(500, 1) + clients(600, 1))
        spread = self.spread(one, two)
        self.assert_soon(sorted(clients(500, 1, 7, 9) + clients(600, 1)), two.held)
        one.push(clients(500, 7, 8))
        self.assert_soon(sorted(clients(500, 1, 7, 8, 9) + clients(600, 1)), two.held)
        self.assert_soon(5, lambda: spread.items(two))

    def test_marks_are_handed_on_with_their_horizon(self):
        one, two = self.site(1), self.site(101)
        one.push([mark(500, 1), client(500, 2)], horizon=100)
        one.push([mark(500, 3), client(500, 4)], horizon=200)
        spread = self.spread(one, two)
        self.assert_soon([mark(500, 1), client(500, 2), mark(500, 3), client(500, 4)], two.held)
        self.assertEqual(two.page().horizon, 200)
        self.assert_soon(4, lambda: sum(new for _, new in spread.handed(two)))

    def test_a_refused_item_holds_no_other_back(self):
        one, two = self.site(1), self.site(101)
        two.push([client(50, 2, b"write")])
        one.write(50, records(clients(50, 1, 2, 3)))
        spread = self.spread(one, two)
        self.assert_soon({50: 3}, two.held_to)
        self.assertIn("spread: %s refuses 50:2: 409 conflict\n" % two.url, spread.said())
        one.add()
        self.assert_soon({1: 1, 50: 3}, two.held_to)

    def test_a_log_that_is_removed(self):
        one, two = self.site(1), self.site(101)
        one.write(50, records(clients(50, 1)))
        spread = self.spread(one, two)
        self.assert_soon({50: 1}, two.held_to)
        (one.folder / "old/00050.otb").unlink()
        one.add()
        self.assert_soon({1: 1, 50: 1}, two.held_to)
        self.assertEqual(spread.said(), "")

    def test_wrong_arguments_end_spread_with_status_2(self):
        for word in "http://127.0.0.1:1", "http://127.0.0.1:1=/absent", "https://a=/", "x=/":
            done = subprocess.run([OUT + "/spread", word, word], capture_output=True, check=False,
                                  timeout=10)
            self.assertEqual(done.returncode, 2, word)
