"""hubs: runs of examples/carry/carry with several others: some are slow, silent or down."""
import re
import time

from lib.cases import Case
from lib.facts import client, clients
from lib.peer import proxy

SLOW, SILENT = 1, 5  # seconds, as carry has them


class Hubs(Case):
    def setUp(self):
        super().setUp()
        self.hub = self.tokend(1, client(9, 1))
        self.others = [self.tokend(it, client(10 + it, 1)) for it in (2, 3, 4)]
        self.urls = [it.url for it in (self.hub, *self.others)]

    def assert_agree(self):
        self.assertEqual({it.vector() for it in self.others}, {self.hub.vector()})

    def assert_one_line(self, output, said):
        self.assertRegex(output, r"\A%s: %s, 0 marks, \d+ bytes, \d+\.\d\d s\n\Z" % (
            re.escape(self.hub.url), said))

    def test_a_run_in_which_all_is_well_prints_one_line(self):
        status, output, errors = self.carry(*self.urls)
        self.assertEqual((status, errors), (0, ""))
        self.assert_one_line(output, "3 others, 12 facts in 6 pages, 12 new")
        self.assert_agree()
        status, output, errors = self.carry(*self.urls)
        self.assertEqual((status, errors), (0, ""))
        self.assert_one_line(output, "3 others, 0 facts in 0 pages, 0 new")

    def test_one_list_serves_all_sites(self):
        """The hub itself, what comes twice and what is left out by name are no others."""
        words = ["--without", self.others[0].url + "/"]
        status, output, errors = self.carry(self.hub.url, *self.urls, self.urls[2], words=words)
        self.assertEqual((status, errors), (0, ""))
        self.assert_one_line(output, "2 others, .*")
        self.assertEqual(self.others[0].held(), [client(12, 1)])
        self.assertEqual(self.carry(*self.urls[:2], words=["--without", ""])[0], 0)
        self.assertEqual(self.carry(self.hub.url, self.hub.url), (0, "", ""))

    def test_a_silent_peer_delays_the_others_by_a_moment(self):
        _, silent = self.listener()
        begin, run = time.monotonic(), self.start("carry/carry", *self.urls, silent)
        self.assert_soon(1, lambda: len({it.vector() for it in (self.hub, *self.others)}))
        self.assertLess(time.monotonic() - begin, SLOW + 3)
        output, errors = run.communicate(timeout=60)
        self.assertEqual(run.returncode, 1)
        self.assertEqual(errors, "carry: %s: no reply within %d s; left out of this run\n" % (
            silent, SILENT))
        self.assertEqual(output.count("\n"), 2)
        self.assertRegex(output, "%s -> %s: 0 facts .*not finished" % (silent, self.hub.url))
        self.assertRegex(output, "\n%s: 4 others, 12 facts .*not finished" % self.hub.url)

    def test_facts_of_a_slow_peer_reach_the_others_in_the_same_run(self):
        slow = self.tokend(5, *clients(15, *range(1, 10)))

        def reply(path, body):
            time.sleep(1.5 * SLOW)
            return proxy(slow)(path, body)
        status, _, errors = self.carry(*self.urls, self.peer(reply).url)
        self.assertEqual((status, errors), (0, ""))
        self.others.append(slow)
        self.assert_agree()

    def test_a_peer_that_is_down_costs_two_pauses(self):
        listener, down = self.listener()
        listener.close()
        begin = time.monotonic()
        status, output, errors = self.carry(*self.urls, down)
        self.assertLess(time.monotonic() - begin, SILENT + 3)
        self.assertEqual(status, 1)
        self.assertRegex(errors, r"^carry: %s/sync/pull: .*refused \(tries: 3\)\n$" % down)
        self.assertEqual(output.count("\n"), 2)
        self.assert_agree()

    def test_a_hub_that_is_down_is_named_once(self):
        listener, down = self.listener()
        listener.close()
        status, output, errors = self.carry(down, *self.urls)
        self.assertEqual(status, 1)
        self.assertRegex(errors, r"^carry: %s/sync/vector: .*refused \(tries: 3\)\n$" % down)
        self.assertRegex(output, r"^%s: 4 others, 0 facts .*not finished.*\n$" % down)

    def test_refused_facts_of_one_way_are_named(self):
        self.others[1].push([client(9, 2)])
        self.others[2].push([client(9, 2, b"write")])
        status, output, errors = self.carry(*self.urls)
        self.assertEqual(status, 3)
        self.assertIn("refuses 9:2: 409 conflict", errors)
        self.assertNotIn("not finished", output)
        self.assertRegex(output, r"\n%s: 3 others, .* refused, " % self.hub.url)
