"""with_runs: runs of marks in pages, read, carried and kept, also beside older builds."""
import os
import struct
import sys
import tempfile
import unittest
from pathlib import Path

from bundles import (Bundle, Cut, Dot, Malformed, Records, items_of, read_bundle, read_front)
from lib import TOP
from lib.cases import Case
from lib.facts import bundle, bundle_with_runs, client, mark, run
from lib.peer import older

sys.path.append(os.path.join(TOP, "examples/scale-out"))
from logs import Reader

EXAMPLE = bytes.fromhex("4f544236000000000000044c000100130001000000000000000"
                        "30e0000000000000004")
MARKS = 3000  # of a server that pruned
GREATEST = 2**63 - 1


def fact(serial, region=1):
    return Dot(region, serial).write() + b"\2"


class Formats(unittest.TestCase):
    def test_example_is_read_and_written(self):
        it = read_bundle(EXAMPLE)
        self.assertEqual(it.items, (mark(1, 3), mark(1, 4)))
        self.assertEqual((it.horizon, it.has_runs, it.is_full), (1100, True, False))
        self.assertEqual(it.write(), EXAMPLE)

    def test_a_bundle_of_facts_marks_and_runs_is_read(self):
        pieces = [run(1, 1, 5), fact(6), mark(1, 7), run(1, 9, 10), run(2, 11, 12)]
        data = bundle_with_runs(pieces)
        it = read_bundle(data)
        self.assertEqual((it.facts, it.marks, it.write()), (1, 10, data))
        self.assertEqual([one for piece in pieces for one in items_of(piece)], list(it.items))
        self.assertEqual(it.cursor, mark(2, 12))

    def test_a_page_is_full_at_1024_dots_or_128_pieces(self):
        most = bundle_with_runs([run(1, 1, 1024)])
        self.assertTrue(read_bundle(most).is_full)
        self.assertFalse(read_bundle(bundle_with_runs([run(1, 1, 1023)])).is_full)
        eight = [run(1, 9 * n - 8, 9 * n - 1) for n in range(1, 129)]
        self.assertEqual((len(read_bundle(bundle_with_runs(eight)).items), len(eight)),
                         (1024, 128))
        two = [run(1, 3 * n, 3 * n + 1) for n in range(1, 129)]
        self.assertTrue(read_bundle(bundle_with_runs(two)).is_full)
        self.assertFalse(read_bundle(bundle_with_runs(two[1:])).is_full)

    def test_bytes_that_are_no_bundle_with_runs_are_refused(self):
        pair = run(1, 3, 4)
        for why, pieces in {
                "a run from 3 to 3": [run(1, 3, 3)],
                "a run from 3 to 2": [run(1, 3, 2)],
                "a run from %d to %d" % (GREATEST, GREATEST + 1): [run(1, GREATEST, GREATEST + 1)],
                "a run from 1 to %d" % GREATEST: [run(1, 1, GREATEST)],
                "a run from 5 to %d" % (2**64 - 1): [run(1, 5, 2**64 - 1)],
                "1025 items": [run(1, 1, 1025)],
                "131072 items": [run(1, 2048 * n + 1, 2048 * n + 1024) for n in range(128)],
                "1:0 is no dot": [run(1, 0, 4)],
                "0:3 is no dot": [run(0, 3, 4)],
                "129 items, more than 128": [run(1, 3 * n, 3 * n + 1) for n in range(1, 130)],
                "one another aren't one run": [pair, run(1, 5, 6)],
                "another aren't one run": [pair, mark(1, 5)],
                "aren't one run": [fact(3), mark(1, 4)],
                "isn't above the one before": [pair, run(1, 4, 6)],
                "isn't above": [run(1, 6, 7), pair]}.items():
            with self.subTest(why), self.assertRaises(Malformed) as raised:
                read_bundle(bundle_with_runs(pieces))
            self.assertIn(why, str(raised.exception))
        for version in b"OTB1", b"OTB2", b"OTB4":
            with self.assertRaises(Malformed):
                read_bundle(version + struct.pack(">H", 1) + EXAMPLE[14:])
        for version in b"OTB3", b"OTB5":
            with self.assertRaises(Malformed):
                read_bundle(version + EXAMPLE[4:])

    def test_each_beginning_is_cut(self):
        for size in range(len(EXAMPLE)):
            with self.assertRaises(Cut):
                read_front(EXAMPLE[:size])

    def test_parts_of_a_bundle_with_runs_lose_no_item(self):
        it = read_bundle(bundle_with_runs([run(1, 1, 300), fact(301), run(1, 302, 303)]))
        parts = list(it.plain())
        self.assertEqual(tuple(one for part in parts for one in part.items), it.items)
        self.assertEqual([(len(part.items), part.version) for part in parts],
                         [(128, b"OTB3"), (128, b"OTB3"), (47, b"OTB3")])
        first, second = it.halves()
        self.assertEqual(first.write(), bundle_with_runs([run(1, 1, 151)]))
        self.assertEqual(second.items, it.items[151:])
        self.assertEqual(it.facts_alone().write(), bundle([fact(301)]))
        self.assertEqual(Bundle(it.items[-3:-1], 7, True).write()[:4], b"OTB3")

    def test_places_in_a_log(self):
        """Each fact of a log of a site that `spread` hands on has its own bytes there."""
        with tempfile.NamedTemporaryFile() as log:
            log.write(bundle_with_runs([run(2, 1, 5), fact(6, 2), mark(2, 8)]) + bundle([fact(1)]))
            log.flush()
            data = Path(log.name).read_bytes()
            found = list(Reader(1, Path(log.name)).items())
        self.assertEqual([it.dot.serial for it in found], [*range(1, 7), 8, 1])
        for it in found:
            self.assertEqual(it.horizon is None, len(it.data) > 10)
            if it.horizon is None:
                self.assertEqual(data[it.place:it.place + len(it.data)], it.data)

    def test_a_log_in_pieces(self):
        log = EXAMPLE + bundle([client(1, 5)]) + EXAMPLE
        for size in 1, 7, len(log):
            records, found = Records(), []
            for at in range(0, len(log), size):
                found += records.feed(log[at:at + size])
            self.assertEqual(b"".join(it.write() for it, _ in found), log)


class Servers(Case):
    def pruned(self, number):
        """A server with a client, and behind it marks that follow one another."""
        server = self.tokend(number, client(3, 1))
        for first in range(2, MARKS + 2, 1000):
            data = bundle_with_runs([run(3, first, first + 999)])
            self.assertEqual(server.ask("/sync/push", data)[0], 200)
        return server

    def test_marks_are_carried_in_runs(self):
        one, two = self.pruned(1), self.tokend(2)
        status, output, errors = self.carry(two.url, one.url)
        self.assertEqual((status, errors), (0, ""))
        self.assertRegex(output, r"1 facts in 3 pages, 3001 new, 3000 marks, [12]\d\d bytes")
        self.assertEqual(one.vector(), two.vector())
        self.assertIn("0 facts in 0 pages", self.carry(two.url, one.url)[1])

    def test_an_older_source_sends_marks_one_by_one(self):
        one, two = self.pruned(1), self.tokend(2)
        peer = self.peer(older(one))
        status, output, errors = self.carry(two.url, peer.url)
        self.assertEqual((status, errors), (0, ""))
        self.assertIn("1 facts in 24 pages, 3001 new, 3000 marks", output)
        self.assertEqual(one.vector(), two.vector())

    def test_an_older_target_gets_marks_one_by_one(self):
        one, two = self.pruned(1), self.tokend(2)
        peer = self.peer(older(two))
        status, output, errors = self.carry(peer.url, one.url)
        self.assertEqual((status, errors), (
            0, "carry: %s refuses a bundle with runs: 400 malformed; it gets marks one by one\n"
            % peer.url))
        self.assertIn("1 facts in 3 pages, 3001 new, 3000 marks", output)
        pushed = [it for it in peer.bodies if it[:3] == b"OTB"]
        self.assertEqual(sum(it[:4] == b"OTB6" for it in pushed), 1)
        self.assertEqual(len(pushed), 1 + 3 * 8)
        self.assertEqual(one.vector(), two.vector())

    def test_a_refused_mark_in_a_run_holds_no_other_back(self):
        one, two = self.pruned(1), self.tokend(2, client(3, 70))
        status, output, errors = self.carry(two.url, one.url)
        self.assertEqual(status, 3)
        self.assertEqual(errors, "carry: %s refuses the mark 3:70: 409 conflict\n" % two.url)
        self.assertIn("3000 new, 1 refused, 3000 marks", output)
        self.assertEqual(one.vector(), two.vector())

    def test_a_backup_keeps_runs(self):
        one, folder = self.pruned(1), Path(self.folder) / "kept"
        status, output, errors = self.run_script("two-regions/backup", one.url, str(folder))
        self.assertEqual((status, errors), (0, ""))
        self.assertIn("1 facts, 3000 marks in ", output)
        data = next(folder.glob("*.otb")).read_bytes()
        self.assertEqual(sum(len(it.items) for it, _ in Records().feed(data)), MARKS + 1)
        self.assertLess(len(data), 300)

    def test_peers_with_hostile_runs(self):
        for why, said in {
                "a run from 5 to 3": bundle_with_runs([run(4, 5, 3)]),
                "131072 items": bundle_with_runs(
                    [run(4, 2048 * n + 1, 2048 * n + 1024) for n in range(128)]),
                "a run from 1 to %d" % GREATEST: bundle_with_runs([run(4, 1, GREATEST)])}.items():
            with self.subTest(why):
                good, peer = self.tokend(1), self.peer(
                    lambda path, _, said=said: said if "pull" in path else b"OTV1\0\0")
                status, _, errors = self.carry(good.url, peer.url)
                self.assertEqual(status, 1)
                self.assertIn("carry: %s/sync/pull: not a bundle: %s" % (peer.url, why), errors)

    def test_a_page_of_runs_that_comes_again(self):
        said = bundle_with_runs([run(4, 1, 1024)])
        peer = self.peer(lambda path, _: said if "pull" in path else b"OTV1\0\0")
        status, output, errors = self.carry(self.tokend(1).url, peer.url)
        self.assertEqual(status, 1)
        self.assertIn("a page that doesn't begin above its cursor", errors)
        self.assertIn("0 facts in 1 pages, 1024 new, not finished, 1024 marks", output)
