"""formats: bundles.py against the examples and the limits of docs/FORMATS.md."""
import struct
import unittest

from bundles import (FROM_THE_START, Bundle, Cut, Dot, Malformed, Records, Vector, read_bundle,
                     read_front, read_pull, read_vector, write_pull)

ADDED = bytes.fromhex("4f5442310001002b0001000000000000000101000004726561640100166874747073"
                      "3a2f2f6170702e6578616d706c652f6362")
RETIRED = bytes.fromhex("4f54423100010015000200000000000000010200010000000000000001")
SIGNED_OUT = bytes.fromhex("4f5442320001001800010000000000000005"
                           "0a0003616e6e00000000000003fc")
SKIPPED = bytes.fromhex("4f544233000000000000044c0002000a00010000000000000003"
                        "000a00010000000000000004")
REFRESHED = bytes.fromhex("4f5442340001004b000100000000000000060c0001000000000000000500000000"
                          "000003fc" + b"0123456789abcdef0123456789abcdef".hex()
                          + "00000000000004e8000472656164")
LIMITED = bytes.fromhex("4f5442340001004300010000000000000007"
                        "0d00000472656164010016" + b"https://app.example/cb".hex()
                        + "00000000000002580000000000000e100000000000093a80")
CHANGED = bytes.fromhex("4f544234000100450001000000000000000a0f00020000000000000001"
                        "0000000000000001264a7f2eb0de4fdf2aecac04f24a1c0cc7234d4b522b94db"
                        "f6193dcdf61dec81000000000000041a")
ADMINISTERED = bytes.fromhex("4f544234000100260001000000000000000b160003626f620000000000000424"
                             "0004726f6f740000000000000424")
ALL = ADDED, RETIRED, SIGNED_OUT, SKIPPED, REFRESHED, LIMITED, CHANGED, ADMINISTERED
VECTOR = bytes.fromhex("4f54563100020001000000000000000400020000000000000001")


def fact(serial, size=11, region=1, kind=2):
    return Dot(region, serial).write() + bytes([kind]) + bytes(size - 11)


KEEPING = fact(1, size=11, kind=1) + b"\3"  # the front of a client that keeps its refresh token


def bundle(*items, magic=b"OTB1", horizon=None):
    """Bytes of a bundle, whatever the items are."""
    moment = b"" if horizon is None else struct.pack(">Q", horizon)
    return magic + moment + struct.pack(">H", len(items)) + b"".join(
        struct.pack(">H", len(it)) + it for it in items)


class Bundles(unittest.TestCase):
    def test_examples_are_read_and_written(self):
        counts = [(1, 0, None)] * 3 + [(0, 2, 1100)] + [(1, 0, None)] * 4
        for data, wanted in zip(ALL, counts):
            it = read_bundle(data)
            self.assertEqual((it.facts, it.marks, it.horizon), wanted)
            self.assertEqual(it.write(), data)
        self.assertEqual(read_bundle(bundle()).write(), bundle())

    def test_bundles_at_the_limits_are_read(self):
        most = bundle(*(fact(n, 8192) for n in range(1, 129)))
        self.assertEqual(len(read_bundle(most).items), 128)
        greatest = bundle(Dot(65535, 2**63 - 1).write(), magic=b"OTB3", horizon=253402300799)
        self.assertEqual(read_bundle(greatest).horizon, 253402300799)

    def test_bytes_that_are_no_bundle_are_refused_with_the_reason(self):
        mark = Dot(1, 7).write()
        for why, data in {
                "no version": b"OTB7" + ADDED[4:],
                "129 items": bundle(*(fact(n) for n in range(1, 130))),
                "has 8193 bytes": bundle(fact(1, 8193)),
                "has 9 bytes": bundle(mark[:9]),
                "has 10 bytes": bundle(mark),
                "isn't above": bundle(fact(2), fact(2, 12)),
                "0:1 is no dot": bundle(fact(1, region=0)),
                "1:0 is no dot": bundle(fact(0)),
                "1:9223372036854775808 is no dot": bundle(fact(2**63)),
                "kind 11": bundle(fact(1, kind=11)),
                "kind 14": bundle(fact(1, kind=14)),
                "kind 24": bundle(fact(1, kind=24)),
                "items of b'OTB1'": bundle(fact(1), magic=b"OTB2"),
                "items of b'OTB2'": bundle(fact(1, kind=10)),
                "items of b'OTB3' in a bundle b'OTB5'": bundle(mark, magic=b"OTB5", horizon=7),
                "items of b'OTB4' in a bundle b'OTB2'": bundle(fact(1, kind=12), magic=b"OTB2"),
                "items of b'OTB4' in a bundle b'OTB1'": bundle(KEEPING),
                "items of b'OTB4' in a bundle b'OTB3'": b"OTB3" + bytes(8) + LIMITED[4:],
                "items of b'OTB4' in a bundle b'OTB5'": b"OTB5" + bytes(8) + CHANGED[4:],
                "items of b'OTB5' in a bundle b'OTB3'": bundle(
                    fact(1, kind=12), mark, magic=b"OTB3", horizon=7),
                "no moment": bundle(mark, magic=b"OTB3", horizon=253402300800),
                "1 bytes behind": ADDED + b"\0",
                "ends within a length": ADDED[:7],
                "ends within the horizon": SKIPPED[:13],
                "of 43 bytes": ADDED[:-1]}.items():
            with self.subTest(why), self.assertRaises(Malformed) as raised:
                read_bundle(data)
            self.assertIn(why, str(raised.exception))

    def test_each_beginning_is_cut(self):
        for data in ALL:
            for size in range(len(data)):
                with self.assertRaises(Cut):
                    read_front(data[:size])

    def test_halves_keep_version_and_horizon(self):
        mixed = Bundle((fact(1), fact(2), Dot(1, 3).write(), fact(4, kind=10)), 1100)
        first, second = mixed.halves()
        self.assertEqual((first.version, first.horizon), (b"OTB1", None))
        self.assertEqual((second.version, second.horizon), (b"OTB3", 1100))
        self.assertEqual(second.halves()[1].version, b"OTB2")

    def test_versions_of_kept_refresh_tokens(self):
        mixed = Bundle((KEEPING, fact(2), fact(3, kind=12), Dot(1, 4).write()), 1100)
        self.assertEqual(mixed.version, b"OTB5")
        self.assertEqual(read_bundle(mixed.write()), mixed)
        self.assertEqual(mixed.facts_alone().version, b"OTB4")
        self.assertEqual([it.version for it in mixed.halves()], [b"OTB4", b"OTB5"])
        self.assertEqual(Bundle((fact(1, size=12, kind=1),)).version, b"OTB1")

    def test_versions_of_clients_with_lives(self):
        mixed = Bundle((fact(1, kind=13), fact(2), fact(3), Dot(1, 4).write()), 1100)
        self.assertEqual(mixed.version, b"OTB5")
        self.assertEqual(mixed.facts_alone().version, b"OTB4")
        self.assertEqual([it.version for it in mixed.halves()], [b"OTB4", b"OTB3"])

    def test_versions_of_secrets_that_were_changed(self):
        mixed = Bundle((fact(1), fact(2, size=69, kind=15), fact(3), Dot(1, 4).write()), 1100)
        self.assertEqual(mixed.version, b"OTB5")
        self.assertEqual(read_bundle(mixed.write()), mixed)
        self.assertEqual(mixed.facts_alone().version, b"OTB4")
        self.assertEqual([it.version for it in mixed.halves()], [b"OTB4", b"OTB3"])

    def test_versions_of_facts_in_which_an_operator_is_named(self):
        for kind in range(16, 24):
            with self.subTest(kind):
                mixed = Bundle((fact(1), fact(2, kind=kind), fact(3), Dot(1, 4).write()), 1100)
                self.assertEqual(mixed.version, b"OTB5")
                self.assertEqual(read_bundle(mixed.write()), mixed)
                self.assertEqual(mixed.facts_alone().version, b"OTB4")
                self.assertEqual([it.version for it in mixed.halves()], [b"OTB4", b"OTB3"])
                for magic in b"OTB1", b"OTB2":
                    with self.assertRaises(Malformed):
                        read_bundle(bundle(fact(2, kind=kind), magic=magic))

    def test_a_log_in_pieces(self):
        log = b"".join(ALL)
        for size in 1, 7, len(log):
            records, found = Records(), []
            for at in range(0, len(log), size):
                found += records.feed(log[at:at + size])
            self.assertEqual(b"".join(it.write() for it, _ in found), log)
            self.assertEqual(found[-1][1], len(log))

    def test_zeros_end_a_log(self):
        found, records = [], Records()
        with self.assertRaises(Malformed):
            for it in records.feed(SKIPPED + bytes(6)):
                found.append(it)
        self.assertEqual([end for _, end in found], [len(SKIPPED)])


class Vectors(unittest.TestCase):
    def test_the_example_of_a_vector_is_read_and_written(self):
        it = read_vector(VECTOR)
        self.assertEqual(it, Vector((Dot(1, 4), Dot(2, 1))))
        self.assertEqual(it.write(), VECTOR)

    def test_bytes_that_are_no_vector_are_refused(self):
        swapped = VECTOR[:6] + VECTOR[16:] + VECTOR[6:16]
        for data in b"", VECTOR[:-1], VECTOR + b"\0", b"OTV2" + VECTOR[4:], swapped:
            with self.subTest(data), self.assertRaises(Malformed):
                read_vector(data)

    def test_a_vector_is_within_one_that_has_more(self):
        one, two = Vector((Dot(1, 4),)), read_vector(VECTOR)
        self.assertTrue(one.is_within(two))
        self.assertFalse(two.is_within(one))

    def test_pulls_are_read_if_their_cursor_is_valid(self):
        it = read_vector(VECTOR)
        for cursor in FROM_THE_START, Dot(1, 4).write():
            self.assertEqual(read_pull(write_pull(cursor, it)), (cursor, it))
        for cursor in Dot(0, 1).write(), Dot(1, 0).write(), b"":
            with self.assertRaises(Malformed):
                read_pull(cursor + VECTOR)
