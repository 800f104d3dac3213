"""cases: what `tokend facts` is to print, and what `tokend facts --check` is to say."""
import datetime
import itertools
import json
import os
import random
import re
import subprocess
import tempfile
import unittest

from lib import TOP
from lib.asking import body_of, request
from lib.command import GIVEN
from lib.facts import MARK, facts_of, retirement
from lib.reading import KINDS, WITH_OPERATOR, Region, lines_of, printed
from lib.server import Server
from lib.writing import (BUNDLES, LAST, bundle, by, dot, fact, marks, number, secret_set, sign_out,
                         text, vector)

BAD = b"OTBX\0\0\0\0\0\0"
EACH_BAD = (
    BAD, b"OTB7\0\0\0", b"OTV2\0\0\0", bytes(6),
    bundle([fact(11, b"")]), bundle([fact(2, dot(0, 1))]),
    bundle([sign_out(b"ann", 7)]), bundle([dot(1, 1)]),
    bundle([fact(2, dot(1, 1), 2), fact(2, dot(1, 1), 1)]),
    bundle([sign_out(b"ann", LAST + 1)], b"OTB2"),
    bundle([sign_out(b"a b", 7)], b"OTB2"),
    bundle([secret_set(0)], b"OTB4"), bundle([secret_set(1000001)], b"OTB4"),
    bundle([secret_set(1)]), bundle([secret_set(1)[:-1]], b"OTB4"),
    bundle([secret_set(1) + b"\0"], b"OTB4"), bundle([secret_set(1, LAST + 1)], b"OTB4"),
    *(bundle([fact(18, dot(1, 1) + it)], b"OTB4") for it in (
        b"", by(b""), by(b"a b"), by(b"a" * 129), by(b"\x7f"), by(b"\x80"), by()[:-1],
        by() + b"\0", by(moment=LAST + 1))),
    bundle([fact(18, dot(1, 1) + by())]), bundle([fact(18, dot(1, 1) + by())], b"OTB2"),
    bundle([fact(2, dot(1, 1) + by())]), bundle([fact(24, dot(1, 1) + by())], b"OTB4"),
    vector((2, 1), (1, 1)), vector((1, 1), (1, 2)), vector((1, 0)),
    b"OTB1" + number(129, 2), b"OTB1\0\1" + number(8193, 2))


def run(data=b"", *names, files=None):
    """Runs `facts` on an input and files: its output, its line of faults, and its status."""
    with tempfile.TemporaryDirectory() as room:
        for name, content in (files or {}).items():
            with open(os.path.join(room, name), "wb") as file:
                file.write(content)
        ran = subprocess.run([GIVEN.program, "facts", *names], input=data, cwd=room, timeout=60,
                             capture_output=True, check=False)
    return ran.stdout, ran.stderr.decode(), ran.returncode


def dropped(cut):
    """The line about bytes at ends that are cut."""
    return "tokend: dropped %d bytes\n" % cut if cut else ""


def expected(data):
    """What is printed of an input that isn't bad."""
    objects, cut = lines_of(data)
    return printed(objects), dropped(cut), 0


def checked(*sources, region=65535):
    """What a check says of sources that aren't bad. A source is a name and bytes."""
    it, all_cut = Region(region), 0
    for name, data in sources:
        refused, cut = it.load(data)
        if refused is not None:
            return b"", "tokend: refused bundle at %d of %s\n" % (refused, name), 2
        all_cut += cut
    return b"loaded %d facts\n" % it.facts(), dropped(all_cut), 0


class Kinds(unittest.TestCase):
    def test_each_bundle_alone(self):
        for name, data in BUNDLES.items():
            with self.subTest(name):
                self.assertEqual(run(data), expected(data))

    def test_lines_are_objects_with_a_kind(self):
        output, _, _ = run(b"".join(BUNDLES.values()))
        for line in output.splitlines():
            self.assertIn("kind", json.loads(line))

    def test_a_sign_out_is_printed_as_a_known_line(self):
        line = (b'{"dot":"1:5","kind":"subject_out","subject":"ann",'
                b'"moment":"1970-01-01T00:17:00Z","moment_seconds":1020}\n')
        data = bytes.fromhex("4f5442320001001800010000000000000005"
                             "0a0003616e6e00000000000003fc")
        self.assertEqual(run(data), (line, "", 0))

    def test_two_marks_are_printed_as_known_lines(self):
        data = bytes.fromhex("4f544233000000000000044c0002000a00010000000000000003"
                             "000a00010000000000000004")
        line = ('{"dot":"1:%d","kind":"mark","horizon":"1970-01-01T00:18:20Z",'
                '"horizon_seconds":1100}\n')
        self.assertEqual(run(data), ((line % 3 + line % 4).encode(), "", 0))

    def test_the_line_of_a_fact_names_its_operator(self):
        line = (b'{"dot":"1:11","kind":"subject_out","subject":"bob",'
                b'"moment":"1970-01-01T00:17:40Z","moment_seconds":1060,'
                b'"by":{"operator":"root","moment":"1970-01-01T00:17:40Z",'
                b'"moment_seconds":1060}}\n')
        data = bytes.fromhex("4f544234000100260001000000000000000b"
                             "160003626f6200000000000004240004726f6f740000000000000424")
        self.assertEqual(run(data), (line, "", 0))

    def test_records_of_the_document(self):
        records = list(records_in_document())
        self.assertEqual([record[10] for _, _, record in records],
                         [2, 3, 4, 5, 6, 7, 8, 15, 16, 17, 18, 19, 20, 21, 23])
        for name, more, record in records:
            with self.subTest(name + more):
                data = bundle([record], version_for(record[10]))
                self.assertEqual(run(data), expected(data))
                line = json.loads(run(data)[0])
                self.assertEqual(line["kind"], snake(name))
                self.assertEqual("access_life" in line, "with lives" in more)
                self.assertEqual(line.get("by", {}).get("operator"),
                                 "root" if "by root" in more else None)

    def test_each_kind_is_in_the_document(self):
        facts = [record for _, _, record in records_in_document()]
        for data in bytes_in_document():
            if data[:3] == b"OTB":
                facts += [it for it in facts_of(data) if len(it) > MARK]
            elif data[:3] != b"OTV" and not is_pull(data):
                facts.append(data)
        self.assertEqual({it[MARK] for it in facts}, set(KINDS) | set(WITH_OPERATOR))

    def test_pull_of_the_document(self):
        body, = filter(is_pull, bytes_in_document())
        dots = [(1, serial) for serial in range(1, 7)] + [(2, 1), (2, 2)]
        with Server(GIVEN.program, region=3) as server:
            server.push([retirement(it, (1, 1)) for it in dots])
            said = body_of(server.wanted(200, request("POST", "/sync/pull", body)))
        self.assertEqual([it[:MARK] for it in facts_of(said)], [dot(1, 5), dot(1, 6), dot(2, 2)])

    def test_bytes_of_the_document(self):
        found = [data for data in bytes_in_document() if not is_pull(data)]
        self.assertGreater(len(found), 10)
        for data in found:
            with self.subTest(data.hex()):
                whole = data if data[:2] == b"OT" else bundle([data], version_for(data[10]))
                self.assertEqual(run(whole), expected(whole))
                self.assertEqual(run(whole)[1:], ("", 0))

    def test_moments_of_all_years(self):
        # Each first and last day of a month of some years, and many moments drawn at random.
        draw = random.Random(7)
        days = [days_before(year, month) for year in
                [*range(1970, 2110), 2199, 2200, 2399, 2400, 2401, 9996, 9999]
                for month in range(1, 13)]
        seconds = [day * 86400 + shift for day in days[1:] for shift in (-1, 0)]
        seconds += [draw.randrange(LAST + 1) for _ in range(20000)] + [0, LAST]
        data = b""
        for at in range(0, len(seconds), 128):
            some = enumerate(seconds[at:at + 128], at + 1)
            data += bundle([sign_out(b"ann", one, serial) for serial, one in some], b"OTB2")
        self.assertEqual(run(data), expected(data))


def records_in_document():
    """The name, what is said behind it, and the bytes of each fact in hex that docs/FORMATS.md has
    under its kind's name."""
    with open(os.path.join(TOP, "docs/FORMATS.md"), encoding="utf-8") as file:
        found = re.findall(r"^([A-Z][A-Za-z]+)((?:, [a-z ]+)*)\n((?:  [0-9a-f ]+\n)+)",
                           file.read(), re.MULTILINE)
    return ((name, more, bytes.fromhex(lines)) for name, more, lines in found)


def bytes_in_document():
    """Each bundle, vector, fact and pull in hex that docs/FORMATS.md has in a block of its own."""
    with open(os.path.join(TOP, "docs/FORMATS.md"), encoding="utf-8") as file:
        found = re.findall(r"^```\n((?:[0-9a-f ]+\n)+)```", file.read(), re.MULTILINE)
    return map(bytes.fromhex, found)


def is_pull(data):
    """Whether these bytes are the body of a pull: a cursor and a vector."""
    return data[MARK:MARK + 4] == b"OTV1"


def version_for(kind):
    """The version of a bundle with a fact of this kind alone."""
    return b"OTB1" if kind < 10 else b"OTB2" if kind == 10 else b"OTB4"


def snake(name):
    """The kind of a fact as it is printed."""
    return re.sub("(?<=[a-z])(?=[A-Z])", "_", name).lower()


def days_before(year, month):
    """The number of days from 1970 to the first of a month."""
    return (datetime.date(year, month, 1) - datetime.date(1970, 1, 1)).days


class Ends(unittest.TestCase):
    LOG = (BUNDLES["a public client"] + BUNDLES["a consent"] + BUNDLES["a vector"]
           + BUNDLES["a mark and a fact"])

    def test_cut_at_each_byte(self):
        for end in range(len(self.LOG) + 1):
            with self.subTest(end):
                self.assertEqual(run(self.LOG[:end]), expected(self.LOG[:end]))

    def test_bad_bytes_behind_bundles(self):
        good = self.LOG
        for bad in EACH_BAD:
            with self.subTest(bad):
                fault = "tokend: bad bytes at %d of -\n" % len(good)
                self.assertEqual(run(good + bad + good), (expected(good)[0], fault, 2))

    def test_a_long_input_in_pieces(self):
        long = bundle([fact(3, dot(1, 1) + text(b"a" * 128) + text(b"b" * 1024), serial)
                       for serial in range(1, 129)])
        data = (long + BUNDLES["a vector"]) * 40
        self.assertEqual(run(data + BAD)[2], 2)
        self.assertEqual(run(data + long[:-1]), expected(data + long[:-1]))
        self.assertIn("at %d of" % len(data), run(data + BAD)[1])

    def test_a_long_vector(self):
        data = vector(*((region, region * 3) for region in range(1, 65536)))
        self.assertEqual(run(data + data), expected(data + data))

    def test_an_empty_input(self):
        self.assertEqual(run(b""), (b"", "", 0))


class Sources(unittest.TestCase):
    A, B = BUNDLES["a public client"], BUNDLES["a consent"]

    def test_files_in_order(self):
        files = {"a": self.A, "b": self.B}
        self.assertEqual(run(b"", "b", "a", files=files), expected(self.B + self.A))

    def test_standard_input_among_files(self):
        files = {"a": self.A}
        both = self.A + self.B + self.A
        self.assertEqual(run(self.B, "a", "-", "a", files=files), expected(both))
        self.assertEqual(run(self.B, "-", "-"), expected(self.B))

    def test_each_end_that_is_cut_is_counted(self):
        files = {"a": self.A + self.B[:5], "b": self.B + self.A[:7]}
        lines = expected(self.A + self.B)[0]
        self.assertEqual(run(b"", "a", "b", files=files), (lines, "tokend: dropped 12 bytes\n", 0))

    def test_a_file_that_is_not_there(self):
        files = {"a": self.A}
        fault = "tokend: cannot read none\n"
        self.assertEqual(run(b"", "a", "none", "a", files=files), (expected(self.A)[0], fault, 1))

    def test_a_bad_file_is_named(self):
        files = {"a": self.A, "b": self.A + BAD}
        fault = "tokend: bad bytes at %d of b\n" % len(self.A)
        self.assertEqual(run(b"", "a", "b", "a", files=files), (expected(self.A * 2)[0], fault, 2))

    def test_no_secret_is_printed(self):
        output, _, _ = run(b"".join(BUNDLES.values()))
        for name in (b"E9Melhoa2OwvFrEMTJguCHaoeK1t8URWbuGJSstw-cM", b"a" * 43):
            self.assertNotIn(name, output)


class Checks(unittest.TestCase):
    LOADABLE = [data for data in BUNDLES.values() if not data.startswith(b"OTV1")]
    EACH = LOADABLE + [marks(1100, (1, serial)) for serial in range(1, 10)]
    OWN = bundle([sign_out(b"ann", 7, 1, 65535)], b"OTB2")
    # Seven facts are left: the marks skip the code and its redemption, and the code comes again.
    LOG = b"".join([BUNDLES[name] for name in (
        "a public client", "a consent", "no fact", "a code", "a redeemed code", "a rotation",
        "a revoked access token", "a reused code", "marks", "a code")]
        + [bundle([sign_out(b"ann", 7, 8), sign_out(b"bob", 7, 1, 3)], b"OTB2")])

    def test_each_bundle_alone(self):
        for data in self.LOADABLE:
            with self.subTest(data):
                self.assertEqual(run(data, "--check"), checked(("-", data)))

    def test_a_log_once_and_twice(self):
        for data in (self.LOG, self.LOG * 2):
            self.assertEqual(run(data, "--check"), (b"loaded 7 facts\n", "", 0))

    def test_cut_at_each_byte(self):
        for end in range(len(self.LOG) + 1):
            with self.subTest(end):
                data = self.LOG[:end]
                self.assertEqual(run(data, "--check"), checked(("-", data)))

    def test_bad_bytes_behind_bundles(self):
        fault = "tokend: bad bytes at %d of -\n" % len(self.LOG)
        for bad in EACH_BAD + (BUNDLES["no entry"], BUNDLES["a vector"]):
            with self.subTest(bad):
                data = self.LOG + bad + self.LOG
                self.assertEqual(run(data, "--check"), (b"", fault, 2))

    def test_each_bundle_behind_each(self):
        said = set()
        for first, second in itertools.product(self.EACH, repeat=2):
            with self.subTest(first + second):
                wanted = checked(("-", first + second))
                self.assertEqual(run(first + second, "--check"), wanted)
                said.add(wanted[2])
        self.assertEqual(said, {0, 2})

    def test_bundles_in_many_orders(self):
        draw = random.Random(7)
        for _ in range(300):
            data = b"".join(draw.choices(self.EACH, k=6))
            with self.subTest(data):
                self.assertEqual(run(data, "--check"), checked(("-", data)))

    def test_a_refused_bundle_behind_bundles(self):
        fault = "tokend: refused bundle at %d of -\n" % len(self.LOG)
        for data in (BUNDLES["a confidential client"], BUNDLES["a sign-out"], self.OWN,
                     marks(7, (1, 2)), marks(7, (65535, 1)),
                     bundle([fact(2, dot(1, 1), 9), sign_out(b"ann", 7, 10),
                             sign_out(b"bob", 8, 1, 3)], b"OTB2")):
            with self.subTest(data):
                self.assertEqual(run(self.LOG + data + BAD, "--check"), (b"", fault, 2))

    def test_a_check_loads_as_the_given_region_would(self):
        for region in (1, 2, 3, 7, 65534, 65535):
            with self.subTest(region):
                data = self.LOG + self.OWN
                said = run(data, "--check", "--region", str(region))
                self.assertEqual(said, checked(("-", data), region=region))

    def test_a_region_without_a_check(self):
        self.assertEqual(run(self.LOG, "--region", "1"), expected(self.LOG))

    def test_a_long_input_in_pieces(self):
        long = [bundle([fact(3, dot(1, 1) + text(b"a" * 128) + text(b"b" * 1024), serial)
                        for serial in range(first, first + 128)])
                for first in range(1, 5121, 128)]
        data = b"".join(long) + long[0]
        self.assertEqual(run(data, "--check"), (b"loaded 5120 facts\n", "", 0))
        cut = "tokend: dropped %d bytes\n" % (len(long[0]) - 1)
        self.assertEqual(run(data + long[0][:-1], "--check"), (b"loaded 5120 facts\n", cut, 0))
        fault = "tokend: bad bytes at %d of -\n" % len(data)
        self.assertEqual(run(data + BAD, "--check"), (b"", fault, 2))


class SourcesOfChecks(unittest.TestCase):
    A, B = BUNDLES["a public client"], BUNDLES["a consent"]

    def check(self, data, *sources):
        """Compares a check of sources, where `-` is the standard input."""
        files = {name: content for name, content in sources if name != "-"}
        names = [name for name, _ in sources]
        self.assertEqual(run(data, "--check", *names, files=files), checked(*sources))

    def test_a_check_loads_all_its_files(self):
        self.check(b"", ("b", self.B), ("a", self.A))
        self.check(b"", ("b", self.A + self.B), ("a", self.A))

    def test_standard_input_among_files(self):
        self.check(self.B, ("a", self.A), ("-", self.B), ("a", self.A))
        cut = self.B + self.A[:7]  # these bytes are dropped once: the input is read once
        self.check(cut, ("-", cut), ("-", b""))

    def test_each_end_that_is_cut_is_counted(self):
        files = {"a": self.A + self.B[:5], "b": self.B + self.A[:7]}
        wanted = b"loaded 2 facts\n", "tokend: dropped 15 bytes\n", 0
        self.assertEqual(run(b"OTB", "--check", "a", "-", "b", files=files), wanted)

    def test_two_facts_at_one_dot_in_two_sources(self):
        other = BUNDLES["a resource server"]
        self.check(b"", ("a", self.A + self.B), ("b", self.B + other))
        self.check(other, ("a", self.A + self.A[:9]), ("-", other), ("b", BAD))
        self.check(self.A, ("-", self.A), ("a", other))

    def test_a_mark_and_its_fact_in_two_sources(self):
        code, mark = BUNDLES["a code"], marks(1100, (1, 3))
        self.check(b"", ("a", code + self.A), ("b", mark))
        self.check(code, ("a", mark + self.A), ("-", code))

    def test_a_file_that_is_not_there(self):
        fault = "tokend: cannot read none\n"
        files = {"a": self.A + BAD[:3]}
        said = run(b"", "--check", "a", "none", "a", files=files)
        self.assertEqual(said, (b"", fault, 1))

    def test_a_bad_file_is_named(self):
        fault = "tokend: bad bytes at %d of b\n" % len(self.A)
        files = {"a": self.A, "b": self.A + BAD, "c": BUNDLES["a resource server"]}
        self.assertEqual(run(b"", "--check", "a", "b", "c", files=files), (b"", fault, 2))
