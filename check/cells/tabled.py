"""tabled: what a table may say, and what is made of it."""
import os
import re
import tempfile
import unittest
from pathlib import Path

from fronts import configuration
from lib import TOP
from machine import CellsCase
from tables import (SLOTS, Table, Wrong, read_site, read_slots, read_table, slot_of, write_slots,
                    write_table)

WORDS = {"FRONT": "1", "INNER": "2", "RATE": "3"}
GOOD = ("dir1 directory 1 1-99 -", "a1 a 2 100-199 0-31", "b1 b 3 200-299 32-63")


def table(*lines):
    return Table([read_site(it) for it in lines])


class Tables(unittest.TestCase):
    def test_slots_are_read_as_they_are_written(self):
        for text, slots in (("-", ()), ("7", (7,)), ("0-2,5,9-10", (0, 1, 2, 5, 9, 10)),
                            ("0-63", tuple(range(SLOTS)))):
            self.assertEqual(read_slots(text), slots)
            self.assertEqual(write_slots(slots), text)

    def test_tables_that_are_refused(self):
        dir1, a1, b1 = GOOD
        self.assertEqual(len(table(*GOOD).sites), 3)
        for lines, why in (
                ((dir1, a1, b1.replace("b1", "a1")), "the name a1 is there twice"),
                ((dir1, a1, b1.replace(" 3 ", " 2 ")),
                 "the place http://127.0.0.1:2 is there twice"),
                ((dir1, a1.replace(" 2 ", " unix:s "), b1.replace(" 3 ", " unix:./s ")),
                 "the place unix:s is there twice"),
                ((dir1, a1, b1.replace(" 3 ", " 0 ")), "0 is no range within 1-65535"),
                ((dir1, a1, b1.replace(" 3 ", " unix: ")), "unix:: '' is no path of a socket"),
                ((dir1, a1, b1.replace(" 3 ", " unix:a?b ")), "is no path of a socket"),
                ((dir1, a1, b1.replace(" 3 ", " unix:" + "x" * 108 + " ")), "has over 107 bytes"),
                ((dir1, a1, b1.replace("b1", "kept-a1")), "kept-a1 is no name for a site"),
                ((dir1, a1, b1.replace("32-63", "31-63")), "the slot 31 is there twice"),
                ((dir1, a1, b1.replace("200-", "199-")), "a1 and b1 share the number 199"),
                ((dir1, a1, b1.replace("32-63", "33-63")), "no site has the slot 32"),
                ((a1, b1), "no site is of the cell directory"),
                ((dir1.replace("-99 -", "-99 0"), a1, b1), "the slot 0 is there twice"),
                ((dir1.replace("-99 -", "-99 0-31"), a1.replace("0-31", "-"), b1),
                 "a site of the directory has slots"),
                ((dir1, a1, b1.replace("b1", "any")), "any is no name for a site or a cell"),
                ((dir1, a1, b1.replace("b1", "B")), "B is no name for a site or a cell"),
                ((dir1.replace("1-99", "0-99"), a1, b1), "0-99 is no range within 1-65535"),
                ((dir1, a1, b1.replace("299", "65536")), "200-65536 is no range within 1-65535"),
                ((dir1, a1, b1.replace("32-63", "63-32")), "63-32 is no range within 0-63"),
                ((dir1, a1, b1.replace("63", "64")), "32-64 is no range within 0-63"),
                ((dir1, a1, "b1 b 3 200-299"), "not site, cell, place, numbers and slots")):
            with self.subTest(why=why):
                with self.assertRaisesRegex(Wrong, why):
                    table(*lines)

    def test_a_move_changes_two_sites_alone(self):
        new = table(*GOOD).moved((5, 40), "a1")
        self.assertEqual([write_slots(it.slots) for it in new.sites],
                         ["-", "0-31,40", "32-39,41-63"])
        self.assertEqual(new.home(40).name, "a1")
        with self.assertRaisesRegex(Wrong, "no site is named c1"):
            new.moved((5,), "c1")
        with self.assertRaisesRegex(Wrong, "a site of the directory has slots"):
            new.moved((5,), "dir1")

    def test_the_table_of_the_example(self):
        it = read_table(Path(TOP, "examples/cells/table"))
        self.assertEqual({name: len(sites) for name, sites in it.cells.items()},
                         {"a": 2, "b": 2, "c": 2})
        self.assertEqual(it.home(slot_of("ann")).name, "c1")

    def test_other_sites_of_the_cell_stand_in_and_no_others(self):
        it = read_table(Path(TOP, "examples/cells/table"))
        with tempfile.TemporaryDirectory() as folder:
            Path(folder, "users").write_text("    user ann password x\n", encoding="ascii")
            text = configuration(it, Path(folder), WORDS)
        self.assertNotRegex(text, "@[A-Z]+@")
        found = {name: re.findall(r"^    server (\w+) ", body, re.M) for name, body in re.findall(
            r"^backend ([\w-]+)\n((?:    .*\n)*)", text, re.M)}
        wanted = {"dir1": ["dir1"], "a1": ["a1", "a2"], "a2": ["a2", "a1"],
                  "b1": ["b1", "b2"], "b2": ["b2", "b1"], "c1": ["c1", "c2"], "c2": ["c2", "c1"],
                  "any": ["a1", "a2", "b1", "b2", "c1", "c2"]}
        kept = {"kept-" + name: servers for name, servers in wanted.items()}
        self.assertEqual(found, wanted | kept | {"directory": ["dir1"]})
        bodies = re.findall(r"^backend ([\w-]+)\n((?:    .*\n)*)", text, re.M)
        self.assertEqual({name for name, body in bodies if "http-reuse always" in body}, set(kept))


class Settings(CellsCase):
    def test_no_cell_is_a_peer_of_the_directory_or_of_another_cell(self):
        url = {name: self.server(name).url for name in ("dir1", "a1", "a2", "b1")}
        for name, first, peers, accepted in (
                ("dir1", 1, [], "1-99"), ("a1", 100, ["a2", "dir1"], "1-299"),
                ("a2", 200, ["a1", "dir1"], "1-299"), ("b1", 300, ["dir1"], "1-99,300-399")):
            said = dict(it.split("=", 1) for it in self.done("settings", name).splitlines())
            place = "TOKEND_PORT" if name == "dir1" else "TOKEND_SOCKET"
            self.assertEqual(said, {
                place: url[name].rpartition(":")[2], "TOKEND_FIRST": str(first),
                "TOKEND_LAST": str(first + 98 + (name != "dir1")),
                "TOKEND_ACCEPT": accepted, "TOKEND_PEERS": " ".join(url[it] for it in peers)})

    def test_a_written_table_keeps_its_comment(self):
        path = Path(self.path)
        write_table(path, read_table(path).moved((0,), "b1"))
        self.assertTrue(self.text().startswith("# a comment\n\ndir1 "))
        self.assertEqual(read_table(path).home(0).name, "b1")
        self.assertEqual(os.listdir(self.state), ["table"])

    def test_commands_that_are_refused(self):
        for words, status, why in (
                (("settings", "c1"), 1, "cells: no site is named c1\n"),
                (("move", "b1", "64"), 1, "cells: 64 is no range within 0-63\n"),
                (("retire", "c"), 1, "cells: no cell is named c\n"),
                (("retire", "directory"), 1, "cells: no cell is named directory\n"),
                (("add-client", "kind"), 1, "cells: kind is not NAME=VALUE\n")):
            self.assertEqual(self.cells(*words)[::2], (status, why))
        self.assertEqual(self.cells("carrot")[0], 2)
        status, output, errors = self.cells("front")  # without who may sign in
        self.assertEqual((status, output), (1, ""))
        self.assertRegex(errors, r"^cells: \[Errno 2\] .*/users'\n$")
        os.unlink(self.path)
        self.assertEqual(self.cells("check")[0], 1)
