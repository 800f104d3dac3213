"""carried: which facts are carried where, and what is found in the wrong place."""
import os
import time
import urllib.parse
from pathlib import Path

from lib.facts import client, clients, mark
from lib.waiting import free_port, until
from machine import CellsCase
from tables import read_table


FIRST_RUN = 95  # of each site: facts of its earlier numbers are taken


class Carries(CellsCase):
    def up(self, *names):
        """Starts sites as if each had had runs before."""
        for name in names:
            folder = os.path.join(self.state, name)
            if not os.path.isdir(folder):
                os.mkdir(folder, 0o700)
                first = read_table(Path(self.path)).site(name).numbers[0]
                with open(os.path.join(folder, "number"), "w", encoding="ascii") as file:
                    file.write("%d\n" % (first // 100 * 100 + FIRST_RUN - 1))
        super().up(*names)

    def test_a_cell_keeps_its_facts_and_has_the_directorys(self):
        self.up("dir1", "a1", "a2", "b1")
        for name, region in ("dir1", 90), ("a1", 190), ("b1", 390):
            self.assertEqual(self.server(name).push(clients(region, 1, 2))[0], 200)
        self.assertIn("a1 -> a2: 4 new\n", self.done("carry", "--once"))
        wanted = {"dir1": {90: 2}, "a1": {90: 2, 190: 2}, "a2": {90: 2, 190: 2},
                  "b1": {90: 2, 390: 2}}
        self.assertEqual({it: self.held_to(it) for it in wanted}, wanted)
        self.assertEqual(self.done("carry", "--once"), "")
        self.assertEqual(self.done("check"), "")

    def test_a_site_takes_facts_of_its_cell_and_of_the_directory_alone(self):
        self.up("dir1", "a1", "a2", "b1")
        for name, good, bad in (("dir1", (90,), (190, 390)), ("a1", (90, 290), (390, 400)),
                                ("b1", (90,), (190, 290))):
            for number in good:
                self.assertEqual(self.server(name).push(clients(number, 1))[0], 200)
            for number in bad:
                status, said = self.server(name).push(clients(90, 2) + clients(number, 1))
                self.assertEqual((status, b"out_of_range" in said), (409, True), (name, number))
            self.assertEqual(self.regions(name), set(good))
        self.assertEqual(self.done("check"), "")

    def test_a_site_of_old_numbers_refuses_a_new_line_until_its_next_start(self):
        self.write_table("dir1 directory 1-99 -", "a1 a 100-199 0-63")
        self.up("dir1", "a1")
        with open(self.path, "a", encoding="ascii") as file:
            file.write("dir2 directory %d 500-599 -\n" % free_port())
        self.up("dir2")
        self.server("dir2").push(clients(590, 1))
        status, _, errors = self.cells("carry", "--once")
        self.assertIn("out_of_range", errors)
        self.assertEqual(self.regions("a1"), set())
        self.kill("a1")
        self.up("a1")  # which takes all that the directory has
        self.assertEqual(self.regions("a1"), {590})

    def test_foreign_facts_in_the_directory_go_no_further(self):
        self.accepts = "1-65535"
        self.up("dir1", "a1", "b1")
        self.server("dir1").push(clients(90, 1) + clients(390, 1, 2))
        self.server("dir1").push(clients(395, 5))  # above a gap: in no vector
        self.assertEqual(self.cells("carry", "--once")[0], 1)  # a2 isn't there
        self.assertEqual(self.regions("a1"), {90})
        self.assertEqual(self.regions("b1"), {90})

    def test_check_names_the_numbers_of_another_cell(self):
        self.accepts = "1-65535"
        self.up("dir1", "a1", "a2", "b1")
        self.server("b1").push(clients(150, 1))
        self.server("dir1").push(clients(390, 1))
        self.server("a1").push(clients(250, 1))
        self.assertEqual(self.cells("check"), (
            3, "dir1 has facts of another cell: numbers 390\n"
               "b1 has facts of another cell: numbers 150\n", ""))

    def test_check_reports_a_site_that_is_away(self):
        self.up("dir1", "a1", "a2")
        status, output, _ = self.cells("check")
        self.assertEqual(status, 1)
        self.assertIn(self.server("b1").url + "/sync/vector: No such file or directory", output)

    def test_marks_keep_their_horizon(self):
        self.up("dir1", "a1", "a2", "b1")
        self.server("dir1").push([mark(90, 1), client(90, 2)], horizon=100)
        self.done("carry", "--once")
        for name in "a1", "b1":
            page = self.server(name).page()
            self.assertEqual((page.items, page.horizon), ((mark(90, 1), client(90, 2)), 100))

    def test_a_silent_site_holds_up_no_other(self):
        silent, url = self.listener()
        self.write_table(*self.sites, b1=urllib.parse.urlsplit(url).port)
        self.up("dir1", "a1", "a2")
        self.beginning("carry", "--every", "0.05")
        for serial in range(1, 6):
            self.server("a1").push(clients(190, serial))
            self.server("dir1").push(clients(90, serial))
            wanted = {90: serial, 190: serial}
            self.assertTrue(until(lambda wanted=wanted: self.held_to("a2") == wanted, 5))
        silent.close()

    def test_a_line_once_a_site_is_lost_and_once_it_is_back(self):
        self.write_table("dir1 directory 1-99 -", "a1 a 100-199 0-63", "a2 a 200-299 -")
        self.up("dir1", "a1")
        child = self.beginning("carry", "--every", "0.05")
        lines = [child.stdout.readline(), child.stdout.readline(), child.stdout.readline()]
        lines.sort()
        for line, names in zip(lines, ("a1 -> a2", "a2 -> a1", "dir1 -> a2")):
            self.assertRegex(line, r"^%s: %s/sync/\w+: [\w ]+ \(tries: 1\)\n$" % (
                names, self.server("a2").url))
        self.up("a2")
        lines = [child.stdout.readline(), child.stdout.readline(), child.stdout.readline()]
        self.assertEqual(sorted(lines), ["a1 -> a2: again\n", "a2 -> a1: again\n",
                                         "dir1 -> a2: again\n"])

    def test_an_item_that_is_refused_is_named_once(self):
        self.write_table("dir1 directory 1-99 -", "a1 a 100-199 0-63", "a2 a 200-299 -")
        self.up("dir1", "a1", "a2")
        self.server("a2").push([client(190, 3, b"write")])  # above a gap: it comes each time
        self.server("a1").push(clients(190, 1, 3))
        child = self.beginning("carry", "--every", "0.05")
        self.assertTrue(until(lambda: self.held_to("a2") == {190: 1}))
        self.server("dir1").push(clients(90, 1))
        self.assertTrue(until(lambda: 90 in self.held_to("a2")))  # by a later round
        time.sleep(0.5)
        child.kill()
        self.assertEqual(sorted(child.communicate()[1].splitlines()), sorted(
            "cells: %s refuses 190:3: 409 conflict" % self.server(it).url for it in ("a1", "a2")))

    def test_a_site_that_comes_into_the_table_is_carried_to(self):
        self.write_table("dir1 directory 1-99 -", "a1 a 100-199 0-63")
        self.up("dir1", "a1")
        self.beginning("carry", "--every", "0.05")
        with open(self.path, "a", encoding="ascii") as file:
            file.write("b1 b %d 300-399 -\n" % free_port())
        self.up("b1")
        self.server("dir1").push(clients(90, 1))
        self.assertTrue(until(lambda: self.held_to("b1") == {90: 1}))

    def test_the_directory_is_brought_out_of_a_cell(self):
        self.write_table(*self.sites, "dir2 directory 500-599 -")
        self.up("a1", "dir2")
        self.server("a1").push(clients(90, 1, 2, 3) + clients(190, 1))
        self.assertEqual(self.done("take", "a1", "dir2", "1-99"), "3 new\n")
        self.assertEqual(self.regions("dir2"), {90})

    def test_a_client_is_added_at_the_directory_that_is_up(self):
        self.write_table(*self.sites, "dir2 directory 500-599 -")
        self.up("a1", "a2", "b1", "dir2")
        status, output, errors = self.cells("add-client", "kind=public", "scope=read",
                                            "redirects=https://a.test/")
        self.assertEqual((status, output), (1, ""))  # nobody carries
        self.assertIn("c595-1 is added; not yet known at dir1 a1 a2 b1", errors)

    def test_a_client_that_the_directory_refuses(self):
        self.up("dir1")
        status, _, errors = self.cells("add-client", "kind=public", "scope=", "redirects=x")
        self.assertEqual(status, 1)
        self.assertIn("cells: the directory: 400 ", errors)
        self.assertEqual(self.held_to("dir1"), {})
