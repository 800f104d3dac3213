"""moved: subjects that move, are signed out in all cells, and cells that are retired."""
import json
import urllib.parse

from lib.listing import listed
from lib.waiting import until
from machine import CellsCase
from tables import slot_of

REDIRECT = "https://a.test/"


class Subjects(CellsCase):
    def enrol(self):
        """A public client that all sites know."""
        said = self.form("dir1", "/admin/client", kind="public", scope="read write",
                         redirects=REDIRECT)
        self.client = json.loads(said)["client_id"]
        self.done("carry", "--once")

    def consent(self, name, subject, scope="read"):
        said = self.form(name, "/admin/consent", client_id=self.client, subject=subject,
                         scope=scope)
        return json.loads(said)["consent_id"]

    def has_code(self, name, subject, scope="read"):
        """Whether a site gives a code to the client of a subject, which needs its consent."""
        form = urllib.parse.urlencode({
            "response_type": "code", "client_id": self.client, "scope": scope,
            "code_challenge": "A" * 43, "code_challenge_method": "S256"})
        status, place, _ = self.server(name).ask_as("GET", "/authorize?" + form,
                                                    **{"X-Subject": subject})
        self.assertEqual(status, 302)
        return "?code=" in place

    def subjects(self, first, last, count):
        """Names whose slots are in a range."""
        names = ("user-%d" % it for it in range(10_000))
        found = [it for it in names if first <= slot_of(it) <= last]
        return found[:count]


class Moves(Subjects):
    def setUp(self):
        super().setUp()
        self.up("dir1", "a1", "a2", "b1")
        self.enrol()

    def test_live_consents_of_the_slots_are_given_once(self):
        ann, bob, joe = self.subjects(0, 15, 3)
        far = self.subjects(16, 31, 1)[0]
        for it in ann, bob, joe, far:
            self.consent("a1", it)
        self.form("a1", "/admin/withdraw", consent_id=self.consent("a1", ann, "write"))
        self.consent("a1", ann, "read write")
        gone = json.loads(self.form("dir1", "/admin/client", kind="public", scope="read",
                                    redirects=REDIRECT))["client_id"]
        self.done("carry", "--once")
        self.form("a1", "/admin/consent", client_id=gone, subject=bob, scope="read")
        self.form("dir1", "/admin/retire", client_id=gone)
        self.done("carry", "--once")
        self.form("b1", "/admin/consent", client_id=self.client, subject=joe, scope="read")
        self.assertEqual(self.done("move", "b1", "0-15"),
                         "slots 0-15 are at b1, with 3 consents\n")
        self.assertEqual(self.held_to("b1")[300], 4)
        self.assertEqual([self.has_code("b1", it) for it in (ann, bob, joe, far)],
                         [True, True, True, False])
        self.assertTrue(self.has_code("b1", ann, "read write"))
        self.assertEqual(self.done("move", "a1", "0-15"),
                         "slots 0-15 are at a1, with 0 consents\n")

    def test_a_move_within_a_cell_gives_nothing(self):
        ann = self.subjects(0, 15, 1)[0]
        self.consent("a1", ann)
        self.assertEqual(self.done("move", "a2", "0-15"),
                         "slots 0-15 are at a2, with 0 consents\n")
        self.assertEqual(self.done("place", ann),
                         "%s: slot %d, a2, cell a\n" % (ann, slot_of(ann)))

    def test_another_site_of_the_cell_has_the_consents_of_one_that_is_down(self):
        ann = self.subjects(0, 15, 1)[0]
        self.consent("a1", ann)
        self.done("carry", "--once")
        self.kill("a1")
        self.assertEqual(self.done("move", "b1", "0-15"),
                         "slots 0-15 are at b1, with 1 consents\n")
        self.assertTrue(self.has_code("b1", ann))

    def test_a_move_from_a_cell_that_is_down(self):
        self.consent("a1", self.subjects(0, 15, 1)[0])
        self.kill("a1", "a2")
        before = self.text()
        status, output, errors = self.cells("move", "b1", "0-15")
        self.assertEqual((status, output), (1, ""))
        self.assertIn("cells: no consents of a cell that is down: ", errors)
        self.assertEqual(self.text(), before)
        self.assertEqual(self.done("move", "--without-consents", "b1", "0-15"),
                         "slots 0-15 are at b1, with 0 consents\n")

    def test_a_move_to_a_site_that_is_down(self):
        self.consent("a1", self.subjects(0, 15, 1)[0])
        self.kill("b1")
        before = self.text()
        self.assertEqual(self.cells("move", "b1", "0-15")[0], 1)
        self.assertEqual(self.text(), before)


class SignOuts(Subjects):
    def outs(self, name):
        """The regions whose sign-outs a site has."""
        return {int(it["dot"].partition(":")[0]) for it in listed(self.pages(name))
                if it["kind"] == "subject_out"}

    def test_each_cell_has_it_at_once(self):
        self.up("dir1", "a1", "a2", "b1")
        ann = self.subjects(16, 31, 1)[0]
        self.assertEqual(self.done("sign-out", ann),
                         "a: signed out\nb: signed out\ndirectory: signed out\n")
        self.assertEqual([self.outs(it) for it in ("a1", "a2", "b1", "dir1")],
                         [{200}, {200}, {300}, {1}])

    def test_it_is_tried_again_until_a_cell_is_up(self):
        self.up("dir1", "a1", "a2")
        child = self.beginning("sign-out", "ann")
        self.assertTrue(until(lambda: self.outs("dir1") == {1}))
        self.assertIsNone(child.poll())
        self.up("b1")
        output, errors = child.communicate(timeout=30)
        self.assertEqual((child.returncode, errors), (0, ""))
        self.assertTrue(output.endswith("b: signed out\n"), output)
        self.assertEqual(self.outs("b1"), {1, 300})  # its start had it, and it was asked

    def test_a_cell_that_was_down_has_it_at_its_start(self):
        self.up("dir1", "a1", "a2")
        status, output, _ = self.cells("sign-out", "--for", "0.1", "ann")
        self.assertEqual(status, 1)
        self.assertIn("b: not yet: b1: No such file or directory\n", output)
        self.up("b1")
        self.assertEqual(self.outs("b1"), {1})

    def test_the_directory_is_down(self):
        self.up("a1", "a2", "b1")
        status, output, _ = self.cells("sign-out", "--for", "0.1", "ann")
        self.assertEqual(status, 1)
        self.assertIn("directory: not yet: dir1: Connection refused\n", output)
        self.assertEqual([self.outs(it) for it in ("a1", "b1")], [{100}, {300}])

    def test_another_site_of_a_cell_stands_in(self):
        self.up("dir1", "a2", "b1")
        ann = self.subjects(0, 15, 1)[0]
        self.assertIn("a: signed out\n", self.done("sign-out", ann))
        self.up("a1")
        self.assertEqual(self.outs("a1"), {1, 200})

    def test_a_malformed_subject_is_not_tried_again(self):
        self.up("dir1", "a1", "a2", "b1")
        status, output, errors = self.cells("sign-out", "a b")
        self.assertEqual((status, output), (1, ""))
        self.assertRegex(errors, r"^cells: \w+: 400 .*invalid_request")


class Retired(Subjects):
    def test_only_a_cell_without_slots_and_logins(self):
        self.up("dir1", "a1", "a2", "b1")
        self.enrol()
        ann = self.subjects(0, 15, 1)[0]
        self.consent("a1", ann)
        self.assertTrue(self.has_code("a1", ann))
        self.assertEqual(self.cells("retire", "a"),
                         (1, "", "cells: a has the slots 0-31: move these first\n"))
        self.done("move", "b1", "0-31")
        status, _, errors = self.cells("retire", "a")
        self.assertEqual(status, 1)
        self.assertRegex(errors, r"^cells: a has logins until 20\d\d-\d\d-\d\dT\d\d:\d\d:\d\dZ\n$")
        self.kill("a1", "a2")
        self.assertIn("cells: a cell is down", self.cells("retire", "a")[2])
        self.assertIn("\na1 ", self.text())
