"""by_whom: whom the facts name that `cells` makes, and those of the front end's inner side."""
import json

from fronted import Celled
from lib.asking import basic
from lib.forging import REFUSED, TWICE, requests_of
from lib.listing import listed, operators
from moved import REDIRECT, Subjects


class Commands(Subjects):
    def variables(self):
        return super().variables() | {"LOGNAME": "carol"}

    def administer(self, *words):
        """Runs each command that makes facts, with these arguments too; site b1 has all of them."""
        self.up("dir1", "a1", "a2", "b1")
        self.beginning("carry", "--every", "0.05")
        self.client = self.done("add-client", *words, "kind=public", "scope=read",
                                "redirects=" + REDIRECT).strip()
        subject = self.subjects(0, 15, 1)[0]
        self.consent("a1", subject)
        self.assertIn("with 1 consents", self.done("move", *words, "b1", "0-15"))
        self.done("sign-out", *words, subject)

    def assert_named(self, name):
        self.assertEqual(set(operators(self.pages("b1"))), {
            (kind, name) for kind in ("client_added", "consent_given", "subject_out")})
        self.assertEqual([it for it in listed(self.pages("b1")) if "by" not in it], [])

    def test_an_operator_that_is_given(self):
        self.administer("--operator", "kim")
        self.assert_named("kim")

    def test_the_login_name_of_who_runs_it(self):
        self.administer()
        self.assert_named("carol")

    def test_a_name_that_the_field_cannot_have(self):
        self.up("dir1", "a1", "a2", "b1")
        for name in "", "a b", "\u00e9", "x" * 129:
            for words in ("sign-out", "ann"), ("add-client", "kind=public"), ("move", "b1", "0"):
                status, output, errors = self.cells(words[0], "--operator", name, *words[1:])
                self.assertEqual((status, output), (2, ""))
                self.assertIn("is not 1 to 128 visible bytes of ASCII", errors)
        self.assertEqual(self.held_to("dir1"), {})
        self.done("sign-out", "--operator", "x" * 128, "ann")
        self.assertEqual(operators(self.pages("dir1")), [("subject_out", "x" * 128)])


class Sides(Celled):
    def named(self):
        """The kinds and operators of the facts of all sites that name one, sorted."""
        return sorted(it for name in ("dir1", "a1", "a2", "b1")
                      for it in operators(self.pages(name)))

    def administer(self, path, **form):
        """What the inner side replies to a request by root."""
        status, _, said = self.ask("POST", path, form, is_inner=True, **{"X-Operator": "root"})
        self.assertIn(status, (200, 201), said)
        return next(iter(json.loads(said).values()))

    def test_the_inner_side_passes_on_who_administers(self):
        user, other = self.of_site("a1"), self.of_site("b1")
        self.give(user)
        self.sign_in(user)
        self.assertEqual(self.named(), [])
        login = json.loads(self.ask("GET", "/admin/subject?subject=" + user,
                                    is_inner=True)[2])["logins"][0]["login_id"]
        self.administer("/admin/logout", login_id=login)
        given = self.administer("/admin/consent", client_id=self.client, subject=other,
                                scope="read")
        self.administer("/admin/withdraw", consent_id=given)
        self.administer("/admin/signout", subject=user)
        added = self.administer("/admin/client", kind="confidential", secret="s3cret",
                                scope="read", redirects=REDIRECT)
        self.administer("/admin/secret", client_id=added, secret="n3w")
        self.administer("/admin/retire", client_id=added)
        self.assertEqual(self.named(), [(kind, "root") for kind in (
            "client_added", "client_retired", "consent_given", "consent_withdrawn", "secret_set",
            "subject_out", "token_revoked")])

    def test_no_operator_of_a_client_goes_on_to_a_site(self):
        """A site refuses a field that comes twice, on each path: HAProxy removes both."""
        user = self.of_site("a1")
        self.give(user)
        login = {"Authorization": "Basic " + basic(user, "word")}
        for method, path, form, fields, status in requests_of(
                self.client, login, self.mine, *self.sign_in(user)):
            said = self.server("a1").ask_as(method, path, form, **fields, **TWICE)
            self.assertEqual(said[::2], REFUSED, path)
            self.assertEqual(self.ask(method, path, form, **fields, **TWICE)[0], status, path)
        self.assertEqual(self.named(), [])
