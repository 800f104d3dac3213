"""by_whom: whom the log names for what users give and end, and what a browser forges of that."""
import time
import unittest

from accounts import AccountCase
from front import IS_HERE, LACKING
from lib.forging import REFUSED, TWICE
from lib.listing import listed, operators

FORGED = {"X-Operator": "root", "x-operator": "root", "X_Operator": "root"}


@unittest.skipUnless(IS_HERE, LACKING)
class Operators(AccountCase):
    """The consents of the setup name nobody: they are given without the pages."""

    def named(self):
        """The kinds and operators of the facts of the log that name one."""
        return operators(self.region.logged())

    def allow(self, cookie, scope, **fields):
        """Gives a consent on the page."""
        page = self.ask("GET", self.wanted(scope=scope), cookie, **fields)
        said = self.ask("POST", "/consent", cookie, {
            "csrf": page.hidden("csrf"), "next": page.hidden("next"), "allow": "yes"}, **fields)
        self.assertEqual(said.status, 303, said.body)

    def press(self, cookie, button, **fields):
        """Presses the first of these buttons on the page of the account."""
        page = self.account(cookie)
        said = self.ask("POST", "/account", cookie, {
            "csrf": page.hidden("csrf"), button: self.names(page, button)[0]}, **fields)
        self.assertEqual((said.status, said.place), (303, "/account"))

    def press_all(self, cookie, **fields):
        """Ends one login of two, withdraws the consent, and ends all."""
        self.log_in(cookie)
        self.log_in(cookie)
        for button in "end", "withdraw", "all":
            self.press(cookie, button, **fields)

    def test_who_gives_a_consent(self):
        self.allow(self.sign_in("bob")[0], "write")
        self.assertEqual(self.named(), [("consent_given", "bob")])
        fact = listed(self.region.logged())[-1]
        self.assertEqual((fact["subject"], fact["scope"]), ("bob", "write"))
        self.assertLess(abs(time.time() - fact["by"]["moment_seconds"]), 60)

    def test_who_ends_a_login_a_consent_and_all(self):
        self.press_all(self.sign_in("bob")[0])
        self.assertEqual(self.named(), [("token_revoked", "bob"), ("consent_withdrawn", "bob"),
                                        ("subject_out", "bob")])

    def test_a_forged_operator(self):
        cookie, _ = self.sign_in()
        self.allow(cookie, "write", **FORGED)
        self.press_all(cookie, **FORGED)
        self.assertEqual(self.named(), [(kind, "ann") for kind in (
            "consent_given", "token_revoked", "consent_withdrawn", "subject_out")])

    def test_no_operator_of_a_client_goes_on_to_the_region(self):
        """The region refuses a field that comes twice, on each path: nginx removes both."""
        cookie, _ = self.sign_in()
        mine = {"client_id": self.client, "client_secret": "s3cret"}
        redeem = {"grant_type": "authorization_code", "code": self.code(cookie)}
        for method, path, form, status in (
                ("GET", self.wanted(scope="read"), None, 302), ("POST", "/token", redeem, 200),
                ("POST", "/introspect", {"token": "x"}, 200),
                ("POST", "/revoke", {"token": "x"}, 200)):
            form = form and form | mine
            self.assertEqual(self.region.ask_as(method, path, form, **TWICE)[::2], REFUSED, path)
            self.assertEqual(self.ask(method, path, cookie, form, **TWICE).status, status, path)
        self.assertEqual(self.named(), [])
