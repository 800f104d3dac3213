"""accounts: the page that shows a user their logins and consents, and ends them."""
import html
import re
import unittest

from front import IS_HERE, LACKING, WORDS, FrontCase
from lib.browser import browser, need_browser
from lib.command import GIVEN

OTHERS = 150  # logins beside one: more than a page of the region has


class AccountCase(FrontCase):
    """The calendar, which ann and bob let read, and another application, named with markup."""

    def setUp(self):
        super().setUp()
        self.client = self.add_client("https://app.example/cb")
        self.mail = self.add_client("https://mail.example/cb")
        self.given = {name: self.admin("/admin/consent", client_id=self.client, subject=name,
                                       scope="read") for name in WORDS}

    def code(self, cookie, **more):
        said = self.ask("GET", self.wanted(scope="read", **more), cookie)
        return re.search("code=([^&]+)", said.place)[1]

    def redeem(self, code):
        """The tokens of a code."""
        return self.form("/token", grant_type="authorization_code", code=code)

    def form(self, path, **fields):
        said = self.ask("POST", path, form=fields | {"client_id": self.client,
                                                     "client_secret": "s3cret"})
        self.assertEqual(said.status, 200, said.body)
        return dict(re.findall('"([a-z_]+)":"?([^",}]*)', said.body))

    def log_in(self, cookie):
        """The access token of a login."""
        return self.redeem(self.code(cookie))["access_token"]

    def is_active(self, token):
        return self.form("/introspect", token=token)["active"] == "true"

    def account(self, cookie):
        page = self.ask("GET", "/account", cookie)
        self.assertEqual(page.status, 200, page.body)
        return page

    def names(self, page, button):
        """What the buttons of a page name: logins or consents."""
        return re.findall('name="%s" value="([^"]*)"' % button, page.body)

    def click(self, cookie, page, **named):
        said = self.ask("POST", "/account", cookie, {"csrf": page.hidden("csrf")} | named)
        self.assertEqual((said.status, said.place), (303, "/account"))


@unittest.skipUnless(IS_HERE, LACKING)
class Accounts(AccountCase):
    def test_logins_and_consents_are_shown_by_name(self):
        cookie, _ = self.sign_in()
        self.log_in(cookie)
        page = self.account(cookie)
        self.assertIn("You are <b>ann</b>", page.body)
        self.assertRegex(" ".join(self.names(page, "end")), r"^l1-\d+$")
        self.assertEqual(self.names(page, "withdraw"), [self.given["ann"]])
        self.assertRegex(page.body, r"<td>The calendar \(c1-2\)<td>signed in since "
                         r"\d{4}-\d\d-\d\d \d\d:\d\d UTC<td>until \d{4}-\d\d-\d\d \d\d:\d\d UTC")
        self.assertEqual(page.fields["Cache-Control"], "no-store")

    def test_one_login_ends_and_the_other_lives(self):
        cookie, _ = self.sign_in()
        first, second = self.log_in(cookie), self.log_in(cookie)
        page = self.account(cookie)
        login, other = self.names(page, "end")
        self.click(cookie, page, end=login)
        self.assertEqual((self.is_active(first), self.is_active(second)), (False, True))
        self.assertEqual(self.names(self.account(cookie), "end"), [other])
        self.click(cookie, page, end=login)  # a click on the old page changes nothing
        self.assertTrue(self.is_active(second))

    def test_a_login_ends_behind_a_refresh(self):
        """The refresh token that the page ends was used long ago: the family ends all the same."""
        cookie, _ = self.sign_in()
        tokens = self.redeem(self.code(cookie))
        for _ in range(2):
            tokens = self.form("/token", grant_type="refresh_token",
                               refresh_token=tokens["refresh_token"])
        self.assertTrue(self.is_active(tokens["access_token"]))
        page = self.account(cookie)
        self.click(cookie, page, end=self.names(page, "end")[0])
        self.assertFalse(self.is_active(tokens["access_token"]))

    def test_a_code_that_waits_has_no_button(self):
        cookie, _ = self.sign_in()
        code = self.code(cookie)
        page = self.account(cookie)
        self.assertIn("signing in since", page.body)
        self.assertEqual(self.names(page, "end"), [])
        self.redeem(code)
        self.assertEqual(len(self.names(self.account(cookie), "end")), 1)

    def test_a_withdrawn_consent_ends_its_logins(self):
        cookie, _ = self.sign_in()
        token = self.log_in(cookie)
        page = self.account(cookie)
        self.click(cookie, page, withdraw=self.given["ann"])
        self.assertFalse(self.is_active(token))
        page = self.account(cookie)
        self.assertEqual((self.names(page, "end"), self.names(page, "withdraw")), ([], []))
        self.assertEqual(page.body.count("<tr><td>None"), 2)

    def test_who_ends_all_is_signed_out_everywhere(self):
        here, elsewhere = self.sign_in()[0], self.sign_in()[0]
        bob, _ = self.sign_in("bob")
        tokens, other = [self.log_in(it) for it in (here, elsewhere)], self.log_in(bob)
        self.click(here, self.account(here), all="yes")
        self.assertEqual([self.is_active(it) for it in tokens], [False, False])
        self.assertTrue(self.is_active(other))
        for cookie in here, elsewhere:
            self.assertIn("<h1>Sign in</h1>", self.account(cookie).body)
        self.assertIn("You are <b>bob</b>", self.account(bob).body)

    def test_who_leaves_is_signed_out_here(self):
        here, elsewhere = self.sign_in()[0], self.sign_in()[0]
        token = self.log_in(here)
        self.click(here, self.account(here), leave="yes")
        self.assertIn("<h1>Sign in</h1>", self.account(here).body)
        self.assertIn("You are <b>ann</b>", self.account(elsewhere).body)
        self.assertTrue(self.is_active(token))

    def test_a_sign_in_goes_on_to_the_account(self):
        first = self.ask("GET", "/account")
        self.assertIn("<h1>Sign in</h1>", first.body)
        said = self.ask("POST", "/sign-in", self.cookie_of(first), {
            "csrf": first.hidden("csrf"), "next": first.hidden("next"), "name": "ann",
            "password": WORDS["ann"]})
        self.assertEqual((said.status, said.place), (303, "/account"))

    def test_all_of_many_logins_are_shown(self):
        cookie, _ = self.sign_in()
        self.log_in(cookie)
        for _ in range(OTHERS):
            self.region.wanted(302, ("GET %s HTTP/1.1\r\nX-Subject: ann\r\nConnection: close\r\n"
                                     "\r\n" % self.wanted(scope="read")).encode())
        self.assertEqual(self.account(cookie).body.count("signing in since"), OTHERS)


@unittest.skipUnless(IS_HERE, LACKING)
class AccountAttacks(AccountCase):
    def test_nobody_ends_what_is_anothers(self):
        ann, bob = self.sign_in()[0], self.sign_in("bob")[0]
        token = self.log_in(ann)
        login = self.names(self.account(ann), "end")[0]
        page = self.account(bob)
        self.click(bob, page, end=login)
        self.click(bob, page, withdraw=self.given["ann"])
        self.assertTrue(self.is_active(token))
        self.assertEqual(self.names(self.account(ann), "withdraw"), [self.given["ann"]])

    def test_a_form_without_its_token_ends_nothing(self):
        ann, bob = self.sign_in()[0], self.sign_in("bob")[0]
        token = self.log_in(ann)
        for csrf in "", "0" * 64, self.account(bob).hidden("csrf"):
            said = self.ask("POST", "/account", ann, {"csrf": csrf, "all": "yes"})
            self.assertEqual(said.status, 403)
        fresh = self.ask("GET", "/sign-in")
        said = self.ask("POST", "/account", self.cookie_of(fresh),
                        {"csrf": fresh.hidden("csrf"), "all": "yes"})
        self.assertEqual(said.status, 404)
        self.assertTrue(self.is_active(token))

    def test_a_name_with_markup_is_text(self):
        self.admin("/admin/consent", client_id=self.mail, subject="ann", scope="write")
        page = self.account(self.sign_in()[0]).body
        self.assertIn("<td>%s (%s)<td>write" % (html.escape("<b>Mail</b>"), self.mail), page)
        self.assertNotIn("<b>Mail", page)

    def test_the_region_is_gone(self):
        cookie, _ = self.sign_in()
        self.region.stop()
        self.assertIn(self.ask("GET", "/account", cookie).status, (502, 504))


@unittest.skipUnless(IS_HERE, LACKING)
@need_browser
class AccountInABrowser(AccountCase):
    def test_the_account_page_ends_one_login_and_then_all(self):
        cookie, _ = self.sign_in()
        tokens = [self.log_in(cookie) for _ in range(2)]
        it, front = browser(self), "https://127.0.0.1:%d" % self.port
        it.open(front + "/account")
        it.write("input[name=name]", "ann")
        it.write("input[name=password]", WORDS["ann"])
        it.click("button")
        self.assertTrue(it.says("Where you are signed in"))
        if GIVEN.account:
            it.resize(760, 540)
            with open(GIVEN.account, "wb") as file:
                file.write(it.picture())
        it.click("button[name=end]")
        self.assertTrue(it.says("Where you are signed in"))
        self.assertEqual([self.is_active(it) for it in tokens], [False, True])
        it.click("button[name=all]")
        self.assertTrue(it.says("Sign in"))
        self.assertFalse(self.is_active(tokens[1]))
