"""browser: a login in headless Chromium."""
import unittest

from front import IS_HERE, LACKING, WORDS, FrontCase
from lib.browser import browser, need_browser
from lib.command import GIVEN


@unittest.skipUnless(IS_HERE, LACKING)
@need_browser
class InABrowser(FrontCase):
    def setUp(self):
        super().setUp()
        self.browser = browser(self)
        self.app = self.peer(lambda path, body: (200, {"Content-Type": "text/plain"}, b"welcome"))
        self.client = self.add_client(self.app.url + "/cb")

    def test_a_login_with_a_consent(self):
        it, front = self.browser, "https://127.0.0.1:%d" % self.port
        it.open(front + self.wanted(scope="read"))
        self.assertIn("Sign in", it.text("h1"))
        it.write("input[name=name]", "ann")
        it.write("input[name=password]", "guess")
        it.click("button")
        self.assertTrue(it.says("Name or password is wrong."))
        it.write("input[name=name]", "ann")
        it.write("input[name=password]", WORDS["ann"])
        it.click("button")
        self.assertTrue(it.says(
            "You are ann. The application The calendar (c1-2) asks for: read"))
        self.assertEqual(it.run("return document.cookie"), "")
        if GIVEN.picture:
            with open(GIVEN.picture, "wb") as file:
                file.write(it.picture())
        it.click("button[value=yes]")
        self.assertTrue(it.says("welcome"))
        self.assertRegex([path for path in self.app.asked if path.startswith("/cb")][0],
                         "^/cb[?]code=[^&]{48}&state=x")
        # the next login asks nothing
        it.open(front + self.wanted(scope="read"))
        self.assertEqual(it.text(), "welcome")

    def test_an_application_that_asks_again_after_a_denial(self):
        """It leads the browser from the denial to the next request at once: that ends at a page."""
        it, front = self.browser, "https://127.0.0.1:%d" % self.port
        app = self.peer(lambda path, body: (
            302, {"Location": front + self.wanted(scope="read")}, b""))
        self.client = self.add_client(app.url + "/cb")
        it.open(front + self.wanted(scope="read"))
        it.write("input[name=name]", "ann")
        it.write("input[name=password]", WORDS["ann"])
        it.click("button")
        for _ in range(2):
            self.assertTrue(it.says("asks for: read"))
            it.click("button[value=no]")
        self.assertTrue(it.says("asks for: read"))
        self.assertEqual(len([it for it in app.asked if it.startswith("/cb?error=")]), 2)

    def test_a_form_of_another_site(self):
        """A page elsewhere that posts a consent: the cookie doesn't go with it."""
        it, front = self.browser, "https://127.0.0.1:%d" % self.port
        it.open(front + self.wanted(scope="read"))
        it.write("input[name=name]", "ann")
        it.write("input[name=password]", WORDS["ann"])
        it.click("button")
        self.assertTrue(it.says("You are ann"))
        token = it.run("return document.querySelector('[name=csrf]').value")
        before = self.consents()
        page = ("<form method=post action=%s/consent><input name=csrf value=%s><input name=next "
                "value='%s'><button name=allow value=yes>x</button></form>"
                % (front, token, self.wanted(scope="read")))
        elsewhere = self.peer(lambda path, body: (200, {"Content-Type": "text/html"},
                                                  page.encode()))
        it.open(elsewhere.url.replace("127.0.0.1", "localhost") + "/")
        it.click("button")
        self.assertTrue(it.says("this form is not of this session"))
        self.assertEqual(self.consents(), before)
