"""reached: who reaches the page and what is behind it, and what a site can do to its reader."""
import http.client
import os
import re
import ssl
import time
import unittest

from fronts import IS_HERE, LACKING
from lib.browser import need_browser
from lib.waiting import until
from world import SHORT, Seen, World

TAB, ENTER = "\ue004", "\ue007"
PAGE = "/", "/page.js", "/page.css", "/settings.json"
READ = "/sites/one/health", "/sites/one/vector", "/sites/one/metrics", "/sites/two/health", \
    "/sites/two/vector", "/sites/two/metrics"
ELSEWHERE = "/README.md", "/nginx.conf", "/../nginx.conf", "/%2e%2e/users", "/admin/clients", \
    "/sync/vector", "/sites/one/../../admin/clients", "/sites/one/admin/clients", \
    "/sites/three/health", "/sites/one/health/../../two/pull", "/sites/"


@unittest.skipUnless(IS_HERE, LACKING)
class Reached(World):
    def test_a_password_is_asked_for(self):
        for path in PAGE + READ + ("/alerts",) + ELSEWHERE[:1]:
            for word in "", "guess":
                status, fields, _ = self.ask(path, word=word)
                self.assertEqual(status, 401, path)
                self.assertIn("script-src 'self'", fields["Content-Security-Policy"])

    def test_what_is_served(self):
        for path in PAGE + READ:
            self.assertTrue(until(lambda: self.ask(path)[0] == 200), path)
            fields = self.ask(path)[1]
            self.assertEqual(fields.get_all("Cache-Control"), ["no-store"], path)
            self.assertRegex(fields["Content-Security-Policy"], "^default-src 'none'; [^\n]*;"
                             " frame-ancestors 'none'; require-trusted-types-for 'script'$")
        for path in ELSEWHERE:
            self.assertIn(self.ask(path)[0], (400, 404), path)

    def test_nothing_is_posted(self):
        for path in PAGE + READ:
            for method in "POST", "PUT", "HEAD":
                self.assertEqual(self.ask(path, method)[0], 405, path)

    def test_many_guesses_of_a_password_get_429(self):
        self.assertTrue(until(lambda: self.ask("/", word="guess")[0] == 429, step=0))

    def test_the_page_listens_at_one_address_alone(self):
        with self.assertRaises(ConnectionRefusedError):
            http.client.HTTPConnection("127.0.0.2", self.page, timeout=10).connect()

    def test_a_stranger_at_the_door(self):
        port = int(re.search(r"listen 127[.]0[.]0[.]1:(\d+) ssl",
                             self.read("door-two", "nginx.conf"))[1])
        context = ssl.create_default_context(cafile=self.path("ca", "ca.pem"))
        context.check_hostname = False
        for path in "/health", "/metrics":
            link = http.client.HTTPSConnection("127.0.0.1", port, timeout=10, context=context)
            link.request("GET", path)
            self.assertEqual(link.getresponse().status, 400)
            link.close()


@unittest.skipUnless(IS_HERE, LACKING)
@need_browser
class Alone(Seen):
    """The page whose nginx names no Prometheus, and sites without the options that it reads."""

    has_alerts, options = False, ""

    def test_what_it_lacks(self):
        self.assert_said("#alerts", "! Alerts aren't read: this page has no Prometheus.")
        self.assert_shown("one", "! it doesn't say whether clients are served")
        self.assert_said("#figures0", "requests a second\nnot known: no --metrics, or not yet")
        self.assert_lacks("one", 0)


@unittest.skipUnless(IS_HERE, LACKING)
@need_browser
class Read(Seen):
    """The page whose Prometheus is gone."""

    def test_the_page_says_that_prometheus_does_not_reply(self):
        self.assert_said("#alerts", "! Alerts aren't read: Prometheus doesn't reply.")

    def test_markup_of_a_site_is_text(self):
        """Names that metrics write may have anything."""
        name = '<img src=x onerror="document.title=1"><b>\\"'
        folder = self.path("tokend-carry-" + name)
        os.mkdir(folder)
        with open(os.path.join(folder, "done"), "w", encoding="utf-8") as file:
            file.write(self.one.url + "\n")
        os.utime(file.name, (1000, 1000))
        self.assert_shown("one", "its carrier " + name + " last ended well")
        self.assert_said("#figures0", name + ": ")
        self.assertEqual(self.browser.run("return document.querySelectorAll('img, b b').length"), 0)

    def test_what_is_written_into_the_page_does_not_run(self):
        for script in (
                "const it = document.createElement('script'); it.textContent = 'window.evil = 1';"
                "document.body.append(it)",
                "document.body.innerHTML += '<img src=x onerror=\"window.evil = 1\">'",
                "const it = document.createElement('script');"
                "it.src = 'http://127.0.0.1:9/x.js'; document.body.append(it)"):
            with self.subTest(script):
                refused = self.browser.run("try { %s } catch (why) { return why.name }" % script)
                self.assertEqual(refused, "TypeError")
        self.assertIsNone(self.browser.run("return window.evil"))

    def test_the_keyboard_reaches_each_control_and_pauses_the_page(self):
        """All that can be used is reached by Tab, also after the page has shown what is new."""
        it, reached = self.browser, []
        for _ in range(7):
            it.press(TAB)
            reached.append(it.run("const it = document.activeElement;"
                                  "return it.id || it.hash || it.getAttribute('aria-labelledby')"))
        self.assertEqual(reached[:5], ["pause", "#site0", "#site1", "overview-title",
                                       "lacks-title"])
        it.run("document.getElementById('pause').focus()")
        it.press(ENTER)
        self.assert_said("#asked", "; paused.")
        self.assertEqual(it.run("return document.activeElement.id"), "pause")
        self.assertEqual(it.run("return document.activeElement.ariaPressed"), "true")
        time.sleep(1)  # a question may be on its way
        asked = it.text("#asked")
        time.sleep(2 * SHORT["ask_seconds"])
        self.assertEqual(it.text("#asked"), asked)
        it.press(ENTER)
        self.assert_said("#asked", ", every 1 s.")
        self.assertEqual(it.run("return document.activeElement.id"), "pause")

    def test_a_narrow_window(self):
        """Of 320 pixels, in which nothing but a table of its own is scrolled sideways."""
        self.browser.resize(320, 640)
        self.assertEqual(self.browser.run("return innerWidth"), 320)
        self.assert_said("#figures0", "peers\n" + self.ways["two"])
        self.assertEqual(self.browser.run("return document.scrollingElement.scrollWidth"), 320)

    def test_colour_is_not_the_only_sign(self):
        signs = {"bad": "✗", "look": "!", "fine": "✓"}
        self.two.stop()
        self.assert_shown("two", "✗")
        found = self.browser.run("return [...document.querySelectorAll('#overview li')]"
                                 ".map(it => [it.className, it.textContent])")
        self.assertEqual({name for name, _ in found} - set(signs), set())
        for name, text in found:
            self.assertTrue(text.startswith(signs[name] + " "), text)
        self.assert_said("#plots0", "5xx: ")  # the plot with the most lines
        dashes = self.browser.run("return ['line0', 'line1', 'line2', 'line3'].map(it =>"
                                  "getComputedStyle(document.querySelector('svg .' + it))"
                                  ".strokeDasharray)")
        self.assertEqual(len(set(dashes)), 4, dashes)
