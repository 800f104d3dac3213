"""cors: which scripts may read what the front end of examples/browser replies."""
import json
import re
import unittest
import urllib.parse

from app import CHALLENGE, VERIFIER, WORD, AppCase, example
from front import IS_HERE, LACKING, NGINX, WORDS
from lib.browser import browser, need_browser
from lib.waiting import free_port, listens, until

ORIGIN = "https://app.example"
OTHERS = ("https://evil.example", "https://app.example.evil", "http://app.example", "null",
          "https://app.example:444", "https://app.example/", "https://xapp.example")
PREFIX = "Access-Control-"
HTTPS = r"        listen [^\n]* ssl;\n"  # of the server that browsers reach


class CorsCase(AppCase):
    """A front end with CORS for one origin, and a public client of that origin."""

    origin = ORIGIN

    def setUp(self):
        super().setUp()
        self.page = self.add_public(self.origin + "/")
        self.consent(self.page)

    def added(self, text):
        self.fill("origins.conf", example("browser/origins.conf").replace(ORIGIN, self.origin))
        self.fill("cors.conf", example("browser/cors.conf"))
        text = super().added(text)
        for line, name in (("http {\n", "origins.conf"), (HTTPS, "cors.conf"),
                           (r"        location @wrong {\n", "cors.conf")):
            text, count = re.subn(line, r"\g<0>include %s;\n" % self.path(name), text)
            self.assertEqual(count, 1)
        return text

    def fill(self, name, text):
        with open(self.path(name), "w", encoding="utf-8") as file:
            file.write(text)

    def code(self):
        """A code of the public client. The region is asked: the pages would want a click."""
        path = "/authorize?" + urllib.parse.urlencode({
            "response_type": "code", "client_id": self.page, "code_challenge": CHALLENGE,
            "code_challenge_method": "S256"})
        _, place, _ = self.region.ask_as("GET", path, **{"X-Subject": "ann"})
        return urllib.parse.parse_qs(urllib.parse.urlsplit(place).query)["code"][0]

    def redeem(self, origin):
        return self.ask("POST", "/token", form={
            "grant_type": "authorization_code", "code": self.code(), "client_id": self.page,
            "code_verifier": VERIFIER}, Origin=origin)

    def fields(self, reply):
        return {name: value for name, value in reply.fields.items() if name.startswith(PREFIX)}


@unittest.skipUnless(IS_HERE, LACKING)
class Origins(CorsCase):
    def test_the_allowed_origin_may_read_replies(self):
        said = self.redeem(ORIGIN)
        self.assertEqual(said.status, 200, said.body)
        self.assertEqual(self.fields(said), {
            PREFIX + "Allow-Origin": ORIGIN,
            PREFIX + "Expose-Headers": "Retry-After, WWW-Authenticate"})
        self.assertEqual(said.fields["Vary"], "Origin")
        self.assertEqual(said.fields["Referrer-Policy"], "no-referrer")
        tokens = json.loads(said.body)
        for said in (self.ask("POST", "/token", form={"client_id": self.page}, Origin=ORIGIN),
                     self.ask("POST", "/token", form={"client_id": "c9-9"}, Origin=ORIGIN),
                     self.ask("GET", "/who", Origin=ORIGIN),
                     self.ask("GET", "/who", Origin=ORIGIN,
                              Authorization="Bearer " + tokens["access_token"]),
                     self.ask("POST", "/revoke", Origin=ORIGIN, form={
                         "client_id": self.page, "token": tokens["refresh_token"]})):
            self.assertEqual(said.fields[PREFIX + "Allow-Origin"], ORIGIN, said.status)

    def test_a_client_that_was_retired_may_read_why(self):
        self.region.form("/admin/retire", {"client_id": self.page})
        for _ in range(2):  # the second is the 429 of the front end
            said = self.ask("POST", "/token", form={"client_id": self.page}, Origin=ORIGIN)
            self.assertIn(said.status, (401, 429))
            self.assertEqual(said.fields[PREFIX + "Allow-Origin"], ORIGIN)

    def test_no_other_origin_may(self):
        for origin in OTHERS:
            said = self.redeem(origin)
            self.assertEqual((said.status, self.fields(said)), (200, {}), origin)
            self.assertEqual(said.fields["Vary"], "Origin")

    def test_no_other_path_may_be_read(self):
        for method, path in (("GET", self.wanted()), ("POST", "/introspect"), ("GET", "/sign-in"),
                             ("POST", "/consent"), ("GET", "/"), ("OPTIONS", "/authorize"),
                             ("OPTIONS", "/introspect"), ("OPTIONS", "/consent")):
            said = self.ask(method, path, Origin=ORIGIN)
            self.assertEqual(self.fields(said), {}, path)
            self.assertNotEqual(said.status, 204)

    def asked_first(self, path, origin):
        return self.ask("OPTIONS", path, Origin=origin, **{
            PREFIX + "Request-Method": "GET", PREFIX + "Request-Headers": "authorization"})

    def test_what_a_browser_asks_first(self):
        for path in "/token", "/revoke", "/who":
            said = self.asked_first(path, ORIGIN)
            self.assertEqual(said.status, 204)
            self.assertEqual(self.fields(said), {
                PREFIX + "Allow-Origin": ORIGIN, PREFIX + "Allow-Headers": "Authorization",
                PREFIX + "Max-Age": "600",
                PREFIX + "Expose-Headers": "Retry-After, WWW-Authenticate"})
            for origin in OTHERS:
                said = self.asked_first(path, origin)
                self.assertEqual((said.status, self.fields(said)), (405, {}), origin)

    def test_the_other_front_end(self):
        """That of examples/front-end takes the same lines."""
        text, self.port = self.added(example("front-end/nginx.conf")), free_port()
        for name, value in (("DIR", self.folder), ("FRONT", self.port), ("PAGE", free_port()),
                            ("INTROSPECT", free_port()), ("USER", self.worker),
                            ("TOKEND", "unix:" + self.region.socket)):
            text = text.replace("@%s@" % name, str(value))
        self.fill("other.conf", text.replace("nginx.pid", "other.pid"))
        self.begin(NGINX, "-e", self.path("nginx.log"), "-c", self.path("other.conf"))
        self.assertTrue(until(lambda: listens(self.port)))
        self.test_no_other_origin_may()
        self.test_what_a_browser_asks_first()
        self.test_the_allowed_origin_may_read_replies()


@unittest.skipUnless(IS_HERE, LACKING)
@need_browser
class InABrowser(CorsCase):
    """The page of examples/browser, in Chromium: of another host and port than the front end."""

    def added(self, text):
        self.app = self.peer(lambda path, body: (200, {"Content-Type": "text/html"}, self.html))
        self.origin = self.app.url.replace("127.0.0.1", "localhost")
        return super().added(text)

    def setUp(self):
        super().setUp()
        html = example("browser/page.html")
        for name, value in (("FRONT", "https://127.0.0.1:%d" % self.port), ("CLIENT", self.page),
                            ("SCOPE", "read"), ("PAGE", self.origin + "/")):
            html = html.replace("@%s@" % name, value)
        self.html = html.encode()
        self.browser = browser(self)

    def log_in_by_hand(self, click="yes"):
        it = self.browser
        it.open(self.origin + "/")
        it.click("#in")
        self.assertTrue(it.says("Sign in"))
        it.write("input[name=name]", "ann")
        it.write("input[name=password]", WORDS["ann"])
        it.click("button")
        self.assertTrue(it.says("asks for: read"))
        it.click("button[value=%s]" % click)

    def test_a_login_and_its_end(self):
        it = self.browser
        self.log_in_by_hand()
        self.assertTrue(it.says("You are ann, with read."), it.text())
        self.assertEqual(it.run("return location.search"), "")
        token = it.run("return refresh_token")
        self.assertTrue(self.is_active(token))
        it.click("#out")
        self.assertTrue(it.says("Logged out."))
        self.assertFalse(self.is_active(token))

    def is_active(self, token):
        return self.region.form("/introspect", {
            "token": token, "client_id": self.reader, "client_secret": WORD})["active"]

    def test_a_denial_ends_at_the_page(self):
        self.log_in_by_hand("no")
        self.assertTrue(self.browser.says("Not logged in: access_denied"))
        asked = len(self.app.asked)
        self.browser.open(self.origin + "/?state=forged&code=forged")
        self.assertTrue(self.browser.says("This login isn't mine."))
        self.assertEqual([it for it in self.app.asked[asked:] if "favicon" not in it],
                         ["/?state=forged&code=forged"])

    def test_a_script_of_another_origin(self):
        """It may not read a token; what it sends is judged as any request."""
        page = self.app.url + "/"  # 127.0.0.1 is another origin than localhost
        self.browser.open(page)
        script = ("return fetch('https://127.0.0.1:%d%%s', %%s).then(it => it.status, "
                  "why => String(why))" % self.port)
        sent = "{method: 'POST', body: new URLSearchParams({client_id: '%s'})}" % self.page
        asked = "{headers: {Authorization: 'Bearer x'}}"
        failed = "TypeError: Failed to fetch"
        self.assertEqual(self.browser.run(script % ("/token", sent)), failed)
        self.assertEqual(self.browser.run(script % ("/who", asked)), failed)
        self.browser.open(self.origin + "/")
        self.assertEqual(self.browser.run(script % ("/token", sent)), 400)
        self.assertEqual(self.browser.run(script % ("/who", asked)), 401)
        self.assertEqual(self.browser.run(script % ("/introspect", sent)), failed)
