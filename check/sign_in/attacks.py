"""attacks: what was tried on the pages and their front end, each with what must come of it."""
import base64
import time
import unittest
from concurrent.futures import ThreadPoolExecutor

from front import IS_HERE, LACKING, FrontCase

CHALLENGE = {"code_challenge": "x" * 43}


@unittest.skipUnless(IS_HERE, LACKING)
class Consents(FrontCase):
    def answer(self, page, cookie, allow):
        """What a click on the page to consent gets."""
        return self.ask("POST", "/consent", cookie, {
            "csrf": page.hidden("csrf"), "next": page.hidden("next"), "allow": allow})

    def test_a_public_client_gets_no_code_without_a_click(self):
        """Its id is no secret: whoever uses it with a consent that is held must be clicked."""
        self.client = self.add_public("https://app.example/cb")
        path = self.wanted(scope="read", **CHALLENGE)
        cookie, _ = self.sign_in(path=path)
        for _ in range(2):  # the second time the consent is held
            page = self.ask("GET", path, cookie)
            self.assertEqual((page.status, page.place), (200, ""))
            self.assertIn("<h1>Allow ", page.body)
            said = self.answer(page, cookie, "yes")
            self.assertEqual((said.status, said.place), (303, path))
            self.assertIn("cb?code=", self.ask("GET", path, cookie).place)
        self.assertEqual(self.ask("GET", path, cookie).place, "")

    def test_a_click_counts_for_its_own_request(self):
        self.client = self.add_public("https://app.example/cb")
        path, other = (self.wanted(scope="read", nonce=it, **CHALLENGE) for it in "ab")
        cookie, _ = self.sign_in(path=path)
        self.answer(self.ask("GET", path, cookie), cookie, "yes")
        self.assertEqual(self.ask("GET", other, cookie).place, "")
        self.assertEqual(self.ask("GET", path + "&x=" + "a" * 7000, cookie).status, 404)
        self.assertEqual(self.ask("GET", "/." + path, cookie).status, 404)

    def test_a_wrong_request_of_a_public_client_goes_on_to_its_error(self):
        self.client = self.add_public("https://app.example/cb")
        cookie, _ = self.sign_in()
        self.assertIn("error=invalid_scope",
                      self.ask("GET", self.wanted(scope="no", **CHALLENGE), cookie).place)
        path = self.wanted(redirect_uri="https://evil.example/", **CHALLENGE)
        self.assertEqual(self.ask("GET", path, cookie).status, 400)

    def test_a_denial_where_a_consent_is_held(self):
        """It leads back to the application as a denial, and no code is made."""
        cookie, _ = self.sign_in()
        page = self.ask("GET", self.wanted(), cookie)
        self.assertEqual(self.answer(page, cookie, "yes").status, 303)
        before = self.consents()
        said = self.answer(page, cookie, "no")
        self.assertEqual(said.status, 303)
        self.assertRegex(said.place, "^https://app[.]example/cb[?]error=access_denied&state=")
        self.assertEqual(self.consents(), before)

    def test_the_page_says_who_asks_and_where_it_leads(self):
        self.add_client("https://calendar.example/cb")
        self.client = self.add_client("https://x@mail.example:8443/cb")
        self.assertEqual(self.client, "c1-3")
        cookie, _ = self.sign_in()
        page = self.ask("GET", self.wanted(), cookie).body
        self.assertIn("The application <b>&lt;b&gt;Mail&lt;/b&gt; (c1-3)</b> asks for", page)
        self.assertIn("lead to <b>mail.example:8443</b>", page)
        self.client = self.add_client("com.example.app:/cb")
        self.assertIn("lead to <b>com.example.app:</b>",
                      self.ask("GET", self.wanted(), cookie).body)

    def test_clicks_without_end_make_one_consent(self):
        cookie, _ = self.sign_in()
        page, before = self.ask("GET", self.wanted(), cookie), self.consents()
        statuses = [self.answer(page, cookie, "yes").status for _ in range(30)]
        self.assertLessEqual({303, 429}, set(statuses))
        self.assertEqual(self.consents(), before + 1)

    def test_a_consent_that_was_withdrawn_can_be_given_again(self):
        cookie, _ = self.sign_in()
        self.answer(self.ask("GET", self.wanted(), cookie), cookie, "yes")
        said = self.region.ask("/admin/withdraw", b"consent_id=g1-2")
        self.assertEqual(said[0], 200, said)
        page = self.ask("GET", self.wanted(), cookie)
        self.assertEqual(self.answer(page, cookie, "yes").status, 303)
        self.assertIn("cb?code=", self.ask("GET", self.wanted(), cookie).place)

    def test_no_reply_lets_a_page_be_named_as_the_referrer(self):
        cookie, _ = self.sign_in()
        page = self.ask("GET", self.wanted(), cookie)
        self.answer(page, cookie, "yes")
        for said in (page, self.ask("GET", "/sign-in"), self.ask("GET", self.wanted(), cookie),
                     self.ask("GET", "/authorize?client_id=c9-9", cookie)):
            self.assertEqual(said.fields.get_all("Referrer-Policy"), ["no-referrer"], said.status)


@unittest.skipUnless(IS_HERE, LACKING)
class Guesses(FrontCase):
    def status(self, path, client, secret):
        word = base64.b64encode(("%s:%s" % (client, secret)).encode()).decode()
        return self.ask("POST", path, form={"token": "x"}, Authorization="Basic " + word).status

    def test_a_right_secret_behind_a_wrong_one_is_not_seen(self):
        other = self.add_client("https://other.example/cb")
        for path in "/introspect", "/revoke", "/token":
            good = 400 if path == "/token" else 200
            self.assertEqual(self.status(path, self.client, "s3cret"), good)
            self.assertEqual(self.status(path, self.client, "guess"), 401)
            self.assertEqual(self.status(path, self.client, "s3cret"), 429)
            self.assertEqual(self.status(path, other, "s3cret"), good)
            time.sleep(2.1)
            self.assertEqual(self.status(path, self.client, "s3cret"), good)

    def test_few_of_many_guesses_are_seen(self):
        for spelt in self.client, self.client.replace("-", "%2d"):
            with ThreadPoolExecutor(20) as pool:
                said = list(pool.map(
                    lambda number, it=spelt: self.status("/introspect", it, str(number)),
                    range(300)))
            self.assertLessEqual(set(said), {401, 429})
            self.assertLess(said.count(401), 60)
        self.assertEqual(self.status("/introspect", self.client.replace("c", "%63"), "s3cret"), 429)

    def test_guesses_in_the_body(self):
        form = {"token": "x", "client_id": self.client, "client_secret": "guess"}
        self.assertEqual(self.ask("POST", "/introspect", form=form).status, 401)
        self.assertEqual(self.ask("POST", "/introspect",
                                  form=form | {"client_secret": "s3cret"}).status, 429)

    def test_a_refusal_is_that_of_the_region(self):
        said = self.ask("POST", "/introspect", form={"token": "x"})
        self.assertEqual((said.status, said.body), (401, '{"error":"invalid_client"}'))
        self.assertEqual(said.fields.get_all("WWW-Authenticate"), ['Basic realm="tokend"'])
        self.assertEqual(said.fields["Content-Type"], "application/json")
        self.assertEqual(said.fields["Cache-Control"], "no-store")
