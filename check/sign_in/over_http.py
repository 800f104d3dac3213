"""over_http: what the front end lets through, and the attacks that it refuses."""
import re
import unittest
from concurrent.futures import ThreadPoolExecutor

from front import IS_HERE, LACKING, WORDS, FrontCase


@unittest.skipUnless(IS_HERE, LACKING)
class Pages(FrontCase):
    def test_a_whole_login(self):
        """No session, sign-in, consent, code: each step goes on to the one that was asked for."""
        path = self.wanted(scope="read")
        cookie, said = self.sign_in(path=path)
        self.assertEqual(said.place, path)
        page = self.ask("GET", path, cookie)
        self.assertEqual((page.status, page.place, page.hidden("next")), (200, "", path))
        self.assertIn("You are <b>ann</b>. The application <b>%s</b> asks for: <b>read</b>"
                      % self.client, page.body)
        said = self.ask("POST", "/consent", cookie, {"csrf": page.hidden("csrf"),
                                                     "next": path, "allow": "yes"})
        self.assertEqual((said.status, said.place), (303, path))
        said = self.ask("GET", path, cookie)
        self.assertEqual(said.status, 302)
        self.assertRegex(said.place, r"^https://app[.]example/cb[?]code=\S{48}&state=x%2Fy")
        self.assertEqual(said.fields["Cache-Control"], "no-store")
        code = re.search("code=([^&]+)", said.place)[1]
        said = self.ask("POST", "/token", form={
            "grant_type": "authorization_code", "code": code, "client_id": self.client,
            "client_secret": "s3cret"})
        self.assertIn('"scope":"read"', said.body)
        token = re.search('"access_token":"([^"]+)"', said.body)[1]
        said = self.ask("POST", "/introspect", form={
            "token": token, "client_id": self.client, "client_secret": "s3cret"})
        self.assertIn('"sub":"ann"', said.body)

    def test_the_whole_scope_is_shown_and_given_if_none_is_named(self):
        cookie, _ = self.sign_in()
        page = self.ask("GET", self.wanted(), cookie)
        self.assertIn("<b>read write</b>", page.body)
        form = {"csrf": page.hidden("csrf"), "next": page.hidden("next"), "allow": "yes"}
        self.assertEqual(self.ask("POST", "/consent", cookie, form).status, 303)
        self.assertIn("code=", self.ask("GET", self.wanted(scope="write"), cookie).place)

    def test_who_denies_is_sent_back_to_the_application(self):
        cookie, _ = self.sign_in()
        page, before = self.ask("GET", self.wanted(), cookie), self.consents()
        said = self.ask("POST", "/consent", cookie, {
            "csrf": page.hidden("csrf"), "next": page.hidden("next"), "allow": "no"})
        self.assertEqual(said.status, 303)
        self.assertRegex(said.place, "^https://app[.]example/cb[?]error=access_denied&state=")
        self.assertEqual(self.consents(), before)

    def test_who_denied_is_asked_again_by_the_next_request(self):
        """An application that goes on to ask after a denial gets a page, and no redirect."""
        for client in self.client, self.add_public("https://app.example/cb"):
            self.client = client
            cookie, _ = self.sign_in()
            path = self.wanted(code_challenge="a" * 43)
            page = self.ask("GET", path, cookie)
            self.ask("POST", "/consent", cookie, {
                "csrf": page.hidden("csrf"), "next": page.hidden("next"), "allow": "no"})
            said = self.ask("GET", path, cookie)
            self.assertEqual((said.status, said.place), (200, ""))
            self.assertIn("<h1>Allow ", said.body)

    def test_other_errors_go_to_the_application(self):
        cookie, _ = self.sign_in()
        said = self.ask("GET", self.wanted(scope="admin"), cookie)
        self.assertEqual(said.status, 302)
        self.assertIn("error=invalid_scope", said.place)
        said = self.ask("GET", "/authorize?client_id=c9-9", cookie)
        self.assertEqual((said.status, said.body), (400, '{"error":"invalid_request"}'))

    def test_a_wrong_password_and_a_name_that_is_not_there(self):
        first = self.ask("GET", "/sign-in")
        cookie = self.cookie_of(first)
        for name, word in (("ann", "guess"), ("ann", ""), ("eve", WORDS["ann"]), ("", ""),
                           ("ann", WORDS["bob"])):
            said = self.ask("POST", "/sign-in", cookie, {
                "csrf": first.hidden("csrf"), "name": name, "password": word})
            self.assertEqual((said.status, said.cookies), (401, []))
        self.assertIn("<h1>Sign in</h1>", self.ask("GET", self.wanted(), cookie).body)

    def test_passwords_are_kept_as_scrypt_with_salts_of_their_own(self):
        with open(self.path("users"), encoding="utf-8") as file:
            lines = file.read()
        kept = ":[0-9a-f]{32}:[0-9a-f]{128}\n"
        self.assertRegex(lines, "^ann%sbob%s$" % (kept, kept))
        self.assertEqual(len(set(re.findall("[0-9a-f]{32,}", lines))), 4)

    def test_the_cookie_is_for_this_host_alone(self):
        for reply in self.ask("GET", "/sign-in"), self.sign_in()[1]:
            self.assertRegex(reply.cookies[0], r"^__Host-session=[\w-]{43}; Path=/; "
                             "Max-Age=28800; HttpOnly; Secure; SameSite=Lax$")


@unittest.skipUnless(IS_HERE, LACKING)
class Attacks(FrontCase):
    def test_a_forged_subject(self):
        """Neither without a session nor with another's is somebody who their header says."""
        self.admin("/admin/consent", client_id=self.client, subject="ann", scope="read")
        path = self.wanted(scope="read")
        for name in "X-Subject", "x-subject", "X_Subject":
            said = self.ask("GET", path, **{name: "ann"})
            self.assertEqual((said.status, said.place), (200, ""))
            self.assertIn("<h1>Sign in</h1>", said.body)
        cookie, _ = self.sign_in("bob")
        said = self.ask("GET", path, cookie, **{"X-Subject": "ann"})
        self.assertEqual((said.status, said.place), (200, ""))
        self.assertIn("You are <b>bob</b>", said.body)
        self.assertIn("code=", self.ask("GET", path, self.sign_in("ann")[0]).place)

    def test_a_form_without_its_token_or_with_anothers(self):
        ann, _ = self.sign_in("ann")
        bob, _ = self.sign_in("bob")
        mine = self.ask("GET", self.wanted(), ann)
        before = self.consents()
        for token in None, "", "0" * 64, "\u00e9", self.ask("GET", self.wanted(),
                                                           bob).hidden("csrf"):
            form = {"next": mine.hidden("next"), "allow": "yes"}
            said = self.ask("POST", "/consent", ann,
                            form | ({} if token is None else {"csrf": token}))
            self.assertEqual(said.status, 403)
        for cookie in "", "__Host-session=" + "a" * 43:
            form = {"next": mine.hidden("next"), "allow": "yes", "csrf": mine.hidden("csrf")}
            self.assertEqual(self.ask("POST", "/consent", cookie, form).status, 403)
        self.assertEqual(self.consents(), before)

    def test_a_sign_in_from_elsewhere(self):
        """An attacker's own token doesn't sign a victim in as the attacker."""
        mine, victim = self.ask("GET", "/sign-in"), self.ask("GET", "/sign-in")
        said = self.ask("POST", "/sign-in", self.cookie_of(victim), {
            "csrf": mine.hidden("csrf"), "name": "bob", "password": WORDS["bob"]})
        self.assertEqual((said.status, said.cookies), (403, []))

    def test_a_consent_without_a_session(self):
        first = self.ask("GET", "/sign-in")
        before = self.consents()
        said = self.ask("POST", "/consent", self.cookie_of(first), {
            "csrf": first.hidden("csrf"), "next": self.wanted(), "allow": "yes"})
        self.assertEqual((said.status, self.consents()), (404, before))

    def test_an_open_redirect(self):
        first = self.ask("GET", "/sign-in?next=https://evil.example/",
                         **{"X-Next": "https://evil.example/"})
        self.assertEqual(first.hidden("next"), "")
        cookie, token = self.cookie_of(first), first.hidden("csrf")
        for place in ("https://evil.example/", "//evil.example/", "/\\evil.example", "/authorize",
                      "/authorize?x\r\nSet-Cookie: a=b", "/authorizex?a", "javascript:alert(1)",
                      "/authorize?a b", " /authorize?a", "/authorize@evil.example?a"):
            said = self.ask("POST", "/sign-in", cookie, {
                "csrf": token, "next": place, "name": "ann", "password": WORDS["ann"]})
            self.assertEqual((said.status, said.place, said.cookies), (400, "", []), place)

    def test_a_planted_cookie_is_nobodys_after_a_sign_in(self):
        """A cookie that an attacker planted is nobody's after the sign-in."""
        planted = self.ask("GET", "/sign-in")
        cookie = self.cookie_of(planted)
        said = self.ask("POST", "/sign-in", cookie, {
            "csrf": planted.hidden("csrf"), "name": "ann", "password": WORDS["ann"]})
        self.assertEqual(said.status, 303)
        self.assertNotEqual(self.cookie_of(said), cookie)
        self.assertIn("<h1>Sign in</h1>", self.ask("GET", self.wanted(), cookie).body)
        self.assertIn("<h1>Allow ", self.ask("GET", self.wanted(), self.cookie_of(said)).body)
        again = self.ask("GET", "/sign-in", self.cookie_of(said))
        other = self.ask("POST", "/sign-in", self.cookie_of(said), {
            "csrf": again.hidden("csrf"), "name": "bob", "password": WORDS["bob"]})
        self.assertIn("<h1>Sign in</h1>",
                      self.ask("GET", self.wanted(), self.cookie_of(said)).body)
        self.assertIn("You are <b>bob</b>",
                      self.ask("GET", self.wanted(), self.cookie_of(other)).body)

    def test_markup_in_a_request(self):
        cookie, _ = self.sign_in()
        path = self.wanted() + "&x=%22%3E%3Cscript%3Ealert(1)%3C/script%3E&y=\"><script>"
        page = self.ask("GET", path, cookie)
        self.assertNotIn("<script", page.body)
        self.assertIn("frame-ancestors 'none'", page.fields["Content-Security-Policy"])

    def test_what_is_for_the_inside_alone(self):
        cookie, _ = self.sign_in()
        for path in "/admin/consent", "/admin/client", "/sync/push", "/check", "//admin/client":
            self.assertEqual(self.ask("POST", path, cookie, {"a": "b"}).status, 404, path)
        self.assertEqual(self.ask("GET", "/check", cookie).status, 404)
        self.assertEqual(self.ask("GET", "/consent", cookie,
                                  **{"X-Next": self.wanted()}).status, 403)
        self.assertEqual(self.ask("POST", "/authorize", cookie, {"a": "b"}).status, 405)

    def test_a_server_refreshes_for_all_its_users(self):
        """Of 200 requests from one address at once none is refused for its rate."""
        for path in "/token", "/introspect", "/revoke":
            with ThreadPoolExecutor(20) as pool:
                statuses = set(pool.map(
                    lambda _, path=path: self.ask("POST", path, form={
                        "token": "x", "client_id": self.client, "client_secret": "s3cret"}).status,
                    range(200)))
            self.assertLessEqual(statuses, {200, 400}, path)

    def test_guessing_is_slowed(self):
        statuses = [self.ask("GET", "/sign-in").status for _ in range(40)]
        self.assertIn(429, statuses)
