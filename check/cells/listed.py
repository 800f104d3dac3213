"""listed: what a subject has in cells, and the end of one login, by the front end's inner side."""
import json
import urllib.parse

import fronted
from tables import slot_of

NOT_FOUND = 404, b'{"error":"not_found"}'
INVALID = 400, b'{"error":"invalid_request"}'


class Listed(fronted.Celled):
    def page(self, query, name=None):
        """Status and body of the reply to a query, by the inner side or by a site itself."""
        path = "/admin/subject?" + query
        if name:
            return self.server(name).ask(path)
        return self.ask("GET", path, is_inner=True)[::2]

    def logins(self, subject, name=None):
        """The ids and states of a subject's logins."""
        status, said = self.page("subject=" + subject, name)
        self.assertEqual(status, 200, said)
        return [(it["login_id"], it["state"]) for it in json.loads(said)["logins"]]

    def log_out(self, **form):
        """Status and body of the reply to a logout."""
        return self.ask("POST", "/admin/logout", form, is_inner=True)[::2]

    def end_login(self, login):
        """Ends a login that there is."""
        self.assertEqual(self.log_out(login_id=login),
                         (200, b'{"login_id":"%s"}' % login.encode()))

    def test_a_login_of_each_cell_is_listed_and_ended_by_its_id(self):
        for name, first in ("a1", 100), ("a2", 200), ("b1", 300):
            user = self.of_site(name)
            consent = self.give(user)
            tokens = [self.sign_in(user)[0] for _ in range(2)]
            said = json.loads(self.page("subject=" + user)[1])
            ids = [it["login_id"] for it in said["logins"]]
            given = {"client_id": self.client, "scope": "read write"}
            self.assertRegex(" ".join(ids), r"^l%d-\d+ l%d-\d+$" % (first, first))
            self.assertEqual(said, {
                "consents": [given | {"consent_id": consent}], "subject": user,
                "logins": [given | {"exp": it["exp"], "iat": it["iat"], "login_id": login,
                                    "state": "active"}
                           for it, login in zip(said["logins"], ids)]})
            for _ in range(2):
                self.end_login(ids[0])
            self.assertEqual(self.logins(user), [(ids[0], "ended"), (ids[1], "active")])
            self.assertEqual([self.introspect(it) for it in tokens], [(200, False), (200, True)])
            self.assertEqual(set(self.by()[-7:]), {"%s/%s" % (name, name)})
            self.assertEqual(self.logins(user, "dir1"), [])

    def test_a_page_and_an_escaped_name_are_of_the_same_cell(self):
        user = self.of_site("b1")
        self.give(user)
        self.sign_in(user)
        self.sign_in(user)
        (first, _), second = self.logins(user)
        escaped = "".join("%%%02x" % ord(it) for it in user)
        for query in "logins_after=%s&subject=%s" % (first, escaped), urllib.parse.urlencode(
                {"subject": user, "consents_after": "g1-1", "logins_after": first}):
            said = self.page(query)
            self.assertEqual(said, self.page(query, "b1"))
            self.assertEqual([it["login_id"] for it in json.loads(said[1])["logins"]],
                             [second[0]])
        self.assertEqual(self.by()[-2:], ["b1/b1"] * 2)

    def test_unknown_ids_and_requests_that_name_nothing(self):
        for login, where in (("l100-999", "a1/a1"), ("l299-1", "a2/a2"), ("l300-999", "b1/b1"),
                             ("l1-999", "dir1/dir1")):
            self.assertEqual(self.log_out(login_id=login), NOT_FOUND)
            self.assertEqual(self.by()[-1], where)
        for login in "l500-1", "ann", "g100-1":
            self.assertEqual(self.log_out(login_id=login), NOT_FOUND)
        for form in {}, {"login_id": ""}:
            self.assertEqual(self.log_out(**form), INVALID)
        user = "subject=" + self.of_site("a1")
        for query in "", "subject=", user + "&" + user:
            self.assertEqual(self.page(query), INVALID)
        for query in "&logins_after=g100-1", "&consents_after=l100-1":
            self.assertEqual(self.page(user + query), NOT_FOUND)

    def test_a_subject_that_moved_is_listed_where_new_logins_are(self):
        user = self.of_site("a1")
        self.give(user)
        old = self.sign_in(user)[0]
        (login, _), = self.logins(user)
        self.done("move", "b1", str(slot_of(user)))
        self.assertEqual((self.logins(user), self.by()[-1]), ([], "b1/b1"))
        new = self.sign_in(user)[0]
        self.assertEqual([it[0][:5] for it in self.logins(user)], ["l300-"])
        self.assertEqual(self.logins(user, "a1"), [(login, "active")])
        self.end_login(login)
        self.assertEqual(self.by()[-1], "a1/a1")
        self.assertEqual(self.logins(user, "a1"), [(login, "ended")])
        self.assertEqual([self.introspect(it) for it in (old, new)], [(200, False), (200, True)])

    def test_what_the_directory_holds_of_a_subject_is_listed_in_its_cell(self):
        user = self.of_site("a1")
        self.form("dir1", "/admin/consent", client_id=self.client, subject=user,
                  scope="read write")
        _, where, _ = self.server("dir1").ask_as(
            "GET", "/authorize?response_type=code&client_id=" + self.client, **{"X-Subject": user})
        said = self.ask("POST", "/token", {
            "grant_type": "authorization_code", "code": where.partition("code=")[2]}, **self.mine)
        self.assertEqual((said[0], self.by()[-1]), (200, "dir1/dir1"))
        self.done("carry", "--once")
        (login, state), = self.logins(user)
        self.assertEqual((login[:3], state, self.by()[-1]), ("l1-", "active", "a1/a1"))
        self.end_login(login)
        self.assertEqual(self.by()[-1], "dir1/dir1")
        self.assertEqual(self.introspect(json.loads(said[2])["access_token"]), (200, False))
        self.done("carry", "--once")
        self.assertEqual(self.logins(user), [(login, "ended")])
