"""who_it_is: what examples/who replies, at the front end."""
import json
import unittest

from app import AppCase
from front import IS_HERE, LACKING

INVALID = 'Bearer error="invalid_token"'


@unittest.skipUnless(IS_HERE, LACKING)
class WhoItIs(AppCase):
    def who_is(self, token=None, method="GET", path="/who"):
        """Status, `WWW-Authenticate` and members of the reply."""
        more = {"Authorization": "Bearer " + token} if token else {}
        said = self.ask(method, path, **more)
        return said.status, said.fields["WWW-Authenticate"], said.body

    def refused(self, token):
        status, challenge, body = self.who_is(token)
        self.assertEqual((status, challenge, json.loads(body)), (401, INVALID, {"active": False}))

    def test_an_access_token_is_somebodys(self):
        tokens = self.log_in()
        status, challenge, body = self.who_is(tokens["access_token"])
        self.assertEqual((status, challenge), (200, None))
        self.assertEqual(json.loads(body), {"active": True, "client_id": self.client,
                                            "scope": "read", "sub": "ann"})

    def test_tokens_that_are_nobodys_get_401(self):
        """A refresh token, no token of tokend, a revoked one, a client's id and secret."""
        tokens = self.log_in()
        self.refused(tokens["refresh_token"])
        self.refused("nonsense")
        self.ask("POST", "/revoke", form={"token": tokens["access_token"], "client_id": self.client,
                                          "client_secret": "s3cret"})
        self.refused(tokens["access_token"])
        said = self.ask("GET", "/who", Authorization="Basic YzEtMjpzM2NyZXQ=")
        self.assertEqual((said.status, said.fields["WWW-Authenticate"]), (401, "Bearer"))

    def test_without_a_token_in_the_header(self):
        token = self.log_in()["access_token"]
        for path in "/who", "/who?access_token=" + token:
            self.assertEqual(self.who_is(path=path)[:2], (401, "Bearer"))
        said = self.ask("POST", "/who", form={"access_token": token})
        self.assertEqual(said.status, 405)

    def test_nobody_is_anybody_while_tokend_is_away(self):
        token = self.log_in()["access_token"]
        self.region.stop()
        self.assertEqual(self.who_is(token), (503, None, "{}"))

    def test_no_reply_is_kept(self):
        said = self.ask("GET", "/who", Authorization="Bearer " + self.log_in()["access_token"])
        self.assertEqual(said.fields["Cache-Control"], "no-store")
