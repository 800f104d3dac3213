"""rules: what docs/CLIENTS.md and docs/HTTP.md say to writers of clients, of a region."""
import base64
import hashlib
import re
import time
import urllib.parse

from app import CHALLENGE, VERIFIER
from lib.asking import basic
from lib.cases import Case

PLACE = "https://app.example/cb"


class Rules(Case):
    def setUp(self):
        super().setUp()
        self.region = self.tokend(1, options=("--refresh", "6"))
        self.client = self.add(kind="public")

    def add(self, **fields):
        it = self.region.form("/admin/client", fields | {"scope": "read", "redirects": PLACE},
                              status=201)["client_id"]
        self.region.form("/admin/consent", {"client_id": it, "subject": "ann", "scope": "read"},
                         status=201)
        return it

    def code(self, challenge=CHALLENGE):
        path = "/authorize?" + urllib.parse.urlencode({
            "response_type": "code", "client_id": self.client, "redirect_uri": PLACE,
            "code_challenge": challenge, "code_challenge_method": "S256"})
        _, place, _ = self.region.ask_as("GET", path, **{"X-Subject": "ann"})
        return re.search("[?]code=([^&]+)", place)[1]

    def redeem(self, code, verifier=VERIFIER, place=PLACE, status=200, credentials=None):
        return self.region.form("/token", {
            "grant_type": "authorization_code", "code": code, "code_verifier": verifier,
            "redirect_uri": place} | ({} if credentials else {"client_id": self.client}),
            credentials, status)

    def test_a_verifier_has_43_to_128_unreserved_bytes(self):
        for verifier, status in ((VERIFIER, 200), ("a" * 43, 200), ("a" * 128, 200),
                                 ("-._~" * 11, 200), ("a" * 42, 400), ("a" * 129, 400),
                                 (VERIFIER + "=", 400), (VERIFIER[1:] + "+", 400)):
            digest = hashlib.sha256(verifier.encode()).digest()
            code = self.code(base64.urlsafe_b64encode(digest).decode().rstrip("="))
            self.redeem(code, verifier, status=status)

    def test_a_wrong_verifier_or_place_uses_no_code_up(self):
        code = self.code()
        for wrong in {"verifier": "b" * 43}, {"verifier": ""}, {"place": PLACE + "/"}:
            self.assertEqual(self.redeem(code, status=400, **wrong), {"error": "invalid_grant"})
        self.redeem(code)

    def test_basic_with_an_empty_secret(self):
        self.redeem(self.code(), credentials=basic(self.client, ""))
        other = self.add(kind="confidential", secret="s3cret")
        self.region.form("/introspect", {"token": "x"}, basic(other, ""), 401)

    def test_a_get_of_introspect(self):
        reader = self.add(kind="resource", secret="r3ader")
        status, _, said = self.region.ask_as("GET", "/introspect?token=x",
                                             Authorization="Basic " + basic(reader, "r3ader"))
        self.assertEqual((status, said), (405, b'{"error":"method_not_allowed"}'))

    def test_a_refresh_token_that_has_expired_ends_nothing(self):
        reader = basic(self.add(kind="resource", secret="r3ader"), "r3ader")
        first = self.redeem(self.code())
        time.sleep(4)
        second = self.region.form("/token", {
            "grant_type": "refresh_token", "client_id": self.client,
            "refresh_token": first["refresh_token"]})
        time.sleep(3)
        revoke = {"client_id": self.client, "token": first["refresh_token"]}
        self.region.form("/revoke", revoke)
        for token in first["access_token"], second["access_token"], second["refresh_token"]:
            self.assertTrue(self.region.form("/introspect", {"token": token}, reader)["active"])
        self.region.form("/admin/signout", {"subject": "ann"})
        for token in first["access_token"], second["access_token"], second["refresh_token"]:
            self.assertFalse(self.region.form("/introspect", {"token": token}, reader)["active"])
