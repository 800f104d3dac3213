"""app: the front end of examples/sign-in with `who` behind it, and an application's logins."""
import json
import re
import urllib.parse

from front import FrontCase
from lib import TOP
from lib.asking import FORM
from lib.waiting import free_port, listens, until

WORD = "who-word"  # the secret of `who`
VERIFIER = "dBjftJeZ4CVP-mB92K27uhbUJU1p1r_wW1gFWFOEjXk"  # those of RFC 7636, appendix B
CHALLENGE = "E9Melhoa2OwvFrEMTJguCHaoeK1t8URWbuGJSstw-cM"


def example(name):
    with open("%s/examples/%s" % (TOP, name), encoding="utf-8") as file:
        return file.read()


def recipe(first):
    """The block of docs/RECIPES.md that has this first line."""
    with open(TOP + "/docs/RECIPES.md", encoding="utf-8") as file:
        return re.search("^```\n(%s\n.*?)^```$" % re.escape(first), file.read(), re.M | re.S)[1]


class AppCase(FrontCase):
    """A front end with `who`; `client` is a confidential client with ann's consent."""

    def setUp(self):
        self.who = free_port()
        super().setUp()
        self.reader = self.admin("/admin/client", kind="resource", secret=WORD,
                                 scope="read", redirects="https://who.example/unused")
        self.begin("env", "SECRET=" + WORD, "PYTHONDONTWRITEBYTECODE=1",
                   TOP + "/examples/who/who", str(self.who), self.region.url,
                   self.reader)
        self.assertTrue(until(lambda: listens(self.who)))
        self.consent(self.client)

    def consent(self, client, subject="ann", scope="read"):
        self.admin("/admin/consent", client_id=client, subject=subject, scope=scope)

    def added(self, text):
        return text.replace("    server {\n", "    server {\n" + example("who/who.conf").replace(
            "@WHO@", str(self.who)))

    def log_in(self, subject="ann"):
        """The tokens of a new login of the client."""
        path = "/authorize?" + urllib.parse.urlencode({
            "response_type": "code", "client_id": self.client, "scope": "read"})
        _, place, _ = self.region.ask_as("GET", path, **{"X-Subject": subject})
        return self.token(grant_type="authorization_code",
                          code=re.search("code=([^&]+)", place)[1])

    def token(self, **form):
        said = self.ask("POST", "/token", form=form | {
            "client_id": self.client, "client_secret": "s3cret"}, **FORM)
        self.assertEqual(said.status, 200, said.body)
        return json.loads(said.body)
