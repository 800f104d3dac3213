"""repeating: what becomes of logins whose program sends a refresh again, by `serve --repeat`."""
import re
import sys
import time
import urllib.parse
from concurrent.futures import ThreadPoolExecutor

from app import CHALLENGE, VERIFIER
from lib import command
from mail_tokens import TokenCase

LOGINS, SECONDS = 20, 10
REPEATED = "--repeat", str(SECONDS)
LATER = SECONDS + 1.5  # a region's moments are whole seconds


def noted(over):
    """The number of logins that are over, which -v prints."""
    if command.GIVEN.v:
        print("%d of %d over" % (over, LOGINS), end=" ... ", file=sys.stderr, flush=True)
    return over


class RepeatCase(TokenCase):
    """Logins, each of which a program refreshes: `refresh` returns the access tokens it got."""

    workers = 1  # how many logins are refreshed at once
    least_over = 1  # how many logins are over at least without --repeat

    def setUp(self):
        """Each test begins a region by `serve`."""

    def serve(self, *options):
        self.options = options
        super().setUp()

    def new_login(self):
        """The tokens of a login."""
        path = "/authorize?" + urllib.parse.urlencode({
            "response_type": "code", "client_id": self.client, "redirect_uri": self.back,
            "code_challenge": CHALLENGE, "code_challenge_method": "S256"})
        _, place, _ = self.region.ask_as("GET", path, **{"X-Subject": "ann"})
        return self.region.form("/token", {
            "grant_type": "authorization_code", "code": re.search("code=([^&]+)", place)[1],
            "code_verifier": VERIFIER, "redirect_uri": self.back, "client_id": self.client})

    def form_of(self, tokens):
        """The form of a refresh."""
        return {"grant_type": "refresh_token", "refresh_token": tokens["refresh_token"],
                "client_id": self.client}

    def refresh_all(self):
        """New logins with what their programs got."""
        logins = [self.new_login() for _ in range(LOGINS)]
        with ThreadPoolExecutor(self.workers) as pool:
            return list(zip(logins, pool.map(self.refresh, logins)))

    def count_over(self, refreshed):
        return noted(sum(not self.is_active(it["access_token"]) for it, _ in refreshed))


class Repeats:
    """The tests of a RepeatCase."""

    def test_with_repeat_each_login_goes_on(self):
        self.serve(*REPEATED)
        refreshed = self.refresh_all()
        self.assertGreater(self.sent(), LOGINS)
        self.assertEqual(self.count_over(refreshed), 0)
        for _, got in refreshed:
            self.assertEqual(len(set(got)), 1, got)
            self.assertTrue(self.is_active(got[0]), got)
        self.steal_later(refreshed)

    def steal_later(self, refreshed):
        """A thief sends the refresh tokens again after the time: each login ends."""
        time.sleep(LATER)
        for tokens, got in refreshed:
            said = self.region.form("/token", self.form_of(tokens), status=400)
            self.assertEqual(said, {"error": "invalid_grant"})
            self.assertFalse(self.is_active(got[0]))
        self.assertEqual(self.count_over(refreshed), LOGINS)

    def test_without_it_logins_are_over(self):
        self.serve()
        self.assertGreaterEqual(self.count_over(self.refresh_all()), self.least_over)
