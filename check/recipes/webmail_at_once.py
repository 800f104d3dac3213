"""webmail_at_once: Roundcube with sessions in the database, which refreshes twice at once."""
import time
import unittest
from concurrent.futures import ThreadPoolExecutor
from http.cookiejar import CookieJar

from dovecot import CAN, LACKING
from repeating import LATER, LOGINS, REPEATED, noted
from webmail import ABSENT, IS_HERE, Webmail


@unittest.skipUnless(CAN, LACKING)
@unittest.skipUnless(IS_HERE, ABSENT)
class WithSessionsOfTheDatabase(Webmail):
    """Why the lines of the recipe name the sessions."""

    sessions = "db"

    def setUp(self):
        """Each test begins a region by `serve`."""

    def serve(self, *options):
        self.options = *Webmail.options, *options
        super().setUp()

    def new_login(self):
        self.jar = CookieJar()
        self.enter()
        return self.jar, self.request_token

    def shows(self, login):
        """Whether the page of a login shows the message."""
        self.jar, self.request_token = login
        return "A first message" in self.list()[2]

    def two_at_once(self):
        """Logins, each of which got two requests at once after its access token's end."""
        logins = [self.new_login() for _ in range(LOGINS)]
        time.sleep(3.5)
        with ThreadPoolExecutor(2) as pool:
            for login in logins:
                list(pool.map(self.shows, [login, login]))
        return logins

    def count_over(self, logins):
        return noted(sum(not self.shows(it) for it in logins))

    def refreshes(self):
        """The forms of the refreshes that were sent."""
        return [it for it in self.front.bodies if b"grant_type=refresh_token" in it]

    def test_without_repeat_logins_are_over(self):
        self.serve()
        self.assertGreater(self.count_over(self.two_at_once()), 0)

    def test_with_repeat_each_login_goes_on(self):
        self.serve(*REPEATED)
        logins = self.two_at_once()
        sent = self.refreshes()
        self.assertGreater(len(sent), len(set(sent)))
        self.assertEqual(self.count_over(logins), 0)
        self.steal_later(logins)

    def steal_later(self, logins):
        """A thief sends the refresh tokens again after the time: each login ends."""
        time.sleep(LATER)
        for form in set(self.refreshes()):
            self.assertEqual(self.pass_on("/token", form)[0], 400)
        self.assertEqual(self.count_over(logins), LOGINS)
