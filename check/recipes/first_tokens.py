"""first_tokens: programs that send their first refresh token at each refresh.

Their settings are those of docs/RECIPES.md, with the refresh token of a login by `token` of
examples/mail.
"""
import base64
import json
import os
import shutil
import subprocess
import time
import unittest

from app import recipe
from dovecot import CAN, LACKING, MESSAGE, MailCase
from lib.tls import OPENSSL
from mail_programs import NODE_PATH, NODEMAILER, SmtpCase
from repeating import REPEATED

TIMES = 5
LIFE = 5  # seconds that an access token lives for a program that runs on
REFUSED = 400, {"error": "invalid_grant"}
OF_NODE, MADE = "// nodemailer, node-xoauth2", "nodemailer.createTransport"
# Node gives a connection to one of several addresses a quarter of a second, which may be too short
# on a busy machine.
EACH_LINE = """
require("net").setDefaultAutoSelectFamily?.(false);
require("readline").createInterface({input: process.stdin}).on("line", () => %s);
"""
SENDING = """sender.sendMail({from: "ann@example.org", to: "bob@example.org", subject: "x"}).then(
    () => console.log("sent"), (why) => console.log(why.message))"""
XOAUTH2 = NODE_PATH + "/xoauth2"
GENERATING = "generator.getToken((why, it) => console.log(why ? why.message : it))"


class FirstToken:
    """A program with a refresh token; `use` has it log in, and returns whether it did."""

    def begin_with(self, **more):
        """A login of a client with a secret. `got` has the replies to the program."""
        self.register("first.json", kind="confidential", secret="s3cret", **more)
        self.assertEqual(self.log_in(), (0, ""))
        self.first, self.got, self.treat = self.kept()["refresh_token"], [], self.note

    def note(self, path, body):
        """The region's reply to a request, of which there is one at a time."""
        self.assertIn(self.first.encode(), body)
        own = {name: it for name, it in self.front.heads[-1].items() if name == "Authorization"}
        said = self.pass_on(path, body, **own)
        self.got.append((said[0], json.loads(said[2])))
        return said

    def settings(self, first, *changes):
        """The program's in RECIPES, whose first line is given."""
        return self.filled(recipe(first), ("https://login.example", self.front.url),
                           ("c1-1", self.client), ("REFRESH", self.first), *changes)

    def test_a_refresh_token_that_is_kept(self):
        self.begin_with(refresh="kept")
        for _ in range(TIMES):
            self.assertTrue(self.use())
            self.assertTrue(self.is_active(self.got[-1][1]["access_token"]))
        self.assertEqual([status for status, _ in self.got], [200] * TIMES)
        self.assertEqual(len({it["access_token"] for _, it in self.got}), TIMES)
        self.assertFalse(any("refresh_token" in it for _, it in self.got))
        self.assertTrue(self.is_active(self.first))

    def test_a_refresh_token_that_is_good_once(self):
        self.begin_with()
        self.assertTrue(self.use())
        (status, said), = self.got
        self.assertEqual(status, 200)
        self.assertTrue(self.is_active(said["refresh_token"]))
        self.assertFalse(self.use())
        self.assertEqual(self.got[1:], [REFUSED] * (len(self.got) - 1))
        self.assertGreater(len(self.got), 1)
        self.assertFalse(self.is_active(said["access_token"]))
        self.assertFalse(self.is_active(said["refresh_token"]))


@unittest.skipUnless(CAN, LACKING)
@unittest.skipUnless(shutil.which("offlineimap"), "passed over: no offlineimap3")
class Offlineimap(FirstToken, MailCase):
    """It refreshes in each run."""

    def run_once(self):
        return self.offlineimap(self.settings("# offlineimap3, .offlineimaprc"))

    def use(self):
        done = self.run_once()
        self.assertEqual(len(os.listdir(self.path("synced/INBOX/new"))), 1)
        return done.returncode == 0

    def test_a_failed_refresh_prints_its_secrets(self):
        self.begin_with(refresh="kept")
        self.region.form("/admin/signout", {"subject": "ann"})
        done = self.run_once()
        self.assertEqual((done.returncode, self.got), (1, [REFUSED]))
        for it in "s3cret", self.first:
            self.assertIn(it.encode(), done.stdout)


class OfflineimapWithRepeat(Offlineimap):
    """Its refreshes are alike and seconds apart, and aren't taken for one that was sent again."""

    options = REPEATED
    test_a_refresh_token_that_is_good_once = None


@unittest.skipUnless(CAN, LACKING)
@unittest.skipUnless(shutil.which("aerc"), "passed over: no aerc")
class Aerc(FirstToken, MailCase):
    """It refreshes in each run."""

    def use(self):
        text = self.settings("# aerc, accounts.conf", ("mail.example", self.mailbox))
        shown = self.aerc(text, MESSAGE, "Disconnected")
        self.assertTrue(shown)
        return shown == MESSAGE


class NodeCase(SmtpCase):
    """A FirstToken of Node that runs on, and refreshes once its access token has ended."""

    options = "--access", str(LIFE)
    child = None

    def line(self):
        """What it prints once it was used, for the first time or after the token's end."""
        if self.child:
            time.sleep(LIFE)
        else:
            text = self.settings(OF_NODE, ("mail.example", "127.0.0.1"), ("465", self.smtp))
            self.child = subprocess.Popen(**self.node(self.script(text)), stdin=subprocess.PIPE,
                                          stdout=subprocess.PIPE)
            self.addCleanup(self.child.communicate)
            self.addCleanup(self.child.kill)
        self.child.stdin.write("\n")
        self.child.stdin.flush()
        return self.child.stdout.readline().strip()

    def use(self):
        line = self.line()
        if line == "invalid_grant":
            return False
        self.assertTrue(self.got, line)
        self.assertIn(self.got[-1][1]["access_token"], self.entered(line))
        return True


@unittest.skipUnless(os.path.exists(NODEMAILER) and OPENSSL,
                     "passed over: no node-nodemailer or no openssl")
class Nodemailer(FirstToken, NodeCase):
    def script(self, text):
        """One transport, which sends a message for each line."""
        text = self.filled(text.partition("xoauth2.")[0], (MADE, "const sender = " + MADE))
        return 'const nodemailer = require("nodemailer");' + text + EACH_LINE % SENDING

    def entered(self, line):
        self.assertEqual(line, "sent")
        return self.entered_by()[-1]


@unittest.skipUnless(os.path.exists(XOAUTH2) and OPENSSL,
                     "passed over: no node-xoauth2 or no openssl")
class Xoauth2(FirstToken, NodeCase):
    def script(self, text):
        """One generator, which prints what it generates for each line."""
        text = text.partition(MADE)[0] + "const generator = " + text[text.index("xoauth2."):]
        return 'const xoauth2 = require("xoauth2");' + text + EACH_LINE % GENERATING

    def entered(self, line):
        return base64.b64decode(line).decode()
