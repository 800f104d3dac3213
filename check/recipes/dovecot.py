"""dovecot: whom it lets in with the files of examples/mail, and mail programs there."""
import configparser
import contextlib
import fcntl
import imaplib
import os
import pty
import re
import select
import shutil
import signal
import ssl
import struct
import subprocess
import termios
import time
import unittest

from app import example, recipe
from lib import TOP
from lib.tls import OPENSSL, make_certificate
from lib.waiting import free_port, listens, until
from mail_tokens import SCRIPT, SECRET, TokenCase

DOVECOT = shutil.which("dovecot", path=os.environ.get("PATH", "") + ":/usr/sbin")
CAN = DOVECOT and OPENSSL and os.geteuid() == 0
LACKING = "passed over: no dovecot or no openssl (apt-get install dovecot-imapd), or not root"
BASE = """base_dir = %(folder)s/run
log_path = %(folder)s/log
protocols = imap
listen = 127.0.0.1
ssl = required
ssl_cert = <%(folder)s/cert.pem
ssl_key = <%(folder)s/key.pem
mail_location = maildir:%(folder)s/mail/%%u
first_valid_uid = 1
auth_failure_delay = 0
service imap-login {
  inet_listener imap {
    port = 0
  }
  inet_listener imaps {
    port = %(port)d
    ssl = yes
  }
}
service anvil {
  unix_listener anvil-auth-penalty {
    mode = 0
  }
}
userdb {
  driver = static
  args = uid=nobody gid=nogroup home=%(folder)s/mail/%%u
}
"""
OFFLINE = """[general]
accounts = ann
metadata = %(folder)s/metadata
ui = quiet
[Account ann]
localrepository = here
remoterepository = there
[Repository here]
type = Maildir
localfolders = %(folder)s/synced
[Repository there]
type = IMAP
remotehost = 127.0.0.1
remoteport = %(port)d
remoteuser = ann
ssl = yes
sslcacertfile = %(folder)s/cert.pem
"""
ASKING = "dovecot-oauth2.conf.ext"
MESSAGE = "A first message"  # the subject of what is in the mailbox
REFUSED, AWAY = "[AUTHENTICATIONFAILED]", "[UNAVAILABLE]"
MECHANISMS = {"XOAUTH2": "user=%s\1auth=Bearer %s\1\1",
              "OAUTHBEARER": "n,a=%s,\1auth=Bearer %s\1\1"}


class MailCase(TokenCase):
    """A region, `who`, and dovecot, whose mailbox of ann has a message."""

    def setUp(self):
        super().setUp()
        os.chmod(self.folder, 0o755)  # dovecot's processes are of other users
        self.imap, self.who = free_port(), free_port()
        self.begin_who()
        self.begin_dovecot()
        self.assertEqual(self.log_in(), (0, ""))
        self.tokens = self.kept()

    def run_aside(self, *words, **options):
        """Runs a program, which is ended with its children: PHP leaves its own behind."""
        child = subprocess.Popen(words, stdin=subprocess.DEVNULL, stdout=subprocess.DEVNULL,
                                 stderr=subprocess.DEVNULL, start_new_session=True, **options)
        self.addCleanup(child.wait)
        self.addCleanup(os.killpg, child.pid, signal.SIGTERM)

    def begin_who(self):
        self.run_aside(TOP + "/examples/who/who", str(self.who), self.region.url,
                       self.reader, env=os.environ | {"SECRET": SECRET,
                                                      "PYTHONDONTWRITEBYTECODE": "1"})
        self.assertTrue(until(lambda: listens(self.who)))

    def path(self, name):
        return os.path.join(self.folder, name)

    def fill(self, name, text):
        for old, new in (("DIR", self.folder), ("ID", self.reader), ("SECRET", SECRET),
                         ("TOKEND", self.region.port)):
            text = text.replace("@%s@" % old, str(new))
        with open(self.path(name), "w", encoding="utf-8") as file:
            file.write(text)

    def asking(self):
        """How dovecot asks about a token."""
        return example("mail/" + ASKING)

    def begin_dovecot(self):
        make_certificate(self.folder)
        self.fill("dovecot.conf", example("mail/dovecot.conf"))
        self.fill(ASKING, self.asking())
        self.fill("base.conf", BASE % {"folder": self.folder, "port": self.imap}
                  + "!include dovecot.conf\n")
        for name in "cur", "new", "tmp":
            os.makedirs(self.path("mail/ann/" + name))
        self.fill("mail/ann/new/1", "From: bob@example.org\nTo: ann@example.org\n"
                  "Subject: %s\n\nIts text.\n" % MESSAGE)
        subprocess.run(["chown", "-R", "nobody:nogroup", self.path("mail")], check=True)
        self.run_aside(DOVECOT, "-F", "-c", self.path("base.conf"))
        self.assertTrue(until(lambda: listens(self.imap)))

    @property
    def mailbox(self):
        """Where dovecot listens."""
        return "127.0.0.1:%d" % self.imap

    def offlineimap(self, text):
        """A run of offlineimap3, with these settings beside its own."""
        settings = configparser.ConfigParser(interpolation=None)
        for it in OFFLINE % {"folder": self.folder, "port": self.imap}, text:
            settings.read_string(it)
        with open(self.path("rc"), "w", encoding="utf-8") as file:
            settings.write(file)
        return subprocess.run(["offlineimap", "-o", "-c", self.path("rc")], capture_output=True,
                              check=False, env=os.environ | {"HOME": self.folder})

    def aerc(self, text, *texts):
        """The first of some texts that aerc shows, with these settings beside its own."""
        os.makedirs(self.path(".config/aerc"), exist_ok=True)
        self.fill(".config/aerc/accounts.conf", text + "from = ann@example.org\n")
        os.chmod(self.path(".config/aerc/accounts.conf"), 0o600)
        return self.shown(texts, "aerc", SSL_CERT_FILE=self.path("cert.pem"))

    def shown(self, texts, *words, **environment):
        """The first of some texts that a program shows on a terminal; then it is ended."""
        found, said, end = None, b"", time.monotonic() + 30
        child, terminal = pty.fork()
        if child == 0:
            os.environ |= {"TERM": "xterm", "HOME": self.folder} | environment
            os.execvp(words[0], words)
        fcntl.ioctl(terminal, termios.TIOCSWINSZ, struct.pack("HHHH", 24, 100, 0, 0))
        while not found and time.monotonic() < end:
            if select.select([terminal], [], [], 1)[0]:
                with contextlib.suppress(OSError):  # it has ended
                    said += os.read(terminal, 65536)
            found = next((it for it in texts if it.encode() in said), None)
        os.kill(child, signal.SIGTERM)
        os.close(terminal)
        os.waitpid(child, 0)
        return found


@unittest.skipUnless(CAN, LACKING)
class Mailbox(MailCase):
    def enter(self, user, token, mechanism="OAUTHBEARER"):
        """The first word that dovecot replies in the end, and its challenge before a refusal."""
        asked = []

        def say(challenge):
            asked.append(challenge.decode())
            return b"" if len(asked) > 1 else (MECHANISMS[mechanism] % (user, token)).encode()
        link = self.connection()
        try:
            return link.authenticate(mechanism, say)[0], ""
        except imaplib.IMAP4.error as why:
            return str(why).split(" ")[0], "".join(asked[1:])
        finally:
            link.shutdown()

    def connection(self):
        return imaplib.IMAP4_SSL("127.0.0.1", self.imap, timeout=60, ssl_context=(
            ssl.create_default_context(cafile=self.path("cert.pem"))))

    def refused(self, user, token):
        self.assertEqual(self.enter(user, token), (REFUSED, '{"status":"invalid_token"}'))
        self.assertEqual(self.enter(user, token, "XOAUTH2")[0], REFUSED)

    def test_whom_dovecot_lets_in(self):
        access, refresh = self.tokens["access_token"], self.tokens["refresh_token"]
        for mechanism in MECHANISMS:
            self.assertEqual(self.enter("ann", access, mechanism), ("OK", ""))
        self.refused("ann", refresh)
        self.refused("ann", "nonsense")
        self.refused("bob", access)
        self.refused("Ann", access)
        self.assertEqual(self.enter("ann", access), ("OK", ""))
        self.call("--logout")
        self.refused("ann", access)

    def test_a_subject_that_differs_by_case(self):
        self.consent("ANN")
        self.assertEqual(self.log_in("ANN"), (0, ""))
        self.refused("ann", self.kept()["access_token"])

    def test_a_token_without_the_scope(self):
        said = self.region.form("/token", {
            "grant_type": "refresh_token", "client_id": self.client, "scope": "calendar",
            "refresh_token": self.tokens["refresh_token"]})
        self.assertEqual(said["scope"], "calendar")
        self.refused("ann", said["access_token"])

    def test_a_connection_that_is_open(self):
        """It goes on after the login's end, until it is kicked."""
        link = self.connection()
        self.addCleanup(link.shutdown)
        link.authenticate("XOAUTH2", lambda _: (
            MECHANISMS["XOAUTH2"] % ("ann", self.tokens["access_token"])).encode())
        self.call("--logout")
        self.refused("ann", self.tokens["access_token"])
        self.assertEqual(link.noop()[0], "OK")
        subprocess.run(["doveadm", "-c", self.path("base.conf"), "kick", "ann"], check=True,
                       stdout=subprocess.DEVNULL)
        self.assertTrue(until(lambda: self.is_closed(link)))

    def is_closed(self, link):
        try:
            return link.noop()[0] != "OK"
        except (imaplib.IMAP4.abort, OSError):
            return True

    def test_while_tokend_is_away(self):
        self.region.stop()
        self.assertEqual(self.enter("ann", self.tokens["access_token"]), (AWAY, ""))

    def test_without_its_line_a_refresh_token_gets_in(self):
        """Not by the kind of the token as its activity, either."""
        self.fill(ASKING, re.sub("pass_attrs = .*", "", self.asking()).replace(
            "active_attribute = active", "active_attribute = token_type").replace(
                "active_value = true", "active_value = Bearer"))
        subprocess.run([DOVECOT, "-c", self.path("base.conf"), "reload"], check=True)
        self.assertEqual(self.enter("ann", self.tokens["refresh_token"]), ("OK", ""))


class WithoutItsLine(Mailbox):
    """A region that shows refresh tokens to their clients alone, and no line `pass_attrs`."""

    options = "--refresh-seen", "client"

    def asking(self):
        lines = re.sub("(?m)^pass_attrs = .*\n", "", super().asking())
        self.assertNotIn("pass_attrs", lines)
        return lines

    test_without_its_line_a_refresh_token_gets_in = None


class ByWho(Mailbox):
    """The lines of the README that ask `who`."""

    def asking(self):
        lines = example("mail/README.md").partition(
            "```\nintrospection_mode")[2].partition("```")[0]
        self.assertIn("http://127.0.0.1:7005/", lines)
        text = re.sub("(?m)^(introspection_.*|pass_attrs = .*)\n", "", super().asking())
        return text + "introspection_mode" + lines.replace(":7005/", ":%d/" % self.who)

    test_without_its_line_a_refresh_token_gets_in = None


@unittest.skipUnless(CAN, LACKING)
class Programs(MailCase):
    @unittest.skipUnless(shutil.which("curl"), "passed over: no curl")
    def test_curl_gets_in_by_an_access_token_alone(self):
        def ask(token):
            done = subprocess.run(
                ["curl", "-q", "-s", "--noproxy", "*", "-m", "30", "--cacert",
                 self.path("cert.pem"), "--user", "ann:", "--oauth2-bearer", token,
                 "imaps://127.0.0.1:%d/" % self.imap],
                stdout=subprocess.PIPE, text=True, check=False)
            return done.returncode, done.stdout.strip()
        self.assertEqual(ask(self.call()[1]), (0, '* LIST (\\HasNoChildren) "." INBOX'))
        self.assertEqual(ask(self.tokens["refresh_token"]), (67, ""))

    @unittest.skipUnless(shutil.which("mutt"), "passed over: no mutt")
    def test_mutt_logs_in_also_after_its_access_token_expired(self):
        """A login, and one after the access token has expired."""
        self.fill("muttrc", example("mail/muttrc").replace("@TOKEN@", SCRIPT).replace(
            "@FILE@", self.file).replace("@mail.example/", "@127.0.0.1:%d/" % self.imap)
                  + "set ssl_ca_certificates_file = %s\n" % self.path("cert.pem"))
        for _ in range(2):
            self.assertEqual(self.shown([MESSAGE], "mutt", "-n", "-F", self.path("muttrc")),
                             MESSAGE)
            self.change(expiry=0)
        self.assertEqual(self.sent(), 1)

    @unittest.skipUnless(shutil.which("aerc"), "passed over: no aerc")
    def test_aerc_reads_mail_by_a_token_that_is_refreshed(self):
        """It keeps its first refresh token, so it gets none, but the access token."""
        self.change(expiry=0)
        self.assertEqual(self.aerc(self.filled(
            recipe("# aerc, accounts.conf, with a command"), ("mail.example", self.mailbox),
            ("token ann.json", "%s %s" % (SCRIPT, self.file))), MESSAGE), MESSAGE)
        self.assertEqual(self.sent(), 1)

    @unittest.skipUnless(shutil.which("offlineimap"), "passed over: no offlineimap3")
    def test_offlineimap_fetches_mail_by_a_token_that_is_refreshed(self):
        """It keeps its first refresh token, so it gets none, but the access token."""
        self.change(expiry=0)
        self.fill(".offlineimap.py", self.filled(
            recipe("# its .offlineimap.py"),
            ('"token", "ann.json"', '"%s", "%s"' % (SCRIPT, self.file))))
        for _ in range(2):
            self.assertEqual(self.offlineimap(
                recipe("# offlineimap3, .offlineimaprc, with a function")).returncode, 0)
        self.assertEqual(len(os.listdir(self.path("synced/INBOX/new"))), 1)
        self.assertEqual(self.sent(), 1)
