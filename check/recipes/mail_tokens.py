"""mail_tokens: examples/mail/token, also called twice at once, killed, and without a reply."""
import contextlib
import json
import os
import signal
import subprocess
import threading
import urllib.parse
import urllib.request

from lib import TOP
from lib.asking import ask_over
from lib.cases import Case
from lib.waiting import free_port, until

SCRIPT, SECRET, SCOPE = TOP + "/examples/mail/token", "reader", "mail calendar"
JSON = {"Content-Type": "application/json"}
LATER = json.dumps({"error": "temporarily_unavailable"}).encode()


class TokenCase(Case):
    """A region behind a peer that stands for the front end, and a file of settings."""

    options = ()  # of the region

    def setUp(self):
        super().setUp()
        self.region, self.treat = self.tokend(1, options=self.options), None
        self.front = self.peer(self.reply)
        self.back = "http://127.0.0.1:%d/" % free_port()
        self.reader = self.add(kind="resource", secret=SECRET)
        self.register("ann.json", kind="public")

    def add(self, **fields):
        """The id of a new client."""
        return self.region.form("/admin/client", fields | {
            "scope": SCOPE, "redirects": self.back}, status=201)["client_id"]

    def register(self, name, **fields):
        """Adds a client with ann's consent, and writes its settings into a file of this name."""
        self.client, self.file = self.add(**fields), os.path.join(self.folder, name)
        self.consent("ann")
        settings = {it: self.front.url + "/" + it for it in ("authorize", "token", "revoke")}
        settings |= {"client_id": self.client, "scope": SCOPE, "redirect_uri": self.back}
        if "secret" in fields:
            settings["client_secret"] = fields["secret"]
        with open(self.file, "w", encoding="utf-8") as file:
            json.dump(settings, file)

    def consent(self, subject):
        self.region.form("/admin/consent", {
            "client_id": self.client, "subject": subject, "scope": SCOPE}, status=201)

    def pass_on(self, path, body, **fields):
        with contextlib.closing(self.region.link()) as link:
            status, _, said = ask_over(link, "POST", path, body, **fields)
        return status, JSON if said else {}, said

    def reply(self, path, body):
        """The region's, unless the test treats a request to /token in another way."""
        treat = self.treat if path == "/token" else None
        return treat(path, body) if treat else self.pass_on(path, body)

    def call(self, *words):
        """Status, standard output and standard error of a call."""
        it = subprocess.run([SCRIPT, *words, self.file], capture_output=True, text=True,
                            timeout=60, check=False)
        return it.returncode, it.stdout.strip(), it.stderr.strip()

    def begin(self, *words):
        child = subprocess.Popen([SCRIPT, *words, self.file], text=True, stdout=subprocess.PIPE,
                                 stderr=subprocess.PIPE)
        self.addCleanup(child.communicate)
        self.addCleanup(child.kill)
        return child

    def filled(self, text, *changes):
        """A text with each old part, which it must have, in the new one's place."""
        for old, new in changes:
            self.assertIn(old, text)
            text = text.replace(old, str(new))
        return text

    def visit(self, place, **query):
        with contextlib.suppress(urllib.error.HTTPError):
            urllib.request.urlopen(place + "?" + urllib.parse.urlencode(query), timeout=20).close()

    def log_in(self, subject="ann"):
        """Logs in as a browser would: the status and the errors of the call."""
        child = self.begin("--login")
        self.assertEqual(child.stdout.readline(), "Open in a browser:\n")
        url = urllib.parse.urlsplit(child.stdout.readline().strip())
        self.visit(self.back, code="forged", state="forged")
        _, place, _ = self.region.ask_as("GET", "/authorize?" + url.query, **{
            "X-Subject": subject})
        urllib.request.urlopen(place, timeout=20).close()
        errors = child.communicate()[1]
        return child.returncode, errors.strip()

    def kept(self):
        with open(self.file + ".tokens", encoding="utf-8") as file:
            return json.load(file)

    def change(self, **members):
        kept = self.kept() | members
        with open(self.file + ".tokens", "w", encoding="utf-8") as file:
            json.dump(kept, file)

    def is_active(self, token):
        return self.region.form("/introspect", {
            "token": token, "client_id": self.reader, "client_secret": SECRET})["active"]

    def sent(self, kind="grant_type=refresh_token"):
        """How many requests of a kind were sent."""
        return sum(kind.encode() in it for it in self.front.bodies)


class Tokens(TokenCase):
    def setUp(self):
        super().setUp()
        self.assertEqual(self.log_in(), (0, ""))
        self.first = self.kept()

    def test_a_login_and_its_token(self):
        self.assertEqual(self.call(), (0, self.first["access_token"], ""))
        self.assertTrue(self.is_active(self.first["access_token"]))
        self.assertEqual(os.stat(self.file + ".tokens").st_mode & 0o777, 0o600)
        self.assertEqual(self.sent(), 0)

    def test_calls_at_once_refresh_once(self):
        for _ in range(5):
            before = self.sent()
            self.change(expiry=0)
            children = [self.begin() for _ in range(8)]
            said = {child.communicate(timeout=60) for child in children}
            self.assertEqual(said, {(self.kept()["access_token"] + "\n", "")})
            self.assertEqual(self.sent() - before, 1)
            self.assertTrue(self.is_active(self.kept()["access_token"]))

    def test_a_lost_reply_ends_the_login(self):
        def lose(path, body):
            self.pass_on(path, body)
        self.change(expiry=0)
        self.treat = lose
        status, output, errors = self.call()
        self.assertEqual((status, output), (1, ""))
        self.assertIn("no reply", errors)
        self.assertEqual((self.sent(), self.kept()), (1, {}))
        self.assertFalse(self.is_active(self.first["access_token"]))
        self.treat = None
        self.assertEqual(self.call()[0], 1)
        self.assertEqual(self.log_in(), (0, ""))
        self.assertEqual(self.call()[0], 0)

    def test_a_lost_reply_and_then_no_server(self):
        """The old login is ended by the next call that reaches a server."""
        def lose(path, body):
            self.pass_on(path, body)
        self.change(expiry=0)
        self.treat, pass_on = lose, self.pass_on
        self.pass_on = lambda path, body: pass_on(path, body) if path == "/token" else (
            502, {}, b"")
        self.assertEqual(self.call()[0], 75)
        self.assertTrue(self.is_active(self.first["access_token"]))
        del self.pass_on
        self.assertEqual(self.call()[0], 1)
        self.assertEqual((self.sent(), self.kept()), (1, {}))
        self.assertFalse(self.is_active(self.first["access_token"]))

    def test_what_uses_nothing_up(self):
        """No server, a full server, a rate limit: the same token is good later."""
        self.change(expiry=0)
        for reply in (503, JSON, LATER), (429, {}, b""), (401, JSON, b'{"error":"invalid_client"}'):
            self.treat = lambda path, body, reply=reply: reply
            self.assertEqual(self.call()[0], 75)
            self.assertEqual(self.kept(), self.first | {"expiry": 0})
        self.treat = None
        with open(self.file, encoding="utf-8") as file:
            settings = file.read()
        with open(self.file, "w", encoding="utf-8") as file:
            file.write(settings.replace(self.front.url, "http://127.0.0.1:%d" % free_port()))
        self.assertEqual(self.call()[0], 75)
        self.assertEqual(self.kept(), self.first | {"expiry": 0})
        with open(self.file, "w", encoding="utf-8") as file:
            file.write(settings)
        self.assertEqual(self.call(), (0, self.kept()["access_token"], ""))
        self.assertNotEqual(self.kept()["access_token"], self.first["access_token"])

    def test_a_reply_of_a_proxy(self):
        """502 says nothing of what the server did: the login is ended."""
        self.change(expiry=0)
        self.treat = lambda path, body: (502, {"Content-Type": "text/html"}, b"<h1>Bad</h1>")
        self.assertEqual(self.call()[0], 1)
        self.assertFalse(self.is_active(self.first["access_token"]))

    def test_a_kill_while_it_waits(self):
        came, go = threading.Event(), threading.Event()
        self.addCleanup(go.set)

        def wait(path, body):
            came.set()
            go.wait(30)
            return self.pass_on(path, body)
        self.change(expiry=0)
        self.treat = wait
        child = self.begin()
        self.assertTrue(came.wait(30))
        child.send_signal(signal.SIGKILL)
        child.wait()
        go.set()
        self.treat = None
        self.assertTrue(until(lambda: not self.is_refreshable()))
        self.assertEqual(self.call()[0], 1)
        self.assertEqual((self.sent(), self.kept()), (1, {}))
        self.assertFalse(self.is_active(self.first["access_token"]))

    def is_refreshable(self):
        return self.is_active(self.first["refresh_token"])

    def test_a_login_that_is_over(self):
        self.region.form("/admin/signout", {"subject": "ann"})
        self.change(expiry=0)
        status, _, errors = self.call()
        self.assertEqual((status, errors), (1, "token: this login is over: token --login"))
        self.assertEqual(self.kept(), {})

    def test_a_log_out(self):
        self.assertEqual(self.call("--logout"), (0, "", ""))
        self.assertFalse(self.is_active(self.first["refresh_token"]))
        self.assertEqual(self.call()[0], 1)

    def test_a_client_that_keeps_its_refresh_token(self):
        self.register("kept.json", kind="confidential", secret="s3cret", refresh="kept")
        self.assertEqual(self.log_in(), (0, ""))
        first = self.kept()
        for _ in range(2):
            before = self.kept()["access_token"]
            self.change(expiry=0)
            self.assertEqual(self.call(), (0, self.kept()["access_token"], ""))
            self.assertNotEqual(self.kept()["access_token"], before)
            self.assertEqual(self.kept()["refresh_token"], first["refresh_token"])
        self.assertTrue(self.is_active(first["refresh_token"]))
        self.assertEqual(self.call("--logout"), (0, "", ""))
        self.assertFalse(self.is_active(first["refresh_token"]))

    def test_a_new_login_ends_the_one_before(self):
        self.assertEqual(self.log_in(), (0, ""))
        self.assertFalse(self.is_active(self.first["refresh_token"]))
        self.assertTrue(self.is_active(self.kept()["refresh_token"]))


class Arguments(TokenCase):
    def test_a_login_that_is_denied_keeps_no_tokens(self):
        self.assertEqual(self.log_in("bob"), (1, "token: access_denied: log in again"))
        self.assertFalse(os.path.exists(self.file + ".tokens"))

    def test_wrong_arguments_end_the_script_with_status_2(self):
        for words in [], ["--log", self.file], [self.file, "--login"]:
            it = subprocess.run([SCRIPT, *words], capture_output=True, text=True, check=False)
            self.assertEqual((it.returncode, it.stdout), (2, ""), words)

    def test_help_is_printed_with_status_0(self):
        it = subprocess.run([SCRIPT, "--help"], capture_output=True, text=True, check=False)
        self.assertEqual((it.returncode, it.stderr), (0, ""))
        self.assertIn("token --login FILE", it.stdout)

    def test_a_setting_that_lacks_is_named(self):
        with open(self.file, "w", encoding="utf-8") as file:
            file.write('{"client_id": "c1-1"}')
        self.assertEqual(self.call("--login")[::2],
                         (2, "token: %s has no 'scope'" % self.file))
