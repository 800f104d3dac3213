"""webmail: Roundcube with the lines of examples/mail, a login in it, and requests at once."""
import os
import re
import shutil
import subprocess
import time
import unittest
import urllib.parse
import urllib.request
from concurrent.futures import ThreadPoolExecutor
from http.cookiejar import CookieJar

from app import example
from lib.waiting import free_port, listens, until
from dovecot import CAN, LACKING, MailCase

ROUNDCUBE, ETC = "/var/lib/roundcube/public_html", "/etc/roundcube"
IS_HERE = shutil.which("php") and os.path.exists(ROUNDCUBE + "/index.php")
ABSENT = "passed over: no Roundcube (apt-get install roundcube-core)"
WORD = "webmail-word"
BASE = """
$config['db_dsnw'] = 'sqlite:///%(folder)s/db?mode=0600';
$config['des_key'] = 'a key of the check, 24by';
$config['imap_conn_options'] = ['ssl' => ['cafile' => '%(folder)s/cert.pem']];
$config['log_dir'] = $config['temp_dir'] = '%(folder)s';
$config['plugins'] = [];
"""


class NoRedirect(urllib.request.HTTPRedirectHandler):
    def redirect_request(self, *_):
        return None


@unittest.skipUnless(CAN, LACKING)
@unittest.skipUnless(IS_HERE, ABSENT)
class Webmail(MailCase):
    options = "--access", "12"  # Roundcube refreshes 10 seconds before the end
    sessions = "php"

    def setUp(self):
        super().setUp()
        self.port = free_port()
        self.url = "http://127.0.0.1:%d" % self.port
        self.mail_client = self.region.form("/admin/client", {
            "kind": "confidential", "secret": WORD, "scope": "mail",
            "redirects": self.url + "/index.php/login/oauth"}, status=201)["client_id"]
        self.region.form("/admin/consent", {"client_id": self.mail_client, "subject": "ann",
                                            "scope": "mail"}, status=201)
        text = example("mail/roundcube.php")
        for old, new in (("@CLIENT@", self.mail_client), ("@SECRET@", WORD),
                         ("https://login.example/who", "http://127.0.0.1:%d/" % self.who),
                         ("https://login.example", self.front.url),
                         ("mail.example:993", "127.0.0.1:%d" % self.imap),
                         ("= 'php'", "= '%s'" % self.sessions)):
            text = text.replace(old, new)
        os.makedirs(self.path("config"))
        shutil.copy(ETC + "/defaults.inc.php", self.path("config"))
        shutil.copy(ETC + "/mimetypes.php", self.path("config"))
        self.fill("config/config.inc.php", text + BASE % {"folder": self.folder})
        subprocess.run(["php", "-r", "$db = new PDO('sqlite:%s/db'); $db->exec(file_get_contents("
                        "'/usr/share/roundcube/SQL/sqlite.initial.sql'));" % self.folder],
                       check=True)
        self.run_aside("php", "-d", "session.save_path=" + self.folder, "-S",
                       "127.0.0.1:%d" % self.port, "-t", ROUNDCUBE, env=os.environ | {
                           "ROUNDCUBE_CONFIG_DIR": self.path("config"),
                           "PHP_CLI_SERVER_WORKERS": "6"})
        self.assertTrue(until(lambda: listens(self.port)))
        self.jar = CookieJar()

    def get(self, path):
        """Status, `Location` and text of a reply to the browser, which follows no redirect."""
        opener = urllib.request.build_opener(urllib.request.ProxyHandler({}), NoRedirect,
                                             urllib.request.HTTPCookieProcessor(self.jar))
        asked = urllib.request.Request(self.url + path, headers={
            "X-Roundcube-Request": getattr(self, "request_token", "")})
        try:
            with opener.open(asked, timeout=60) as reply:
                return reply.status, "", reply.read().decode()
        except urllib.error.HTTPError as it:
            with it:
                return it.code, it.headers["Location"] or "", it.read().decode()

    def enter(self):
        """A login: the page of the mailbox."""
        _, place, _ = self.get("/index.php/login/oauth")
        self.assertIn("/authorize?", place)
        _, place, _ = self.region.ask_as("GET", "/authorize?" + place.partition("?")[2], **{
            "X-Subject": "ann"})
        self.assertTrue(place.startswith(self.url), place)
        status, place, said = self.get(place[len(self.url):])
        self.assertEqual(status, 302, said[:2000])
        said = self.get("/?_task=mail")[2]
        self.request_token = re.search('"request_token":"([^"]+)"', said)[1]

    def list(self):
        return self.get("/?_task=mail&_action=list&_mbox=INBOX&_remote=1")

    def refreshed(self):
        """Six requests at once after the access token's end: whether each refresh token was sent
        once, and whether the login goes on."""
        time.sleep(3.5)
        before = self.sent()
        with ThreadPoolExecutor(6) as pool:
            list(pool.map(lambda _: self.list(), range(6)))
        self.assertGreater(self.sent(), before)
        sent = [it for it in self.front.bodies if b"grant_type=refresh_token" in it]
        return len(sent) == len(set(sent)), "A first message" in self.list()[2]


class WithSessionsOfPhp(Webmail):
    def test_the_mailbox_is_listed_after_a_login(self):
        self.enter()
        status, _, said = self.list()
        self.assertEqual(status, 200)
        self.assertIn("A first message", said)

    def test_requests_at_once_refresh_once(self):
        self.enter()
        for _ in range(4):
            self.assertEqual(self.refreshed(), (True, True))

    def test_a_page_that_was_denied(self):
        """Roundcube shows its page to log in, which waits for a click."""
        _, place, _ = self.get("/index.php/login/oauth")
        _, place, _ = self.region.ask_as("GET", "/authorize?" + place.partition("?")[2], **{
            "X-Subject": "bob"})
        self.assertIn("error=access_denied", place)
        status, _, said = self.get(place[len(self.url):])
        self.assertEqual(status, 200)
        self.assertIn("our login", said)
