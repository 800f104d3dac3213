"""free_ports: programs that listen at a free port of their machine for the code (RFC 8252, 7.3)."""
import base64
import os
import re
import subprocess
import unittest
import urllib.error
import urllib.parse
import urllib.request

from lib.cases import Case
from lib.waiting import until
from mail_programs import OAUTH2

PYTHON = "/usr/bin/python3"  # whose packages are Debian's
GOOGLE = """
import json, sys
from google_auth_oauthlib.flow import InstalledAppFlow
flow = InstalledAppFlow.from_client_config(json.loads(sys.argv[1]), ["read"])
print(flow.run_local_server(port=0, open_browser=False).token)
"""


def has(module):
    """Whether Debian's Python has a module."""
    return os.path.exists(PYTHON) and not subprocess.run(
        [PYTHON, "-c", "import " + module], capture_output=True, check=False).returncode


def arrives(place):
    try:
        with urllib.request.urlopen(place, timeout=20) as reply:
            return reply.status == 200
    except urllib.error.URLError:
        return False


class FreePorts(Case):
    """A region that registers URIs at any port, and a browser that asks it as ann."""

    def setUp(self):
        super().setUp()
        self.region = self.tokend(1, options=("--redirects", "loopback"))
        self.client = self.region.form("/admin/client", {
            "kind": "confidential", "secret": "s3cret", "scope": "read",
            "redirects": "http://127.0.0.1:* http://localhost:*/"}, status=201)["client_id"]
        self.region.form("/admin/consent", {
            "client_id": self.client, "subject": "ann", "scope": "read"}, status=201)

    def browse(self, url):
        """Where the region sends the browser, which goes there."""
        target = "/authorize?" + urllib.parse.urlsplit(url).query
        status, place, _ = self.region.ask_as("GET", target, **{"X-Subject": "ann"})
        self.assertEqual(status, 302)
        self.assertTrue(until(lambda: arrives(place)))  # it listens behind its line
        return place

    def is_active(self, access):
        basic = base64.b64encode(("%s:s3cret" % self.client).encode()).decode()
        status, _, said = self.region.ask_as("POST", "/introspect", {"token": access},
                                             Authorization="Basic " + basic)
        return status == 200 and b'"active":true' in said

    def run_to_its_end(self, words, given="", **more):
        """Where the browser is sent by a program that prints its request, and the token."""
        child = subprocess.Popen(words, text=True, stdin=subprocess.PIPE, stdout=subprocess.PIPE,
                                 **more)
        self.addCleanup(child.kill)
        child.stdin.write(given)
        child.stdin.close()
        found = None
        while not found:
            line = child.stdout.readline()
            self.assertTrue(line, "no request")
            found = re.search(r"https?://\S*/authorize\?\S+", line)
        place, output = self.browse(found[0]), child.stdout.read()
        self.assertEqual(child.wait(20), 0)
        return place, output.split()[-1]

    @unittest.skipUnless(os.path.exists(OAUTH2), "passed over: no " + OAUTH2)
    def test_mutt_oauth2_logs_in_at_a_free_port(self):
        with open(OAUTH2, encoding="utf-8") as file:
            text = file.read()
        for old, new in (("['gpg', '--encrypt', '--recipient', 'YOUR_GPG_IDENTITY']", "['cat']"),
                         ("['gpg', '--decrypt']", "['cat']"),
                         ("https://accounts.google.com/o/oauth2/auth",
                          self.region.url + "/authorize"),
                         ("https://accounts.google.com/o/oauth2/token",
                          self.region.url + "/token"),
                         ("'scope': 'https://mail.google.com/'", "'scope': 'read'"),
                         ("'client_id': ''", "'client_id': '%s'" % self.client),
                         ("'client_secret': ''", "'client_secret': 's3cret'")):
            self.assertIn(old, text)
            text = text.replace(old, new, 1)
        script = os.path.join(self.folder, "mutt_oauth2.py")
        with open(script, "w", encoding="utf-8") as file:
            file.write(text)
        words = [PYTHON, script, os.path.join(self.folder, "tokens"), "--authorize"]
        place, access = self.run_to_its_end(words, "google\nlocalhostauthcode\nann\n")
        self.assertRegex(place, r"^http://localhost:\d+/\?code=")
        self.assertTrue(self.is_active(access), access)

    @unittest.skipUnless(has("google_auth_oauthlib"), "passed over: no google_auth_oauthlib")
    def test_google_auth_at_port_0(self):
        settings = ('{"installed": {"client_id": "%s", "client_secret": "s3cret", "auth_uri": '
                    '"%s/authorize", "token_uri": "%s/token"}}' % (
                        self.client, self.region.url, self.region.url))
        place, access = self.run_to_its_end([PYTHON, "-uc", GOOGLE, settings], env={
            **os.environ, "OAUTHLIB_INSECURE_TRANSPORT": "1"})
        self.assertRegex(place, r"^http://localhost:\d+/\?code=")
        self.assertTrue(self.is_active(access), access)
