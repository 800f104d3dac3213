"""mail_programs: programs that send by the tokens of examples/mail, and Debian's mutt_oauth2.py."""
import base64
import contextlib
import json
import os
import re
import shutil
import socket
import ssl
import subprocess
import threading
import unittest

from app import example, recipe
from lib import Broken
from lib.tls import OPENSSL, make_certificate
from mail_tokens import SCRIPT, TokenCase

NODE_PATH = "/usr/share/nodejs"
NODEMAILER = NODE_PATH + "/nodemailer"
NODE = """
const nodemailer = require("nodemailer"), { execFileSync } = require("child_process");
%s.sendMail({from: "ann@example.org", to: "bob@example.org", subject: "x", text: "y"});
"""
OAUTH2 = "/usr/share/doc/mutt/examples/mutt_oauth2.py"


def mutt_oauth2(url, back, client):
    """The text of Debian's script for a public client, without gpg."""
    with open(OAUTH2, encoding="utf-8") as file:
        text = file.read()
    for old, new in (("['gpg', '--encrypt', '--recipient', 'YOUR_GPG_IDENTITY']", "['cat']"),
                     ("['gpg', '--decrypt']", "['cat']"),
                     ("https://accounts.google.com/o/oauth2/token", url),
                     ("'urn:ietf:wg:oauth:2.0:oob'", "'%s'" % back),
                     ("'scope': 'https://mail.google.com/'", "'scope': 'mail'"),
                     ("'client_id': ''", "'client_id': '%s'" % client)):
        if old not in text:
            raise Broken("mutt_oauth2.py has no %s" % old)
        text = text.replace(old, new, 1)
    return text


def write_tokens(path, refresh_token):
    """The script's file of tokens, of which the access token has expired."""
    with open(os.open(path, os.O_WRONLY | os.O_CREAT, 0o600), "w") as file:
        json.dump({"registration": "google", "authflow": "authcode", "email": "ann",
                   "access_token": "", "access_token_expiration": "",
                   "refresh_token": refresh_token}, file)


def serve_smtp(listener, found):
    """One session of a server that takes OAUTHBEARER: keeps what the client sends."""
    replies = {"EHLO": "250-here\r\n250 AUTH OAUTHBEARER XOAUTH2", "AUTH": "235 2.7.0 in",
               "DATA": "354 go on", "QUIT": "221 bye"}
    link, _ = listener.accept()
    with link, link.makefile("rwb") as stream:
        stream.write(b"220 here\r\n")
        stream.flush()
        for line in stream:
            word = line.decode().split()[0].upper() if line.strip() else ""
            found.append(line.decode().strip())
            if word == "DATA":
                stream.write(b"354 go on\r\n")
                stream.flush()
                while stream.readline().strip() != b".":
                    pass
                word = ""
            stream.write((replies.get(word, "250 ok") + "\r\n").encode())
            stream.flush()
            if word == "QUIT":
                return


def serve_all(listener, found):
    """Sessions one after the other, until the listener is shut down."""
    with contextlib.suppress(OSError):
        while True:
            serve_smtp(listener, found)


class SmtpCase(TokenCase):
    """A server of messages over TLS at `smtp`, a port; `found` has the lines of its clients."""

    def setUp(self):
        super().setUp()
        make_certificate(self.folder)
        context = ssl.create_default_context(ssl.Purpose.CLIENT_AUTH)
        context.load_cert_chain(self.folder + "/cert.pem", self.folder + "/key.pem")
        plain = self.stack.enter_context(socket.create_server(("127.0.0.1", 0)))
        listener = self.stack.enter_context(context.wrap_socket(plain, server_side=True))
        self.stack.callback(listener.shutdown, socket.SHUT_RDWR)
        self.smtp, self.found = listener.getsockname()[1], []
        threading.Thread(target=serve_all, args=(listener, self.found), daemon=True).start()

    def entered_by(self):
        """The access tokens by which clients logged in, in order."""
        said = [base64.b64decode(it.split()[2]) for it in self.found if it.startswith("AUTH ")]
        return [re.search("\1auth=Bearer (.*?)\1", it.decode())[1] for it in said]

    def node(self, script):
        """How a script of Node is run, which trusts the server."""
        own = {"NODE_PATH": NODE_PATH, "NODE_EXTRA_CA_CERTS": self.folder + "/cert.pem"}
        return {"args": ["node", "--no-deprecation", "-e", script], "text": True,
                "env": os.environ | own}


@unittest.skipUnless(OPENSSL, "passed over: no openssl")
class Programs(SmtpCase):
    def setUp(self):
        super().setUp()
        self.assertEqual(self.log_in(), (0, ""))
        self.change(expiry=0)

    def assert_sent(self, done):
        """A program has sent a message, and logged in by a good token."""
        self.assertEqual((done.returncode, done.stderr), (0, ""))
        self.assertEqual(self.entered_by(), [self.kept()["access_token"]])
        self.assertTrue(self.is_active(self.kept()["access_token"]))
        self.assertEqual(self.sent(), 1)

    @unittest.skipUnless(shutil.which("msmtp"), "passed over: no msmtp")
    def test_msmtp_sends_mail_by_a_token_that_is_refreshed(self):
        path = self.folder + "/msmtprc"
        with open(os.open(path, os.O_WRONLY | os.O_CREAT, 0o600), "w") as file:
            file.write(example("mail/msmtprc").replace("@TOKEN@", SCRIPT).replace(
                "@FILE@", self.file).replace("host mail.example", "host 127.0.0.1").replace(
                    "port 465", "port %d" % self.smtp)
                       + "tls_trust_file %s/cert.pem\n" % self.folder)
        self.assert_sent(subprocess.run(["msmtp", "-C", path, "bob@example.org"], text=True,
                                        input="Subject: x\n\ny\n", capture_output=True,
                                        check=False))

    @unittest.skipUnless(os.path.exists(NODEMAILER), "passed over: no node-nodemailer")
    def test_nodemailer_sends_mail_by_a_token_that_is_refreshed(self):
        """It keeps its first refresh token, so it gets none, but the access token."""
        text = self.filled(recipe("// nodemailer, with a command"), ("mail.example", "127.0.0.1"),
                           ('"token", ["ann.json"]', '"%s", ["%s"]' % (SCRIPT, self.file)),
                           ("465", self.smtp), ("secure: true, auth });", "secure: true, auth })"))
        self.assert_sent(subprocess.run(**self.node(NODE % text.strip()), capture_output=True,
                                        check=False))


@unittest.skipUnless(os.path.exists(OAUTH2), "passed over: no " + OAUTH2)
class MuttOauth2(TokenCase):
    """Debian's script, which has no lock of its own."""

    def setUp(self):
        super().setUp()
        self.tokens = self.folder + "/ann.tokens"
        self.words = ["python3", self.folder + "/mutt_oauth2.py", self.tokens]
        with open(self.words[1], "w", encoding="utf-8") as file:
            file.write(mutt_oauth2(self.front.url + "/token", self.back, self.client))

    def test_a_code_by_hand(self):
        child = subprocess.Popen([*self.words, "--authorize"], text=True, stdin=subprocess.PIPE,
                                 stdout=subprocess.PIPE)
        child.stdin.write("google\nauthcode\nann\n")
        child.stdin.flush()
        while "?" not in (line := child.stdout.readline()) or "client_id" not in line:
            self.assertTrue(line)
        _, place, _ = self.region.ask_as("GET", "/authorize?" + line.strip().partition("?")[2], **{
            "X-Subject": "ann"})
        self.assertTrue(place.startswith(self.back), place)
        said = child.communicate(re.search("code=([^&]+)", place)[1] + "\n", timeout=60)[0]
        self.assertTrue(self.is_active(said.split()[-1]), said)

    def test_calls_at_once_below_flock(self):
        self.assertEqual(self.log_in(), (0, ""))
        write_tokens(self.tokens, self.kept()["refresh_token"])
        children = [subprocess.Popen(["flock", self.tokens, *self.words], text=True,
                                     stdout=subprocess.PIPE) for _ in range(8)]
        said = {child.communicate(timeout=60)[0].strip() for child in children}
        self.assertEqual((len(said), self.sent()), (1, 1))
        self.assertTrue(self.is_active(said.pop()))
