"""lost_replies: programs that send a refresh again if its reply is lost: curl and Qt."""
import json
import os
import shutil
import subprocess
import unittest
import urllib.parse

from free_ports import PYTHON, has
from repeating import LOGINS, RepeatCase, Repeats

CURL = shutil.which("curl")
QT = """
import sys
from PyQt5.QtCore import QCoreApplication, QUrl
from PyQt5.QtNetwork import QNetworkAccessManager, QNetworkRequest
application, manager = QCoreApplication([]), QNetworkAccessManager()
asked = QNetworkRequest(QUrl(sys.argv[1]))
asked.setHeader(QNetworkRequest.ContentTypeHeader, "application/x-www-form-urlencoded")
reply = manager.post(asked, sys.argv[2].encode())
reply.finished.connect(application.quit)
application.exec_()
print(bytes(reply.readAll()).decode())
"""


class LostCase(RepeatCase):
    """The front end loses the first reply to each refresh. `words` is a program that sends it."""

    workers = least_over = LOGINS
    in_its_place = None  # what the program gets then: no reply, and its connection ends

    def serve(self, *options):
        super().serve(*options)
        self.treat = self.lose_first

    def lose_first(self, path, body):
        is_first = self.front.bodies.count(body) == 1
        said = self.pass_on(path, body)
        return self.in_its_place if is_first else said

    def refresh(self, tokens):
        words = self.words(self.front.url + "/token", urllib.parse.urlencode(self.form_of(tokens)))
        said = subprocess.run(words, text=True, stdout=subprocess.PIPE, timeout=60, check=False)
        return [json.loads(said.stdout).get("access_token")]

    def count_over(self, refreshed):
        self.assertEqual(self.sent(), 2 * LOGINS)
        return super().count_over(refreshed)


@unittest.skipUnless(CURL, "passed over: no curl")
class CurlByTheFrontEnd(Repeats, LostCase):
    """`curl --retry`, if the front end replies 504 in the place of the region."""

    in_its_place = 504, {}, b""
    retry = "--retry", "1"

    def words(self, url, form):
        return [CURL, "-q", "-s", "--noproxy", "*", *self.retry, "-d", form, url]


class CurlByItself(CurlByTheFrontEnd):
    in_its_place = None
    retry = *CurlByTheFrontEnd.retry, "--retry-all-errors"


@unittest.skipUnless(CURL, "passed over: no curl")
class CurlOnAKeptConnection(Repeats, LostCase):
    """Without --retry: curl sends again what it sent on a connection that it had used before."""

    @staticmethod
    def words(url, form):
        before = url.replace("/token", "/revoke")
        return [CURL, "-q", "-s", "--noproxy", "*", "-o", os.devnull, "-d", "token=x", before,
                "--next", "-s", "--noproxy", "*", "-d", form, url]


@unittest.skipUnless(has("PyQt5.QtNetwork"), "passed over: no python3-pyqt5")
class Qt(Repeats, LostCase):
    """Qt sends a POST again whose connection ended without a reply, and nobody asked it to."""

    @staticmethod
    def words(url, form):
        return [PYTHON, "-c", QT, url, form]
