"""asking: requests to an OAuth 2.0 server of this machine, and what its replies have.

A server's place is a port of 127.0.0.1, or the path of a Unix socket.
"""
import base64
import contextlib
import json
import re
import socket
import urllib.parse

from bases import UNIX, connection_to, read_base
from lib import Broken
from lib.facts import REDIRECT

REDIRECT_TEXT = REDIRECT.decode()
FORM = {"Content-Type": "application/x-www-form-urlencoded"}
CLIENT = b"kind=public&scope=read&redirects=https://app.example/cb"


def basic(name, secret):
    return base64.b64encode(("%s:%s" % (name, secret)).encode()).decode()


def request(method, target, body=b"", *headers):
    lines = ["%s %s HTTP/1.1" % (method, target), "Host: tokend", *headers]
    if method == "POST":
        lines.append("Content-Length: %d" % len(body))
    return "\r\n".join(lines + ["", ""]).encode() + body


def body_of(reply):
    return reply.partition(b"\r\n\r\n")[2]


def status_of(said):
    """The status of a whole reply; None if it isn't whole."""
    head, _, body = said.partition(b"\r\n\r\n")
    length = re.search(rb"\r\nContent-Length: (\d+)", head)
    return int(said[9:12]) if length and len(body) == int(length[1]) else None


def is_whole(said):
    """Whether a reply has come, with its body."""
    head, end, body = said.partition(b"\r\n\r\n")
    length = re.search(rb"(?i)\r\ncontent-length: (\d+)", head)
    return bool(end and length) and len(body) >= int(length[1])


def dial(place, patience=60):
    """A connection to a place."""
    if isinstance(place, int):
        return socket.create_connection(("127.0.0.1", place), patience)
    link = connection_to(read_base(url_of(place)), patience)
    link.connect()
    return link.sock


def url_of(place):
    """The base URL of a place."""
    return "http://127.0.0.1:%d" % place if isinstance(place, int) else UNIX + place


def connect(place, sent=b"", is_narrow=False, patience=60):
    """A connection that has sent this.

    A narrow one has room for little: of a long reply that its client doesn't read, the system takes
    some 50 KB, and not all of it as it does otherwise.
    """
    if not is_narrow or not isinstance(place, int):  # a Unix socket has room for 200 KB
        peer = dial(place, patience)
    else:
        peer = socket.socket()
        peer.settimeout(patience)
        peer.setsockopt(socket.SOL_SOCKET, socket.SO_RCVBUF, 4096)
        peer.setsockopt(socket.IPPROTO_TCP, socket.TCP_MAXSEG, 536)
        peer.connect(("127.0.0.1", place))
    peer.sendall(sent)
    return peer


def exchange(place, sent, patience=60):
    """What comes back of a connection that sends this and no more, until it ends or fails."""
    said = b""
    with contextlib.suppress(OSError):
        with dial(place, patience) as peer:
            peer.sendall(sent)
            peer.shutdown(socket.SHUT_WR)
            while piece := peer.recv(65536):
                said += piece
    return said


def ask_over(link, method, path, body=None, **fields):
    """Status, `Location` and body of a reply. A mapping is sent as a form."""
    body = urllib.parse.urlencode(body) if isinstance(body, dict) else body
    link.request(method, path, body, (FORM if body is not None else {}) | fields)
    reply = link.getresponse()
    return reply.status, reply.getheader("Location"), reply.read()


def authorize(target, client_id):
    """The target of an authorization request of a client."""
    return target + "?" + urllib.parse.urlencode({
        "response_type": "code", "client_id": client_id, "scope": "read write",
        "redirect_uri": REDIRECT_TEXT, "state": "xyz"})


class Asked:
    """A server that is asked. The fields without a value here are set once it is enrolled.

    It has a port or a socket, and perhaps an inner socket, which gets what is for it alone.
    """

    port = socket = inner = client = resource = authorize = None
    introspect, token, revoke = "/introspect", "/token", "/revoke"  # targets
    subject = "X-Subject: ann"  # the header line of a browser that ann signed in with
    closing = ()  # header lines that have a server close after its reply

    @property
    def place(self):
        return self.socket or self.port

    @property
    def url(self):
        """The base URL at which all paths are answered."""
        return url_of(self.inner or self.place)

    def place_of(self, target):
        """The place at which a target is answered."""
        is_inner = self.inner and re.match("/(admin|sync)/", target)
        return self.inner if is_inner else self.place

    def link(self, path=""):
        return connection_to(read_base(url_of(self.place_of(path))), 30)

    def ask(self, path, body=None):
        """Status and body of the reply to a GET, or to a POST if there is a body."""
        with contextlib.closing(self.link(path)) as link:
            link.request("POST" if body else "GET", path, body or None)
            reply = link.getresponse()
            return reply.status, reply.read()

    def ask_as(self, method, path, body=None, **fields):
        """Status, `Location` and body of the reply to a request with header fields."""
        with contextlib.closing(self.link(path)) as link:
            return ask_over(link, method, path, body, **fields)

    def send(self, sent, patience=60):
        """The status of the reply to a request, which must be whole, and the reply."""
        target = re.match(rb"[A-Z]+ (\S*)", sent)
        with dial(self.place_of(target[1].decode() if target else ""), patience) as peer:
            peer.sendall(sent)
            said = self.hear(peer)
        if not is_whole(said):
            raise ConnectionError("no whole reply")
        return int(said[9:12]), said

    def hear(self, peer, said=b""):
        """What came on a connection and what still comes, up to the end of a reply."""
        while not is_whole(said) and (piece := peer.recv(65536)):
            said += piece
        return said

    def wanted(self, status, sent):
        got, said = self.send(sent)
        if got != status:
            raise Broken("%r is answered %r" % (sent[:60], said[:300]))
        return said

    def form(self, target, fields, credentials=None, status=200, more=()):
        """The members of the reply to a form, with more header lines, if it has any."""
        headers = ["Content-Type: application/x-www-form-urlencoded", *self.closing, *more]
        if credentials:
            headers.append("Authorization: Basic " + credentials)
        sent = request("POST", target, urllib.parse.urlencode(fields).encode(), *headers)
        body = body_of(self.wanted(status, sent))
        return json.loads(body) if body else {}

    def log_in(self, subject=None):
        """The tokens of a code that ann's browser got, or another's, and the client redeemed."""
        subject = subject or self.subject
        said = self.wanted(302, request("GET", self.authorize, b"", subject, *self.closing))
        code = re.search(rb"[?&]code=([\w.~-]+)", said)[1].decode()
        fields = {"grant_type": "authorization_code", "code": code, "redirect_uri": REDIRECT_TEXT}
        return self.form(self.token, fields, self.client)

    def refresh(self, token, status=200):
        """The tokens of a refresh, or what the refusal says."""
        fields = {"grant_type": "refresh_token", "refresh_token": token}
        return self.form(self.token, fields, self.client, status)

    def is_active(self, token):
        return self.form(self.introspect, {"token": token}, self.resource)["active"]
