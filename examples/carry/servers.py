"""servers: requests to a running server, for its vector, its pages, and a push of a bundle.

Each request may be repeated, so a request that fails is tried again. Lost is raised if no try
helps, Refused if the server takes requests, but not this bundle, and Ahead if it does not take its
horizon yet.
"""
from __future__ import annotations

import argparse
import contextlib
import email.utils
import http.client
import os
import re
import shlex
import socket
import ssl
import sys
import threading
import time
from concurrent.futures import ThreadPoolExecutor
from dataclasses import dataclass
from pathlib import Path
from typing import Callable, Iterator, Optional, TypeVar

sys.path.insert(1, str(Path(__file__).resolve().parent.parent.parent / "starter"))
from bases import Base, connection_to, read_base
from bundles import (FROM_THE_START, MARK, MAX_BYTES, MAX_ITEMS, Bundle, Malformed, Vector,
                     read_bundle, read_vector, write_pull)

PAUSES = 1, 2, 4  # seconds between tries
LONGEST_PAUSE = 30  # of those that a server asks for
LONGEST_REPLY = 14 + MAX_ITEMS * (2 + MAX_BYTES)
MAX_SAID = 200  # letters of an error
BYTES = {"Content-Type": "application/octet-stream"}
T = TypeVar("T")
MEANINGS = {
    401: "something before the server denies access",
    403: "something before the server denies access",
    404: "no server of tokend has this path",
    405: "no server of tokend has this path",
    429: "a rate limit",
    502: "a proxy doesn't reach the server",
    503: "its log has failed, or it isn't up",
    504: "a proxy has no reply of the server",
}


class Lost(Exception):
    """A server that can't be used any longer in this run, by its base URL."""

    def __init__(self, url: str, path: str, why: str) -> None:
        super().__init__("%s%s: %s" % (url, path, why))
        self.url = url


class Refused(Exception):
    """A bundle that a server doesn't take: the status, and the error if the reply has one."""


class Unread(Refused):
    """A bundle that a server can't read."""


class Ahead(Refused):
    """A bundle whose horizon is later than the server's clock."""


class OutOfRange(Refused):
    """A bundle with an item under a number that the server doesn't take."""


class Silent(Exception):
    """A server without a whole reply in time."""


@dataclass(frozen=True)
class Access:
    """How servers are reached. Times are in seconds."""

    connect_time: float = 10
    reply_time: float = 30
    pauses: tuple[float, ...] = PAUSES
    proxy: Optional[Base] = None
    tls: Optional[ssl.SSLContext] = None


def read_access(command: str, urls: list[str], pauses: tuple[float, ...] = PAUSES) -> Access:
    """Reads the options of a curl command. Ends with status 2 if one isn't known."""
    parser = argparse.ArgumentParser(prog="CARRY_CURL", add_help=False, allow_abbrev=False)
    parser.add_argument("command", type=os.path.basename, choices=["curl"])
    for flag in "-q", "-s", "-S":
        parser.add_argument(flag, action="store_true")
    parser.add_argument("-E", "--cert")
    parser.add_argument("--key")
    parser.add_argument("--cacert")
    parser.add_argument("--noproxy")  # no proxy is taken from the environment anyway
    parser.add_argument("-x", "--proxy", type=_read_proxy)
    parser.add_argument("--connect-timeout", type=float, default=Access.connect_time)
    parser.add_argument("-m", "--max-time", type=float, default=Access.reply_time)
    tls = None
    try:
        it = parser.parse_args(shlex.split(command))
        if any(url.startswith("https:") for url in urls):
            tls = ssl.create_default_context(cafile=it.cacert)
            if it.cert:
                tls.load_cert_chain(it.cert, it.key)
    except (OSError, ValueError) as why:  # a certificate or a key, or a quotation without end
        parser.error(str(why))
    return Access(it.connect_timeout, it.max_time, pauses, it.proxy, tls)


def _read_proxy(text: str) -> Base:
    """The URL of a proxy, or its host and port alone."""
    url = text if "://" in text else "http://" + text
    if not url.startswith("http://") or not is_base_url(url):
        raise argparse.ArgumentTypeError("not a proxy: " + text)
    return read_base(url)


def is_base_url(text: str) -> bool:
    """Whether a text is a base URL, as bases.py has them."""
    with contextlib.suppress(ValueError):
        return bool(read_base(text))
    return False


def base_url(text: str) -> str:
    """The base URL of an argument, without a slash at its end. `own` is spelt out."""
    try:
        return read_base(text).text
    except ValueError as why:
        raise argparse.ArgumentTypeError(str(why)) from why


@dataclass(frozen=True)
class Reply:
    status: int
    body: bytes
    retry_after: str
    date: str

    @property
    def is_passing(self) -> bool:
        """Whether another try may get another reply."""
        return self.status == 429 or self.status >= 500

    @property
    def error(self) -> str:
        """The error that tokend's JSON has, or nothing."""
        found = re.match(rb'\{"error":"([a-z_]{1,64})"', self.body)
        return found[1].decode() if found else ""

    @property
    def pause(self) -> int:
        """The seconds that the reply asks for, no more than the longest pause."""
        is_number = re.fullmatch("[0-9]{1,9}", self.retry_after)
        return min(int(self.retry_after), LONGEST_PAUSE) if is_number else 0

    def __str__(self) -> str:
        said = [it for it in (self.error, MEANINGS.get(self.status)) if it]
        return "status %d, %s" % (self.status, ": ".join(said) or "not a reply of tokend")


class Limit:
    """Shuts a connection down after some seconds, so that no reply is waited for longer."""

    def __init__(self, peer: socket.socket, seconds: float) -> None:
        self.is_over, self._peer = False, peer
        self._timer = threading.Timer(seconds, self._end)
        self._timer.daemon = True

    def _end(self) -> None:
        self.is_over = True
        with contextlib.suppress(OSError):
            # not by the method of a TLS socket, which a reader can't be in the midst of
            socket.socket.shutdown(self._peer, socket.SHUT_RDWR)

    def __enter__(self) -> Limit:
        self._timer.start()
        return self

    def __exit__(self, *_: object) -> None:
        self._timer.cancel()


class Server:
    """A server by its base URL. Its connection stays open if it, or a proxy before it, agrees.

    `lead` is how many seconds this clock is ahead of the server's, by the Date field of the last
    reply; None if that has none.
    """

    def __init__(self, url: str, access: Access) -> None:
        self.url, self._access = url, access
        self.lead: Optional[float] = None
        self._at = read_base(url)
        # no proxy leads to a socket of this machine
        self._proxy = None if self._at.is_socket else access.proxy
        self._link: Optional[http.client.HTTPConnection] = None

    def __enter__(self) -> Server:
        return self

    def __exit__(self, *_: object) -> None:
        self._close()

    def vector(self) -> Vector:
        path = "/sync/vector"
        return self._read(path, self._ask(path), "vector", read_vector)

    def page(self, cursor: bytes, vector: Vector) -> Bundle:
        """The first items above the cursor that the vector doesn't cover, with runs of marks.

        An older build takes no notice of the query, and sends a page without runs.
        """
        path = "/sync/pull?runs=1"
        reply = self._ask(path, write_pull(cursor, vector))
        page = self._read(path, reply, "bundle", read_bundle)
        if page.items and page.items[0][:MARK] <= cursor:
            raise self._lost(path, "a page that doesn't begin above its cursor")
        return page

    def push(self, bundle: Bundle) -> int:
        """How many dots of the bundle the server didn't know."""
        path = "/sync/push"
        reply = self._ask(path, bundle.write())
        if reply.status == 409 and reply.error == "horizon_ahead":
            raise Ahead("409 horizon_ahead")
        if reply.status == 409 and reply.error == "out_of_range":
            raise OutOfRange("409 out_of_range")
        if reply.status == 400 and reply.error == "malformed":
            raise Unread("400 malformed")
        if reply.status == 413 or (reply.status in (400, 409) and reply.error):
            raise Refused(("%d %s" % (reply.status, reply.error)).rstrip())
        took = re.fullmatch(rb'\{"took":(\d{1,4})\}\s*', reply.body)
        if reply.status != 200:
            raise self._lost(path, str(reply))
        if not took or int(took[1]) > len(bundle.items):
            raise self._lost(path, "status 200, not a reply to a bundle")
        return int(took[1])

    def _read(self, path: str, reply: Reply, name: str, reader: Callable[[bytes], T]) -> T:
        """Returns what a reader makes of a reply of status 200. Raises Lost for any other."""
        if reply.status != 200:
            raise self._lost(path, str(reply))
        try:
            return reader(reply.body)
        except Malformed as why:
            raise self._lost(path, "not a %s: %s" % (name, why)) from why

    def _lost(self, path: str, why: str) -> Lost:
        return Lost(self.url, path.partition("?")[0], why)

    def _ask(self, path: str, body: Optional[bytes] = None) -> Reply:
        """The first reply that isn't passing.

        A server that is silent, or whose certificate isn't good, isn't tried again.
        """
        pauses = list(self._access.pauses)
        for number in range(1, len(pauses) + 2):
            wait = 0
            try:
                reply = self._request(path, body)
                if not reply.is_passing:
                    return reply
                why, wait = str(reply), reply.pause
            except (Silent, ssl.SSLCertVerificationError) as error:
                raise self._lost(path, "%s (tries: %d)" % (_text_of(error), number)) from error
            except (OSError, http.client.HTTPException) as error:
                why = _text_of(error)
            if pauses:
                time.sleep(max(pauses.pop(0), wait))
        raise self._lost(path, "%s (tries: %d)" % (why, number))

    def _request(self, path: str, body: Optional[bytes]) -> Reply:
        """One try. A connection that was kept may have been closed meanwhile: then a new one."""
        if self._link is not None and self._link.sock is not None:
            with contextlib.suppress(OSError, http.client.HTTPException):
                return self._exchange(self._link, path, body)
        self._close()
        self._link = self._connect()
        return self._exchange(self._link, path, body)

    def _connect(self) -> http.client.HTTPConnection:
        """Returns a new connection, by the proxy if there is one. Raises Silent."""
        via, proxy = self._at, self._proxy
        if proxy:
            via = via._replace(host=proxy.host, port=proxy.port)
        link = connection_to(via, self._access.connect_time, self._access.tls)
        if proxy and self._at.scheme == "https":
            link.set_tunnel(self._at.host, self._at.port)
        try:
            link.connect()
        except TimeoutError as why:
            raise Silent("no connection within %g s" % self._access.connect_time) from why
        link.sock.settimeout(self._access.reply_time)
        return link

    def _exchange(self, link: http.client.HTTPConnection, path: str,
                  body: Optional[bytes]) -> Reply:
        """Sends a request, and returns its reply. Raises Silent if that takes too long."""
        target = self._at.target(path)
        fields = {} if body is None else dict(BYTES)
        if self._proxy and self._at.scheme == "http":
            target = self._at.text + path
            fields["Host"] = self._at.authority
        with Limit(link.sock, self._access.reply_time) as limit:
            try:
                moment = time.time()
                link.request("GET" if body is None else "POST", target, body, fields)
                reply = _read_reply(link.getresponse())
                self.lead = _lead_over(reply.date, moment)
                if not limit.is_over:
                    return reply
                raise TimeoutError
            except (OSError, http.client.HTTPException, ValueError) as why:
                self._close()
                if limit.is_over or isinstance(why, TimeoutError):
                    raise Silent("no reply within %g s" % self._access.reply_time) from why
                raise http.client.HTTPException(_text_of(why)) from why

    def _close(self) -> None:
        if self._link is not None:
            self._link.close()
            self._link = None


def _text_of(error: Exception) -> str:
    """The text of an error as one printable line, without its number."""
    said = getattr(error, "strerror", None) or str(error) or type(error).__name__
    return "".join(it if it.isprintable() else "?" for it in said[:MAX_SAID])


def _lead_over(date: str, moment: float) -> Optional[float]:
    """How many seconds a moment is after the one of a Date field; None if the field has none."""
    try:
        return moment - email.utils.mktime_tz(email.utils.parsedate_tz(date))
    except (TypeError, ValueError, OverflowError):
        return None


def _read_reply(response: http.client.HTTPResponse) -> Reply:
    """The whole reply. One that is cut or too long is an error."""
    body = response.read(LONGEST_REPLY + 1)
    if response.length:
        if len(body) > LONGEST_REPLY:
            raise http.client.HTTPException("a reply of over %d bytes" % LONGEST_REPLY)
        raise http.client.IncompleteRead(body, response.length)
    return Reply(response.status, body, response.getheader("Retry-After", "0"),
                 response.getheader("Date", ""))


def pages(source: Server, vector: Vector) -> Iterator[Bundle]:
    """Yields what the source has beyond a vector. The next page is pulled meanwhile."""
    page = source.page(FROM_THE_START, vector)
    with ThreadPoolExecutor(1) as pool:
        while page.is_full:
            coming = pool.submit(source.page, page.cursor, vector)
            yield page
            page = coming.result()
    if page.items:
        yield page
