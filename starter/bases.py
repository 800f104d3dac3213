"""bases: base URLs of servers, and connections to them.

A base URL is one of

    http://HOST:PORT    also https; a path may follow
    unix:PATH           a Unix socket of this machine. Requests have `Host: localhost`
    own                 the site whose settings the environment has: `unix:` and TOKEND_INNER, else
                        TOKEND_SOCKET, or 127.0.0.1 at TOKEND_PORT

It has no query, fragment, name of a user or space.
"""
from __future__ import annotations

import http.client
import os
import re
import socket
import ssl
import time
import urllib.parse
from typing import Mapping, NamedTuple, Optional

OWN, UNIX = "own", "unix:"
MAX_BYTES = 107  # of a socket's path, by sockaddr_un(7)
STEP = 0.01  # seconds between tries, while a socket has no room for another connection


class Base(NamedTuple):
    """What a base URL names. `text` is the URL, without a slash at its end."""

    text: str
    scheme: str
    host: str
    port: Optional[int]
    path: str  # that of the socket, or what comes before each path of a request

    @property
    def is_socket(self) -> bool:
        return self.scheme == "unix"

    @property
    def authority(self) -> str:
        """Host and port, as the URL has them."""
        return self.text.partition("://")[2].partition("/")[0]

    def target(self, path: str) -> str:
        """The target of a request for a path."""
        return path if self.is_socket else self.path + path


class SocketConnection(http.client.HTTPConnection):
    """A connection to a Unix socket."""

    def __init__(self, path: str, timeout: float) -> None:
        super().__init__("localhost", timeout=timeout)
        self._path = path

    def connect(self) -> None:
        end = time.monotonic() + self.timeout
        while True:
            link = socket.socket(socket.AF_UNIX, socket.SOCK_STREAM)
            link.settimeout(self.timeout)
            try:
                link.connect(self._path)
                self.sock = link
                return
            except BlockingIOError:  # many others wait to be accepted
                link.close()
                if time.monotonic() > end:
                    raise TimeoutError("timed out") from None
                time.sleep(STEP)
            except BaseException:
                link.close()
                raise


def socket_path(path: str) -> str:
    """The path, if it can be a socket's. Raises ValueError if it can't."""
    if not path or re.search(r"[\s?#@\0]", path) or path.endswith("/"):
        raise ValueError("%r is no path of a socket" % path)
    if len(os.fsencode(path)) > MAX_BYTES:
        raise ValueError("%s has over %d bytes" % (path, MAX_BYTES))
    return path


def read_base(text: str, environ: Mapping[str, str] = os.environ) -> Base:
    """Reads a base URL. Raises ValueError if the text is none."""
    text = own(environ) if text == OWN else text.rstrip("/")
    try:
        if text.startswith(UNIX):
            return Base(text, "unix", "localhost", None, socket_path(text[len(UNIX):]))
        url = urllib.parse.urlsplit(text)
        if (url.scheme in ("http", "https") and url.hostname and (url.port or 1)
                and not re.search(r"[\s?#@]", text)):
            return Base(text, url.scheme, url.hostname, url.port, url.path)
    except ValueError as why:
        raise ValueError("not a base URL: %s: %s" % (text, why)) from why
    raise ValueError("not a base URL: " + text)


def outer(environ: Mapping[str, str] = os.environ) -> str:
    """The base URL at which a site's clients are answered, by its settings."""
    if environ.get("TOKEND_SOCKET"):
        return UNIX + environ["TOKEND_SOCKET"]
    if not re.fullmatch("[0-9]{1,5}", environ.get("TOKEND_PORT", "")):
        raise ValueError("neither TOKEND_SOCKET nor TOKEND_PORT has a place")
    return "http://127.0.0.1:" + environ["TOKEND_PORT"]


def own(environ: Mapping[str, str] = os.environ) -> str:
    """The base URL at which a site's /admin/ and /sync/ are answered, by its settings."""
    if environ.get("TOKEND_INNER"):
        return UNIX + environ["TOKEND_INNER"]
    return outer(environ)


def connection_to(base: Base, timeout: float,
                  tls: Optional[ssl.SSLContext] = None) -> http.client.HTTPConnection:
    """A connection that isn't open yet. A name or a certificate is looked at as it opens."""
    if base.is_socket:
        return SocketConnection(base.path, timeout)
    if base.scheme == "https":
        return http.client.HTTPSConnection(base.host, base.port, timeout=timeout, context=tls)
    return http.client.HTTPConnection(base.host, base.port, timeout=timeout)
