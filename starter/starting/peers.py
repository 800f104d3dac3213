"""Other regions, as a start asks them: their vectors, and the facts that the site lacks.

No proxy of the environment is used. Each request has an end of its own, and all of them together
have one, so a peer that is silent or slow can't hold up a start.
"""
import contextlib
import email.utils
import http.client
import signal
import time

from bases import connection_to, read_base
from starting.bundles import DOT, NoBundle, is_full, page_dots, vector_regions

SILENCE, LONGEST = 6, 15  # seconds without a byte, and of one request
MAX_BYTES = 1_100_000  # of a reply: above the longest page and the longest vector
FAULTS = OSError, http.client.HTTPException, NoBundle, ValueError


class Late(OSError):
    """The time of a request, or of all of them, is over."""


@contextlib.contextmanager
def at_most(seconds):
    """Raises Late in what goes on after this many seconds."""
    def late(*_):
        raise Late("no whole reply in time")
    if seconds <= 0:
        late()
    before = signal.signal(signal.SIGALRM, late)
    signal.setitimer(signal.ITIMER_REAL, seconds)
    try:
        yield
    finally:
        signal.setitimer(signal.ITIMER_REAL, 0)
        signal.signal(signal.SIGALRM, before)


def lead_over(date, moment):
    """How many seconds a moment is after the one of a Date field; None if the field has none."""
    try:
        return moment - email.utils.mktime_tz(email.utils.parsedate_tz(date))
    except (TypeError, ValueError, OverflowError):
        return None


def body_of(reply):
    if reply.status != 200:
        raise ValueError("status %d" % reply.status)
    body = b""
    while piece := reply.read(65_536):
        body += piece
        if len(body) > MAX_BYTES:
            raise ValueError("a reply is too long")
    if reply.length:
        raise ValueError("a reply is cut off")
    return body


class Peer:
    """A region at a base URL, which is asked up to the end of the time for all peers.

    `lead` is how many seconds this clock is ahead of the peer's, by the Date field of its last
    reply; None if that has none.
    """

    def __init__(self, url, end):
        self.url, self.end, self.lead = url, end, None

    def ask(self, method, path, body=None):
        base = read_base(self.url)
        with (at_most(min(LONGEST, self.end - time.monotonic())),
              contextlib.closing(connection_to(base, SILENCE)) as connection):
            moment = time.time()
            connection.request(method, base.target(path), body,
                               {"Content-Type": "application/octet-stream"})
            reply = connection.getresponse()
            said = body_of(reply)
            self.lead = lead_over(reply.getheader("Date"), moment)
            return said

    def regions(self):
        """The numbers of which it holds facts."""
        return vector_regions(self.ask("GET", "/sync/vector"))

    def pages(self, vector):
        """Each page of what a vector lacks, with its dots.

        Pages with runs are asked for. A peer of an older build takes no notice of that.
        """
        cursor = bytes(DOT.size)
        while True:
            page = self.ask("POST", "/sync/pull?runs=1", cursor + vector)
            dots = page_dots(page)
            if dots:
                yield page, dots
            if not dots or not is_full(page, dots):
                return
            if DOT.pack(*dots[-1]) <= cursor:
                raise NoBundle("pages go round")
            cursor = DOT.pack(*dots[-1])
