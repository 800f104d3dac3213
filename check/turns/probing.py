"""probing: clients that are slow in several ways, and how long others wait meanwhile."""
import contextlib
import select
import time

from shared import GET, SECONDS

PAUSE = 0.003  # seconds between two requests of the others
GAP = 1.0  # seconds between two bytes of a client that drips


class Slow:
    """A client that sends some bytes at once, and others one by one; it may read nothing."""

    def __init__(self, server, at_once=b"", slowly=b"", reads=True, is_narrow=False):
        self.begun = time.monotonic()
        self.peer = server.connect(at_once, is_narrow)
        self.peer.setblocking(False)
        self.slowly, self.reads, self.said, self.lasted = slowly, reads, b"", None
        self.next = self.begun + GAP

    def drip(self, now):
        """Sends the next byte, if it is due."""
        if self.slowly and now >= self.next and self.lasted is None:
            with contextlib.suppress(OSError):
                self.peer.send(self.slowly[:1])
            self.slowly, self.next = self.slowly[1:], self.next + GAP

    def hear(self):
        """Reads what has come, and notes when the server closes."""
        try:
            piece = self.peer.recv(65536)
        except BlockingIOError:
            return
        except ConnectionError:
            piece = b""
        self.said += piece
        if not piece:
            self.lasted = time.monotonic() - self.begun


def wait_of(server):
    """How many seconds a request took that needs nothing."""
    begin = time.monotonic()
    status, said = server.send(GET, SECONDS)
    seconds = time.monotonic() - begin
    if status != 200:
        raise AssertionError("another request gets %r" % said[:60])
    return seconds


class Watch:
    """Watches a server and its slow clients for some seconds.

    `longest` is the longest that another request took. If a client reads nothing, `counts` has
    pairs: how many seconds have passed, and how many connections the server has open then.
    """

    def __init__(self, server, clients, seconds):
        self.longest, self.counts, begin = 0.0, [], time.monotonic()
        readers = {it.peer.fileno(): it for it in clients if it.reads}
        drippers = [it for it in clients if it.slowly]
        is_counted = len(readers) < len(clients)
        with select.epoll() as poll:
            for number in readers:
                poll.register(number, select.EPOLLIN)
            while (now := time.monotonic()) < begin + seconds:
                for it in drippers:
                    it.drip(now)
                for number, _ in poll.poll(PAUSE):
                    readers[number].hear()
                    if readers[number].lasted is not None:
                        poll.unregister(number)
                self.longest = max(self.longest, wait_of(server))
                if is_counted:
                    self.counts.append((time.monotonic() - begin, server.open_connections()))

    def last_with(self, count):
        """The last moment at which there were at least N connections."""
        return max((at for at, many in self.counts if many >= count), default=None)
