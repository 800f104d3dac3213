"""slow: clients that are slow, silent or don't read hold nobody, and are closed at their limits."""
import time
import unittest

from lib.asking import request, status_of
from probing import Slow, Watch
from shared import FIGURES, GET, PULL, TRIES, Running, arrived, rest_of

LONGEST = 0.25  # seconds that another request may take, on a machine that does much else
HEAD = request("POST", "/token", bytes(500))[:-500]
LIMIT = 4.9, 6.5  # seconds from the accept until a connection without a whole request is closed
KINDS = [(b"",), (HEAD[:20],), (HEAD[:-2],), (HEAD,), (HEAD + bytes(499),),  # these stop
         (HEAD[:1], HEAD[1:]), (b"", HEAD), (HEAD, bytes(500))]  # these go on, a byte a second
WATCHED = 7
MANY, TOO_MANY = 900, 1_500  # fewer connections than a service has, and more


class Holding(unittest.TestCase):
    """Other requests beside slow clients, and when the server closes those."""

    def watched(self, name, make, prepare=lambda server: None):
        """A watch in which the others had short waits, and its clients. Prints the longest wait."""
        for _ in range(TRIES):
            with Running() as server:
                prepare(server)
                clients = make(server)
                seen = Watch(server, clients, WATCHED)
                for it in clients:
                    it.peer.close()
            if seen.longest < LONGEST:
                break
        FIGURES.append("beside %s another request took %.1f ms at most" % (
            name, seen.longest * 1000))
        self.assertLess(seen.longest, LONGEST)
        return seen, clients

    def closed(self, clients):
        """Each is closed within the limits, without a reply."""
        self.assertNotIn(None, [it.lasted for it in clients], "a connection is still open")
        lasted = sorted(it.lasted for it in clients)
        FIGURES[-1] += ", and each was closed after %.2f to %.2f s" % (lasted[0], lasted[-1])
        self.assertGreater(lasted[0], LIMIT[0])
        self.assertLess(lasted[-1], LIMIT[1])
        self.assertEqual({it.said for it in clients}, {b""})

    def test_slow_ones_of_every_kind(self):
        """Silent clients, and such as stop in their head or body, or send it a byte a second."""
        _, clients = self.watched("260 slow clients", lambda it: [
            Slow(it, *KINDS[number % len(KINDS)]) for number in range(260)])
        self.closed(clients)

    def test_many_idle_clients_delay_no_other(self):
        """As many as a service has connections, but for a few."""
        _, clients = self.watched("%d idle clients" % MANY, lambda it: [
            Slow(it) for _ in range(MANY)])
        self.closed(clients)

    def test_a_full_house(self):
        """Of more than a service has connections, those are closed first that waited longest."""
        _, clients = self.watched("%d idle clients" % TOO_MANY, lambda it: [
            Slow(it) for _ in range(TOO_MANY)])
        lasted = [it.lasted for it in clients]
        self.assertNotIn(None, lasted, "a connection is still open")
        early = [number for number, it in enumerate(lasted) if it < LIMIT[0]]
        FIGURES[-1] += ", and %d were closed early" % len(early)
        self.assertLess(len(early), TOO_MANY - MANY)
        self.assertEqual(early, list(range(len(early))))
        self.assertLess(max(lasted), LIMIT[1])

    def test_replies_never_read(self):
        seen, _ = self.watched("20 pages that nobody reads", lambda it: [
            Slow(it, PULL, reads=False, is_narrow=True) for _ in range(20)], prepare=Running.fill)
        first, last = seen.last_with(20), seen.last_with(5)
        self.assertIsNotNone(first, "the server never had all connections")
        FIGURES[-1] += ", and they were closed after %.2f to %.2f s" % (first, last)
        self.assertGreater(first, LIMIT[0] - 1)  # until all had asked
        self.assertLess(last, LIMIT[1])


class Slowly(unittest.TestCase):
    """Clients that are slow, and within their limits."""

    def test_a_head_and_a_body_in_time(self):
        """Two seconds for the head and two for the body."""
        sent = request("POST", "/admin/signout", b"subject=ann")
        with Running() as server, server.connect(sent[:10]) as peer:
            time.sleep(2)
            peer.sendall(sent[10:-4])
            time.sleep(2)
            self.assertFalse(arrived(peer))
            peer.sendall(sent[-4:])
            self.assertEqual(status_of(rest_of(peer)), 200)

    def test_a_reply_in_time(self):
        """A head that took three seconds, and a page that is read three seconds later."""
        with Running() as server:
            server.fill()
            with server.connect(PULL[:10], is_narrow=True) as peer:
                time.sleep(3)
                peer.sendall(PULL[10:])
                time.sleep(3)
                said = rest_of(peer)
        self.assertGreater(len(said), 600_000)
        self.assertEqual(status_of(said), 200)

    def test_byte_by_byte(self):
        with Running() as server, server.connect() as peer:
            for at in range(len(GET)):
                peer.sendall(GET[at:at + 1])
                time.sleep(0.02)
            self.assertEqual(status_of(rest_of(peer)), 200)

