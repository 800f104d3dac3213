"""kept: connections that stay open have their requests answered in order, each framed as it is."""
import random
import re
import socket
import threading
import time
import unittest

from lib.asking import request, status_of
from shared import (FIGURES, GET, PULL, SECONDS, Running, await_that, post, refreshing, rest_of,
                    token_in)

CLOSE, LINE = "Connection: close", b"Connection: close\r\n"
KEEP = 2  # seconds
ROUNDS, PIECES, SEED = 120, 9, 11
MANY = 990  # connections that are kept and idle


def reply_of(peer, said=b""):
    """The next reply, and what came behind it."""
    while not (framed := re.match(rb"(?s)(.*?\r\n)Content-Length: (\d+)\r\n.*?\r\n\r\n", said)) \
            or len(said) < framed.end() + int(framed[2]):
        piece = peer.recv(65536)
        if not piece:
            raise AssertionError("no whole reply: %r" % said)
        said += piece
    end = framed.end() + int(framed[2])
    return said[:end], said[end:]


class Keeping(Running):
    """A server that keeps connections, but for those of its own requests."""

    closing = CLOSE,

    def __init__(self, *options, keep=60, **more):
        super().__init__("--keep", str(keep), *options, **more)

    def alone(self, sent):
        """The reply to a request that has a connection of its own."""
        with self.connect(sent) as peer:
            peer.shutdown(socket.SHUT_WR)
            return rest_of(peer)


class Kept(unittest.TestCase):
    def staying(self, server):
        """Requests behind which a connection stays, and which change nothing."""
        token = server.log_in()["access_token"]
        return [
            post("/introspect", {"token": token}, server.resource),
            post("/introspect", {"token": "x" * 9000}, server.resource),
            post("/introspect", {"token": token}, "eDp5"), GET,
            post("/revoke", {"token": "nothing"}, server.client),
            post("/token", {"grant_type": "password"}, server.client),
            request("GET", server.authorize), request("POST", "/admin/client", b"kind=none"),
            request("POST", "/introspect", b"token=x", "Connection: Keep-Alive"),
            request("POST", "/sync/push", b"OTB9" + bytes(40_000)),
        ]

    def test_pipelined_requests_get_their_replies_in_order(self):
        """All at once: the replies come in order, none says that the connection ends."""
        with Keeping() as server:
            server.enrol()
            sent = self.staying(server)
            wanted = [server.alone(it) for it in sent]
            self.assertEqual({it.count(LINE) for it in wanted}, {0})
            with server.connect(b"".join(sent)) as peer:
                said = b""
                for reply in wanted:
                    got, said = reply_of(peer, said)
                    self.assertEqual(got, reply)
                peer.shutdown(socket.SHUT_WR)
                self.assertEqual(rest_of(peer, said), b"")
            self.assertEqual(server.errors(), "")

    def test_requests_cut_at_any_byte_get_the_same_replies(self):
        """Three requests in two pieces, cut at each byte."""
        with Keeping() as server:
            server.enrol()
            sent = post("/introspect", {"token": "x"}, server.resource) * 2 + GET
            with server.connect(sent) as peer:
                peer.shutdown(socket.SHUT_WR)
                wanted = rest_of(peer)
            self.assertEqual(wanted.count(b"HTTP/1.1 200"), 3)
            for at in range(len(sent)):
                with server.connect(sent[:at]) as peer:
                    peer.sendall(sent[at:])
                    peer.shutdown(socket.SHUT_WR)
                    self.assertEqual(rest_of(peer), wanted, at)

    def test_requests_in_random_pieces_get_the_same_replies(self):
        """Requests in random order and random pieces, of many clients by turns."""
        random.seed(SEED)
        with Keeping() as server:
            server.enrol()
            all_of = self.staying(server)
            reply = {it: server.alone(it) for it in all_of}
            clients = []
            for _ in range(ROUNDS):
                order = random.sample(all_of, len(all_of))
                sent = b"".join(order)
                cuts = sorted(random.randrange(len(sent)) for _ in range(PIECES))
                pieces = [sent[a:b] for a, b in zip([0] + cuts, cuts + [len(sent)])]
                clients.append((server.connect(), pieces, b"".join(reply[it] for it in order)))
            left = clients
            while left:
                random.shuffle(left)
                for peer, pieces, _ in left:
                    peer.sendall(pieces.pop(0))
                left = [it for it in left if it[1]]
            for peer, _, wanted in clients:
                with peer:
                    peer.shutdown(socket.SHUT_WR)
                    self.assertEqual(rest_of(peer), wanted)

    def test_what_ends_a_connection(self):
        """The client's wish, HTTP/1.0, each refusal, and a body that isn't read."""
        form = "Content-Type: application/x-www-form-urlencoded"
        ending = {
            "close": request("GET", "/sync/vector", b"", CLOSE),
            "a list": request("GET", "/sync/vector", b"", "Connection: keep-alive, close"),
            "two fields": request("GET", "/sync/vector", b"", "Connection: keep-alive", CLOSE),
            "another wish": request("GET", "/sync/vector", b"", "Connection: upgrade"),
            "HTTP/1.0": GET.replace(b"HTTP/1.1", b"HTTP/1.0"),
            "404": request("GET", "/nowhere"), "405": request("GET", "/token"),
            "411": b"POST /token HTTP/1.1\r\n\r\n",
            "413": request("POST", "/token", bytes(20_000), form),
            "400, two lengths": request("POST", "/token", b"a", "Content-Length: 1"),
            "400, a sign": b"POST /token HTTP/1.1\r\nContent-Length: +1\r\n\r\na",
            "411, chunks": b"POST /token HTTP/1.1\r\nTransfer-Encoding: chunked\r\n\r\n0\r\n\r\n",
            "411, chunks with a length": request(
                "POST", "/token", b"0\r\n\r\n", "Transfer-Encoding: chunked"),
            "400, no head": b"get\r\n\r\n",
            "GET with a length": request("GET", "/sync/vector", b"", "Content-Length: 0"),
            "GET with a body": request(
                "GET", "/sync/vector", b"", "Content-Length: %d" % len(GET)) + GET,
            "GET with chunks": request(
                "GET", "/sync/vector", b"", "Transfer-Encoding: chunked") + GET,
        }
        with Keeping() as server:
            server.enrol()
            for name, sent in ending.items():
                with self.subTest(name), server.connect(GET + sent + GET) as peer:
                    first, said = reply_of(peer)
                    self.assertNotIn(LINE, first)
                    said = rest_of(peer, said)
                    self.assertEqual(said.count(b"HTTP/1.1 "), 1, said)
                    self.assertIn(LINE, said)
                    self.assertIsNotNone(status_of(said))

    def test_one_request_by_default(self):
        for options in [(), ("--keep", "0")]:
            with Running(*options) as server, server.connect(GET + GET) as peer:
                said = rest_of(peer)
                self.assertEqual((said.count(b"HTTP/1.1 "), said.count(LINE)), (1, 1))

    def test_a_kept_connection_that_stays_idle_ends(self):
        """A kept connection ends some seconds after its last reply, without a byte or a line."""
        with Keeping(keep=KEEP) as server, server.connect(GET) as peer:
            reply_of(peer)
            time.sleep(KEEP * 0.6)
            peer.sendall(GET)
            reply_of(peer)
            begin = time.monotonic()
            self.assertEqual(rest_of(peer), b"")
            self.assertGreater(time.monotonic() - begin, KEEP * 0.9)
            self.assertLess(time.monotonic() - begin, KEEP + 3)
            self.assertEqual(server.errors(), "")

    def test_half_a_request_ends(self):
        """A next request has as long as a first one, from its first byte on."""
        with Keeping() as server, server.connect(GET) as peer:
            reply_of(peer)
            time.sleep(1)
            begin = time.monotonic()
            peer.sendall(GET[:20])
            self.assertEqual(rest_of(peer), b"")
            self.assertTrue(4.8 < time.monotonic() - begin < 8)
            await_that(lambda: server.errors() == "fault read\n", "no line: " + server.errors())

    def test_connections_are_counted(self):
        """--requests counts connections, and the service ends once the last one did."""
        with Keeping("--requests", "2") as server:
            peers = [self.enterContext(server.connect()) for _ in range(2)]
            for _ in range(5):
                for peer in peers:
                    peer.sendall(GET)
                    self.assertEqual(status_of(reply_of(peer)[0]), 200)
            self.assertIsNone(server.child.poll())
            for peer in peers:
                peer.close()
            self.assertEqual(server.child.wait(SECONDS), 0)
            self.assertEqual(server.errors(), "")

    def test_a_full_house_closes_the_idle(self):
        """Kept connections that are idle hold no place against a new one."""
        with Keeping() as server:
            peers = [self.enterContext(server.connect(GET)) for _ in range(MANY)]
            for peer in peers:
                reply_of(peer)
            time.sleep(0.3)
            begin = time.monotonic()
            for _ in range(30):
                self.assertEqual(status_of(server.alone(GET)), 200)
            self.assertLess(time.monotonic() - begin, 5)
            self.assertEqual(server.errors(), "")

    def test_a_sealed_server_ends_it(self):
        """Once its log has failed, each kept connection gets 503 and ends."""
        with Keeping("--log", "/dev/full") as server, server.connect(GET) as peer:
            reply_of(peer)
            self.assertEqual(server.alone(request("POST", "/admin/signout", b"subject=ann")), b"")
            peer.sendall(GET + GET)
            said = rest_of(peer)
            self.assertEqual((status_of(said), said.count(LINE)), (503, 1))
            self.assertEqual(server.errors(), "fault log\n")

    def test_refreshes_over_one_connection(self):
        """A chain of refreshes by one kept connection."""
        with Keeping() as server:
            server.enrol()
            token = server.log_in()["refresh_token"]
            with server.connect() as peer:
                for _ in range(20):
                    peer.sendall(refreshing(server, token))
                    token = token_in(reply_of(peer)[0], "refresh_token")
            self.assertTrue(server.is_active(token))

    def test_many_requests_of_one_keep_no_other_waiting(self):
        """A client that asks for pages, one behind the other, and reads none."""
        with Keeping() as server, server.connect(is_narrow=True) as greedy:
            server.fill()
            greedy.sendall(PULL * 200)
            for _ in range(20):
                begin = time.monotonic()
                self.assertEqual(status_of(server.alone(GET)), 200)
                self.assertLess(time.monotonic() - begin, 1)
            await_that(lambda: server.errors() == "fault write\n", "it is waited for without end")

    def test_many_requests_at_once(self):
        """A client that pipelines ten thousand requests, beside one that asks once in a while."""
        with Keeping() as server, server.connect() as many:
            sender = threading.Thread(target=many.sendall, args=(GET * 10_000,))
            sender.start()
            said, longest = b"", 0
            for at in range(10_000):
                reply, said = reply_of(many, said)
                self.assertEqual(status_of(reply), 200)
                if at % 500 == 0:
                    begin = time.monotonic()
                    self.assertEqual(status_of(server.alone(GET)), 200)
                    longest = max(longest, time.monotonic() - begin)
            sender.join()
            self.assertEqual(said, b"")
            self.assertLess(longest, 1)
            FIGURES.append("beside 10,000 pipelined requests the longest wait was %d ms"
                           % (longest * 1000))
