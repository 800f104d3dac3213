"""splits: requests that arrive in pieces, of many clients by turns, are answered as whole ones."""
import random
import socket
import unittest

from lib.asking import request
from shared import GET, Running, post, rest_of

ROUNDS, PIECES = 40, 6  # how often each request is sent, and in how many pieces at most
SEED = 7


def bare(text):
    """The bytes of a head."""
    return text.replace("\n", "\r\n").encode() + b"\r\n\r\n"


def requests_of(server, token):
    """Requests that change nothing: right ones, and such as HTTP, paths or forms refuse."""
    known = post("/introspect", {"token": token}, server.resource)
    return [
        known, known + b"behind", known + known, post("/introspect", {"token": "x" * 9000},
                                                      server.resource),
        post("/introspect", {"token": token}, "eDp5"), post("/introspect", {}, server.resource),
        post("/revoke", {"token": "nothing"}, server.client),
        post("/token", {"grant_type": "refresh_token", "refresh_token": "x"}, server.client),
        post("/token", {"grant_type": "password"}, server.client),
        GET, GET + b"\0" * 100, request("GET", "/nowhere"), request("POST", "/nowhere", b"a=b"),
        request("GET", "/token"), request("GET", server.authorize), request("POST", "/sync/pull"),
        request("POST", "/sync/push", b"OTB9" + bytes(70_000)),
        request("POST", "/admin/client", b"kind=none"),
        bare("POST /token HTTP/1.1"), bare("POST /token HTTP/1.1\nContent-Length: 99999"),
        bare("POST /token HTTP/1.1\nTransfer-Encoding: chunked") + b"0\r\n\r\n",
        bare("POST /token HTTP/1.1\nContent-Length: 1\nContent-Length: 1") + b"a",
        bare("GET /token HTTP/1.0"), bare("GET / HTTP/2.0"), bare("get"), b"\1" * 20,
        bare("GET / HTTP/1.1\nX: " + "y" * 9000), bare("GET / HTTP/1.1" + "\nA: b" * 70),
        b"GET " + b"x" * 9000,
    ]


def cut_off(server, token):
    """Requests that end too early."""
    whole = post("/introspect", {"token": token}, server.resource)
    return [b"", b"\r\n" * 3, GET[:1], GET[:-2], whole[:60], whole[:-60], whole[:-1]]


class Piecewise:
    """A client that sends a request in pieces, and may end its side behind the last one."""

    def __init__(self, server, sent, ends):
        self.peer, self.ends = server.connect(), ends
        cuts = sorted(random.randrange(len(sent) + 1) for _ in range(random.randrange(PIECES)))
        self.pieces = [sent[a:b] for a, b in zip([0] + cuts, cuts + [len(sent)])]

    def go_on(self):
        """Sends the next piece, and returns whether more follow."""
        try:
            self.peer.sendall(self.pieces.pop(0))
            if not self.pieces and self.ends:
                self.peer.shutdown(socket.SHUT_WR)
        except (ConnectionError, OSError):  # the server has replied, and took enough behind that
            self.pieces = []
        return bool(self.pieces)


class Splits(unittest.TestCase):
    def test_replies_to_pieces(self):
        random.seed(SEED)
        with Running() as server:
            server.enrol()
            token, wanted = server.log_in()["access_token"], {}
            whole, ended = requests_of(server, token), cut_off(server, token)
            for sent in whole + ended:
                with server.connect(sent) as peer:
                    peer.shutdown(socket.SHUT_WR)
                    wanted[sent] = rest_of(peer)
            self.assertGreater(len({it[:12] for it in wanted.values()}), 6)  # statuses
            before = server.errors()
            for ends in [True, False] * (ROUNDS // 2):
                clients = [(sent, Piecewise(server, sent, ends))
                           for sent in whole + (ended if ends else [])]
                left = clients
                while left:
                    random.shuffle(left)
                    left = [it for it in left if it[1].go_on()]
                for sent, it in clients:
                    with it.peer:
                        self.assertEqual(rest_of(it.peer), wanted[sent], sent[:80])
            self.assertEqual(server.errors(), before)

    def test_a_request_cut_at_any_byte_gets_its_reply(self):
        """A request in two pieces, cut at each byte."""
        with Running() as server:
            server.enrol()
            sent = post("/introspect", {"token": "x"}, server.resource)
            with server.connect(sent) as peer:
                wanted = rest_of(peer)
            for at in range(len(sent)):
                with server.connect(sent[:at]) as peer:
                    peer.sendall(sent[at:])
                    self.assertEqual(rest_of(peer), wanted, at)
