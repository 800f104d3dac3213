"""seeds: the random words of a connection are those of its place among all that have ended."""
import re
import socket
import struct
import unittest
import urllib.parse

from lib.asking import request, status_of
from shared import GET, SEED, Running, await_that, handle_of, post, refreshing, rest_of, token_in

REGION = 1
MASK = 0xffffffff
CONSTANTS = 0x61707865, 0x3320646e, 0x79622d32, 0x6b206574
ROUNDS = [(0, 4, 8, 12), (1, 5, 9, 13), (2, 6, 10, 14), (3, 7, 11, 15),
          (0, 5, 10, 15), (1, 6, 11, 12), (2, 7, 8, 13), (3, 4, 9, 14)]


def turned(word, bits):
    return (word << bits | word >> (32 - bits)) & MASK


def quarter(words, a, b, c, d):
    """A quarter round (RFC 8439, 2.1)."""
    for x, y, z, bits in ((a, b, d, 16), (c, d, b, 12), (a, b, d, 8), (c, d, b, 7)):
        words[x] = (words[x] + words[y]) & MASK
        words[z] = turned(words[z] ^ words[x], bits)


def block(seed, stream, number):
    """The 16 words of a block of ChaCha20: RFC 8439, 2.3, with a counter of 64 bits."""
    begin = [*CONSTANTS, *struct.unpack("<8I", seed), number & MASK, number >> 32,
             stream & MASK, stream >> 32]
    words = list(begin)
    for _ in range(10):
        for places in ROUNDS:
            quarter(words, *places)
    return [(one + other) & MASK for one, other in zip(words, begin)]


def drawn(place):
    """The 48 bytes that are drawn for the connection at a place, from 0: six words of 64 bits."""
    words = [word for number in range((place + 1) * 12 // 16 + 1)
             for word in block(SEED, REGION, number)]
    return struct.pack(">12I", *words[place * 12:place * 12 + 12])


class Seeds(unittest.TestCase):
    def setUp(self):
        self.server = self.enterContext(Running())
        self.ended = 0

    def ask(self, sent):
        """The place of a connection that sent this, and its reply."""
        return self.place(), self.server.send(sent)[1]

    def place(self):
        """The place of the connection that ends next."""
        self.ended += 1
        return self.ended - 1

    def enrol(self):
        self.server.enrol()
        self.ended += 3

    def code(self):
        """The place of a connection that asked for a code, and the code."""
        place, said = self.ask(request("GET", self.server.authorize, b"", self.server.subject))
        return place, re.search(rb"[?&]code=([\w-]+)", said)[1].decode()

    def redeeming(self, code):
        uri = urllib.parse.parse_qs(self.server.authorize.partition("?")[2])["redirect_uri"][0]
        fields = {"grant_type": "authorization_code", "code": code,
                  "redirect_uri": urllib.parse.quote_plus(uri)}
        return post(self.server.token, fields, self.server.client)

    def has_drawn(self, said, place):
        """Whether both tokens of a reply are made of the words of the connection at this place."""
        for name, part in (("access_token", slice(0, 24)), ("refresh_token", slice(24, 48))):
            self.assertEqual(handle_of(token_in(said, name))[12:], drawn(place)[part], name)

    def test_the_example_of_the_standard(self):
        """The block of RFC 8439, 2.3.2. Its nonce and counter are words of their own there."""
        words = block(bytes(range(32)), 0x4a000000, 1 | 0x09000000 << 32)
        self.assertEqual([hex(it) for it in words[:4]],
                         ["0xe4e7f110", "0x15593bd1", "0x1fdd0f50", "0xc47120a3"])

    def test_one_after_the_other(self):
        self.enrol()
        place, code = self.code()
        self.assertEqual(handle_of(code)[12:], drawn(place)[:24])
        self.ask(GET)  # draws too
        place, said = self.ask(self.redeeming(code))
        self.has_drawn(said, place)
        place, said = self.ask(refreshing(self.server, token_in(said, "refresh_token")))
        self.has_drawn(said, place)

    def test_in_the_order_of_ends(self):
        """Three logins, whose requests are whole in another order than they were begun."""
        self.enrol()
        sent = [self.redeeming(self.code()[1]) for _ in range(3)]
        peers = [self.enterContext(self.server.connect(it[:-5])) for it in sent]
        for number in (2, 0, 1):
            peers[number].sendall(sent[number][-5:])
            said = rest_of(peers[number])
            self.assertEqual(status_of(said), 200)
            self.has_drawn(said, self.place())

    def test_without_a_request(self):
        """A client that sends nothing, one that ends in its head, and one that is reset in it."""
        self.enrol()
        code = self.code()[1]
        silent, ending, reset = (self.enterContext(self.server.connect(it))
                                 for it in (b"", GET[:10], GET[:10]))
        for it in silent, ending:
            it.shutdown(socket.SHUT_WR)
            rest_of(it)
            self.place()
        reset.setsockopt(socket.SOL_SOCKET, socket.SO_LINGER, struct.pack("ii", 1, 0))
        reset.close()
        await_that(lambda: not self.server.open_connections(), "a connection is open")
        self.place()
        place, said = self.ask(self.redeeming(code))
        self.has_drawn(said, place)
