"""leaks: clients that end in each way leave no descriptor and no memory behind."""
import random
import socket
import struct
import unittest

from lib.asking import request, status_of
from shared import FIGURES, GET, PULL, Running, await_that, rest_of

CLIENTS, ROUNDS = 1500, 3
RESET = struct.pack("ii", 1, 0)
PUSH = request("POST", "/sync/push", bytes(1_000_000))[:-1_000_000]
HALF, PART = 200, 1_000_000  # how many push, and how many bytes each sends of its body
MAX_GROWN, MAX_HELD = 1 << 20, 64 << 20  # bytes of memory


def read_all(peer):
    rest_of(peer)


def reset(peer):
    peer.setsockopt(socket.SOL_SOCKET, socket.SO_LINGER, RESET)


def end(peer):
    peer.shutdown(socket.SHUT_WR)


def leave(peer):
    """Closes without a word."""


WAYS = [(sent, how) for sent in (b"", GET[:10], GET, GET + bytes(5000), PULL,
                                 request("POST", "/token", bytes(300))[:-100])
        for how in (reset, end, leave)] + [(GET, read_all), (PULL, read_all), (b"\1", read_all)]


class Leaks(unittest.TestCase):
    def test_clients_of_each_kind(self):
        """The memory of the last round is that of the first. No connection stays open."""
        random.seed(1)
        sizes = []
        with Running() as server:
            for _ in range(ROUNDS):
                for _ in range(CLIENTS):
                    sent, how = random.choice(WAYS)
                    with server.connect(sent) as peer:
                        how(peer)
                await_that(lambda: server.open_connections() == 0, "a connection is open")
                sizes.append(server.resident())
            with server.connect(GET) as peer:
                self.assertEqual(status_of(rest_of(peer)), 200)
        FIGURES.append("%d clients of each kind took %d KiB more than %d did" % (
            CLIENTS * ROUNDS, (sizes[-1] - sizes[0]) >> 10, CLIENTS))
        self.assertLess(sizes[-1] - sizes[0], MAX_GROWN)

    def test_many_half_pushes_take_bounded_memory(self):
        """Many long bodies at once take bounded memory. Afterwards a push is taken."""
        with Running() as server:
            peers = []
            for _ in range(HALF):
                peers.append(self.enterContext(server.connect(PUSH)))
                peers[-1].setblocking(False)
            for _ in range(40):
                for it in peers:
                    send_more(it)
            size = server.resident()
            with server.connect(GET) as peer:
                self.assertEqual(status_of(rest_of(peer)), 200)
            for it in peers:
                it.close()
            await_that(lambda: server.open_connections() == 0, "a connection is open")
            body = b"OTB1\0\0"
            self.assertEqual(server.send(request("POST", "/sync/push", body))[0], 200)
        FIGURES.append("%d half pushes took %d MiB" % (HALF, size >> 20))
        self.assertLess(size, MAX_HELD)


def send_more(peer):
    """Sends a part of a body, as far as there is room. The server may have closed."""
    try:
        peer.send(bytes(PART // 40))
    except OSError:
        pass
