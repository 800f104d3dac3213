"""counted: --requests counts connections, whatever comes of them."""
import time
import unittest
from signal import SIGCONT, SIGSTOP

from lib.asking import request, status_of
from shared import GET, SECONDS, Running, await_that, rest_of

BEHIND = bytes(60_000)  # what a client sends behind its request
SIGNOUT = request("POST", "/admin/signout", b"subject=ann")


class Counted(unittest.TestCase):
    def replied(self, server, sent=GET):
        with server.connect(sent) as peer:
            self.assertEqual(status_of(rest_of(peer)), 200)

    def test_a_service_of_0_connections_ends_with_status_0(self):
        with Running("--requests", "0") as server:
            self.assertEqual(server.child.wait(SECONDS), 0)

    def test_a_silent_one_counts(self):
        """The last of three gets its reply at once, and the service waits for the silent one."""
        begin = time.monotonic()
        with Running("--requests", "3") as server, server.connect():
            self.replied(server)
            self.replied(server, SIGNOUT)
            self.assertLess(time.monotonic() - begin, 4)
            self.assertIsNone(server.child.poll())
            self.assertEqual(server.child.wait(SECONDS), 0)
        self.assertGreater(time.monotonic() - begin, 4.9)

    def test_no_more_are_served(self):
        """Of five that are there at once, two get a reply."""
        with Running("--requests", "2") as server:
            server.child.send_signal(SIGSTOP)
            peers = [self.enterContext(server.connect(GET)) for _ in range(5)]
            server.child.send_signal(SIGCONT)
            replies = [rest_of(it) for it in peers]
            self.assertEqual(server.child.wait(SECONDS), 0)
        self.assertEqual([status_of(it) for it in replies], [200, 200, None, None, None])
        self.assertEqual(set(replies[2:]), {b""})

    def test_the_end_waits_for_slow_readers(self):
        """Clients that sent bytes behind their requests, and read their replies late."""
        with Running("--requests", "3") as server:
            peers = [self.enterContext(server.connect(GET + BEHIND)) for _ in range(3)]
            time.sleep(1)
            self.assertEqual({status_of(rest_of(it)) for it in peers}, {200})
            self.assertIsNone(server.child.poll())
            for it in peers:
                it.close()
            await_that(lambda: server.child.poll() == 0, "the service doesn't end")
