"""crowd: sixteen clients at the same time, over a log."""
import threading
import time
import unittest

from lib import Broken
from shared import Running, await_that, dot_of, dots_in

CLIENTS, REFRESHES = 16, 20
UNTIL_KILL = 1.0  # seconds


class Client(threading.Thread):
    """Logs in and refreshes, and looks whether tokens are as they must be.

    `made` has a token of each fact that a reply was about, `active` and `ended` what must be so
    afterwards. A kill ends it. Another failure is kept as `wrong`.
    """

    def __init__(self, server, refreshes, killed=threading.Event()):
        super().__init__()
        self.server, self.refreshes, self.killed = server, refreshes, killed
        self.made, self.active, self.ended, self.wrong = [], set(), set(), None

    def run(self):
        try:
            self.work()
        except (OSError, AssertionError, Broken) as why:
            if not self.killed.is_set():
                self.wrong = repr(why)

    def work(self):
        """Logs in and refreshes, and introspects each token after each refresh."""
        pair = self.server.log_in()
        self.note(pair)
        for _ in range(self.refreshes):
            used, before = pair["refresh_token"], pair["access_token"]
            self.active.discard(used)
            pair = self.server.refresh(used)
            self.ended.add(used)
            self.note(pair)
            for token, is_active in ((pair["access_token"], True), (before, True),
                                     (used, False), (pair["refresh_token"], True)):
                if self.server.is_active(token) != is_active:
                    raise AssertionError("%s is active: %s" % (token, not is_active))

    def note(self, pair):
        self.made.append(pair["access_token"])
        self.active |= {pair["access_token"], pair["refresh_token"]}


def working(server, refreshes, killed=threading.Event()):
    clients = [Client(server, refreshes, killed) for _ in range(CLIENTS)]
    for it in clients:
        it.start()
    return clients


class Crowd(unittest.TestCase):
    def kept(self, server, clients, log):
        """What was replied is in the log, and holds of the next run, which loads the log."""
        self.assertEqual([it.wrong for it in clients if it.wrong], [])
        made = [token for it in clients for token in it.made]
        self.assertEqual(len(set(made)), len(made))
        self.assertLessEqual({dot_of(it) for it in made}, dots_in(log))
        with Running(region=2, load=log) as again:
            again.enrol_as(server)
            for it in clients:
                self.assertEqual({token for token in it.active if not again.is_active(token)},
                                 set())
                self.assertEqual({token for token in it.ended if again.is_active(token)}, set())

    def test_replies_are_right_and_kept(self):
        with Running("--log", "{}/log") as server:
            server.enrol()
            clients = working(server, REFRESHES)
            for it in clients:
                it.join()
            self.assertEqual([len(it.made) for it in clients if not it.wrong],
                             [1 + REFRESHES] * CLIENTS)
            server.stop()
            self.kept(server, clients, server.logged())
            self.assertEqual(server.errors(), "")

    def test_replies_before_a_kill_are_kept(self):
        """A refresh whose reply was lost may have ended its token."""
        killed = threading.Event()
        with Running("--log", "{}/log") as server:
            server.enrol()
            clients = working(server, 1 << 30, killed)
            time.sleep(UNTIL_KILL)
            killed.set()
            server.stop()
            for it in clients:
                it.join()
            self.assertGreater(sum(len(it.made) for it in clients), CLIENTS)
            self.kept(server, clients, server.logged())

    def test_the_moment_of_a_request(self):
        """A request that comes while nobody is connected is decided at a moment not before it."""
        with Running() as server:
            server.enrol()
            token = server.log_in()["refresh_token"]
            await_that(lambda: server.open_connections() == 0, "a connection is open")
            time.sleep(2)  # moments are whole seconds
            came = int(time.time())
            given = {"token": server.refresh(token)["access_token"]}
            found = server.form("/introspect", given, server.resource)
        self.assertGreaterEqual(found["iat"], came)
