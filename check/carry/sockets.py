"""sockets: base URLs, and what is carried to and from servers that listen at Unix sockets."""
import os
import socket
import threading
import time
import unittest
from pathlib import Path

from bases import SocketConnection, outer, own, read_base
from lib.asking import UNIX, url_of
from lib.cases import Case
from lib.facts import client, clients
from lib.peer import proxy


class Bases(unittest.TestCase):
    def test_what_each_names(self):
        for text, wanted in {
                "http://127.0.0.1:7001": ("http", "127.0.0.1", 7001, ""),
                "http://127.0.0.1:7001/": ("http", "127.0.0.1", 7001, ""),
                "https://one.example/inner/": ("https", "one.example", None, "/inner"),
                "http://[::1]:7001": ("http", "::1", 7001, ""),
                "unix:/run/tokend/one/inner": ("unix", "localhost", None, "/run/tokend/one/inner"),
                "unix:socket": ("unix", "localhost", None, "socket")}.items():
            with self.subTest(text):
                it = read_base(text)
                self.assertEqual((it.scheme, it.host, it.port, it.path), wanted)
                self.assertEqual(it.text, text.rstrip("/"))

    def test_what_names_nothing(self):
        for text in ("", "nowhere", "ftp://x", "http://", "http://a b", "http://u@x", "http://x?y",
                     "http://x#y", "http://x:0x", "http://x:99999", "unix:", "unix:/", "unix:/a b",
                     "unix:/a?b", "unix:/a#b", "unix:@a", "unix:" + "x" * 108, "UNIX:/a", "Own"):
            with self.subTest(text), self.assertRaisesRegex(ValueError, "^not a base URL: "):
                read_base(text)
        self.assertEqual(len(read_base("unix:" + "x" * 107).path), 107)

    def test_the_site_of_the_settings(self):
        port, at, inner = {"TOKEND_PORT": "7001"}, {"TOKEND_SOCKET": "/a"}, {"TOKEND_INNER": "/b"}
        for environ, wanted in (
                (port, ("http://127.0.0.1:7001",) * 2),
                (at, ("unix:/a",) * 2),
                (port | {"TOKEND_SOCKET": "", "TOKEND_INNER": ""}, ("http://127.0.0.1:7001",) * 2),
                (at | inner, ("unix:/b", "unix:/a")),
                (port | inner, ("unix:/b", "http://127.0.0.1:7001"))):
            self.assertEqual((own(environ), outer(environ)), wanted)
            self.assertEqual(read_base("own", environ).text, wanted[0])
        for environ in {}, {"TOKEND_PORT": "x"}, {"TOKEND_SOCKET": ""}:
            with self.assertRaisesRegex(ValueError, "neither TOKEND_SOCKET nor TOKEND_PORT"):
                read_base("own", environ)


class Queues(Case):
    """A socket whose queue is full refuses a connection at once, which a port never does."""

    def full(self):
        """A listener without room, and the connections that took it."""
        it = self.stack.enter_context(socket.socket(socket.AF_UNIX))
        it.bind(os.path.join(self.folder, "full"))
        it.listen(0)
        peer = self.stack.enter_context(socket.socket(socket.AF_UNIX))
        peer.connect(it.getsockname())
        return it

    def test_room_is_waited_for(self):
        it = self.full()
        threading.Timer(0.5, it.accept).start()
        link = SocketConnection(it.getsockname(), 10)
        begin = time.monotonic()
        link.connect()
        self.assertTrue(0.3 < time.monotonic() - begin < 5)
        self.assertEqual(link.sock.gettimeout(), 10)
        link.close()

    def test_no_room_is_waited_for_as_long_as_a_connection(self):
        begin = time.monotonic()
        with self.assertRaises(TimeoutError):
            SocketConnection(self.full().getsockname(), 0.5).connect()
        self.assertTrue(0.4 < time.monotonic() - begin < 5)

    def test_carry_leaves_a_server_without_room_out(self):
        good, it = self.tokend(1, client(3, 1)), self.full()
        status, output, errors = self.carry(good.url, url_of(it.getsockname()),
                                            options="--connect-timeout 0.5")
        self.assertEqual(status, 1)
        self.assertIn("%s/sync/pull: no connection within 0.5 s" % url_of(it.getsockname()), errors)
        self.assertIn("not finished", output)


class Sockets(Case):
    def served(self, region, *items, is_inner=True):
        """A server at a socket, and at an inner one, that holds these items."""
        folder = os.path.join(self.folder, str(region))
        os.mkdir(folder, 0o700)
        words = ["--socket", folder + "/socket"]
        words += ["--inner", folder + "/inner"] if is_inner else []
        return self.tokend(region, *items, options=words)

    def environ(self, server):
        """The settings of its site."""
        return {"TOKEND_SOCKET": server.socket or "", "TOKEND_INNER": server.inner or "",
                "TOKEND_PORT": str(server.port or "")}

    def test_all_facts_arrive(self):
        one, two = self.served(1, *clients(3, *range(1, 301))), self.tokend(2, *clients(4, 1))
        three = self.served(5, is_inner=False)
        self.assertEqual([it.url[:5] for it in (one, two, three)], ["unix:", "http:", "unix:"])
        status, output, errors = self.carry(one.url, two.url)
        self.assertEqual((status, errors), (0, ""))
        self.assertIn("%s -> %s: 300 facts in 3 pages, 300 new" % (one.url, two.url), output)
        self.assertEqual(self.carry(three.url, one.url, two.url)[0], 0)
        self.assertEqual(len({it.vector() for it in (one, two, three)}), 1)

    def test_clients_are_answered_elsewhere(self):
        """The socket of clients has no /sync/, and says so."""
        one, two = self.served(1, client(3, 1)), self.tokend(2)
        status, _, errors = self.carry(two.url, UNIX + one.socket)
        self.assertEqual(status, 1)
        self.assertIn("%s/sync/pull: status 404, not_found: no server of tokend has this path"
                      % (UNIX + one.socket), errors)

    def test_no_proxy_leads_to_a_socket(self):
        one, two = self.served(1, client(3, 1)), self.tokend(2)
        before = self.peer(lambda path, body: proxy(two)(path.removeprefix(two.url), body))
        status, _, errors = self.carry(one.url, two.url, options="--proxy " + before.url)
        self.assertEqual((status, errors), (0, ""))
        self.assertEqual(two.held(), [client(3, 1)])
        self.assertEqual([it.partition("/sync")[0] for it in before.asked], [two.url] * 3)

    def test_own_is_the_site_of_the_settings(self):
        one, two, port = self.served(1, client(3, 1)), self.served(2), self.tokend(4)
        for it in one, port:
            done = os.path.join(self.folder, "done")
            status, output, errors = self.run_script(
                "carry/carry", "--done", done, "own", two.url, **self.environ(it))
            self.assertEqual((status, errors), (0, ""))
            self.assertIn("%s -> %s: " % (two.url, it.url), output)
            self.assertEqual(Path(done).read_text(encoding="utf-8"), it.url + "\n")
            os.unlink(done)
        self.assertEqual(port.held(), [client(3, 1)])
        status, _, errors = self.run_script("carry/carry", "own", two.url, TOKEND_PORT="")
        self.assertEqual(status, 2)
        self.assertIn("neither TOKEND_SOCKET nor TOKEND_PORT", errors)

    def test_done_says_nothing_of_a_run_that_failed(self):
        one = self.served(1, client(3, 1))
        done = os.path.join(self.folder, "done")
        self.assertEqual(self.carry(one.url, UNIX + self.folder + "/none",
                                    words=["--done", done])[0], 1)
        self.assertFalse(os.path.exists(done))

    def test_what_keeps_a_server_from_being_reached_is_named(self):
        one = self.served(1)
        it = self.stack.enter_context(socket.socket(socket.AF_UNIX))
        it.bind(os.path.join(self.folder, "left"))
        for name, why in ("none", "No such file or directory"), ("left", "Connection refused"):
            status, _, errors = self.carry(one.url, UNIX + os.path.join(self.folder, name))
            self.assertEqual(status, 1)
            self.assertIn("/%s/sync/pull: %s (tries: 4)\n" % (name, why), errors)
        for wrong in "unix:", "unix:a b", "unix:" + "x" * 108:
            status, _, errors = self.carry(one.url, wrong)
            self.assertEqual(status, 2)
            self.assertIn("not a base URL: " + wrong, errors)

    def test_a_backup_reads_a_server_at_a_socket(self):
        one, folder = self.served(1, *clients(3, 1, 2)), os.path.join(self.folder, "kept")
        for words, environ in ([one.url], {}), (["own"], self.environ(one)):
            status, output, errors = self.run_script("two-regions/backup", *words, folder,
                                                     **environ)
            self.assertEqual((status, errors), (0, ""))
            self.assertTrue(output.startswith(one.url + ": "), output)
        self.assertIn(": 0 facts", output)

