"""carrier: runs of examples/carry/carry between servers, and with peers that misbehave."""
import contextlib
import fcntl
import hashlib
import os
import re
import signal
import ssl
import threading
import time
import unittest

from lib.cases import Case
from lib.facts import EMPTY_VECTOR, bundle, client, clients, each_administered, mark
from lib.peer import proxy, without_query
from lib.tls import OPENSSL, make_certificate
from lib.waiting import until

TOOK, NO_BUNDLE = b'{"took":%d}', b"OTB1\0\0"


def empty(path, body):
    """A peer that holds nothing and takes in anything."""
    said = {"/sync/vector": EMPTY_VECTOR, "/sync/pull": NO_BUNDLE, "/sync/push": TOOK % 0}
    return 200, {}, said[without_query(path)]


def saying(**replies):
    """Such a peer, with other replies to some of the requests."""
    def reply(path, body):
        name = without_query(path).rpartition("/")[2]
        return replies.get(name) or empty(path, body)
    return reply


class Servers(Case):
    def test_all_facts_arrive(self):
        one = self.tokend(1, *clients(3, *range(1, 301)))
        two = self.tokend(2, *clients(4, *range(1, 129)))
        status, output, errors = self.carry(one.url, two.url)
        self.assertEqual((status, errors), (0, ""))
        self.assertRegex(output, re.escape("%s -> %s: 128 facts in 1 pages, 128 new, 0 marks, "
                                           % (two.url, one.url)) + r"\d+ bytes, \d+\.\d\d s\n")
        self.assertIn("%s -> %s: 300 facts in 3 pages, 300 new" % (one.url, two.url), output)
        self.assertEqual(one.vector(), two.vector())
        status, output, _ = self.carry(one.url, two.url)
        self.assertEqual((status, output.count(" 0 facts in 0 pages, 0 new, 0 marks")), (0, 2))

    def test_three_servers_agree(self):
        all_of_them = [self.tokend(it, client(10 + it, 1)) for it in (1, 2, 3)]
        self.assertEqual(self.carry(*(it.url for it in all_of_them))[0], 0)
        self.assertEqual(len({it.vector() for it in all_of_them}), 1)

    def test_facts_are_carried_with_their_operators(self):
        facts = each_administered(3)
        one, two = self.tokend(1, *facts), self.tokend(2)
        status, output, errors = self.carry(two.url, one.url)
        self.assertEqual((status, errors), (0, ""))
        self.assertIn("8 facts in 1 pages, 8 new", output)
        self.assertEqual(two.held(), facts)

    def test_marks_are_carried_with_their_horizon(self):
        one, two = self.tokend(1, client(3, 1)), self.tokend(2)
        self.assertEqual(one.push([mark(3, 2), mark(3, 3)], horizon=0), (200, TOOK % 2))
        status, output, errors = self.carry(two.url, one.url)
        self.assertEqual((status, errors), (0, ""))
        self.assertIn("1 facts in 1 pages, 3 new, 2 marks", output)
        self.assertEqual(two.held(), [client(3, 1), mark(3, 2), mark(3, 3)])
        self.assertEqual(two.page().horizon, 0)
        self.assertEqual(one.vector(), two.vector())
        self.assertIn("0 facts in 0 pages", self.carry(two.url, one.url)[1])

    def test_marks_ahead_wait_and_their_page_is_pushed_once(self):
        horizon = int(time.time()) + 3
        one = self.tokend(1, *clients(3, *range(1, 101)))
        self.assertEqual(one.push([mark(3, 200), mark(3, 201)], horizon), (200, TOOK % 2))
        two = self.tokend(2, options=("--ahead", "refused"))
        status, output, errors = self.carry(two.url, one.url)
        self.assertEqual(status, 1)
        self.assertEqual(errors, "carry: %s takes no marks yet: 409 horizon_ahead\n" % two.url)
        self.assertIn("100 facts in 1 pages, 100 new, 2 waiting, 2 marks", output)
        self.assertEqual(two.held(), clients(3, *range(1, 101)))
        time.sleep(max(0, horizon + 0.1 - time.time()))
        status, output, errors = self.carry(two.url, one.url)
        self.assertEqual((status, errors), (0, ""))
        self.assertIn("0 facts in 1 pages, 2 new, 2 marks", output)
        self.assertEqual(two.page().horizon, horizon)

    def test_a_refused_fact_beside_marks_ahead_holds_no_other_back(self):
        one = self.tokend(1, *clients(3, 1, 2, 3))
        self.assertEqual(one.push([mark(3, 9)], int(time.time()) + 3600), (200, TOOK % 1))
        two = self.tokend(2, client(3, 2, b"write"), options=("--ahead", "refused"))
        status, output, errors = self.carry(two.url, one.url)
        self.assertEqual(status, 3)
        self.assertIn("carry: %s refuses 3:2: 409 conflict\n" % two.url, errors)
        self.assertIn("3 facts in 1 pages, 2 new, 1 refused, 1 waiting, 1 marks", output)
        self.assertEqual(two.held(), [client(3, 1), client(3, 2, b"write"), client(3, 3)])

    def test_a_refused_fact_holds_no_other_back(self):
        one = self.tokend(1, *clients(3, *range(1, 101)))
        two = self.tokend(2, client(3, 70, b"write"))
        status, output, errors = self.carry(two.url, one.url)
        self.assertEqual(status, 3)
        self.assertEqual(errors, "carry: %s refuses 3:70: 409 conflict\n" % two.url)
        self.assertIn("100 facts in 1 pages, 99 new, 1 refused, 0 marks", output)
        self.assertEqual(two.held(), [client(3, it, b"write" if it == 70 else b"read")
                                      for it in range(1, 101)])

    def test_a_refused_mark_holds_no_other_back(self):
        one = self.tokend(1, client(3, 1))
        self.assertEqual(one.push([mark(3, 2), mark(3, 3), mark(3, 4)], horizon=9)[0], 200)
        two = self.tokend(2, client(3, 3))
        status, output, errors = self.carry(two.url, one.url)
        self.assertEqual(status, 3)
        self.assertEqual(errors, "carry: %s refuses the mark 3:3: 409 conflict\n" % two.url)
        self.assertIn("1 facts in 1 pages, 3 new, 1 refused, 3 marks", output)
        self.assertEqual(two.held(), [client(3, 1), mark(3, 2), client(3, 3), mark(3, 4)])
        self.assertEqual(two.page().horizon, 9)

    def test_ten_refused_facts_are_named(self):
        one = self.tokend(1, *clients(3, *range(1, 41)))
        two = self.tokend(2, *(client(3, it, b"write") for it in range(2, 41)))
        status, output, errors = self.carry(two.url, one.url)
        self.assertEqual((status, errors.count("\n")), (3, 10))
        self.assertIn("40 facts in 1 pages, 1 new, 39 refused", output)

    def test_a_region_refuses_a_fact_of_its_own_number(self):
        one, two = self.tokend(1, client(2, 1)), self.tokend(2)
        status, _, errors = self.carry(two.url, one.url)
        self.assertEqual(status, 3)
        self.assertIn("refuses 2:1: 409 own_number", errors)

    def test_a_proxy_keeps_the_connection(self):
        one, two = self.tokend(1, *clients(3, *range(1, 301))), self.tokend(2)
        before = self.peer(proxy(two))
        self.assertEqual(self.carry(one.url, before.url)[0], 0)
        self.assertEqual(one.vector(), two.vector())
        self.assertEqual(len(before.asked), 1 + 1 + 3)
        self.assertEqual(before.connections, 2)  # one of each way

    def test_a_proxy_that_drops_its_connections(self):
        one, two = self.tokend(1, *clients(3, *range(1, 301))), self.tokend(2)
        before = self.peer(proxy(two), drops=True)
        status, output, errors = self.carry(one.url, before.url)
        self.assertEqual((status, errors), (0, ""))
        self.assertEqual((len(before.asked), before.connections), (5, 5))
        pauses = 3  # seconds that it would take if each were a fault
        self.assertLess(sum(map(float, re.findall(r"([\d.]+) s$", output, re.M))), pauses)
        self.assertEqual(one.vector(), two.vector())

    def test_a_proxy_with_a_small_limit(self):
        one, two = self.tokend(1, *clients(3, *range(1, 101))), self.tokend(2)

        def reply(path, body):
            return (413, {}, b"<html>") if len(body) > 2000 else proxy(two)(path, body)
        status, output, errors = self.carry(self.peer(reply).url, one.url)
        self.assertEqual(status, 0)
        self.assertIn("refuses 100 items at once, 413, and takes them in parts", errors)
        self.assertEqual(one.vector(), two.vector())


class Misbehaving(Case):
    def run_with(self, url, options="-m 1"):
        """What a run says of a peer beside a good server, and how long it takes."""
        good, begin = self.tokend(1, client(3, 1)), time.monotonic()
        status, output, errors = self.carry(good.url, url, options=options)
        self.assertEqual(status, 1, errors)
        self.assertEqual(good.held(), [client(3, 1)])
        self.assertIn("not finished", output)
        return errors, time.monotonic() - begin

    def test_a_silent_peer(self):
        _, url = self.listener()
        errors, seconds = self.run_with(url)
        self.assertEqual(errors, "carry: %s/sync/pull: no reply within 1 s (tries: 1)\n" % url)
        self.assertLess(seconds, 10)

    def test_a_silent_peer_costs_the_others_nothing(self):
        one, two = self.tokend(1, client(3, 1)), self.tokend(2)
        _, url = self.listener()
        self.assertEqual(self.carry(one.url, url, two.url, options="-m 1")[0], 1)
        self.assertEqual(one.vector(), two.vector())

    def test_a_peer_that_drips(self):
        it, url = self.listener()

        def drip():
            with it.accept()[0] as peer, contextlib.suppress(OSError):
                for byte in b"HTTP/1.1 200 OK\r\nX-Long: " + b"x" * 100:
                    peer.send(bytes([byte]))
                    time.sleep(0.1)
        threading.Thread(target=drip, daemon=True).start()
        errors, seconds = self.run_with(url)
        self.assertIn("no reply within 1 s", errors)
        self.assertLess(seconds, 10)

    def test_a_peer_that_says_no_http(self):
        it, url = self.listener()

        def say():
            with contextlib.suppress(OSError):  # the listener is closed
                while True:
                    with it.accept()[0] as peer:
                        peer.recv(1000)
                        peer.send(b"\x1b[31m" + b"x" * 1000 + b"\r\n")
        threading.Thread(target=say, daemon=True).start()
        self.assertRegex(self.run_with(url)[0], r"/sync/pull: \?\[31mx{100,196} \(tries: 4\)\n$")

    def test_a_peer_that_is_gone_is_tried_four_times(self):
        it, url = self.listener()
        it.close()
        errors, seconds = self.run_with(url)
        self.assertRegex(errors, r"Connection refused \(tries: 4\)\n$")
        self.assertGreater(seconds, 7)

    def test_peers_that_are_no_tokend(self):
        page = 200, {}, b"<html>a page</html>"
        for why, reply in {
                "not a bundle: it begins with b'<htm'": saying(pull=page),
                "not a vector: 19 bytes that begin": saying(vector=page),
                "status 403, something before": lambda *_: (403, {}, b"<html>"),
                "status 404, no server of tokend": lambda *_: (404, {}, b"<html>"),
                "status 302, not a reply": lambda *_: (302, {"Location": "/"}, b""),
                "status 400, not a reply": lambda *_: (400, {}, b"<html>"),
                "not a reply to a bundle": saying(push=page)}.items():
            with self.subTest(why):
                self.assertIn(why, self.run_with(self.peer(reply).url)[0])

    def test_a_malformed_page_is_named_and_nothing_is_pushed(self):
        wrong = bundle(clients(4, 1)) + b"\0"
        for why, said in {
                "not a bundle: 1 bytes behind its last item": wrong,
                "not a bundle: item 1 of 1 has 28 of 36 bytes": bundle(clients(4, 1))[:-8],
                "not a bundle: it begins with b'OTB7', no version": b"OTB7" + wrong[4:],
                "not a bundle: item 2 isn't above the one before": bundle(clients(4, 2, 1))
                }.items():
            with self.subTest(why):
                peer = self.peer(saying(pull=(200, {}, said)))
                errors, _ = self.run_with(peer.url)
                self.assertIn("carry: %s/sync/pull: %s" % (peer.url, why), errors)
                self.assertNotIn("/sync/push", peer.asked)

    def test_a_page_that_comes_again(self):
        peer = self.peer(saying(pull=(200, {}, bundle(clients(4, *range(1, 129))))))
        status, output, errors = self.carry(self.tokend(1).url, peer.url)
        self.assertEqual(status, 1)
        self.assertIn("a page that doesn't begin above its cursor", errors)
        self.assertIn("128 facts in 1 pages, 128 new, not finished", output)

    def test_a_reply_that_is_cut(self):
        said = bundle(clients(4, 1))
        peer = self.peer(saying(pull=(200, {"Content-Length": len(said) + 5}, said)))
        errors, _ = self.run_with(peer.url, options="-m 9")
        self.assertIn("5 more expected", errors)

    def test_a_reply_without_end(self):
        peer = self.peer(saying(pull=(200, {"Content-Length": 2**40}, bytes(2_000_000))))
        self.assertIn("a reply of over", self.run_with(peer.url, options="-m 9")[0])

    def test_rate_limits_and_faults_pass(self):
        for status in 429, 500, 502, 503:
            said = [(status, {"Retry-After": "1"}, b"")]
            one = self.tokend(1, client(3, 1))
            peer = self.peer(lambda *it: said.pop() if said else empty(*it))
            self.assertEqual(self.carry(one.url, peer.url)[0], 0)

    def test_faults_that_stay(self):
        peer = self.peer(saying(vector=(503, {}, b'{"error":"temporarily_unavailable"}')))
        status, _, errors = self.carry(self.tokend(1).url, peer.url)
        self.assertEqual(status, 1)
        self.assertIn("status 503, temporarily_unavailable: its log has failed", errors)
        self.assertEqual(peer.asked.count("/sync/vector"), 4)


class Runs(Case):
    def slow(self):
        """A server, and a peer that replies once it is let go."""
        go = threading.Event()

        def reply(path, body):
            go.wait(60)
            return empty(path, body)
        return go, self.tokend(1, client(3, 1)), self.peer(reply)

    def wait_for(self, test):
        self.assertTrue(until(test))

    def test_a_second_run_waits(self):
        go, one, peer = self.slow()
        first = self.start("carry/carry", one.url, peer.url)
        self.wait_for(lambda: peer.asked)
        second = self.start("carry/carry", one.url, peer.url)
        time.sleep(1)
        self.assertEqual(len(peer.asked), 1)
        go.set()
        self.assertEqual([it.wait(60) for it in (first, second)], [0, 0])
        self.assertEqual(peer.asked, ["/sync/pull?runs=1", "/sync/vector", "/sync/push"] * 2)

    def test_a_second_run_waits_no_longer_than_it_may(self):
        go, one, peer = self.slow()
        first = self.start("carry/carry", one.url, peer.url)
        self.wait_for(lambda: peer.asked)
        status, output, errors = self.carry(one.url, peer.url, words=["--wait", "0.3"])
        self.assertEqual((status, output), (1, ""))
        self.assertRegex(errors, "^carry: another run holds .*lock\n$")
        go.set()
        self.assertEqual(first.wait(60), 0)

    def test_no_lock_is_taken_where_others_can_hold_it(self):
        """Somebody holds a lock of each name in a shared folder, and that stops nobody."""
        one, two = self.tokend(1, client(3, 1)), self.tokend(2)
        shared, own = self.folder + "/shared", self.folder + "/own"
        os.mkdir(own, 0o700)
        os.mkdir(shared)
        os.chmod(shared, 0o1777)
        name = hashlib.sha256(one.url.encode()).hexdigest()[:16]
        for it in "carry-%s.lock" % name, "carry-%d-%s.lock" % (os.geteuid(), name):
            held = self.stack.enter_context(open(os.path.join(shared, it), "wb"))
            fcntl.flock(held, fcntl.LOCK_EX)
        for home, status in (own, 0), (shared, 2):
            said = self.run_script("carry/carry", "--wait", "0.3", one.url, two.url, HOME=home,
                                   TMPDIR=shared)
            self.assertEqual(said[0], status, said)
        self.assertEqual(two.held(), [client(3, 1)])

    def test_signals_end_a_run(self):
        _, one, peer = self.slow()
        for number in signal.SIGTERM, signal.SIGINT, signal.SIGHUP:
            asked = len(peer.asked)
            child = self.start("carry/carry", one.url, peer.url)
            self.wait_for(lambda: len(peer.asked) > asked)
            child.send_signal(number)
            self.assertEqual(child.wait(5), 1)

    def test_wrong_arguments_end_carry_with_status_2(self):
        for words in ([], ["http://127.0.0.1:1"], ["http://a.test", "ftp://b.test"],
                      ["http://a.test", "http://b.test?c"], ["http://a.test", "http://x:99999"]):
            self.assertEqual(self.carry(*words)[0], 2)
        for options in "--fail", "'", "-m x", "-x socks5://c.test", "-x d@c.test":
            self.assertEqual(self.carry("http://a.test", "http://b.test", options=options)[0], 2)
        self.assertEqual(self.carry("https://a.test", "http://b.test",
                                    options="--cert no.pem")[0], 2)

    def test_standard_output_that_is_closed(self):
        one, two = self.tokend(1), self.tokend(2)
        child = self.start("carry/carry", one.url, two.url)
        child.stdout.close()
        self.assertEqual(child.wait(60), 1)
        child.stdout = None


class Names(Case):
    def test_a_proxy_of_carry_curl(self):
        one, two = self.tokend(1, client(3, 1)), self.tokend(2)
        seen = []

        def reply(path, body):
            seen.append(path)
            there = one if path.startswith(one.url) else two
            return proxy(there)(path[len(there.url):], body)
        way = "-x " + self.peer(reply).url.removeprefix("http://")
        status, _, errors = self.carry(one.url, two.url, options=way)
        self.assertEqual((status, errors), (0, ""))
        self.assertEqual(one.vector(), two.vector())
        self.assertTrue(all(it.startswith("http://") for it in seen))

    @unittest.skipUnless(OPENSSL, "no openssl")
    def test_certificates_of_both_sides(self):
        make_certificate(self.folder)
        key, cert = (os.path.join(self.folder, it) for it in ("key.pem", "cert.pem"))
        tls = ssl.create_default_context(ssl.Purpose.CLIENT_AUTH, cafile=cert)
        tls.load_cert_chain(cert, key)
        tls.verify_mode = ssl.CERT_REQUIRED
        one, two = self.tokend(1, client(3, 1)), self.tokend(2)
        url, mine = self.peer(proxy(two), tls=tls).url, "--cert %s --key %s" % (cert, key)
        self.assertEqual(self.carry(one.url, url, options="--cacert %s %s" % (cert, mine))[0], 0)
        self.assertEqual(one.vector(), two.vector())
        for options, why in {"": "(tries: 1)", "--cacert " + cert: "(tries: 4)"}.items():
            status, _, errors = self.carry(one.url, url, options=options)
            self.assertEqual(status, 1)
            self.assertIn(why, errors)

    def test_a_silent_peer_behind_tls(self):
        _, url = self.listener()
        errors = self.carry(self.tokend(1).url, "https" + url[4:], options="--connect-timeout 1")
        self.assertIn("no connection within 1 s (tries: 1)", errors[2])

    def test_a_path_before_sync(self):
        one, two = self.tokend(1, client(3, 1)), self.tokend(2)
        peer = self.peer(lambda path, body: proxy(two)(path.removeprefix("/two"), body))
        self.assertEqual(self.carry(one.url, peer.url + "/two/")[0], 0)
        self.assertEqual(one.vector(), two.vector())
