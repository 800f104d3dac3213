"""metrics: with --metrics operators see what the server has counted, and clients don't."""
import re
import time

from lib.asking import body_of, connect, request, status_of
from lib.command import GIVEN
from lib.facts import CURSOR, EMPTY_VECTOR, dot
from lib.server import Server
from shared import PULL, SECONDS, Asking, Syncs, await_that, refreshing, rest_of

METRICS = "/metrics"
UNKNOWN = request("GET", "/nowhere")
LIFE = 1.1  # seconds, after which a text is made anew
KINDS = {
    "tokend_requests_total": "counter",
    "tokend_faults_total": "counter",
    "tokend_connections_total": "counter",
    "tokend_open_connections": "gauge",
    "tokend_held_facts": "gauge",
    "tokend_pruned_facts_total": "counter",
    "tokend_horizon_timestamp_seconds": "gauge",
    "tokend_last_push_timestamp_seconds": "gauge",
}
STATUSES = 200, 201, 302, 400, 401, 404, 405, 409, 411, 413, 503
PLACES = {  # endpoints that clients reach, and their paths
    "authorize": "/authorize", "token": "/token", "introspect": "/introspect",
    "revoke": "/revoke", "metadata": "/.well-known/oauth-authorization-server",
    "health": "/health", "unknown": "/nowhere",
}
INNER = {it: "/" + it for it in (
    "admin/client", "admin/clients", "admin/retire", "admin/secret", "admin/consent",
    "admin/withdraw", "admin/subject", "admin/signout", "admin/logout", "sync/vector", "sync/pull",
    "sync/push", "metrics")}
REACHED = {"clients": PLACES, "all": {**PLACES, **INNER}}
LAST_PUSH = "tokend_last_push_timestamp_seconds"


def samples(text):
    """The samples of a text, each with its kind and help before it."""
    found, kinds, helped = {}, {}, set()
    for line in text.decode().splitlines():
        if line.startswith("# HELP "):
            helped.add(line.split(" ")[2])
        elif line.startswith("# TYPE "):
            _, _, name, kind = line.split(" ")
            kinds[name] = kind
        else:
            key, value = line.rsplit(" ", 1)
            assert key.partition("{")[0] in kinds and key not in found, line
            found[key] = int(value)
    assert helped == set(kinds) and kinds == KINDS, kinds
    return found


def sample(paths, endpoint, status):
    return 'tokend_requests_total{paths="%s",endpoint="%s",status="%d"}' % (
        paths, endpoint, status)


def replies(paths, counts):
    """The samples of all replies, if there were these by endpoint and status, and no others."""
    return {sample(paths, endpoint, status): counts.get((endpoint, status), 0)
            for endpoint in REACHED[paths] for status in STATUSES}


def grown(before, after):
    """The samples that another text has more of."""
    assert set(before) == set(after)
    return {key: after[key] - before[key] for key in after if after[key] != before[key]}


class Metrics(Asking):
    def shown(self, place):
        """The samples, of a text that is made anew."""
        time.sleep(LIFE)
        said = self.said(place, request("GET", METRICS))
        self.assertEqual(status_of(said), 200)
        self.assertIn(b"\r\nContent-Type: text/plain; version=0.0.4\r\n", said)
        self.assertTrue(said.endswith(b"\n"))
        return samples(body_of(said))

    def assert_shows(self, place, wanted):
        shown = self.shown(place)
        self.assertEqual({key: shown[key] for key in wanted}, wanted)

    def test_without_the_option(self):
        """The path is as any that isn't there, byte for byte."""
        for options in (), ("--health",):
            it = self.served(*options)
            wanted = self.said(it.place, UNKNOWN)
            self.assertEqual(status_of(wanted), 404)
            for method in "GET", "POST", "HEAD":
                self.assertEqual(self.said(it.place, request(method, METRICS)), wanted)

    def test_other_methods_than_get_are_refused_with_405(self):
        it = self.served("--metrics")
        for method in "POST", "PUT", "HEAD":
            said = self.said(it.place, request(method, METRICS))
            self.assertEqual(status_of(said), 405, method)
            self.assertIn(b"\r\nAllow: GET\r\n", said)

    def test_the_first_request_gets_a_text_of_metrics(self):
        """The first request has a text, however soon it comes."""
        it = self.served("--metrics")
        said = samples(body_of(self.said(it.place, request("GET", METRICS))))
        self.assertEqual(said["tokend_held_facts"], 0)

    def test_metrics_are_shown_at_the_inner_socket_alone(self):
        """Operators see them at the inner socket, and clients never."""
        it = self.enterContext(Server(GIVEN.program, "--socket", "{}/socket", "--inner", "{}/inner",
                                      "--metrics"))
        wanted = self.said(it.socket, UNKNOWN)
        for method in "GET", "POST", "HEAD":
            self.assertEqual(self.said(it.socket, request(method, METRICS)), wanted)
        self.assert_shows(it.inner, {**replies("clients", {("unknown", 404): 4}),
                                     **replies("all", {}),
                                     "tokend_connections_total": 4})
        self.assert_shows(it.inner, {**replies("clients", {("unknown", 404): 4}),
                                     **replies("all", {("metrics", 200): 1}),
                                     "tokend_connections_total": 5, "tokend_open_connections": 1})

    def test_known_requests_are_counted_exactly(self):
        """Known requests have exact counts."""
        it = self.served("--metrics").enrol()
        before = self.shown(it.place)
        token = it.log_in()["refresh_token"]
        self.assertEqual(status_of(self.said(it.place, refreshing(it, token))), 200)
        self.assertEqual(status_of(self.said(it.place, UNKNOWN)), 404)
        for _ in range(2):
            self.assertEqual(self.said(it.place, b"GET / HT"), b"")  # cut off
        self.assertEqual(grown(before, self.shown(it.place)),
                         {sample("all", "authorize", 302): 1, sample("all", "token", 200): 2,
                          sample("all", "unknown", 404): 1, sample("all", "metrics", 200): 1,
                          'tokend_faults_total{kind="read"}': 2,
                          "tokend_connections_total": 7,
                          "tokend_held_facts": 3})

    def test_requests_to_each_path_are_counted_apart(self):
        """Each path has its own counts, also of requests that are refused by their heads."""
        it = self.served("--metrics", "--health", "--issuer", "https://a.example")
        before, wanted = self.shown(it.place), {sample("all", "metrics", 200): 1}
        for endpoint, path in REACHED["all"].items():
            status = 404 if endpoint == "unknown" else 405
            self.assertEqual(status_of(self.said(it.place, request("PUT", path + "?a=b"))), status)
            wanted[sample("all", endpoint, status)] = 1
        wanted["tokend_connections_total"] = len(wanted)
        self.assertEqual(grown(before, self.shown(it.place)), wanted)

    def test_requests_by_their_status(self):
        """Statuses of one path are counted apart."""
        it = self.served("--metrics")
        before = self.shown(it.place)
        for sent, status in (
                (b"POST /token HTTP/1.1\r\n\r\n", 411),
                (b"POST /token HTTP/1.1\r\nContent-Length: 20000\r\n\r\n", 413),
                (b"POST /token HTTP/1.1\r\n" + b"Content-Length: 0\r\n" * 2 + b"\r\n", 400),
                (b"POST /token HTTP/1.1\r\nContent-Length: 0\r\n\r\n", 401),
                (b"no head\r\n\r\n", 400)):
            self.assertEqual(status_of(self.said(it.place, sent)), status, sent)
        self.assertEqual(grown(before, self.shown(it.place)), {
            sample("all", "token", 411): 1, sample("all", "token", 413): 1,
            sample("all", "token", 400): 1, sample("all", "token", 401): 1,
            sample("all", "unknown", 400): 1,
            sample("all", "metrics", 200): 1, "tokend_connections_total": 6})

    def test_pulls_with_a_query(self):
        """A pull of pages with runs is counted as any other."""
        it = self.served("--metrics")
        before = self.shown(it.place)
        for query in "", "?runs=1", "?runs=0":
            sent = request("POST", "/sync/pull" + query, CURSOR + EMPTY_VECTOR)
            self.assertEqual(status_of(self.said(it.place, sent)), 200)
        self.assertEqual(grown(before, self.shown(it.place)), {
            sample("all", "sync/pull", 200): 3, sample("all", "metrics", 200): 1,
            "tokend_connections_total": 4})

    def test_the_last_push_is_the_last_one_taken_in(self):
        """The moment is that of the last push that was taken in, not of one that was refused."""
        it = self.served("--metrics")
        self.assert_shows(it.place, {LAST_PUSH: 0})
        self.assertEqual(status_of(self.said(it.place, PULL)), 200)
        self.assertEqual(it.push([dot((1, 1))], 1234)[0], 409)
        self.assert_shows(it.place, {LAST_PUSH: 0, sample("all", "sync/push", 409): 1})
        began = int(time.time())
        self.assertEqual(it.push([dot((9, 1))], 1234)[0], 200)
        moment = self.shown(it.place)[LAST_PUSH]
        self.assertLessEqual(began, moment)
        self.assertLessEqual(moment, time.time())
        self.assertEqual(it.push([dot((1, 1))], 1234)[0], 409)
        self.assert_shows(it.place, {LAST_PUSH: moment, sample("all", "sync/push", 200): 1})

    def test_replies_that_are_not_taken(self):
        it = self.served("--metrics")
        it.fill()
        with it.connect(PULL, is_narrow=True):
            await_that(lambda: it.errors() == "fault write\n", "it is waited for without end")
        self.assert_shows(it.place, {'tokend_faults_total{kind="write"}': 1})

    def test_a_text_lasts_a_second(self):
        """Within a second the text is the same, byte for byte."""
        it = self.served("--metrics", "--keep", "60")
        time.sleep(LIFE)
        sent = request("GET", METRICS)
        with connect(it.place, sent * 3 + UNKNOWN, patience=SECONDS) as peer:
            said = rest_of(peer)
        texts = re.findall(rb"# HELP tokend_requests_total.*?(?=HTTP/1.1|\Z)", said, re.S)
        self.assertEqual((len(texts), len(set(texts))), (3, 1))

    def test_the_horizon_of_a_push_is_shown(self):
        it = self.served("--metrics")
        self.assert_shows(it.place, {"tokend_horizon_timestamp_seconds": 0})
        self.assertEqual(it.push([dot((9, 1))], 1234)[0], 200)
        self.assert_shows(it.place, {"tokend_horizon_timestamp_seconds": 1234})

    def test_log_that_failed(self):
        """A sealed server shows nothing: its metrics get 503, as each request does."""
        syncs = self.enterContext(Syncs())
        it = self.served("--metrics", "--log", "{}/log", before=syncs.before).enrol()
        token = it.log_in()["refresh_token"]
        syncs.write("fail", syncs.read("ended") + 1)
        self.assertEqual(self.said(it.place, refreshing(it, token)), b"")
        self.assertEqual(status_of(self.said(it.place, request("GET", METRICS))), 503)
