"""world: two sites that a page watches. Their exchange can be cut, and metrics are written anew."""
import base64
import contextlib
import http.client
import os
import subprocess
import threading
import time
import unittest

from fronts import IS_HERE, LACKING, NAMES, PROMETHEUS, USER, WORD, begin_door, begin_page, \
    begin_prometheus, begin_ways
from lib import TOP
from lib.browser import browser, need_browser
from lib.cases import Case
from lib.waiting import free_port, until

METRICS = os.path.join(TOP, "examples/metrics/metrics")
START = "../starter/tokend-start"
FIRST, COUNT = {"one": 1, "two": 1001}, 1000  # of region numbers
PAUSE = 1  # seconds between two runs of metrics
SHORT = {"ask_seconds": 1, "late_seconds": 5, "old_seconds": 10}
SHOWN = 25  # seconds after which the page must have seen what is so


def need_all(case):
    """Skips a class of tests without what it needs."""
    case = unittest.skipUnless(PROMETHEUS, "passed over: no prometheus")(need_browser(case))
    return unittest.skipUnless(IS_HERE, LACKING)(case)


class World(Case):
    """Sites one and two, whose way to each other is a peer of the test."""

    settings, options, has_alerts = SHORT, "--health --metrics --ahead taken", True

    def setUp(self):
        super().setUp()
        os.chmod(self.folder, 0o711)  # nginx works as a user of its own
        os.mkdir(self.path("metrics"), 0o755)
        self.is_cut, self.clocks = False, {}  # clocks of sites that have another
        self.sites = {it: self.site(FIRST[it], count=COUNT, sockets=2, script=START,
                                    options=self.options)
                      for it in NAMES}
        self.one, self.two = (self.sites[it] for it in NAMES)
        self.ways = {it: self.peer(self.way_to(self.sites[it])).url for it in NAMES}
        self.ports = begin_ways(self)
        self.doors = {}
        for it in NAMES:
            self.open_door(it)
        self.prometheus = free_port() if self.has_alerts else None
        self.page = begin_page(self, self.one.inner, self.prometheus, **self.settings)
        self.collect_on()

    def path(self, *names):
        return os.path.join(self.folder, *names)

    def read(self, *names):
        with open(self.path(*names), encoding="utf-8") as file:
            return file.read()

    def open_door(self, name):
        self.doors[name] = begin_door(self, name, self.sites[name].inner, self.ports)

    def way_to(self, site):
        """The replies of a way to a site. There are none while the exchange is cut."""
        def reply(path, body):
            if self.is_cut:
                return None
            try:
                status, said = site.ask(path, body)
            except (OSError, http.client.HTTPException):
                return None
            return status, {}, said
        return reply

    def next_run(self, site, **more):
        """The next run of a site. The one before has ended."""
        site.begin(script=START, options=self.options, **more)
        self.assertTrue(until(site.is_up), site.said())

    def collect_on(self):
        """Writes the metrics of both sites until the test ends."""
        ended = threading.Event()

        def go():
            while not ended.is_set():
                for it in NAMES:
                    self.collect(it)
                ended.wait(PAUSE)

        thread = threading.Thread(target=go)
        thread.start()
        self.addCleanup(thread.join)
        self.addCleanup(ended.set)

    def collect(self, name):
        site, other, before = self.sites[name], NAMES[name == "one"], []
        first, last = site.numbers.split("-")
        if clock := self.clocks.get(name):
            clock.set(int(time.time()))
            before = ["env", *clock.words]
        subprocess.run(
            [*before, METRICS, name, self.path("metrics", name + ".prom")], check=False,
            env=os.environ | {
                "TOKEND_SOCKET": site.socket, "TOKEND_INNER": site.inner, "TOKEND_FIRST": first,
                "TOKEND_LAST": last, "TOKEND_PEERS": self.ways[other],
                "SITE_DIRECTORY": str(site.folder), "RUN_DIRECTORY": self.folder,
                "UNIT_DIRECTORY": self.folder})

    def exchange(self):
        """Runs the carriers of both sites, as their units do: returns their statuses."""
        return [self.run_carrier(it) for it in NAMES]

    def run_carrier(self, name):
        done = self.path("tokend-carry-" + name)
        os.makedirs(done, exist_ok=True)
        return self.carry(self.sites[name].url, self.ways[NAMES[name == "one"]],
                          words=["--done", os.path.join(done, "done")])[0]

    def ask(self, path, method="GET", word=WORD):
        """Status, fields and body of a reply at the page's nginx."""
        link = http.client.HTTPConnection("127.0.0.1", self.page, timeout=10)
        given = base64.b64encode(("%s:%s" % (USER, word)).encode()).decode()
        with contextlib.closing(link):
            link.request(method, path, headers={"Authorization": "Basic " + given} if word else {})
            reply = link.getresponse()
            return reply.status, reply.headers, reply.read()


class Seen(World):
    """Two sites, and the page in a browser."""

    def setUp(self):
        super().setUp()
        self.browser = browser(self)
        named = "%s:%s@" % (USER, WORD.replace("'", "%27").replace(" ", "%20"))
        self.browser.open("http://%s127.0.0.1:%d/" % (named, self.page))
        self.browser.open("http://127.0.0.1:%d/" % self.page)
        for it in NAMES:
            self.assert_shown(it, "✓ " if "--health" in self.options else "! ")

    def row(self, name, table="overview"):
        """The text of a site's row, or None while there is none."""
        return self.browser.run(
            "const all = [...document.querySelectorAll('#%s tr')];"
            "return all.find(it => it.cells[0].textContent === '%s')?.innerText" % (table, name))

    def assert_shown(self, name, *words, but=()):
        """The row of a site comes to say something, and to say something else no more."""
        def is_shown():
            said = self.row(name) or ""
            return all(it in said for it in words) and not any(it in said for it in but)
        until(is_shown, SHOWN, 0.2)
        self.assertTrue(is_shown(), (words, but, self.row(name), self.said()))

    def assert_lacks(self, name, count):
        """The row of what a site lacks of the other comes to have a number."""
        def found():
            cells = (self.row(name, "lacks") or "").split("\t")
            return cells[2].strip() if len(cells) > 2 else None
        until(lambda: found() == str(count), SHOWN, 0.2)
        self.assertEqual(found(), str(count))

    def assert_said(self, css, words):
        """A part of the page comes to have a text."""
        until(lambda: words in self.browser.text(css), SHOWN, 0.2)
        self.assertIn(words, self.browser.text(css))

    def said(self):
        return self.browser.text()[:3000]


class Watched(Seen):
    """Two sites with Prometheus, and the page in a browser."""

    is_short = True  # whether alerts have short times

    def setUp(self):
        super().setUp()
        begin_prometheus(self, self.prometheus, self.page, self.is_short)

    def assert_fires(self, alert, name):
        """The page comes to show that an alert fires for a site."""
        self.assert_said("#alerts", "%s %s fires" % (alert, name))
