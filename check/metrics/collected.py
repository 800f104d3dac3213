"""collected: what is written of sites that run, that are sealed, and that are gone."""
import http.client
import os
import re
import shutil
import signal
import subprocess
import threading
import time
import unittest
import urllib.request

from lib import TOP, Broken
from lib.cases import Case
from lib.facts import mark
from lib.waiting import free_port, until

EXPORTER = shutil.which("prometheus-node-exporter")
PROMTOOL = shutil.which("promtool")
COMMAND = "metrics/metrics"


class Collected(Case):
    def setUp(self):
        super().setUp()
        self.file = os.path.join(self.folder, "one.prom")

    def begin(self, first=1, **more):
        return self.site(first, **more)

    def collect(self, site, peer_urls=(), **more):
        """Runs the command, and returns the values by metric and labels without the site."""
        first, last = site.numbers.split("-")
        status, output, errors = self.run_script(
            COMMAND, "one", self.file, TOKEND_PORT=str(site.port or ""), TOKEND_FIRST=first,
            TOKEND_SOCKET=site.socket or "", TOKEND_INNER=site.inner or "",
            TOKEND_LAST=last, TOKEND_PEERS=" ".join(peer_urls), SITE_DIRECTORY=str(site.folder),
            RUN_DIRECTORY=self.folder, UNIT_DIRECTORY=self.folder, **more)
        self.assertEqual((status, output, errors), (0, "", ""))
        return self.values()

    def values(self):
        with open(self.file, encoding="utf-8") as file:
            lines = re.findall(r'(?m)^tokend_(\w+)\{site="one",?(.*)\} (\S+)$', file.read())
        return {(name + "," + labels).rstrip(","): float(value) for name, labels, value in lines}

    def test_facts_lag_files_and_memory(self):
        one, two = self.begin(), self.begin(101)
        one.add(3)
        two.add(2)
        found = self.collect(one, [two.url])
        peer = ',peer="%s"' % two.url
        self.assertEqual(found["up"], 1)
        self.assertEqual(found["sealed"], 0)
        self.assertEqual(found["serves_clients"], 1)
        self.assertEqual(found['facts,made_by="own"'], 3)
        self.assertEqual(found['facts,made_by="others"'], 0)
        self.assertEqual(found["lag_facts" + peer + ',lacking="here"'], 2)
        self.assertEqual(found["lag_facts" + peer + ',lacking="there"'], 3)
        self.assertEqual(found["peer_up" + peer], 1)
        log = one.folder / "log" / "00001.otb"
        self.assertEqual(found['file_bytes,what="log"'], log.stat().st_size)
        self.assertEqual((found["numbers_left"], found["region_number"]), (98, 1))
        self.assertLess(abs(found["resident_bytes"] - one.resident()), one.resident() / 4)
        self.assertLess(abs(found["collected_timestamp_seconds"] - time.time()), 60)
        self.carry(one.url, two.url)
        found = self.collect(one, [two.url])
        self.assertEqual(found['facts,made_by="others"'], 2)
        self.assertEqual({it: value for it, value in found.items() if "lag" in it},
                         {"lag_facts%s,lacking=\"%s\"" % (peer, it): 0 for it in ("here", "there")})

    def test_a_region_that_ended_and_a_silent_peer(self):
        one = self.begin()
        one.stop()
        _, silent = self.listener()
        began = time.monotonic()
        found = self.collect(one, [silent, "http://127.0.0.1:%d" % free_port()])
        self.assertLess(time.monotonic() - began, 15)
        self.assertEqual((found["up"], found["sealed"], found["serves_clients"]), (0, 0, 0))
        self.assertEqual([value for it, value in found.items() if it.startswith("peer_up")],
                         [0, 0])
        self.assertEqual([it for it in found if "facts" in it or "resident" in it], [])
        self.assertEqual(found["numbers_left"], 98)

    def test_a_sealed_region(self):
        one = self.begin()
        one.stop()
        one.begin(program=self.small(), script="../starter/tokend-start")
        self.assertTrue(until(one.is_up), one.said())
        with self.assertRaises((Broken, OSError, http.client.HTTPException)):
            one.add(100)
        found = self.collect(one)
        self.assertEqual((found["up"], found["sealed"], found["serves_clients"]), (0, 1, 0))
        self.assertGreater(found["resident_bytes"], 0)

    def test_a_region_before_its_horizon(self):
        """Other regions get replies, and clients get 503 until the horizon has passed."""
        one = self.begin()
        one.stop()
        one.begin(script="../starter/tokend-start", options="--ahead taken")
        self.assertTrue(until(one.is_up), one.said())
        horizon = int(time.time()) + 6
        self.assertEqual(one.push([mark(500, 1)], horizon)[0], 200)
        found = self.collect(one)
        self.assertLess(time.time(), horizon, "the machine was too slow to see it")
        self.assertEqual((found["up"], found["sealed"], found["serves_clients"]), (1, 0, 0))
        time.sleep(max(0.0, horizon - time.time()))
        self.assertEqual(self.collect(one)["serves_clients"], 1)

    def test_what_the_server_counts(self):
        """With --metrics the file has what the server says, of the same site."""
        one = self.begin()
        self.assertNotIn("held_facts", self.collect(one))
        one.stop()
        one.begin(script="../starter/tokend-start", options="--metrics")
        self.assertTrue(until(one.is_up), one.said())
        one.add(3)
        time.sleep(1.1)  # after a second the text is made anew
        found = self.collect(one)
        self.assertEqual(found["held_facts"], 3)
        requests = 'requests_total,paths="all",endpoint="%s",status="%d"'
        self.assertEqual(found[requests % ("admin/client", 201)], 3)
        self.assertEqual(found[requests % ("sync/push", 409)], 0)
        self.assertEqual(found["last_push_timestamp_seconds"], 0)
        if PROMTOOL:
            with open(self.file, "rb") as file:
                ended = subprocess.run([PROMTOOL, "check", "metrics"], stdin=file, check=False,
                                       capture_output=True)
            self.assertEqual((ended.returncode, ended.stdout, ended.stderr), (0, b"", b""))

    def end_carrier(self, name, url, moment):
        """What the unit of a carrier leaves when it has ended well."""
        done = os.path.join(self.folder, "tokend-carry-" + name, "done")
        os.makedirs(os.path.dirname(done), exist_ok=True)
        with open(done, "w", encoding="utf-8") as file:
            file.write(url + "\n")
        os.utime(done, (moment, moment))

    def carriers(self, site, peer_urls):
        """When each carrier ended, by its name."""
        name = 'last_carry_timestamp_seconds,carrier="'
        return {it.removeprefix(name)[:-1]: value
                for it, value in self.collect(site, peer_urls).items() if it.startswith(name)}

    def test_when_carriers_ended(self):
        one = self.begin()
        self.assertEqual(self.carriers(one, []), {})
        self.assertEqual(self.carriers(one, [one.url]), {"one": 0})
        self.end_carrier("two", one.url, 1000)
        self.end_carrier("three", one.url, 2000)
        self.assertEqual(self.carriers(one, [one.url]), {"two": 1000, "three": 2000})

    def test_carriers_of_another_site_are_not_claimed(self):
        one = self.begin()
        self.end_carrier("one", one.url, 1000)
        self.end_carrier("other", one.url + "1", 2000)
        self.assertEqual(self.carriers(one, [one.url]), {"one": 1000})

    def test_a_site_with_sockets(self):
        """The server is found by its socket, also beside one that has another."""
        one, two = self.begin(sockets=2), self.begin(101, sockets=2)
        two.add(200)
        one.add(3)
        self.assertTrue(one.url.startswith("unix:"))
        found = self.collect(one, [two.url])
        self.assertEqual((found["up"], found["serves_clients"]), (1, 1))
        self.assertEqual(found['facts,made_by="own"'], 3)
        self.assertEqual(found['lag_facts,peer="%s",lacking="here"' % two.url], 200)
        self.assertEqual(found["resident_bytes"], one.resident())
        self.end_carrier("one", one.url, 1000)
        self.assertEqual(self.carriers(one, [two.url]), {"one": 1000})
        one.stop()
        found = self.collect(one, [two.url])
        self.assertEqual((found["up"], found["serves_clients"]), (0, 0))
        self.assertNotIn("resident_bytes", found)

    def test_a_masked_carrier_is_none(self):
        """Whether or not it has run, and its folder is there."""
        one = self.begin()
        os.symlink("/dev/null", os.path.join(self.folder, "tokend-carry@one.timer"))
        self.assertEqual(self.carriers(one, [one.url]), {})
        self.end_carrier("one", one.url, 1000)
        self.end_carrier("two", one.url, 2000)
        self.assertEqual(self.carriers(one, [one.url]), {"two": 2000})

    @unittest.skipUnless(shutil.which("openssl"), "passed over: no openssl")
    def test_when_certificates_expire(self):
        one, name = self.begin(), 'certificate_expiry_timestamp_seconds,file="%s"'
        folder = os.path.join(self.folder, "ca")
        script = os.path.join(TOP, "examples/between-sites/certificates")
        for words in (["ca", folder], ["site", folder, "one", "9"],
                      ["site", folder, "late", "20000"]):  # beyond 2050 the form is another
            subprocess.run([script, *words], check=True)
        now, day = time.time(), 86_400
        paths = [os.path.join(folder, it) for it in ("one.pem", "late.pem", "one.key", "gone")]
        found = self.collect(one, TOKEND_CERTIFICATES=" ".join(paths))
        self.assertLess(abs(found[name % paths[0]] - now - 9 * day), 60)
        self.assertLess(abs(found[name % paths[1]] - now - 20_000 * day), 60)
        self.assertEqual([found[name % it] for it in paths[2:]], [0, 0])
        self.assertEqual(os.stat(paths[0]).st_mode & 0o777, 0o644)
        self.assertEqual(os.stat(paths[2]).st_mode & 0o777, 0o600)

    def test_a_reader_never_sees_a_part(self):
        one = self.begin()
        self.collect(one)
        with open(self.file, encoding="utf-8") as file:
            lines = len(file.readlines())
        seen, ended = set(), threading.Event()

        def read():
            while not ended.is_set():
                with open(self.file, encoding="utf-8") as file:
                    seen.add(len(file.readlines()))

        reader = threading.Thread(target=read)
        reader.start()
        for _ in range(10):
            self.collect(one)
        ended.set()
        reader.join()
        self.assertEqual(seen, {lines})
        self.assertEqual([it for it in os.listdir(self.folder) if ".prom" in it], ["one.prom"])

    def test_what_cannot_be_written_leaves_the_file(self):
        one = self.begin()
        self.collect(one)
        before = os.stat(self.file).st_ino
        for words, change, wanted in (
                (["one", os.path.join(self.folder, "none", "x.prom")], {}, 1),
                (["one", self.file], {"TOKEND_PORT": "x"}, 2),
                (["one", self.file], {"TOKEND_FIRST": "9", "TOKEND_LAST": "8"}, 2),
                (["one", self.file], {"TOKEND_PEERS": "ftp://x"}, 2),
                (["one", self.file], {"SITE_DIRECTORY": ""}, 2),
                (["one", "x"], {}, 2), ([], {}, 2)):
            given = {"TOKEND_PORT": str(one.port), "TOKEND_FIRST": "1", "TOKEND_LAST": "99",
                     "TOKEND_PEERS": "", "SITE_DIRECTORY": str(one.folder)} | change
            self.assertEqual(self.run_script(COMMAND, *words, **given)[0], wanted, (words, change))
        self.assertEqual(os.stat(self.file).st_ino, before)

    @unittest.skipUnless(shutil.which("promtool"), "passed over: no promtool (prometheus)")
    def test_promtool_finds_no_fault(self):
        one = self.begin()
        self.collect(one, [one.url])
        with open(self.file, "rb") as file:
            done = subprocess.run(["promtool", "check", "metrics"], stdin=file, text=True,
                                  stdout=subprocess.PIPE, stderr=subprocess.STDOUT, check=False)
        self.assertEqual((done.returncode, done.stdout), (0, ""))

    @unittest.skipUnless(EXPORTER, "passed over: no prometheus-node-exporter")
    def test_node_exporter_reads_it_by_a_link(self):
        one, port, folder = self.begin(), free_port(), os.path.join(self.folder, "textfile")
        one.add(7)
        self.collect(one)
        os.mkdir(folder)
        os.symlink(self.file, os.path.join(folder, "tokend-one.prom"))
        child = subprocess.Popen(
            [EXPORTER, "--collector.disable-defaults", "--collector.textfile",
             "--collector.textfile.directory=" + folder,
             "--web.listen-address=127.0.0.1:%d" % port],
            stdout=subprocess.DEVNULL, stderr=subprocess.DEVNULL)
        self.addCleanup(child.wait)
        self.addCleanup(child.send_signal, signal.SIGKILL)

        def said():
            try:
                with urllib.request.urlopen("http://127.0.0.1:%d/metrics" % port) as reply:
                    return reply.read().decode()
            except OSError:
                return ""

        self.assertTrue(until(lambda: 'tokend_facts{made_by="own",site="one"} 7\n' in said()))
        self.assertIn("node_textfile_scrape_error 0\n", said())
