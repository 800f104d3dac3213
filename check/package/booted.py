"""booted: the package and its units under a systemd that is process 1, in a container."""
import re
import shutil
import tempfile
import time
import unittest

import fill
import machine
from lib.packages import TOOLS, package
from lib.runbook import PAGE, chunks, sections

CLIENT = "-d kind=public -d scope=read -d redirects=https://app.example/cb"
CONFIGURATION = "TOKEND_PORT=%d\\nTOKEND_FIRST=%d\\nTOKEND_LAST=%d\\nTOKEND_PEERS=%s\\n"
SOCKETS = "TOKEND_SOCKET=/run/tokend-front/one/socket\\nTOKEND_GROUP=www-data\\n" \
    "TOKEND_INNER=/run/tokend/one/inner\\nTOKEND_FIRST=1\\nTOKEND_LAST=99\\nTOKEND_PEERS=\\n"
FRONT, INNER = "/run/tokend-front/one/socket", "/run/tokend/one/inner"
# in the place of await-clock, as a container may not ask for the state of the clock
GIVES_UP = "[Service]\\nExecStart=\\nExecStart=/bin/sh -c \"sleep 6; exit 1\"\\n"
SOON = 5  # seconds that a start takes without a wait for the clock


class Booted(unittest.TestCase):
    lacking = None  # why no test can run here

    @classmethod
    def setUpClass(cls):
        cls.lacking = "no " + " ".join(TOOLS) if TOOLS else machine.lacking()

    def setUp(self):
        if Booted.lacking:
            self.skipTest("passed over, under systemd: " + Booted.lacking)
        folder = self.enterContext(tempfile.TemporaryDirectory())
        for path in package("0.1.0"), package("0.1.1"), fill.__file__:
            shutil.copy(path, folder)
        self.machine = machine.Machine(folder)
        self.addCleanup(self.machine.end)
        if not self.machine.boots():
            Booted.lacking = "systemd-nspawn doesn't boot here: " + self.machine.console()
            self.skipTest("passed over, under systemd: " + Booted.lacking)

    def do(self, script, wanted=0):
        """What a script prints, which ends with a status."""
        status, said = self.machine.run(script)
        self.assertEqual(status, wanted, "%s\n%s" % (script, said))
        return said

    def install(self, version="0.1.0"):
        return self.do("dpkg -i /given/tokend_%s_amd64.deb" % version)

    def configure(self, name="one", port=7001, first=1, peers=""):
        self.do("printf '%s' >/etc/tokend/%s.conf"
                % (CONFIGURATION % (port, first, first + 98, peers), name))

    def begin(self, **site):
        """A site from the package, that is enabled and runs."""
        self.install()
        self.configure(**site)
        self.do("systemctl enable --now tokend@one")

    def add_client(self, port=7001):
        said = self.do("curl -s http://127.0.0.1:%d/admin/client %s" % (port, CLIENT))
        return re.search(r'"(c[0-9-]+)"', said)[1]

    def has_client(self, client, port=7001):
        said = self.do("curl -s 'http://127.0.0.1:%d/admin/client?client_id=%s'" % (port, client))
        return client in said

    def shown(self, name, unit="tokend@one"):
        """A property of a unit."""
        return self.do("systemctl show --value -p %s %s" % (name, unit)).strip()

    def kill(self):
        """Kills the server: returns how many seconds it takes until the next run is up."""
        before, began = self.shown("MainPID"), time.monotonic()
        self.do("kill -9 " + before)
        self.assertTrue(self.machine.until(lambda: self.shown("ActiveState") == "failed" or (
            self.shown("MainPID") not in ("0", before)
            and self.shown("ActiveState") == "active")))
        return time.monotonic() - began

    def metrics(self, site="one"):
        """What metrics are of a site, as another user reads them."""
        self.do("systemctl start tokend-metrics@" + site)
        return self.do("setpriv --reuid=nobody --clear-groups cat /run/tokend-metrics/%s.prom"
                       % site)

    def has_failed(self):
        return self.do("systemctl list-units --failed --plain --no-legend 'tokend*'")

    def test_a_site_from_its_installation_to_its_removal(self):
        self.begin()
        self.assertEqual(self.add_client(), "c1-1")
        pid = self.shown("MainPID")
        self.assertEqual(self.do("stat -c %%U /proc/%s" % pid), "tokend\n")
        self.assertEqual(self.do("cat /proc/1/comm"), "systemd\n")
        for name in "carry", "backup", "compact", "metrics":
            self.assertEqual(self.shown("ActiveState", "tokend-%s@one.timer" % name), "active")
            self.do("systemctl start tokend-%s@one" % name)
        self.assertEqual(self.has_failed(), "")
        self.assertEqual(self.do("dpkg -V tokend"), "")
        self.do("dpkg --remove tokend")
        self.assertEqual(self.do("systemctl list-units --plain --no-legend 'tokend*'"), "")
        self.do("kill -0 " + pid, 1)
        self.do("test -s /var/lib/tokend/one/log/00001.otb -a -s /etc/tokend/one.conf")
        self.assertNotIn("go on with the program", self.install())
        self.do("systemctl start tokend@one")
        self.assertTrue(self.has_client("c1-1"))

    def asked_as(self, user, path, place):
        """The status of a user's request at a socket; 000 if there is no connection."""
        return self.do("setpriv --reuid=%s --regid=$(id -g %s) --clear-groups curl -s -o /dev/null "
                       "-w '%%{http_code}' --unix-socket %s http://localhost%s || true"
                       % (user, user, place, path))

    def test_sockets_are_for_the_front_end_and_for_the_units(self):
        self.install()
        self.do("printf '%s' >/etc/tokend/one.conf; systemctl enable --now tokend@one" % SOCKETS)
        for user, place, path, wanted in (
                ("www-data", FRONT, "/authorize", "400"), ("www-data", FRONT, "/admin/x", "404"),
                ("www-data", FRONT, "/sync/vector", "404"),
                ("www-data", INNER, "/sync/vector", "000"), ("nobody", FRONT, "/authorize", "000"),
                ("nobody", INNER, "/sync/vector", "000"), ("tokend", INNER, "/sync/vector", "200")):
            self.assertEqual(self.asked_as(user, path, place), wanted, (user, place, path))
        self.assertEqual(self.do("grep -c ' 0A ' /proc/net/tcp || true"), "0\n")
        self.do("curl -s --unix-socket %s http://localhost/admin/client %s" % (INNER, CLIENT))
        for name in "carry", "backup", "compact", "metrics":
            self.do("systemctl start tokend-%s@one" % name)
        self.assertIn('tokend_up{site="one"} 1\n', self.metrics())
        self.assertEqual(self.has_failed(), "")
        self.do("kill -9 " + self.shown("MainPID"))
        self.assertTrue(self.machine.until(lambda: self.asked_as(
            "www-data", "/authorize", FRONT) == "400"))
        self.do("systemctl restart tokend@one")
        self.assertEqual(self.asked_as("www-data", "/authorize", FRONT), "400")
        self.do("systemctl start tokend-compact@one")  # of the logs of two runs
        said = self.do("journalctl -u tokend-compact@one -o cat")
        self.assertRegex(said, r"2 files of \d+ bytes")
        self.do("systemctl stop tokend@one")
        self.assertEqual(self.do("find /run/tokend /run/tokend-front -name one"), "")

    def test_metrics_of_a_region_that_runs_and_of_one_that_ended(self):
        self.begin()
        self.add_client()
        self.assertTrue(self.machine.until(
            lambda: not self.machine.run("test -e /run/tokend-metrics/one.prom")[0]))
        said = self.metrics()
        for line in 'up{site="one"} 1', 'facts{site="one",made_by="own"} 1', \
                'numbers_left{site="one"} 98':
            self.assertIn("tokend_%s\n" % line, said)
        self.assertRegex(said, r'tokend_file_bytes\{site="one",what="log"\} [1-9]')
        self.assertRegex(said, r'tokend_resident_bytes\{site="one"\} [1-9]')
        self.do("systemctl stop tokend@one")
        self.assertIn('tokend_up{site="one"} 0\n', self.metrics())
        self.assertEqual(self.has_failed(), "")

    def test_a_region_that_is_killed_goes_on_until_the_limit(self):
        self.begin()
        client = self.add_client()
        for _ in range(4):
            self.assertLess(self.kill(), SOON + 2)
        self.assertTrue(self.has_client(client))
        self.assertEqual(self.add_client(), "c5-1")
        self.kill()
        self.assertEqual(self.shown("ActiveState"), "failed")
        self.assertIn("tokend@one.service", self.has_failed())
        self.do("systemctl reset-failed tokend@one && systemctl start tokend@one")

    def test_starts_of_the_operator_do_not_count(self):
        self.begin()
        for _ in range(7):
            self.do("systemctl restart tokend@one")
        self.assertEqual(self.do("cat /var/lib/tokend/one/number"), "8\n")

    def test_a_clock_that_stays_wrong_delays_the_first_start_alone(self):
        self.install()
        self.configure()
        self.do("mkdir -p /etc/systemd/system/tokend-clock.service.d && printf '%s' "
                ">/etc/systemd/system/tokend-clock.service.d/wrong.conf && "
                "systemctl daemon-reload" % GIVES_UP)
        began = time.monotonic()
        self.do("systemctl enable --now tokend@one")
        self.assertGreater(time.monotonic() - began, 6)
        self.assertEqual(self.has_failed(), "")
        began = time.monotonic()
        self.do("systemctl restart tokend@one")
        self.assertLess(time.monotonic() - began, SOON)
        self.assertLess(self.kill(), SOON)
        self.assertEqual(self.has_failed(), "")

    def test_memory_is_limited_by_a_drop_in_alone(self):
        self.begin()
        self.assertEqual(self.shown("OOMScoreAdjust"), "0")
        self.assertEqual(self.shown("MemoryMax"), "infinity")
        self.do("cd /etc/systemd/system && mkdir tokend@one.service.d && "
                "cp /usr/share/doc/tokend/examples/systemd/memory.conf tokend@one.service.d && "
                "systemctl daemon-reload && systemctl restart tokend@one")
        self.assertEqual(self.shown("OOMScoreAdjust"), "-500")
        self.assertEqual(self.shown("MemoryMax"), str(4 << 30))
        self.assertIn(str(3 << 30), self.do("grep '^Max data size' /proc/%s/limits"
                                            % self.shown("MainPID")))

    def limit(self, megabytes):
        """Sets how much memory the program may have."""
        self.do("cd /etc/systemd/system && mkdir -p tokend@one.service.d && "
                "printf '[Service]\\nLimitDATA=%dM\\n' >tokend@one.service.d/memory.conf && "
                "systemctl daemon-reload" % megabytes)

    def test_a_region_out_of_memory_goes_on_and_starts_with_more(self):
        self.install()
        self.configure()
        self.limit(40)
        self.do("systemctl enable --now tokend@one")
        client = self.add_client()
        pages = int(self.do("python3 /given/fill.py"))
        self.assertGreater(pages, 9)
        self.assertEqual(self.do("journalctl -u tokend@one -o cat -n 1 _TRANSPORT=stdout"),
                         "fault memory\n")
        self.assertTrue(self.has_client(client))
        self.do("systemctl restart tokend@one", 1)
        self.assertIn("\ntokend: memory\n", self.do("journalctl -u tokend@one -o cat"))
        self.limit(80)
        self.do("systemctl reset-failed tokend@one; systemctl start tokend@one")
        self.assertTrue(self.has_client(client))
        said = self.do("curl -s http://127.0.0.1:7001/sync/vector | tokend facts")
        held = int(re.search(r'"region":50,"serial":(\d+)', said)[1])
        self.assertGreaterEqual(held, pages * fill.FACTS)  # the last page may be logged too

    def test_a_region_that_is_removed_leaves_nothing(self):
        """By the commands of the runbook."""
        self.begin(peers="http://127.0.0.1:7002")
        self.configure("two", 7002, 101, "http://127.0.0.1:7001")
        self.do("systemctl enable --now tokend@two; mkdir -p /var/lib/prometheus/node-exporter; "
                "ln -s /run/tokend-metrics/two.prom "
                "/var/lib/prometheus/node-exporter/tokend-two.prom; "
                "systemctl start tokend-carry@two tokend-metrics@two")
        traces = "find /run/tokend* /var/lib/prometheus /etc/systemd/system -name '*two*'"
        self.assertGreater(len(self.do(traces).split()), 3)
        with open(PAGE, encoding="utf-8") as file:
            commands = chunks(sections(file.read())["Removing a region"])
        self.do("set -e; one=http://127.0.0.1:7001 two=http://127.0.0.1:7002\n"
                + "\n".join(it for it, _ in commands))
        self.assertEqual(self.do(traces), "")
        self.assertEqual(self.has_failed(), "")
        self.assertEqual(self.do("systemctl list-units --plain --no-legend 'tokend*two*'"), "")
        self.assertNotIn("7002", self.metrics())

    def test_an_upgrade_stops_nothing(self):
        self.begin()
        client, pid = self.add_client(), self.shown("MainPID")
        self.assertIn("go on with the program of version 0.1.0", self.install("0.1.1"))
        self.assertEqual(self.shown("MainPID"), pid)
        self.assertTrue(self.has_client(client))
        self.do("systemctl restart tokend@one")
        self.assertTrue(self.has_client(client))
        self.assertNotIn("go on with the program", self.install("0.1.1"))

    def test_a_start_that_fails_says_why_in_the_last_line(self):
        self.begin()
        self.add_client()
        self.do("systemctl stop tokend@one; "
                "head -c 512 /dev/zero >>/var/lib/tokend/one/log/00001.otb")
        self.do("systemctl start tokend@one", 1)
        self.assertEqual(self.shown("ExecMainStatus"), "4")
        said = self.do("journalctl -u tokend@one -o cat -n 1 _TRANSPORT=stdout")
        self.assertIn("tokend-start: /var/lib/tokend/one/log/00001.otb is no log", said)

    def test_carriers_by_peer_stand_in_for_a_masked_one(self):
        self.begin(peers="http://127.0.0.1:7002")
        self.configure("two", 7002, 101, "http://127.0.0.1:7001")
        self.do("systemctl start tokend@two")
        self.do("printf 'TOKEND_PORT=7001\\nTOKEND_PEERS=http://127.0.0.1:7002\\n' "
                ">/etc/tokend/peer.conf; systemctl stop tokend-carry@one.timer; "
                "systemctl mask tokend-carry@one.timer; "
                "systemctl start tokend-carry@peer")
        name = r'last_carry_timestamp_seconds\{site="%s",carrier="(\w+)"\}'
        self.assertEqual(re.findall(name % "one", self.metrics()), ["peer"])
        self.do("systemctl restart tokend@one; systemctl start tokend-carry@two")
        self.assertEqual(self.shown("ActiveState", "tokend-carry@one.timer"), "inactive")
        self.assertEqual(re.findall(name % "two", self.metrics("two")), ["two"])
        self.assertEqual(self.has_failed(), "")
