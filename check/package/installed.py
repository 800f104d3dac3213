"""installed: the package in a folder, from its installation to its purge, and its units there."""
import glob
import os
import re
import shutil
import stat
import tempfile
import unittest

from lib import TOP
from lib.packages import need_tools, package, run
from lib.server import Tokend
from lib.unit import Unit
from lib.waiting import free_port

UNITS = "lib/systemd/system"


@need_tools
class Installed(unittest.TestCase):
    def setUp(self):
        self.root = self.enterContext(tempfile.TemporaryDirectory())
        os.chmod(self.root, 0o755)
        for name in "var/lib/dpkg/info", "var/lib/dpkg/updates", "etc":
            os.makedirs(self.path(name))
        self.write("var/lib/dpkg/status", "")

    def path(self, name):
        return os.path.join(self.root, name)

    def write(self, name, text):
        os.makedirs(os.path.dirname(self.path(name)), exist_ok=True)
        with open(self.path(name), "w", encoding="utf-8") as file:
            file.write(text)

    def read(self, name):
        with open(self.path(name), encoding="utf-8") as file:
            return file.read()

    def dpkg(self, *words):
        """Runs dpkg in the root, and returns what it printed. It must succeed."""
        environ = {**os.environ, "PATH": os.environ["PATH"] + ":/usr/sbin:/sbin", "LC_ALL": "C"}
        status, said = run(
            ["dpkg", "--root", self.root, "--log=/dev/null", "--force-script-chrootless",
             "--force-not-root", "--force-depends", *words], env=environ)
        self.assertEqual(status, 0, said)
        return said

    def install(self, version="0.1.0"):
        return self.dpkg("--install", package(version))

    def configure(self, name="one", first=1, port=None, peers=""):
        """The file of four lines of a site: returns its port."""
        port = port or free_port()
        self.write("etc/tokend/%s.conf" % name,
                   "TOKEND_PORT=%d\nTOKEND_FIRST=%d\nTOKEND_LAST=%d\nTOKEND_PEERS=%s\n"
                   % (port, first, first + 98, peers))
        return port

    def configure_sockets(self, name="one", first=1, peers=""):
        """A site that listens at sockets, whose folders its units would make: returns it."""
        front, inner = (self.path("run/%s/%s" % (it, name)) for it in ("tokend-front", "tokend"))
        os.makedirs(inner, 0o750, exist_ok=True)
        status, said = run([self.path("usr/lib/tokend/front-folder"), front, inner,
                            str(os.getegid())], env=os.environ | {"TOKEND_SOCKET": "x"})
        self.assertEqual((status, said), (0, ""))
        it = Tokend(front + "/socket", inner + "/inner")
        self.write("etc/tokend/%s.conf" % name,
                   "TOKEND_SOCKET=%s\nTOKEND_INNER=%s\nTOKEND_GROUP=%d\nTOKEND_FIRST=%d\n"
                   "TOKEND_LAST=%d\nTOKEND_PEERS=%s\n"
                   % (it.socket, it.inner, os.getegid(), first, first + 98, peers))
        return it

    def unit(self, kind="tokend", site="one"):
        return Unit(self.root, kind + "@.service", site)

    def begin(self, site="one"):
        """Runs what the unit of a site runs, until it is up: returns the server's process."""
        unit = self.unit(site=site)
        child = unit.start()
        self.addCleanup(child.stdout.close)
        self.addCleanup(child.wait)
        self.addCleanup(child.kill)
        status, said = unit.run("ExecStartPost", MAINPID=str(child.pid))
        if status:
            child.kill()
            self.fail("not up: %s%s" % (said, child.stdout.read()))
        return child

    def has_client(self, port, client):
        return Tokend(port).ask("/admin/client?client_id=" + client)[0] == 200

    def metrics(self):
        """What tokend-metrics@one writes."""
        status, said = self.unit("tokend-metrics").run(RUN_DIRECTORY=self.path("run"))
        self.assertEqual((status, said), (0, ""))
        return self.read("run/tokend-metrics/one.prom")

    def test_another_program_on_the_path_is_not_started(self):
        self.install()
        self.configure()
        self.write("usr/local/bin/tokend", "#!/bin/sh\nexit 1\n")
        os.chmod(self.path("usr/local/bin/tokend"), 0o755)
        unit = self.unit()
        path = "%s:%s" % (self.path("usr/local/bin"), unit.environ()["PATH"])
        child = unit.start(PATH=path)
        self.addCleanup(child.stdout.close)
        self.addCleanup(child.wait)
        self.addCleanup(child.kill)
        self.assertEqual(unit.run("ExecStartPost", MAINPID=str(child.pid))[0], 0)

    def test_a_file_of_four_lines_is_a_running_region(self):
        self.install()
        port = self.configure()
        child = self.begin()
        self.assertEqual(Tokend(port).add_client(), "c1-1")
        log = self.path("var/lib/tokend/one/log/00001.otb")
        self.assertEqual(stat.S_IMODE(os.stat(log).st_mode), 0o600)
        child.kill()
        child.wait()
        self.begin()
        self.assertTrue(self.has_client(port, "c1-1"))
        self.assertEqual(Tokend(port).add_client(), "c2-1")

    def test_each_unit_of_a_site_has_the_one_user(self):
        """Also tokend-metrics@, which reads the site's folder. The clock's is of no site."""
        self.install()
        for name in sorted(it for it in os.listdir(self.path(UNITS)) if "@.service" in it):
            lines = re.findall("(?m)^(?:Dynamic)?User=.*$", self.read(os.path.join(UNITS, name)))
            self.assertEqual(lines, ["User=tokend"], name)

    def test_a_file_that_was_changed_is_found(self):
        self.install()
        self.assertEqual(self.dpkg("--verify", "tokend"), "")
        self.write("usr/lib/tokend/carry", "#!/bin/sh\n")
        self.assertIn("/usr/lib/tokend/carry\n", self.dpkg("--verify", "tokend"))

    def test_the_user_is_made_once(self):
        self.install()
        self.dpkg("--unpack", package("0.1.0"))
        self.dpkg("--configure", "tokend")
        self.assertEqual(len(re.findall("(?m)^tokend:", self.read("etc/passwd"))), 1)
        self.assertRegex(self.read("etc/passwd"), "(?m)^tokend:.*:/usr/sbin/nologin$")

    def test_carry_backup_and_metrics(self):
        self.install()
        two, one = self.configure("two", 101), self.configure()
        one = self.configure("one", 1, one, "http://127.0.0.1:%d" % two)
        self.begin("two")
        self.begin()
        client = Tokend(one).add_client()
        last = 'carry_timestamp_seconds{site="one",carrier="one"} '
        self.assertIn(last + "0\n", self.metrics())
        status, said = self.unit("tokend-carry").run()
        self.assertEqual(status, 0, said)
        self.assertTrue(self.has_client(two, client))
        self.assertRegex(self.metrics(), last + r"\d+[.]")
        self.assertIn('tokend_facts{site="one",made_by="own"} 1\n', self.metrics())
        status, said = self.unit("tokend-backup").run()
        self.assertEqual(status, 0, said)
        self.assertIn(": 1 facts in ", said)
        self.assertEqual(len(glob.glob(self.path("var/lib/tokend-backup/one/*.otb"))), 1)

    def test_each_unit_of_a_site_with_sockets_uses_the_inner_one(self):
        self.install()
        two = self.configure_sockets("two", 101)
        one = self.configure_sockets(peers=two.url)
        self.assertEqual(stat.S_IMODE(os.stat(os.path.dirname(one.socket)).st_mode), 0o2750)
        self.begin("two")
        child = self.begin()
        for it in one.socket, one.inner:
            self.assertEqual(stat.S_IMODE(os.stat(it).st_mode), 0o660)
        client = one.add_client()
        self.assertEqual(Tokend(one.socket).ask("/admin/client?client_id=" + client)[0], 404)
        for kind in "carry", "backup", "compact":
            status, said = self.unit("tokend-" + kind).run()
            self.assertEqual(status, 0, said)
        self.assertEqual(two.ask("/admin/client?client_id=" + client)[0], 200)
        said = self.metrics()
        for line in ('up{site="one"} 1', 'serves_clients{site="one"} 1',
                     'facts{site="one",made_by="own"} 1'):
            self.assertIn("tokend_%s\n" % line, said)
        self.assertRegex(said, r'carry_timestamp_seconds\{site="one",carrier="one"\} \d+[.]')
        self.assertRegex(said, r'tokend_resident_bytes\{site="one"\} [1-9]')
        child.kill()
        child.wait()
        self.begin()  # over the sockets that the killed server left
        self.assertEqual(one.ask("/admin/client?client_id=" + client)[0], 200)

    def killed_site(self):
        """Installs a site at a port, and kills it: its port, and a client that it has."""
        self.install()
        port = self.configure()
        child = self.begin()
        client = Tokend(port).add_client()
        child.kill()
        child.wait()
        return port, client

    def test_a_site_moves_from_a_port_to_sockets(self):
        """Its file is all that changes; before that an upgrade changes nothing for it."""
        _, client = self.killed_site()
        it = self.configure_sockets()
        self.begin()
        self.assertEqual(it.ask("/admin/client?client_id=" + client)[0], 200)
        self.assertEqual(it.add_client(), "c2-1")

    def test_a_folder_for_the_front_end_is_made_for_sockets_alone(self):
        self.install()
        script, like = self.path("usr/lib/tokend/front-folder"), self.path("var")
        folder = self.path("run/tokend-front/one")
        for environ, words, wanted in (
                ({}, [folder, like, str(os.getegid())], 0), ({}, [folder], 2),
                ({"TOKEND_SOCKET": "x"}, [folder, like, "no-such-group"], 1)):
            self.assertEqual(run([script, *words], env=os.environ | environ)[0], wanted, words)
            self.assertFalse(os.path.exists(folder) and not environ)

    def test_an_upgrade_keeps_all_and_stops_nothing(self):
        self.install()
        port = self.configure()
        before = self.read("etc/tokend/one.conf")
        child = self.begin()
        client = Tokend(port).add_client()
        said = self.install("0.1.1")
        self.assertIn("go on with the program of version 0.1.0", said)
        self.assertNotIn("go on with the program", self.install("0.1.1"))
        self.assertIsNone(child.poll())
        self.assertTrue(self.has_client(port, client))
        self.assertEqual(self.read("etc/tokend/one.conf"), before)
        child.kill()
        child.wait()
        self.begin()
        self.assertTrue(self.has_client(port, client))
        self.assertIn("Version: 0.1.1", self.read("var/lib/dpkg/status"))

    def test_what_a_removal_and_a_purge_leave(self):
        self.install()
        self.configure()
        child = self.begin()
        child.kill()
        child.wait()
        self.write("var/lib/tokend-backup/one/segment.otb", "")
        enabled = self.path("etc/systemd/system/multi-user.target.wants/tokend@one.service")
        os.makedirs(os.path.dirname(enabled))
        os.symlink("/lib/systemd/system/tokend@.service", enabled)
        self.dpkg("--remove", "tokend")
        self.assertFalse(os.path.exists(self.path("usr/bin/tokend")))
        self.assertFalse(os.path.exists(self.path("usr/lib/tokend")))
        self.assertTrue(os.path.exists(self.path("etc/tokend/one.conf")))
        said = self.dpkg("--purge", "tokend")
        self.assertFalse(os.path.exists(self.path("etc/tokend")))
        self.assertFalse(os.path.lexists(enabled))
        self.assertEqual(self.read("var/lib/tokend/one/number"), "1\n")
        for name in "var/lib/tokend/one/log/00001.otb", "var/lib/tokend-backup/one/segment.otb":
            self.assertTrue(os.path.exists(self.path(name)))
        self.assertIn("tokend: kept %s\n" % self.path("var/lib/tokend/one"), said)
        left = [os.path.join(folder, it) for folder, _, names in os.walk(self.root)
                for it in names if "/var/lib/" not in folder + "/"]
        self.assertLessEqual({os.path.basename(it) for it in left},
                             {"passwd", "group", "shadow", "gshadow", ".pwd.lock"}, left)

    def test_after_a_purge_a_site_goes_on_under_its_next_number(self):
        port, client = self.killed_site()
        self.dpkg("--purge", "tokend")
        self.install("0.1.1")
        self.configure(port=port)
        self.begin()
        self.assertTrue(self.has_client(port, client))
        self.assertEqual(Tokend(port).add_client(), "c2-1")

    def test_units_are_those_of_the_example(self):
        """Each line of the hardening is in the package's unit."""
        self.install()
        folder = os.path.join(TOP, "examples/systemd")
        keys = "Protect Private Restrict NoNew Capability SystemCall Lock Memory UMask Limit"
        for name in sorted(it for it in os.listdir(folder) if it.endswith(".service")):
            with open(os.path.join(folder, name), encoding="utf-8") as file:
                lines = [it for it in file.read().splitlines()
                         if it.startswith(tuple(keys.split()))]
            path = self.path(os.path.join(UNITS, re.sub("@?[.]", "@.", name)))
            if not os.path.exists(path):
                path = self.path(os.path.join(UNITS, name))
            text = self.read(path)
            for line in lines:
                self.assertIn(line + "\n", text, name)
            self.assertNotIn("region.conf", text)

    @unittest.skipUnless(shutil.which("systemd-analyze"), "passed over: no systemd")
    def test_systemd_has_no_complaint(self):
        self.install()
        names = [self.path(os.path.join(UNITS, it)) for it in os.listdir(self.path(UNITS))]
        folder = self.enterContext(tempfile.TemporaryDirectory())
        for name in names:
            text = re.sub(r"/usr/(lib/tokend|bin/tokend)", lambda it: self.path(it[0][1:]),
                          self.read(name))
            with open(os.path.join(folder, os.path.basename(name)), "w",
                      encoding="utf-8") as file:
                file.write(text)
        placed = sorted(os.path.join(folder, it) for it in os.listdir(folder))
        status, said = run(["systemd-analyze", "verify", "--man=no", *placed])
        self.assertEqual((status, said), (0, ""))
