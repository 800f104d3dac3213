"""made: packages that are made, and what they have inside."""
import os
import shutil
import tempfile
import unittest

from lib import TOP
from lib.command import GIVEN
from lib.packages import make, need_tools, package, run

COPIED = "packaging", "starter", "examples", "docs", "README.md"


def content(path):
    with open(path, "rb") as file:
        return file.read()


@need_tools
class Made(unittest.TestCase):
    def setUp(self):
        self.folder = self.enterContext(tempfile.TemporaryDirectory())

    def listed(self, path):
        """Each name in a package, with what tar says before it."""
        status, said = run(["dpkg-deb", "--contents", path])
        self.assertEqual(status, 0, said)
        return {it.split()[5].lstrip("."): it for it in said.splitlines()}

    def test_two_runs_give_the_same_bytes(self):
        """Also if repository, folder, umask and time zone are others, and files were touched."""
        top = os.path.join(self.folder, "copy")
        for name in COPIED:
            copy = shutil.copytree if os.path.isdir(os.path.join(TOP, name)) else shutil.copy
            os.makedirs(top, exist_ok=True)
            copy(os.path.join(TOP, name), os.path.join(top, name))
        for path, _, names in os.walk(top):
            for name in names:
                os.utime(os.path.join(path, name), (1, 1))
        other = make(os.path.join(self.folder, "out"), "--version", "0.1.0", top=top, umask=0o077,
                     cwd="/", env={**os.environ, "TZ": "Asia/Tokyo", "LC_ALL": "C"})
        self.assertEqual(content(other), content(package("0.1.0")))
        self.assertNotEqual(content(package("0.1.1")), content(package("0.1.0")))

    def test_the_program_is_packaged_as_it_is(self):
        self.assertEqual(run(["dpkg-deb", "-x", package("0.1.0"), self.folder])[0], 0)
        self.assertEqual(content(self.folder + "/usr/bin/tokend"), content(GIVEN.program))

    def test_each_file_has_its_sum(self):
        self.assertEqual(run(["dpkg-deb", "-R", package("0.1.0"), self.folder])[0], 0)
        self.assertEqual(run(["md5sum", "--quiet", "-c", "DEBIAN/md5sums"], cwd=self.folder),
                         (0, ""))
        summed = {"/" + it[34:] for it in
                  content(self.folder + "/DEBIAN/md5sums").decode().splitlines()}
        self.assertEqual(summed, {name for name, line in self.listed(package("0.1.0")).items()
                                  if line.startswith("-")})

    def test_what_is_inside(self):
        found = self.listed(package("0.1.0"))
        units = "tokend tokend-carry tokend-backup tokend-compact tokend-metrics".split()
        for name in ("/usr/bin/tokend", "/usr/bin/tokend-start", "/usr/lib/tokend/tokend-start",
                     "/usr/lib/tokend/starting/site.py", "/usr/lib/tokend/carry",
                     "/usr/lib/tokend/backup", "/usr/lib/tokend/servers.py", "/etc/tokend/",
                     "/usr/lib/tokend/bases.py", "/usr/lib/tokend/front-folder",
                     "/usr/lib/sysusers.d/tokend.conf", "/usr/share/man/man1/tokend.1.gz",
                     "/usr/share/man/man1/tokend-start.1.gz",
                     "/usr/share/doc/tokend/docs/OPERATING.md",
                     "/usr/share/doc/tokend/examples/site.conf",
                     "/usr/share/doc/tokend/packaging/README.md", "/usr/share/doc/tokend/starter",
                     "/usr/share/doc/tokend/examples/front-end/nginx.conf",
                     "/usr/share/doc/tokend/copyright", "/usr/share/doc/tokend/changelog.gz",
                     "/usr/lib/tokend/await-clock", "/usr/lib/tokend/metrics",
                     "/lib/systemd/system/tokend-clock.service",
                     *("/lib/systemd/system/%s@.service" % it for it in units),
                     *("/lib/systemd/system/%s@.timer" % it for it in units[1:])):
            self.assertIn(name, found)
        for name, line in found.items():
            self.assertIn(" root/root ", line)
            self.assertEqual("x" in line.split()[0], name.endswith("/") or "-> " in line
                             or line.startswith("-rwxr-xr-x"), line)
            self.assertNotIn("__pycache__", name)

    def test_wrong_arguments_end_make_with_status_2(self):
        for words in ([], ["nowhere"], [self.folder], ["--version", "x y", GIVEN.program]):
            self.assertEqual(run([TOP + "/packaging/make", *words])[0], 2, words)

    @unittest.skipUnless(shutil.which("lintian"), "passed over: no lintian")
    def test_lintian_has_no_complaint(self):
        words = ["lintian", "--fail-on", "error,warning", "--allow-root", package("0.1.0")]
        status, said = run(words, env={**os.environ, "LC_ALL": "C.UTF-8"})
        self.assertEqual(status, 0, said)
        self.assertNotRegex(said, "(?m)^[EW]: ")
