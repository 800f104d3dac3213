"""page: runs of the sections of docs/RUNBOOKS.md, and what their commands print."""
import os
import re
import shutil
import subprocess
import tempfile
import unittest

from lib.packages import need_tools, package, run
from lib.runbook import PAGE, chunks, sections
from lib.waiting import free_ports

HERE = os.path.dirname(os.path.abspath(__file__))
SET_UP = "The sites of this page"
PATHS = r"(?<![\w.])/(etc|var/lib|usr/lib|run)/(tokend|prometheus)"
MASKS = ((r"AQ[EIM][\w-]{45}", "HANDLE"), (r"\b1[0-9]{9}\b", "MOMENT"),
         (r"\b\d{8}T\d{6}Z(-\d+)?", "DATE"), (r"\b\d+\.\d\d s\b", "SECONDS"),
         (r"its last \d+ bytes", "its last BYTES"))


def masked(text):
    for pattern, name in MASKS:
        text = re.sub(pattern, name, text)
    return "\n".join(it.rstrip() for it in text.strip().splitlines())


@need_tools
class Runbooks(unittest.TestCase):
    def setUp(self):
        self.root = tempfile.mkdtemp()
        self.addCleanup(shutil.rmtree, self.root, True)
        self.addCleanup(self.end_all)
        for name in "run", "bin", "home":
            os.mkdir(self.path(name))
        for name in "systemctl", "journalctl", "apt":
            os.symlink(os.path.join(HERE, "shim"), self.path("bin", name))
        os.symlink("/bin/true", self.path("bin/chown"))  # the package's user isn't on this machine
        run(["dpkg-deb", "-x", package("0.1.0"), self.root])
        os.symlink(package("0.1.1"), self.path("home", "tokend_0.1.1_amd64.deb"))
        self.ports = dict(zip(("7001", "7002", "7003"), map(str, free_ports(3))))
        with open(PAGE, encoding="utf-8") as file:
            self.sections = sections(file.read())

    def path(self, *names):
        return os.path.join(self.root, *names)

    def end_all(self):
        for name in os.listdir(self.path("run")):
            if name.endswith(".pid"):
                self.shell("systemctl kill " + name.removesuffix(".pid"))
        if os.path.ismount(self.path("var/lib/tokend/one")):
            subprocess.run(["umount", self.path("var/lib/tokend/one")], check=False)

    def here(self, text):
        """Commands of the page, with this folder and these ports."""
        text = re.sub(PATHS, lambda it: self.root + it[0], text)
        return re.sub(r"\b700[123]\b", lambda it: self.ports[it[0]], text)

    def there(self, text):
        """What they print, as the page has it."""
        text = text.replace(self.root, "")
        for name, port in self.ports.items():
            text = re.sub(r"\b%s\b" % port, name, text)
        return text

    def shell(self, script):
        """Returns the output of a script in the root, as its user would run it."""
        environ = {"ROOT": self.root, "HOME": self.path("home"), "LC_ALL": "C.UTF-8", "TZ": "UTC",
                   "PATH": "%s:%s:/usr/bin:/bin:/usr/sbin" % (self.path("bin"),
                                                              self.path("usr/bin"))}
        return subprocess.run(["bash", "-c", script], cwd=self.path("home"), env=environ,
                              stdin=subprocess.DEVNULL, stdout=subprocess.PIPE,
                              stderr=subprocess.STDOUT, text=True, timeout=120,
                              check=False).stdout

    def directive(self, words):
        """A script for a comment of the page: what befalls a site."""
        if words[0] == "disk":  # a small one in the place of its folder
            if os.geteuid():
                self.skipTest("a full disk takes root")
            folder = self.path("var/lib/tokend/one")
            return ("systemctl stop tokend@one; mkdir kept; cp -r {0}/. kept; "
                    "mount -t tmpfs -o size={1} tmpfs {0} && cp -r kept/. {0}; "
                    "systemctl start tokend@one").format(folder, words[1])
        if words[0] == "clock":  # ahead
            if not shutil.which("cc"):
                self.skipTest("a wrong clock takes a C compiler")
            library, variables = self.path("clock.so"), self.path("run/tokend@one.environ")
            subprocess.run(["cc", "-shared", "-fPIC", "-o", library, HERE + "/clock.c"], check=True)
            return ("printf 'LD_PRELOAD=%s\\nAHEAD=%s\\n' >%s; systemctl restart tokend@one"
                    % (library, words[1], variables)
                    if words[1] != "0" else "rm %s; systemctl restart tokend@one" % variables)
        raise AssertionError("no such comment: %s" % words)

    def script(self, parts):
        """All commands, with a line before the output of each part."""
        lines = ['shopt -s expand_aliases; alias curl="curl -q -sS -m 10"']
        for number, (commands, _) in enumerate(parts):
            lines.append("printf '\\n@@%d\\n'" % number)
            for line in commands.splitlines():
                lines.append(self.directive(line.split()[1:]) if line.startswith(":: ")
                             else self.here(line))
        return "\n".join(lines)

    def run_section(self, name):
        """Runs the commands of a section, and compares what each prints."""
        parts = chunks(self.sections[SET_UP]) + (
            chunks(self.sections[name]) if name != SET_UP else [])
        said = self.there(self.shell(self.script(parts)))
        found = re.split(r"(?m)^@@\d+\n", said)[1:]
        self.assertEqual(len(found), len(parts), said)
        for (commands, wanted), output in zip(parts, found):
            self.assertEqual(masked("\n".join(wanted)), masked(output), commands)


def add_tests():
    """Adds a test for each section of the page."""
    with open(PAGE, encoding="utf-8") as file:
        names = list(sections(file.read()))
    for name in names:
        def test(self, name=name):
            self.run_section(name)
        title = re.sub(r"\W+", "_", name.lower())
        setattr(Runbooks, "test_" + title, test)


add_tests()
