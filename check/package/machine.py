"""machine: a container of systemd-nspawn, in which systemd is process 1.

Its tree is a Debian that debootstrap makes once, in build/debian or where DEBIAN_TREE says. What a
test changes is in memory alone. Its network is its own, so its ports are nobody else's.
"""
import contextlib
import functools
import os
import shutil
import signal
import subprocess

from lib import TOP
from lib.packages import run
from lib.waiting import until

TREE = os.environ.get("DEBIAN_TREE") or os.path.join(TOP, "build/debian")
PACKAGES = "systemd,systemd-sysv,dbus,python3,curl"
PATIENCE = 60
UP = "running", "degraded"


def suite():
    """The Debian of this machine, whose C library the program needs."""
    with open("/etc/os-release", encoding="utf-8") as file:
        found = dict(line.rstrip("\n").split("=", 1) for line in file if "=" in line)
    return found.get("VERSION_CODENAME", "")


def make_tree():
    """Makes the tree: returns why there is none, or nothing."""
    shutil.rmtree(TREE + ".new", ignore_errors=True)
    status, said = run(["debootstrap", "--variant=minbase", "--include=" + PACKAGES, suite(),
                             TREE + ".new"], stdin=subprocess.DEVNULL)
    if status:
        return "debootstrap: %s" % (said.splitlines() or [status])[-1]
    os.rename(TREE + ".new", TREE)
    return ""


@functools.lru_cache
def lacking():
    """Why no container can run here, or nothing."""
    if os.geteuid():
        return "it takes root"
    if not shutil.which("systemd-nspawn"):
        return "no systemd-nspawn (apt-get install systemd-container)"
    if os.path.isdir(TREE):
        return ""
    if not shutil.which("debootstrap"):
        return "no debootstrap (apt-get install debootstrap)"
    os.makedirs(os.path.dirname(TREE), exist_ok=True)
    return make_tree()


def child_of(process):
    """The first process that a process began, or None."""
    try:
        with open("/proc/%d/task/%d/children" % (process, process), encoding="ascii") as file:
            return int(file.read().split()[0])
    except (OSError, IndexError):
        return None


class Machine:
    """A container that runs, with a folder of this machine as /given."""

    def __init__(self, folder):
        words = ["systemd-nspawn", "-q", "--register=no", "--keep-unit", "--private-network",
                 "--volatile=overlay", "--bind-ro=%s:/given" % folder, "-D", TREE, "-b",
                 "--console=pipe"]
        self.said = open(os.path.join(folder, "console"), "wb")
        self.child = subprocess.Popen(words, stdin=subprocess.DEVNULL, stdout=self.said,
                                      stderr=subprocess.STDOUT)
        self.first = None

    def boots(self):
        """Waits until systemd is up: returns whether it is."""
        return self.until(lambda: self.run("systemctl is-system-running")[1].strip() in UP)

    def console(self):
        """The end of what it printed."""
        with open(self.said.name, encoding="utf-8", errors="replace") as file:
            return file.read()[-500:]

    def run(self, script, patience=PATIENCE):
        """The status and the output of a shell script in the container, as its root."""
        self.first = self.first or child_of(self.child.pid)
        if self.first is None:
            return 1, ""
        return run(["nsenter", "-t", str(self.first), "-a", "env", "-i", "LC_ALL=C.UTF-8",
                         "PATH=/usr/sbin:/usr/bin:/sbin:/bin", "sh", "-c", script],
                        stdin=subprocess.DEVNULL, timeout=patience, cwd="/")

    def until(self, holds, patience=PATIENCE):
        """Whether something holds within some seconds."""
        return until(holds, patience, 0.1, self.child)

    def end(self):
        """Ends the container, and all that is in it."""
        if self.first and self.child.poll() is None:
            with contextlib.suppress(ProcessLookupError):  # it may be ending by itself
                os.kill(self.first, signal.SIGRTMIN + 4)  # systemd powers off
        try:
            self.child.wait(20)
        except subprocess.TimeoutExpired:
            self.child.kill()
            self.child.wait()
        self.said.close()
