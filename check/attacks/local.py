"""local: what a user of the machine reaches of a region at a port, and of one at sockets.

The tests with other users take root: a folder for the group of the front end, as a unit makes it.
"""
import glob
import os
import subprocess
import sys

from lib import TOP
from lib.cases import Case
from lib.facts import clients

FRONT, NOBODY = 33, 65534  # www-data of Debian, and nobody
AS_USER = """
import encodings.idna, os, socket, sys  # what a user may not read is read before
uid, place, target = int(sys.argv[1]), sys.argv[2], sys.argv[3]
os.setgroups([]); os.setgid(uid); os.setuid(uid)
sys.stdin.close()
try:
    if place.isdecimal():
        peer = socket.create_connection(("127.0.0.1", int(place)), 10)
    else:
        peer = socket.socket(socket.AF_UNIX)
        peer.connect(place)
    peer.sendall(b"GET %s HTTP/1.1\\r\\nHost: localhost\\r\\n\\r\\n" % target.encode())
    print(peer.recv(65536).split()[1].decode())
except PermissionError:
    print("denied")
"""
AS_THIEF = """
import os, socket, sys
uid, place = int(sys.argv[1]), sys.argv[2]
os.setgroups([]); os.setgid(uid); os.setuid(uid)
for attempt in (lambda: os.unlink(place), lambda: os.rename(place, place + "x"),
                lambda: socket.socket(socket.AF_UNIX).bind(place + "x")):
    try:
        attempt()
        print("done")
    except OSError:
        pass
"""
# what a page's form sends of itself: a browser asks nobody before
FORM = ("POST /admin/client HTTP/1.1\r\nHost: 127.0.0.1:%d\r\nOrigin: https://evil.example\r\n"
        "Content-Type: application/x-www-form-urlencoded\r\nContent-Length: 55\r\n\r\n"
        "kind=public&scope=read&redirects=https://app.example/cb")


def ports_of(process):
    """The TCP sockets of a process that are listened on, by the kernel's tables."""
    inodes = {os.readlink(it)[8:-1] for it in glob.glob("/proc/%d/fd/*" % process)
              if os.readlink(it).startswith("socket:[")}
    found = []
    for name in "tcp", "tcp6":
        with open("/proc/%d/net/%s" % (process, name), encoding="ascii") as file:
            rows = [it.split() for it in file.read().splitlines()[1:]]
        found += [it[1] for it in rows if it[3] == "0A" and it[9] in inodes]
    return found


class Local(Case):
    def setUp(self):
        super().setUp()
        os.chmod(self.folder, 0o711)

    def path(self, name):
        return os.path.join(self.folder, name)

    def at_sockets(self):
        """A region as the package starts one."""
        group = FRONT if os.geteuid() == 0 else os.getegid()
        subprocess.run([TOP + "/examples/systemd/front-folder", self.path("front"), self.folder,
                        str(group)], check=True, env=os.environ | {"TOKEND_SOCKET": "x"})
        os.mkdir(self.path("run"), 0o750)
        return self.tokend(1, *clients(3, 1), options=(
            "--socket", self.path("front/socket"), "--inner", self.path("run/inner")))

    def got(self, uid, place, target):
        """What a user gets: a status, or `denied`."""
        done = subprocess.run([sys.executable, "-c", AS_USER, str(uid), str(place), target],
                              capture_output=True, text=True, check=True, cwd="/")
        return done.stdout.strip()

    def test_at_a_port_any_user_administers(self):
        """If this fails, a port refuses some users, and SECURITY is to be mended."""
        if os.geteuid():
            self.skipTest("passed over: it takes root to be another user")
        it = self.tokend(1, *clients(3, 1))
        self.assertEqual(self.got(NOBODY, it.port, "/admin/client?client_id=c3-1"), "200")
        self.assertEqual(self.got(NOBODY, it.port, "/sync/vector"), "200")

    def test_at_sockets_the_front_end_reaches_what_is_for_clients(self):
        if os.geteuid():
            self.skipTest("passed over: it takes root to be another user")
        it = self.at_sockets()
        for uid, place, target, wanted in (
                (FRONT, it.socket, "/authorize", "400"), (FRONT, it.socket, "/sync/vector", "404"),
                (FRONT, it.socket, "/admin/client?client_id=c3-1", "404"),
                (FRONT, it.inner, "/sync/vector", "denied"),
                (NOBODY, it.socket, "/authorize", "denied"),
                (NOBODY, it.inner, "/sync/vector", "denied")):
            self.assertEqual(self.got(uid, place, target), wanted, (uid, place, target))
        self.assertEqual(it.ask("/sync/vector")[0], 200)

    def test_at_sockets_nobody_takes_the_place_of_a_region_that_is_down(self):
        """Neither user can put a socket of their own there, nor remove the one that is left."""
        if os.geteuid():
            self.skipTest("passed over: it takes root to be another user")
        it = self.at_sockets()
        it.stop()
        for uid in FRONT, NOBODY:
            for place in it.socket, it.inner:
                done = subprocess.run([sys.executable, "-c", AS_THIEF, str(uid), place],
                                      capture_output=True, text=True, check=True, cwd="/")
                self.assertEqual(done.stdout, "", (uid, place))
        self.assertTrue(os.path.exists(it.socket))

    def test_a_page_in_a_browser_reaches_a_port(self):
        """If this fails, the port refuses forms of other origins, and SECURITY is to be mended."""
        it = self.tokend(1)
        self.assertEqual(len(ports_of(it.child.pid)), 1)
        self.assertEqual(it.send((FORM % it.port).encode())[0], 201)

    def test_a_page_in_a_browser_reaches_no_socket(self):
        """No URL of a page names one, and the region listens nowhere else."""
        it = self.at_sockets()
        self.assertEqual(ports_of(it.child.pid), [])
