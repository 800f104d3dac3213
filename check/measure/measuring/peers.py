"""peers: other OAuth 2.0 servers, from Debian's packages, each started with a database of its own.

A peer has the fields of an enrolled tokend, so that the same driver asks it the same. Each has a
file of SQLite, which syncs what it writes, and the settings that come with it unless said.
"""
import contextlib
import gzip
import os
import shutil
import signal
import sqlite3
import subprocess
import tempfile

from lib import Absent, Broken
from lib.asking import REDIRECT_TEXT, Asked, authorize, basic
from lib.waiting import free_port, listens_soon
from measuring import glewlwyd
from measuring.rounds import PYTHON

HERE = os.path.dirname(os.path.abspath(__file__))
CLIENT, SECRET, PATIENCE = "measured", "s3cret", 30
TICKS = os.sysconf("SC_CLK_TCK")


def members(group):
    """What /proc/PID/stat has of each process of a group, behind its name."""
    for pid in filter(str.isdigit, os.listdir("/proc")):
        with contextlib.suppress(OSError):
            with open("/proc/%s/stat" % pid, encoding="utf-8", errors="replace") as file:
                fields = file.read().rpartition(")")[2].split()
            if int(fields[2]) == group:
                yield pid, fields


class Other(Asked):
    """A server in a process group of its own, which goes with its folder."""

    name = copies = None  # copies: SQL that adds :count copies of the first login
    closing = ("Connection: close",)

    def __init__(self, folder):
        self.folder, self.port = folder, free_port()
        self.database = self.path("database")
        self.client = self.resource = basic(CLIENT, SECRET)
        self.child = None

    def path(self, name):
        return os.path.join(self.folder, name)

    def start(self):
        """Makes the database, starts the server, and enrols the client; here: nothing of it."""

    def run(self, words, **environment):
        """Starts a command that listens on the port."""
        with open(self.path("errors"), "wb") as errors:
            self.child = subprocess.Popen(
                words, stdin=subprocess.DEVNULL, stdout=errors, stderr=errors, cwd=self.folder,
                env=os.environ | environment, start_new_session=True)
        if not listens_soon(self.child, self.port, PATIENCE):
            raise Broken("%s didn't start: %s" % (self.name, self.errors()))

    def errors(self):
        with open(self.path("errors"), encoding="utf-8", errors="replace") as file:
            return file.read()[-500:].strip()

    def used(self):
        """Seconds of processor of its processes, with threads that are over."""
        return sum(int(it[11]) + int(it[12]) for _, it in members(self.child.pid)) / TICKS

    def resident(self):
        """Bytes of memory of its processes; what several share counts once."""
        total = 0
        for pid, _ in members(self.child.pid):
            with open("/proc/%s/smaps_rollup" % pid, encoding="ascii") as file:
                total += next(int(it.split()[1]) for it in file if it.startswith("Pss:"))
        return total * 1024

    def fill(self, count):
        """Adds copies of a login to the database, with tokens of their own."""
        with contextlib.closing(sqlite3.connect(self.database, PATIENCE)) as database:
            database.executescript(self.copies.replace(":count", str(count)))

    def stop(self):
        """Ends the group of processes, by SIGKILL if SIGTERM isn't enough."""
        if self.child:
            for one in signal.SIGTERM, signal.SIGKILL:
                with contextlib.suppress(ProcessLookupError):
                    os.killpg(self.child.pid, one)
                with contextlib.suppress(subprocess.TimeoutExpired):
                    self.child.wait(5)


class Glewlwyd(Other):
    """The OpenID Connect plugin of glewlwyd, which replaces a refresh token at each use."""

    name = "glewlwyd"
    copies = glewlwyd.COPIES
    introspect, token, revoke = ("/api/oidc/" + it for it in ("introspect", "token", "revoke"))

    @staticmethod
    def need():
        if not shutil.which("glewlwyd"):
            raise Absent("no glewlwyd")
        if not os.path.exists(glewlwyd.TABLES):
            raise Absent("no %s" % glewlwyd.TABLES)

    def start(self):
        """Makes the database of glewlwyd with a client and a session, and starts it."""
        with gzip.open(glewlwyd.TABLES, "rt", encoding="utf-8") as file:
            with contextlib.closing(sqlite3.connect(self.database)) as database:
                database.executescript(file.read())
        with open(self.path("configuration"), "w", encoding="utf-8") as file:
            file.write(glewlwyd.CONFIGURATION % {"port": self.port,
                                                     "folder": self.folder})
        self.run(["glewlwyd", "--config-file=" + self.path("configuration")])
        self.subject = "Cookie: " + glewlwyd.enrol(self.port, CLIENT, SECRET, REDIRECT_TEXT)
        self.authorize = authorize("/api/oidc/auth", CLIENT) + "&g_continue="


class Application(Other):
    """An application of apps/ under gunicorn, with one worker."""

    module = packages = None

    @classmethod
    def need(cls):
        words = [PYTHON, "-c", "import gunicorn, " + cls.packages]
        if not os.path.exists(PYTHON) or subprocess.run(words, capture_output=True,
                                                        check=False).returncode:
            raise Absent("no %s under gunicorn" % cls.name)

    def start(self):
        """Makes the database of the application, and starts it under gunicorn."""
        apps = os.path.join(HERE, "apps")
        given = {"DB": self.database, "CLIENT": CLIENT, "SECRET": SECRET, "REDIRECT": REDIRECT_TEXT,
                 "PYTHONPATH": apps, "PYTHONDONTWRITEBYTECODE": "1",
                 "AUTHLIB_INSECURE_TRANSPORT": "1"}
        name = self.module.partition(":")[0]
        made = subprocess.run([PYTHON, os.path.join(apps, name + ".py")], env=os.environ | given,
                              capture_output=True, text=True, check=False)
        if made.returncode:
            raise Broken("%s: no database: %s" % (self.name, made.stderr[-500:].strip()))
        self.authorize = authorize("/authorize", CLIENT)
        self.run([PYTHON, "-m", "gunicorn", "-w", "1", "-b", "127.0.0.1:%d" % self.port,
                  "--log-level", "warning", self.module], **given)


class Authlib(Application):
    name = "Authlib"
    module, packages = "authlib_app:app", "authlib.integrations.flask_oauth2, flask_sqlalchemy"
    copies = """
        INSERT INTO token(client_id, token_type, access_token, refresh_token, scope, issued_at,
            access_token_revoked_at, refresh_token_revoked_at, expires_in, user_id)
        WITH RECURSIVE n(i) AS (SELECT 1 UNION ALL SELECT i + 1 FROM n WHERE i < :count)
        SELECT client_id, token_type, hex(randomblob(21)), hex(randomblob(24)), scope, issued_at,
            0, 0, expires_in, user_id FROM n, (SELECT * FROM token LIMIT 1);
    """


class Django(Application):
    name = "django-oauth-toolkit"
    module, packages = "django_app:application", "oauth2_provider"
    copies = """
        INSERT INTO oauth2_provider_accesstoken(token, expires, scope, application_id, user_id,
            created, updated)
        WITH RECURSIVE n(i) AS (SELECT 1 UNION ALL SELECT i + 1 FROM n WHERE i < :count)
        SELECT hex(randomblob(15)), expires, scope, application_id, user_id, created, updated
            FROM n, (SELECT * FROM oauth2_provider_accesstoken LIMIT 1);
        INSERT INTO oauth2_provider_refreshtoken(token, access_token_id, application_id, user_id,
            created, updated)
        SELECT hex(randomblob(15)), id, application_id, user_id, created, updated
            FROM oauth2_provider_accesstoken
            WHERE id > (SELECT max(id) - :count FROM oauth2_provider_accesstoken);
    """


ALL = Glewlwyd, Authlib, Django


@contextlib.contextmanager
def running(kind):
    """A peer in a new folder, both gone after use."""
    with tempfile.TemporaryDirectory() as folder:
        peer = kind(folder)
        try:
            peer.start()
            yield peer
        finally:
            peer.stop()
