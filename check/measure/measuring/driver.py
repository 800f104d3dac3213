"""driver: builds the C programs beside it with the C compiler, and drives a server with them."""
import contextlib
import json
import os
import shutil
import subprocess
import tempfile
import urllib.parse

from lib import Absent, Broken
from lib.asking import REDIRECT_TEXT
from lib.server import Process

HERE = os.path.dirname(os.path.abspath(__file__))
PROGRAMS = "load", "many", "floor", "crowd"
WARM = 20  # requests of load.c that aren't counted, at most


class Driver:
    """The C programs, built into a folder that goes after use."""

    def __init__(self):
        if not shutil.which("cc"):
            raise Absent("no C compiler (cc)")
        self.folder = tempfile.TemporaryDirectory()

    def __enter__(self):
        for name in PROGRAMS:
            self.build(name, name + ".c", "-pthread")
        self.build("disk.so", "disk.c", "-shared", "-fPIC")
        return self

    def __exit__(self, *_):
        self.folder.cleanup()

    def build(self, name, source, *options):
        subprocess.run(["cc", "-O2", *options, "-o", self.path(name), os.path.join(HERE, source)],
                       check=True)

    def path(self, name):
        return os.path.join(self.folder.name, name)

    def disk(self, microseconds):
        """The beginning of a command whose fdatasync takes so long."""
        return ["env", "LD_PRELOAD=" + self.path("disk.so"), "DISK_MICROSECONDS=%d" % microseconds]

    def load(self, server, count, *words):
        """What a run of load prints, with the requests a second and the processor time of each."""
        return self.run(server, "load", server.port, count, *words)

    def push(self, server, requests):
        """The same of requests as they are sent; the first ones of them aren't counted."""
        with open(self.path("requests"), "wb") as file:
            for it in requests:
                file.write(len(it).to_bytes(4, "big") + it)
        count = max(len(requests) - WARM, 2 * len(requests) // 3)
        return self.load(server, count, "push", self.path("requests"))

    def many(self, server, port, count, clients, how, tokens, kind="introspect"):
        """The same of many, whose clients connect to a port: the server's, or that of a proxy."""
        return self.run(server, "many", port, count, clients, how, kind, server.client,
                        server.resource, server.authorize, urllib.parse.quote_plus(REDIRECT_TEXT),
                        self.list_tokens(tokens))

    def many_gets(self, server, count, clients, how):
        """The same of a C server, which needs no tokens."""
        return self.run(server, "many", server.port, count, clients, how, "get")

    def run(self, server, name, *words):
        """Runs a program of the driver, and returns what it printed, with the rates."""
        before = server.used()
        words = [self.path(name)] + [str(it) for it in words]
        done = subprocess.run(words, capture_output=True, text=True, check=False)
        if done.returncode:
            raise Broken(done.stderr.strip())
        found = json.loads(done.stdout)
        found["rate"] = found["requests"] / found["seconds"]
        found["processor"] = (server.used() - before) * 1e6 / found["sent"]
        return found

    def work(self, server, count, kind, tokens):
        """Drives an enrolled server, or a peer: introspect, refresh or code."""
        return self.load(server, count, kind, server.client, server.resource, server.authorize,
                         urllib.parse.quote_plus(REDIRECT_TEXT), self.list_tokens(tokens),
                         server.introspect, server.token, server.subject)

    def list_tokens(self, tokens):
        """A file with a line for each token."""
        with open(self.path("tokens"), "w", encoding="ascii") as file:
            file.writelines(it + "\n" for it in tokens)
        return self.path("tokens")

    def floor(self, how):
        """The C server: `none`, `append` or `sync` is what it does with a log."""
        return self.serving(["floor", how], how != "none")

    def crowd(self, how, has_log, before=()):
        """The C server of many connections, kept or new. A log is synced once a turn."""
        return self.serving(["crowd", how, "sync" if has_log else "none"], has_log, before)

    @contextlib.contextmanager
    def serving(self, words, has_log, before=()):
        """Yields a C server that listens, with a log of its own if it is to have one."""
        with tempfile.TemporaryDirectory() as folder:
            log = [os.path.join(folder, "log")] if has_log else []
            server = Process([*before, self.path(words[0]), *words[1:], *log], folder)
            try:
                yield server.listening()
            finally:
                server.stop()
