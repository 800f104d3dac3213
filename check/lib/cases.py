"""cases: tests with servers, peers and sites, and runs of the scripts of the examples."""
import contextlib
import os
import socket
import subprocess
import tempfile
import unittest

from lib import TOP, command
from lib.peer import Peer
from lib.server import FULL, Server
from lib.site import Site
from lib.waiting import until


class Case(unittest.TestCase):
    """A test with servers and peers, which are gone afterwards."""

    def setUp(self):
        self.stack = contextlib.ExitStack()
        self.addCleanup(self.stack.close)
        self.folder = self.stack.enter_context(tempfile.TemporaryDirectory())

    def tokend(self, region, *items, options=()):
        """A server with these options that holds these items."""
        server = self.stack.enter_context(Server(command.GIVEN.program, *options, region=region))
        for at in range(0, len(items), FULL):
            self.assertEqual(server.push(items[at:at + FULL])[0], 200)
        return server

    def peer(self, reply, **options):
        return self.stack.enter_context(Peer(reply, **options))

    def listener(self):
        """A socket that is listened on, whose connections are never served."""
        it = self.stack.enter_context(socket.create_server(("127.0.0.1", 0)))
        return it, "http://127.0.0.1:%d" % it.getsockname()[1]

    def start(self, script, *words, **environment):
        """Starts a script of the examples, which is killed after the test."""
        child = subprocess.Popen(
            [os.path.join(TOP, "examples", script), *words], text=True, stdout=subprocess.PIPE,
            stderr=subprocess.PIPE, env=os.environ | {"TMPDIR": self.folder} | environment)
        self.addCleanup(child.communicate)
        self.addCleanup(child.kill)
        return child

    def run_script(self, script, *words, **environment):
        """Status, standard output and standard error."""
        child = self.start(script, *words, **environment)
        output, errors = child.communicate(timeout=120)
        return child.returncode, output, errors

    def carry(self, *urls, options="", words=()):
        return self.run_script("carry/carry", *words, *urls, CARRY_CURL="curl -q " + options)

    def assert_soon(self, value, what):
        """Waits until a function returns a value."""
        until(lambda: what() == value)
        self.assertEqual(what(), value)

    def site(self, first, *neighbours, options="", count=99, is_up=True, sockets=0, **more):
        """A site whose first region number is given, and its first run."""
        site = Site(os.path.join(self.folder, str(first)), first, count, sockets)
        site.begin(neighbours, options, **more)
        self.addCleanup(site.stop)
        if is_up:
            self.assertTrue(until(site.is_up), site.said())
        return site

    def small(self):
        """The program, with files of 2,048 bytes at most, so that its log fails soon."""
        path = os.path.join(self.folder, "small")
        with open(path, "w", encoding="utf-8") as file:
            file.write("#!/bin/sh\ntrap '' XFSZ\nulimit -f 4\nexec '%s' \"$@\"\n"
                       % command.GIVEN.program)
        os.chmod(path, 0o755)
        return path

    def again(self, site, *neighbours, options=""):
        """The next run of a site."""
        site.begin(neighbours, options)
        self.assertTrue(until(site.is_up), site.said())
