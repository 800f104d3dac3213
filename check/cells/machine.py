"""machine: a table of sites on free ports, its sites, and runs of examples/cells/cells."""
import os
import urllib.parse
from pathlib import Path

from lib import command
from lib.cases import Case
from lib.server import Tokend
from lib.waiting import free_port, until
from tables import read_table

SCRIPT = "cells/cells"


class CellsCase(Case):
    """A test with a table and its sites, which are gone afterwards."""

    sites = ("dir1 directory 1-99 -", "a1 a 100-199 0-15", "a2 a 200-299 16-31",
             "b1 b 300-399 32-63")

    def setUp(self):
        super().setUp()
        self.state = os.path.join(self.folder, "state")
        os.mkdir(self.state)
        self.runs = {}
        self.write_table(*self.sites)

    def write_table(self, *lines, **ports):
        """Writes lines that lack places: sockets, free ports for the directory, or those given."""
        found = []
        for line in lines:
            name, cell, *rest = line.split()
            place = free_port() if cell == "directory" else "unix:%s/socket" % name
            found.append(" ".join([name, cell, str(ports.get(name) or place), *rest]))
        self.path = os.path.join(self.state, "table")
        with open(self.path, "w", encoding="ascii") as file:
            file.write("# a comment\n\n" + "".join(it + "\n" for it in found))

    def text(self):
        with open(self.path, encoding="ascii") as file:
            return file.read()

    accepts = None  # the numbers that sites take facts of, in place of those of the table

    def variables(self):
        found = {"CELLS": self.state, "TOKEND": command.GIVEN.program}
        return {**found, "TOKEND_ACCEPT": self.accepts} if self.accepts else found

    def cells(self, *words):
        """Status, standard output and standard error of a command."""
        return self.run_script(SCRIPT, *words, **self.variables())

    def done(self, *words):
        """The standard output of a command that must end with status 0."""
        status, output, errors = self.cells(*words)
        self.assertEqual((status, errors), (0, ""), output)
        return output

    def beginning(self, *words):
        """A command that goes on."""
        return self.start(SCRIPT, *words, **self.variables())

    def server(self, name):
        """A site, to ask it itself."""
        it = read_table(Path(self.path)).site(name)
        return Tokend(it.socket or int(it.place))

    def is_up(self, name):
        try:
            return self.server(name).ask("/sync/vector")[0] == 200
        except OSError:
            return False

    def up(self, *names):
        """Starts the next runs of these sites, one after the other."""
        for name in names:
            self.runs[name] = self.beginning("start", name)
            self.assertTrue(until(lambda name=name: self.is_up(name)), name)

    def kill(self, *names):
        for name in names:
            self.runs[name].kill()
            self.runs[name].wait()

    def form(self, name, path, wanted=(200, 201), **fields):
        """The body of a site's reply to a form."""
        status, said = self.server(name).ask(path, urllib.parse.urlencode(fields).encode())
        self.assertIn(status, wanted, said)
        return said.decode()

    def held_to(self, name):
        """A site's vector, by region."""
        return self.server(name).held_to()

    def pages(self, name):
        """All facts of a site, as bundles."""
        return b"".join(self.server(name).pages())

    def regions(self, name):
        """The regions of all facts on a site's first page."""
        return {int.from_bytes(it[:2], "big") for it in self.server(name).held()}
