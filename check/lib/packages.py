"""packages: Debian packages of the program, and the commands of dpkg."""
import functools
import os
import shutil
import subprocess
import tempfile
import unittest

from lib import TOP
from lib.command import GIVEN

TOOLS = [it for it in ("dpkg", "dpkg-deb", "dpkg-shlibdeps") if not shutil.which(it)]
ROOM = tempfile.TemporaryDirectory()
need_tools = unittest.skipIf(TOOLS, "passed over: no %s (apt-get install dpkg-dev)"
                             % " ".join(TOOLS))


def run(words, **options):
    """Status and output, with standard error in it."""
    done = subprocess.run(words, text=True, stdout=subprocess.PIPE, stderr=subprocess.STDOUT,
                          check=False, **options)
    return done.returncode, done.stdout


def make(folder, *words, top=TOP, **options):
    """Makes a package in a folder: returns its path."""
    status, said = run([os.path.join(top, "packaging/make"), "--to", folder, *words, GIVEN.program],
                       **options)
    if status:
        raise AssertionError("packaging/make: status %d\n%s" % (status, said))
    return said.splitlines()[-1]


@functools.lru_cache
def package(version):
    """The package of a version, which is made once for all tests."""
    return make(ROOM.name, "--version", version)
