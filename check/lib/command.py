"""command: the arguments of a check, and runs of its tests."""
import argparse
import os
import sys
import unittest

from lib import BUILT

GIVEN = argparse.Namespace(program=None)  # what the check was given, once it is read


def parser(about):
    """A parser of a check's arguments; the first line of its documentation says what it does."""
    name = os.path.basename(sys.path[0]), os.path.basename(sys.argv[0])
    return argparse.ArgumentParser(prog="check/%s/%s" % name, description=about.split("\n")[0])


def read(it):
    """What a check was given. Ends with status 2 if that is wrong, or if there is no program."""
    it.add_argument("program", nargs="?", default=os.environ.get("TOKEND") or BUILT)
    it.parse_args(namespace=GIVEN)
    GIVEN.program = os.path.abspath(GIVEN.program)
    if not os.access(GIVEN.program, os.X_OK) or os.path.isdir(GIVEN.program):
        it.error("no program at %s" % GIVEN.program)
    return GIVEN


def end(*_):
    """Ends the command as an exception does, so that its servers are stopped."""
    raise SystemExit(143)


def run_tests(it, *modules):
    """Reads a check's arguments, and runs the tests of modules: returns the status."""
    it.add_argument("-v", action="store_true", help="names each test")
    given = read(it)
    tests = unittest.TestSuite(map(unittest.defaultTestLoader.loadTestsFromModule, modules))
    runner = unittest.TextTestRunner(verbosity=2 if given.v else 1)
    return 0 if runner.run(tests).wasSuccessful() else 1
