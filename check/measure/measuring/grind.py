"""grind: a server that works under valgrind, and is sent requests of one kind."""
import os
import shutil
import signal
import subprocess

from lib import Absent
from lib.server import Server

PATIENCE = 30


def introspect(server, tokens):
    server.is_active(tokens[-1]["access_token"])


def refresh(server, tokens):
    tokens.append(server.refresh(tokens[-1]["refresh_token"]))


def code(server, _):
    server.log_in()


KINDS = {"introspect": introspect, "refresh": refresh, "code": code}


def need(program):
    """Raises Absent if valgrind isn't there, or can't run the program."""
    for command in "valgrind", "callgrind_annotate":
        if not shutil.which(command):
            raise Absent("no " + command)
    words = ["valgrind", "--tool=none", program, "--version"]
    if subprocess.run(words, capture_output=True, check=False).returncode:
        raise Absent("valgrind doesn't run %s" % program)


def run(program, folder, tool, kind, count):
    """Has a server with a log work on N requests of a kind, and end. What the tool prints is then
    in the file `said` of the folder, and what callgrind counted in the file `counted`.
    """
    words = ["valgrind", "--tool=" + tool, "--log-file=" + os.path.join(folder, "said")]
    if tool == "callgrind":
        words.append("--callgrind-out-file=" + os.path.join(folder, "counted"))
    server = Server(program, "--log", "{}/log", folder=folder, before=words)
    try:
        tokens = [server.enrol().log_in()]
        for _ in range(count):
            KINDS[kind](server, tokens)
        server.child.send_signal(signal.SIGTERM)
        server.child.wait(PATIENCE)
    finally:
        server.stop()
