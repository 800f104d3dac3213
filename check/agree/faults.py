"""Faults, by trial: each that can be had in a moment has the line and status of the sources.

`fault write` and `fault memory` aren't provoked here; rows and check/memory/run do."""
import os
import re
import resource
import socket
import subprocess

from lib.asking import CLIENT
from server import Server
from texts import differ, same

NEW = ("POST", "/admin/client", (), CLIENT)


class Trial:
    """Runs of a program in a folder, each compared with the line and status of its fault."""

    def __init__(self, program, room, seed, errors):
        self.program, self.room, self.seed, self.errors = program, room, seed, errors
        self.serve = ["serve", "--region", "1", "--port", "0", "--requests", "0", "--seed"]

    def file(self, name, content):
        path = os.path.join(self.room, name)
        with open(path, "wb") as f:
            f.write(content)
        return path

    def end(self, name, line, words, status=None, **more):
        """Runs the program, compares its line and status, and returns its output."""
        if "stdin" not in more and "input" not in more:
            more["stdin"] = subprocess.DEVNULL
        more.setdefault("stdout", subprocess.PIPE)
        done = subprocess.run([self.program] + words, stderr=subprocess.PIPE, text=True,
                              timeout=60, **more)
        key = re.sub(r"(cannot (?:read|open)) .*", r"\1 FILE", line)
        key = re.sub(r"bad line \d+", "bad line K", key)
        wanted = self.errors.get(key, self.errors.get(line)) if status is None else status
        same(name, "standard error", line + "\n" if line else "", done.stderr)
        same(name, "the status", wanted, done.returncode)
        return done.stdout or ""


def files_of_a_service(t):
    """Tries seeds and logs that a service can't read or use."""
    absent = os.path.join(t.room, "absent", "file")
    for n in (0, 31, 33):
        seed = t.file("short", b"x" * n)
        t.end("a seed of %d bytes" % n, "tokend: bad seed file", t.serve + [seed])
    t.end("no seed", "tokend: cannot read " + absent, t.serve + [absent])
    known = t.serve + [t.seed]
    t.end("no old log", "tokend: cannot read " + absent, known + ["--load", absent])
    t.end("a log in no folder", "tokend: cannot open " + absent, known + ["--log", absent])
    full = t.file("full", b"x")
    t.end("a log that isn't empty", "tokend: bad log file", known + ["--log", full])
    none = t.file("none", b"nothing like a log")
    t.end("a log that is none", "tokend: bad log file", known + ["--load", none])


def log_of_two(t):
    """A log of two facts, made beside a port in use and a client that resets."""
    log = os.path.join(t.room, "log")
    with Server(t.program, "--log", log) as server:
        for _ in range(2):
            server.ask(*NEW)
        words = ["serve", "--region", "2", "--port", str(server.port), "--seed", t.seed]
        t.end("a port in use", "tokend: cannot listen", words)
        c = socket.create_connection(("127.0.0.1", server.port), timeout=7)
        c.sendall(b"GET /half HT")
        c.setsockopt(socket.SOL_SOCKET, socket.SO_LINGER, b"\1\0\0\0\0\0\0\0")  # a reset
        c.close()
        server.ask("GET", "/sync/vector")  # so the one before has ended
    same("a client that resets", "standard error", "fault read\n", server.at_end)
    return log


def loaded(t, log):
    """Tries logs of the service's own number, whole ones, and cut ones."""
    own = t.serve + [t.seed, "--load", log]
    t.end("its own number's facts", "tokend: bad log file", own)
    with open(log, "rb") as f:
        records = f.read()
    load = ["serve", "--region", "2", "--port", "0", "--requests", "0", "--seed", t.seed, "--load"]
    said = t.end("a whole log", "", load + [log], status=0)
    if not re.fullmatch(r"listening 127\.0\.0\.1:\d+\n", said):
        differ("a whole log", "printed %r" % said)
    cut = t.file("cut", records + records[:20])
    said = t.end("a cut log", "", load + [cut], status=0)
    if not re.fullmatch(r"dropped 20 bytes\nlistening 127\.0\.0\.1:\d+\n", said):
        differ("a cut log", "printed %r" % said)
    zeros = t.file("zeros", records + bytes(100))
    t.end("zeros behind a log", "tokend: bad log file", load + [zeros])
    t.end("repeats", "", load + [t.file("twice", records + records)], status=0)


def full_devices(t):
    """Tries a standard output and a log that take no byte."""
    for name, words, given in (("serve", t.serve + [t.seed], None),
                               ("script", ["script"], "open 1\n"), ("help", ["--help"], None)):
        more = {"input": given} if given else {}
        with open("/dev/full", "w") as full:
            t.end("a full standard output, " + name, "", words, status=1, stdout=full, **more)
    with Server(t.program, "--log", "/dev/full") as server:
        same("a log on a full disk", "the reply", None, server.ask(*NEW))
        for what in (NEW, ("GET", "/sync/vector")):
            reply = server.ask(*what)
            same("a log that has failed", "the reply",
                 (503, b'{"error":"temporarily_unavailable"}'), reply and (reply[0], reply[3]))
    same("a log on a full disk", "standard error", "fault log\n", server.at_end)


def scripts(t, log):
    """Tries scripts that are wrong, too long, or can't be read."""
    for command in ("script", "loopback"):
        t.end("a bad line, " + command, "tokend: bad line 2", [command], input="open 1\nnothing\n")
        t.end("a long script, " + command, "tokend: script too long", [command],
              input="#" * 1048577)
        with open(log, "a") as shut:  # open for writing alone, so that reading it fails
            t.end("an input that can't be read, " + command, "tokend: cannot read -", [command],
                  stdin=shut)


def little_memory(t):
    """`tokend: memory`, by a limit at which the program still begins, if one is found."""
    for kilobytes in range(1024, 16384, 512):
        def limit():
            resource.setrlimit(resource.RLIMIT_AS, (kilobytes * 1024, kilobytes * 1024))
        try:
            done = subprocess.run([t.program, "script"], input="open 1\n" * 140000, text=True,
                                  capture_output=True, timeout=5, preexec_fn=limit)
        except (OSError, subprocess.SubprocessError):
            continue
        if done.stderr == "tokend: memory\n":
            same("little memory", "the status", t.errors["tokend: memory"], done.returncode)
            return


def provoke(program, room, seed, errors):
    """Provokes each fault, and compares its line and status with the sources' errors."""
    t = Trial(program, room, seed, errors)
    files_of_a_service(t)
    log = log_of_two(t)
    loaded(t, log)
    full_devices(t)
    scripts(t, log)
    little_memory(t)
