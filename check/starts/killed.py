#!/usr/bin/env python3
"""killed: runs a Python program and ends it by SIGKILL before one of its steps.

    killed STEP FILE PROGRAM ARGUMENT..

A step is a call that changes a file or a folder, starts a program or connects. STEP counts them
from 1; with 0 none is the last. FILE gets a line for each step.
"""
import builtins
import os
import runpy
import signal
import socket
import subprocess
import sys

STEP, FILE, PROGRAM = int(sys.argv[1]), sys.argv[2], sys.argv[3]
CHANGES = "mkdir", "rename", "replace", "unlink", "fsync", "sendfile", "execv"
lines = os.open(FILE, os.O_WRONLY | os.O_CREAT | os.O_APPEND, 0o600)
count = 0


def place(it):
    """The path that an argument names, which may be a descriptor."""
    return os.readlink("/proc/self/fd/%d" % it) if isinstance(it, int) else os.fspath(it)


def step(name, path):
    global count
    count += 1
    os.write(lines, ("%s %s\n" % (name, place(path))).encode())
    if count == STEP:
        os.kill(os.getpid(), signal.SIGKILL)


def watch(module, name, is_step=lambda *_: True):
    call = getattr(module, name)

    def watched(*arguments, **options):
        if is_step(*arguments, *options.values()):
            step(name, arguments[0])
        return call(*arguments, **options)
    setattr(module, name, watched)


def watch_words(owner, name):
    """Watches a call whose first argument isn't a path."""
    call = getattr(owner, name)

    def watched(*arguments, **options):
        step(name, "")
        return call(*arguments, **options)
    setattr(owner, name, watched)


for change in CHANGES:
    watch(os, change)
watch(os, "open", lambda path, flags, *_: flags & os.O_CREAT)
watch(builtins, "open", lambda path, mode="r", *_: mode[0] in "wa")
watch_words(subprocess, "run")
watch_words(socket, "create_connection")
sys.argv = sys.argv[3:]
sys.path.insert(0, os.path.dirname(PROGRAM))
runpy.run_path(PROGRAM, run_name="__main__")
