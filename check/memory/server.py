"""server: a running `tokend serve` whose allocations fail, and the requests to it."""
import contextlib
import os
import re

import lib.server
from lib import Broken
from lib.asking import exchange, request
from lib.facts import CURSOR, EMPTY_VECTOR, bundle
from refusal import SECONDS, Table

NOW = 1_700_000_000  # the time of every server
ANSWERED = (b"HTTP/1.1 2", b"HTTP/1.1 3", b"HTTP/1.1 400")


def http(method, target, auth="-", subject="-", body="-", operator="-"):
    """The bytes of a request, of the fields that a script's `req` line has, or of an operator."""
    fields = (("Authorization: Basic ", auth), ("X-Subject: ", subject),
              ("X-Operator: ", operator))
    sent = body if isinstance(body, bytes) else b"" if body == "-" else body.encode()
    return request(method, target, sent, *(name + it for name, it in fields if it != "-"))


def request_of(text):
    """The bytes of a `req` line, behind which an operator may be. Region and moment are the
    server's.
    """
    return http(*text.split()[3:])


VECTOR = http("GET", "/sync/vector")
PULL = http("POST", "/sync/pull", body=CURSOR + EMPTY_VECTOR)
PULL_RUNS = http("POST", "/sync/pull?runs=1", body=CURSOR + EMPTY_VECTOR)
NOTHING = http("GET", "/nowhere")  # changes nothing, and takes its random words


def push(items):
    return http("POST", "/sync/push", body=bundle(items))


class Server(lib.server.Server):
    """A server on a free port, with a table by which its allocations fail. It may not start."""

    first_lines = re.compile(rb"(?:pruned \d+\n)?" + lib.server.LISTENING)

    def __init__(self, lab, region, load=b"", options="", **refusal):
        self.table = Table(lab.folder)
        self.table.write(clock=NOW, **refusal)
        super().__init__(lab.program, *options.split(), region=region, load=load,
                         env=self.table.environment(lab.shim))

    def seed(self):
        return bytes(range(32))

    def listening(self, patience=SECONDS):
        with contextlib.suppress(Broken):
            super().listening(patience)
        return self

    def end(self):
        super().end()
        os.unlink(self.table.path)

    def ended(self):
        """Its status, None while it serves, and what it printed."""
        return self.child.poll(), self.output, self.errors()

    def refuse(self, at, span):
        """Lets allocations of the next connections fail, counted from here."""
        self.table.write(count=0, at=at, span=span, refused=0)

    def refused(self):
        return self.table.read("refused")

    def ask(self, sent):
        """What comes back of a connection that sends this. From a server that is gone, nothing."""
        return exchange(self.port, sent, SECONDS)

    def ask_all(self, requests):
        return [self.ask(request) for request in requests]


def run_story(lab, region, events, load, names):
    """The log of a server that was asked for these events. Their answers give the names."""
    with Server(lab, region, load) as server:
        for event in events:
            reply = server.ask(request_of(event.filled(names)))
            event.learn(reply.decode(), names)
            if not reply.startswith(ANSWERED):
                raise Broken("%r is answered %r" % (event.text, reply[:60]))
        return server.logged()
