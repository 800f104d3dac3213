"""by_redis: messages by a stream of Redis, which keeps them for days.

A stream is a site's. Each reader of it is a consumer group of its own, whose place Redis keeps.
"""
from __future__ import annotations

import argparse
import contextlib
import itertools
import sys
import time
from collections import deque
from typing import Callable

import redis

PORT = 6379
FIELD = b"bundle"
AT_ONCE = 200  # messages that are added at once
FEW = 64  # messages that are read at once
PAUSE = 1  # seconds between tries
SECONDS = 10  # without a reply
BLOCK = 1000  # milliseconds that a read waits
KEPT = 7 * 86_400_000  # milliseconds that a stream keeps a message
CAUSE = "caused error: "  # what stands before it has the whole message


def link_of(given: argparse.Namespace) -> redis.Redis:
    password = given.password.read_text().strip() if given.password else None
    return redis.Redis(given.host, given.port or PORT, username=given.user, password=password,
                       socket_timeout=SECONDS)


class Faults:
    """Says of each fault of the broker once, until it is gone."""

    def __init__(self, who: str) -> None:
        self._who, self._said = who, ""

    def say(self, why: Exception) -> None:
        text = str(why).rpartition(CAUSE)[2]
        if text != self._said:
            print("%s: the broker: %s" % (self._who, text), file=sys.stderr, flush=True)
        self._said = text

    def end(self) -> None:
        self._said = ""


class Publisher:
    """Adds messages to the stream. `acknowledged` has the ids of those that Redis has."""

    def __init__(self, given: argparse.Namespace) -> None:
        self._stream, self._link, self._faults = given.topic, link_of(given), Faults("follow")
        self._ids, self._waiting, self._next = itertools.count(1), deque(), 0.0
        self.acknowledged: set[int] = set()

    def publish(self, message: bytes) -> int:
        """Returns the message's id."""
        self._waiting.append((next(self._ids), message))
        return self._waiting[-1][0]

    def step(self) -> None:
        """Adds what waits. After a fault nothing is known of it, so all is added again later."""
        if not self._waiting or time.monotonic() < self._next:
            return
        some = list(itertools.islice(self._waiting, AT_ONCE))
        line = self._link.pipeline(transaction=False)
        for _, message in some:
            line.xadd(self._stream, {FIELD: message}, approximate=True,
                      minid=int(time.time() * 1000) - KEPT)
        try:
            line.execute()
        except redis.RedisError as why:
            self._faults.say(why)
            self._next = time.monotonic() + PAUSE
            return
        self._faults.end()
        for number, _ in some:
            self._waiting.popleft()
            self.acknowledged.add(number)


class Subscriber:
    """Hands over what the stream has, from its beginning on, and then what comes."""

    def __init__(self, given: argparse.Namespace, hand: Callable[[str, bytes], None]) -> None:
        self._given, self._hand, self._link = given, hand, link_of(given)
        self._faults = Faults("push")

    def run(self) -> None:
        """Reads for ever. A fault of Redis is reported, and tried again."""
        while True:
            try:
                self._read()
            except redis.RedisError as why:
                self._faults.say(why)
                time.sleep(PAUSE)

    def _read(self) -> None:
        """First what was handed over by an earlier run and isn't acknowledged, then new messages.
        """
        stream, name = self._given.topic, self._given.name
        with contextlib.suppress(redis.ResponseError):  # there is such a group
            self._link.xgroup_create(stream, name, id="0", mkstream=True)
        if self._given.verbose:
            print("subscribed to %s" % stream, flush=True)
        begin = "0"
        while True:
            found = self._link.xreadgroup(name, name, {stream: begin}, count=FEW, block=BLOCK)
            messages = found[0][1] if found else []
            for at, fields in messages:
                if fields:  # otherwise the stream has dropped it by its age
                    self._hand(stream, fields[FIELD])
                self._link.xack(stream, name, at)
            self._faults.end()
            if not messages:
                begin = ">"
