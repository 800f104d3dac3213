"""world: the regions and the witness of a run, its clock, its dice, and what was found."""
import collections
import json
import os
import random
import socket
from pathlib import Path

from lib.clock import Clock, make_shim
from regions import NUMBERS, Region, Witness

DAY, BEGIN = 86_400, 1_800_000_000
FIRST_PORT, STEP, PLACES = 12_000, 128, 150  # below those that the system gives to connections
AT_ONCE = 8  # starts


def free_ports(count):
    """Ports that nobody listens on, and other runs seldom choose. Regions that are down keep them.
    """
    found, port = [], FIRST_PORT + STEP * (os.getpid() % PLACES)
    while len(found) < count:
        with socket.socket() as it:
            it.setsockopt(socket.SOL_SOCKET, socket.SO_REUSEADDR, 1)
            try:
                it.bind(("127.0.0.1", port))
                found.append(port)
            except OSError:
                pass
        port += 1
    return found


class World:
    """`now` is the moment of the run; a region's clock is some seconds off."""

    def __init__(self, given, folder):
        self.seed, self.folder = given.seed, Path(folder)
        self.dice, self.now, self.round, self.step = random.Random(given.seed), BEGIN, 0, 0
        self.faults, self.counts, self.lines = 0, collections.Counter(), []
        self.shim = self.folder / "clock.so"
        make_shim(self.shim)
        self.events = open(self.folder / "events", "w", encoding="utf-8")
        self.regions = [
            Region(self.folder, index, NUMBERS // given.regions, port, self.clock(str(index)))
            for index, port in enumerate(free_ports(given.regions))]
        self.witness = Witness(given.program, self.clock("witness"))

    def clock(self, name):
        return Clock(self.folder / ("clock-" + name), self.shim, self.now)

    def start(self):
        for at in range(0, len(self.regions), AT_ONCE):
            for it in self.regions[at:at + AT_ONCE]:
                it.start(self.lives())
            for it in self.regions[at:at + AT_ONCE]:
                it.await_up()

    def stop(self):
        for it in self.regions:
            if it.child:
                it.stop()
        self.witness.end()
        self.events.close()

    def roll(self, step):
        """Has the dice of a step depend on the seed, the round and the step alone."""
        self.step = step
        self.dice.seed("%d %d %d" % (self.seed, self.round, step))

    def note(self, what, **more):
        more = {name: str(it) for name, it in more.items()}
        self.events.write(json.dumps({"round": self.round, "step": self.step, "now": self.now,
                                      "what": what} | more) + "\n")
        self.events.flush()

    def found(self, text):
        self.faults += 1
        self.note("found", text=text)
        print("soak: seed %d, round %d, step %d: %s" % (self.seed, self.round, self.step, text),
              flush=True)

    def count(self, what, number=1):
        self.counts[what] += number

    def tick(self, seconds):
        self.now += seconds
        for it in (*self.regions, self.witness):
            it.clock.set(self.now)

    def chance(self, share):
        return self.dice.random() < share

    def running(self):
        return [it for it in self.regions if it.is_running]

    def one(self):
        """A region that runs."""
        region = self.dice.choice(self.running())
        self.note("region", index=region.index)
        return region

    def near(self, region):
        """The regions that run, and that this one reaches."""
        return [it for it in self.running() if it.group == region.group and it is not region]

    def cut_network(self, parts):
        for it in self.regions:
            it.group = self.dice.randrange(parts)

    def lives(self):
        """The options of a start."""
        pick = self.dice.choice
        return "--code %d --access %d --refresh %d --family %d" % (
            pick((30, 60, 600)), pick((3600, 21_600, DAY, DAY)),
            pick((21_600, DAY, 2 * DAY, 7 * DAY)), pick((7200, DAY, 2 * DAY, 3 * DAY)))

