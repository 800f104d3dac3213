"""sites: two regions that are killed and start again, each from the logs of its own earlier runs.
"""
import random

from answers import Answers, read_horizon
from lib.asking import body_of, request
from lib.facts import MARK, end_of_bundle, facts_of, whole_records
from lib.server import Server, push

CUT = 0.5  # how often a log gets a cut end
PARTED = 0.7  # how often a log has parts
PARTS = "--log-part", "65536"  # of as few bytes as may be
# in replies of look-ups
LOOKS = b'{"active":', b'{"consents":', b"\r\nContent-Type: application/octet-stream"
VECTOR = request("GET", "/sync/vector")


def cut_bundle(log):
    """What a kill amid a write leaves behind a log, which a kill alone seldom leaves."""
    if not log or whole_records(log) < len(log):
        return b""
    return log[:random.randrange(end_of_bundle(log, 0))]


class Region(Server):
    """A run of a site. `replied` is called at each reply after which the log may have more."""

    replied = staticmethod(lambda: None)

    def hear(self, peer):
        said = peer.recv(65536)
        if not any(it in said for it in LOOKS):
            self.replied()
        return super().hear(peer, said)


class Runs:
    """The runs of a region: their logs, and what their replies have said."""

    def __init__(self, program, number, options):
        self.program, self.number, self.options = program, number, options
        self.answers, self.server, self.enrolled = Answers(), None, None
        self.parts = 0  # that the logs had
        self.whole = self.last = b""  # the logs without cut ends, and the last one as it was left

    def start(self):
        """Starts a run under the next number, with all logs of this region and nothing else."""
        load = self.whole + self.last
        self.whole += self.last[:whole_records(self.last)]
        self.last = b""
        self.number += 1
        options = self.options + (list(PARTS) if random.random() < PARTED else [])
        self.server = Region(self.program, *options, region=self.number, load=load)
        if self.enrolled:
            self.server.enrol_as(self.enrolled)

    def end(self):
        """Ends the run by SIGKILL, and takes its log away. The end of the log may be cut."""
        self.server.stop()
        self.last, parts = self.server.logged(), self.server.parts()
        self.parts += len(parts)
        self.server.end()
        if random.random() < CUT:
            self.last += cut_bundle(self.last)

    def enrol_as(self, server):
        """Goes on with the clients that were added to a server."""
        self.enrolled = server
        self.server.enrol_as(server)

    def vector(self):
        return body_of(self.server.wanted(200, VECTOR))

    def say_vector(self):
        """The vector, which is noted."""
        vector = self.vector()
        self.answers.say_vector(vector)
        return vector

    def held(self):
        """All facts and marks of the region, by dot, and the horizon that its pages had."""
        pages = list(self.server.pages())
        return ({it[:MARK]: it for page in pages for it in facts_of(page)},
                max(read_horizon(page) for page in pages))


def carry(here, there, vector):
    """Carries what a vector doesn't cover, and notes what both say: how many pushes it took."""
    count = 0
    for page in here.server.pages(vector):
        here.answers.say_held(page)
        if facts_of(page):
            there.server.wanted(200, push(page))
            there.answers.say_taken(page)
            count += 1
    return count
