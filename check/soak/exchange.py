"""exchange: bundles from region to region: lost, repeated, cut, late, and at last all of them."""
import os
import subprocess
from bundles import MARK, Bundle, Records, read_dot
from lib import TOP

CARRY = os.path.join(TOP, "examples/carry/carry")
KEPT, FULL = 400, 128


def without_marks(bundle):
    """The bundle of the facts alone; None if there is none."""
    found = bundle.facts_alone()
    return found if found.items else None


class Exchange:
    """`kept` are parts that arrive later, anywhere, and maybe more than once."""

    def __init__(self, world):
        self.world, self.dice, self.kept = world, world.dice, []

    def parts(self, bundle):
        """The bundle in up to three parts, in any order."""
        count = len(bundle.items)
        cuts = {0, count, *(self.dice.randrange(count + 1)
                            for _ in range(self.dice.randrange(3)))}
        places = sorted(cuts)
        found = [bundle.part(*it) for it in zip(places, places[1:])]
        self.dice.shuffle(found)
        return found

    def some(self, source, target):
        """Carries some pages of what the target lacks, or of more. Parts are lost and kept."""
        known = target.held_to()
        if self.world.chance(0.1):  # by an older vector: facts come again
            known = {number: max(1, serial - self.dice.randrange(40))
                     for number, serial in known.items() if self.world.chance(0.9)}
        most = self.dice.choice((1, 3, 1000))
        for count, page in enumerate(source.bundles(known), 1):
            for part in self.parts(page) if self.world.chance(0.5) else [page]:
                self.send(target, part)
            if count == most:
                return

    def send(self, target, part):
        """Pushes a part, keeps it for later, does both, or loses it."""
        luck = self.dice.random()
        if luck < 0.1:
            self.world.count("parts lost")
            return
        if luck < 0.3:
            self.keep(part)
        if luck >= 0.2:
            target.take(part)
            self.world.count("parts")

    def keep(self, part):
        if len(self.kept) < KEPT:
            self.kept.append(part)
        else:
            self.kept[self.dice.randrange(KEPT)] = part

    def late(self, region):
        if self.kept:
            region.take(self.dice.choice(self.kept))
            self.world.count("parts late")

    def to_witness(self, region):
        """What the witness lacks of a region's facts."""
        witness = self.world.witness
        for page in region.bundles(witness.held_to()):
            if part := without_marks(page):
                witness.take(part)

    def logs_to_witness(self, region):
        """What the witness lacks of the files of a site that is down."""
        known, found = self.world.witness.held_to(), {}
        for path in region.folder.glob("*/*.otb"):
            for bundle, _ in Records().feed(path.read_bytes()):
                for it in bundle.items:
                    dot = read_dot(it)
                    if len(it) > MARK and known.get(dot.region, 0) < dot.serial:
                        found[dot] = it
        items = [found[dot] for dot in sorted(found)]
        for at in range(0, len(items), FULL):
            self.world.witness.take(Bundle(tuple(items[at:at + FULL])))

    def everything(self):
        """Brings all facts to all regions, which must all run, and to the witness."""
        hub = self.world.one()
        others = [it for it in self.world.regions if it is not hub]
        if self.world.chance(0.3):
            self.carry(hub, others)
        for it in others:
            self.all_of(it, hub)
        for it in others:
            self.all_of(hub, it)
        for it in self.world.regions:
            self.to_witness(it)

    def all_of(self, source, target):
        for page in source.bundles(target.held_to()):
            target.take(page)

    def carry(self, hub, others):
        done = subprocess.run([CARRY, hub.url, *(it.url for it in others)], capture_output=True,
                              text=True, check=False)
        self.world.count("runs of carry")
        if done.returncode:
            self.world.found("carry: status %d: %s" % (done.returncode, done.stderr[-300:]))
