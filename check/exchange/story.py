"""story: random bundles, which are pushed to a served region, and what else happens to it."""
from beside import NUMBERS, OWN, Beside, Differs
from families import CODE, FAMILY_END, KIND
from lib.facts import facts_of, read_dot, retirement
from lib.server import Server
from made import BARE, ENDS, GREATEST, PALETTES, Facts, bad_bundles, bad_pulls
from plain import MAX_ITEMS, MAX_PIECES, MAX_RUN_ITEMS

NOWHERE = 50000, 1  # a dot that only refused facts name
LATER = range(ENDS.stop, ENDS.stop + 1000)  # horizons of bundles that are refused
PULLS = 3  # at most of a look


def by_dot(items):
    """The items of a dict, as a bundle has them."""
    return sorted(items.items(), key=lambda it: it[0])


class Story(Beside):
    """A story. Batches of items are dicts by dot, and are pushed in parts.

    Facts under the region numbers of `bare` are of few kinds, with hardly a mark among them. `late`
    has parts that are pushed later.
    """

    def __init__(self, program, dice, batches):
        super().__init__(dice)
        self.program, self.batches, self.facts, self.late = program, batches, Facts(dice), []
        numbers = dice.sample(NUMBERS, dice.randrange(4, 7))
        self.bare, self.numbers = numbers[:len(BARE)], numbers[len(BARE):]
        self.palettes = {it: dice.choice(PALETTES) for it in NUMBERS}
        self.palettes |= {self.numbers[0]: PALETTES[-1]} | dict(zip(self.bare, BARE))

    def onward(self, number, count, gaps=0.0, marks=0.0):
        """Items above all others of a region number. Some serials are left out; some have marks."""
        items = {}
        for _ in range(count):
            self.top[number] += 2 if self.dice.random() < gaps else 1
            at = number, self.top[number]
            is_mark = self.dice.random() < marks
            items[at] = None if is_mark else self.facts.make(at, self.palettes[number])
        return items

    def pairs(self, number):
        """More pairs of marks than a page takes, with a gap or a fact behind each pair."""
        items = {}
        for _ in range(MAX_PIECES + self.dice.randrange(1, 5)):
            items |= self.onward(number, 2, marks=1)
            if self.dice.random() < 0.05:
                items |= self.onward(number, 1)
            else:
                self.top[number] += 1
        return items

    def filling(self, number):
        """Facts at the lowest dots of a region number that aren't known."""
        missing = [(number, it) for it in range(1, self.top[number])
                   if (number, it) not in self.region.known]
        some = missing[:self.dice.randrange(1, 40)]
        return {at: self.facts.make(at, self.palettes[number]) for at in some}

    def sample(self, items, most=60):
        """Some of the items."""
        dots = self.dice.sample(list(items), min(self.dice.randrange(1, most), len(items)))
        return {it: items[it] for it in dots}

    def again(self):
        """Facts that were made before. The region may hold, lack or have skipped each."""
        return self.sample({at: fact for at, fact in self.facts.made.items()
                            if self.region.agrees(at, fact) or self.dice.random() < 0.01})

    def skips(self):
        """Marks of known dots. A few are of facts that last, which is a conflict."""
        return self.sample({at: None for at in self.region.known if at[0] not in self.bare and (
            self.region.agrees(at, None) or self.dice.random() < 0.01)})

    def topmost(self):
        """Marks of the greatest serials, of a region number that has no others, if there is one."""
        number = self.dice.choice([it for it in NUMBERS if not self.top[it]] or NUMBERS)
        first = GREATEST - self.dice.randrange(3)
        return {(number, it): None for it in range(first, GREATEST + 1)}

    def some(self, number):
        """A batch of some kind."""
        dice = self.dice
        return dice.choice((
            lambda: self.onward(number, dice.randrange(1, 60)),
            lambda: self.onward(number, dice.randrange(1, 60), gaps=0.1),
            lambda: self.onward(number, dice.randrange(1, 200), 0.02, 0.7),
            lambda: self.onward(number, dice.randrange(1, 200), marks=0.98),
            lambda: self.filling(number), self.again, self.skips,
            lambda: self.sample(self.region.known)))()

    def horizon(self):
        """A horizon, which gets later in the course of the story."""
        return self.dice.choice(ENDS[:1 + self.counts["pushes"] // 4])

    def send(self, items):
        """Pushes a batch in parts, in any order. Some parts are late, and some come twice."""
        items, parts, with_runs = by_dot(items), [], self.dice.random() < 0.5
        most = self.dice.choice((len(items) // 5 + 1, MAX_RUN_ITEMS))
        while items:
            part = items[:most if with_runs else min(most, MAX_ITEMS)]
            if with_runs:
                part = sum(self.region.pieces(part)[:MAX_PIECES], [])
            parts.append(part)
            items = items[len(part):]
        self.dice.shuffle(parts)
        for part in parts:
            luck = self.dice.random()
            if luck < 0.2:
                self.late.append((part, with_runs))
            if luck > 0.1:
                self.push(part, with_runs, self.horizon())

    def send_late(self):
        if self.late and self.dice.random() < 0.5:
            at = self.dice.randrange(len(self.late))
            self.push(*self.late.pop(at), self.horizon())

    def refuse(self):
        """Pushes new items and a later horizon beside an item that is refused."""
        known = self.dice.choice(list(self.region.known))
        lasting = self.dice.choice([at for at in self.region.known
                                    if not self.region.agrees(at, None)])
        unmade = self.region.own, self.region.last_own() + self.dice.randrange(1, 4)
        at, is_mark = self.dice.choice(((known, False), (lasting, True), (unmade, True),
                                        (unmade, False)))
        before, number = dict(self.top), self.dice.choice(self.numbers)
        items = self.onward(number, 3, marks=0.5) | {
            at: None if is_mark else retirement(at, NOWHERE)}
        self.push(by_dot(items), self.dice.random() < 0.5, self.dice.choice(LATER))
        self.top = before

    def send_malformed(self):
        for data in self.dice.sample(list(bad_bundles()), 6):
            self.push_bytes(data, None)
        for data in self.dice.sample(list(bad_pulls()), 3):
            self.meet(self.server.ask("/sync/pull", data), "page", "", None, None)

    def make(self):
        """Has the region make a fact, reads it from the log, and pushes it at the region."""
        serial = read_dot(self.server.add_client())[1]
        fact = facts_of(self.server.logged())[-1]
        self.meet_change(serial, "make", fact)
        self.push([((self.region.own, serial), fact)], False, None)

    def ends(self):
        """The moments behind the horizon at which families end, by the codes that are held."""
        held = [fact for fact in self.region.known.values() if fact and fact[KIND] == CODE]
        ends = {int.from_bytes(fact[FAMILY_END:FAMILY_END + 8], "big") for fact in held}
        return sorted(it for it in ends if it > self.region.horizon)

    def start_again(self):
        """Starts a region of the next number, which loads the pages of this one and prunes."""
        pages = self.pull(self.dice.choice(("", "?runs=1")), {}, None)
        if self.differences:
            raise Differs
        own, moment = self.region.own + 1, self.dice.choice(self.ends() or ENDS)
        self.server.end()
        self.server = Server(self.program, "--prune", str(moment), region=own,
                             load=b"".join(pages))
        self.meet_change(self.server.output.split(b"\n")[0], "start_again", own, moment)

    def steps(self):
        """The steps of the story, in any order. Some batches are in each story."""
        number = lambda: self.dice.choice(self.numbers)
        batches = [
            lambda: self.onward(number(), MAX_ITEMS + self.dice.randrange(1, 20)),
            lambda: self.onward(number(), MAX_RUN_ITEMS + self.dice.randrange(1, 99), marks=1),
            lambda: self.pairs(number()), self.topmost]
        for it in self.bare:
            batches += [lambda it=it: self.onward(it, self.dice.randrange(5, 90), gaps=0.05),
                        lambda it=it: self.filling(it)]
        batches += [self.skips, self.again] + [lambda: self.some(number())] * self.batches
        steps = [lambda it=it: self.send(it()) for it in batches]
        steps += [self.refuse] * 8 + [self.make] * 3 + [self.start_again] * 2
        steps += [self.send_malformed]
        self.dice.shuffle(steps)
        return steps

    def look_at_all(self):
        """Compares all pages, and those of each region number alone."""
        regions = {region for region, _ in self.region.known}
        for query in "", "?runs=1":
            self.pull(query, {}, None)
            for region in sorted(regions):
                self.pull(query, dict.fromkeys(regions - {region}, GREATEST), None)

    def play(self):
        """Plays the story to its end, or until a reply shows that the regions differ."""
        self.server = Server(self.program, region=OWN, load=b"")
        try:
            self.make()
            for step in self.steps():
                step()
                self.send_late()
                self.look(self.dice.randrange(PULLS + 1))
            self.look_at_all()
        except Differs:
            pass
        finally:
            self.server.end()
        return self
