"""compare: regions with the witness, with a model of the witness's facts, and with their own."""
from concurrent.futures import ThreadPoolExecutor

from lib.facts import MARK
from lib.reading import Bytes
from model import Model, facts_alone, handle_of

SAMPLE, ALONE, TRIED, SECRETS = 60, 40, 12, 8
SOME = 4  # regions whose facts are all compared, but for the last round
AT_ONCE = 4  # regions that are asked
PAUSES = 0, 1, 600, 7200, 30_000  # seconds until a comparison
MEMORY, FILES = (2, 8 << 20), (6, 1 << 20)  # bounds: a factor, and bytes more


def dot_of(item):
    return Bytes(item).dot()


class Comparison:
    def __init__(self, world, clients):
        self.world, self.dice, self.clients = world, world.dice, clients
        self.model, self.sizes = Model(), {}

    def whole(self, is_last):
        """Compares all, while all clocks are the same and stand."""
        skews = [it.clock.skew for it in self.world.regions]
        for it in self.world.regions:
            it.clock.skew = 0
        self.world.tick(self.dice.choice(PAUSES))
        self.vectors()
        self.learn()
        self.lost_tokens()
        self.operators()
        self.secrets()
        live = self.introspections()
        regions = self.world.regions
        for it in regions if is_last else self.dice.sample(regions, min(SOME, len(regions))):
            self.facts(it)
        self.refreshes(live)
        self.bounds()
        for it, skew in zip(regions, skews):
            it.clock.skew = skew

    def vectors(self):
        """All vectors are equal, and cover all facts whose reply came."""
        wanted = self.world.witness.held_to()
        for it in self.world.regions:
            held = it.held_to()
            differ = {number: (held.get(number, 0), wanted.get(number, 0))
                      for number in {*held, *wanted} if held.get(number) != wanted.get(number)}
            if differ:
                self.world.found("%s holds up to (and the witness): %s" % (it, differ))
        for number, serial in self.clients.serials.items():
            if wanted.get(number, 0) < serial:
                self.world.found("%d:%d was replied, and nobody has it" % (number, serial))

    def learn(self):
        """The model gets what the witness has beyond it."""
        held = {}
        for dot in self.model.facts:
            number, serial = map(int, dot.split(":"))
            held[number] = max(serial, held.get(number, 0))
        items = [it for page in self.world.witness.bundles(held) for it in page.items]
        if len(facts_alone(items)) < len(items):
            self.world.found("the witness has marks")
        self.model.add(facts_alone(items))

    def lost_tokens(self):
        for it in self.clients.tokens:
            if not self.model.minted(handle_of(it.text)):
                self.world.found("the fact of %s is lost" % it)
            elif it.ended and self.model.is_active(it.text, self.world.now):
                self.world.found("active by the model after its %s: %s" % (it.ended, it))

    def operators(self):
        """Each fact whose reply came has the operator of its request, and one moment."""
        for (number, serial), operator in self.clients.operators.items():
            fact = self.model.facts.get("%d:%d" % (number, serial), {})
            by = fact.get("by", {})
            moments = {it["moment_seconds"] for it in (by, fact) if by and "moment_seconds" in it}
            if fact and (by.get("operator") != operator or len(moments) > 1):
                self.world.found("%s was administered by %s" % (fact, operator))
        self.world.count("operators", len(self.clients.operators))
        self.clients.operators.clear()

    def secrets(self):
        """Every region takes the secrets that are good by the model. Each client then uses one."""
        clients = self.clients.clients
        for client in clients:
            good = [it for it in client.secrets if self.model.is_good_secret(client.id, it)]
            if good and client.secret not in good:  # a change that got no reply was made
                client.secret = good[-1]
        for client in self.dice.sample(clients, min(len(clients), SECRETS)):
            for secret in client.secrets[-4:]:
                wanted = self.model.is_good_secret(client.id, secret)
                for region in self.world.witness, *self.world.regions:
                    if region.takes(client.id, secret) != wanted:
                        self.world.found("%s: a secret of %s, good by the model: %s" % (
                            region, client.id, wanted))
                self.world.count("good secrets" if wanted else "secrets that ended",
                                 1 + len(self.world.regions))

    def sample(self):
        """Tokens of this round, older ones, and some that are active: these are also returned."""
        def some(tokens):
            return self.dice.sample(tokens, min(len(tokens), SAMPLE))
        tokens = self.clients.tokens
        live = some([it for it in tokens[-6000:]
                     if self.model.is_active(it.text, self.world.now)])
        new = some([it for it in tokens if it.round == self.world.round])
        old = some([it for it in tokens if it.round < self.world.round])
        return list(dict.fromkeys(new + old + live)), live

    def introspections(self):
        """Every region, and the witness, replies as the model says: returns tokens that are active.
        """
        tokens, live = self.sample()
        wanted = {it: self.model.introspect(it.text, self.world.now) for it in tokens}
        regions = [self.world.witness, *self.world.regions]

        def differences(region):
            said = ((it, region.introspection(it.text)) for it in tokens)
            return [(region, it, body) for it, body in said if body != wanted[it]]
        with ThreadPoolExecutor(AT_ONCE) as pool:
            for region, it, body in sum(pool.map(differences, regions), []):
                self.world.found("%s at %d of %s: %s; the model: %s" % (
                    region, self.world.now, it, body, wanted[it]))
        self.world.count("introspections", len(tokens) * len(regions))
        self.sizes["tokens"], self.sizes["active"] = len(tokens), sum(
            it["active"] for it in wanted.values())
        return live

    def facts(self, region):
        """Each item is the witness's fact, or the mark of one that may be skipped."""
        items, horizon = region.items()
        for it in items:
            dot = dot_of(it)
            if len(it) > MARK:
                if self.model.items.get(dot) != it:
                    self.world.found("%s has another fact at %s" % (region, dot))
            elif dot not in self.model.facts:
                self.world.found("%s has a mark at %s, where no fact was" % (region, dot))
            else:
                end = self.model.family_end(dot)
                if end is None or end > horizon:
                    self.world.found("%s has a mark at %s; its family ends at %s, its horizon is "
                                     "%d" % (region, dot, end, horizon))
        if len(items) != len(self.model.facts):
            self.world.found("%s has %d facts and marks, the witness %d" % (
                region, len(items), len(self.model.facts)))
        self.world.count("facts", len(items))
        self.world.count("marks", len(items) - len(facts_alone(items)))

    def refreshes(self, live):
        """A refresh token that is active by the model is good anywhere, once."""
        fresh = [it for it in live if it.kind == "refresh_token"]
        gone = set()
        for token in self.dice.sample(fresh, min(len(fresh), TRIED)):
            region = self.world.one()
            if token.family in gone:
                continue
            gone.add(token.family)
            status, _ = self.clients.refresh(region, token)
            if status != 200:
                self.world.found("%s refuses %s, active by the model: %d" % (region, token, status))
            elif region.introspection(token.text)["active"]:
                self.world.found("%s: %s is used, and active" % (region, token))

    def alone(self, region):
        """A region replies as the model says of the facts that this region has."""
        model, tokens = Model(facts_alone(region.items()[0])), self.clients.tokens
        now = region.clock.moment
        live = [it for it in tokens[-1500:] if model.is_active(it.text, now)]
        for it in [*self.dice.sample(tokens, min(len(tokens), ALONE)), *tokens[-ALONE:],
                   *self.dice.sample(live, min(len(live), ALONE))]:
            wanted, said = model.introspect(it.text, now), region.introspection(it.text)
            if said is None:  # the resource server isn't known here yet
                return
            if said != wanted:
                self.world.found("%s alone at %d of %s: %s; the model of its facts: %s" % (
                    region, now, it, said, wanted))
            self.world.count("introspections of a region alone")

    def bounds(self):
        """Memory and files are within a factor of what the facts take."""
        whole = sum(len(it) for it in self.model.items.values())
        memory = [it.resident() for it in self.world.regions]
        files = [it.bytes_of_files() for it in self.world.regions]
        most = MEMORY[0] * self.world.witness.resident() + MEMORY[1]
        if max(memory) > most:
            self.world.found("a region has %d bytes of memory, more than %d" % (max(memory), most))
        if max(files) > FILES[0] * whole + FILES[1]:
            self.world.found("a site's files have %d bytes, and all facts %d" % (max(files), whole))
        self.sizes.update(facts=len(self.model.facts), bytes=whole, memory=max(memory),
                          witness=self.world.witness.resident(), files=max(files))
