r"""story: the events of the folder stories/, as they are read.

A story is text, with an event of tokend's script on each line:

    EVENT           an event
    ! EVENT         an event that memory runs out in; a story that has no such line has all of them
    EVENT => NAME.. an event whose answer holds handles, ids or a bundle's number. In later events
                    {NAME} stands for them
    <ID:SECRET>     inside an event: the text in base64, as `Authorization: Basic` has it
    follow R V D B  each event of region R from here on is followed by `pull R V D`. {B} is the
                    last of these bundles, and the bundles before it are its fronts
    follow          ends that
    fronts B F..    {F} are the fronts of the bundle {B}, the shortest first
    options TEXT    what the program is given behind the command
    asker ID:SECRET the resource server that asks about tokens in look-ups
    watch R..       the regions that look-ups ask; without such a line all of them
    other           the events below, up to the next such line, run only in variants in which they
                    take the dot of the event that ran out of memory
    # TEXT          for the reader. So are empty lines
"""
import base64
import os
import re

HERE = os.path.dirname(os.path.abspath(__file__))
NAMED = re.compile(r'(?:code=|access_token":"|refresh_token":"|_id":"|^bundle )([A-Za-z0-9_-]+)')
NOTHING = "deliver 999999 1"  # an event that changes nothing, and takes no memory
UNKNOWN = "999999"  # stands for a handle, id or number that no event's answer held
LOOKED = 1100  # the moment of look-ups


class Event:
    """An event's text, the names in its answer, and the bundles that begin as its own does."""

    def __init__(self, text, names=(), fronts=(), is_follower=False):
        self.text, self.names, self.fronts = text, list(names), list(fronts)
        self.is_follower, self.is_chosen = is_follower, False

    def region(self):
        words = self.text.split()
        return words[2] if words[0] == "deliver" else words[1]

    def filled(self, known, text=None):
        """The text of the event, or another one, with each name's value."""
        return re.sub(r"\{(\w+)\}", lambda m: known.get(m[1], UNKNOWN), text or self.text)

    def cuts(self, known):
        """For a delivery: deliveries of its bundle's fronts, shortest first, and of all of it."""
        before = [self.text.replace(self.text.split()[1], "{%s}" % name) for name in self.fronts]
        return [self.filled(known, text) for text in before + [self.text]]

    def learn(self, answer, known):
        known.update(zip(self.names, NAMED.findall(answer)))


class Story:
    """Events, groups of others that take an event's dot, and who asks about tokens."""

    def __init__(self, name):
        self.name, self.events, self.others, self.options = name, [], [], []
        self.asker, self.watched = None, []

    def regions(self):
        return [e.region() for e in self.events if e.text.startswith("open ")]

    def is_chosen(self):
        """Whether memory runs out in chosen events alone."""
        return any(event.is_chosen for event in self.events)

    def places(self):
        """The places of the events that memory runs out in."""
        events = enumerate(self.events)
        if self.is_chosen():
            return [place for place, event in events if event.is_chosen]
        return [place for place, event in events if not event.is_follower]

    def all_events(self):
        return self.events + [event for group in self.others for event in group]

    def dots(self):
        """The dots at which the regions may have made facts."""
        made = {region: 0 for region in self.regions()}
        for event in self.all_events():
            if re.match(r"client |retire |signout |req \d+ \d+ POST|req .*/authorize", event.text):
                made[event.region()] = made.get(event.region(), 0) + 1
        return ["%s:%d" % (r, s + 1) for r in made for s in range(made[r])]

    def looks(self):
        """Look-ups of all that the regions can hold: facts, clients and tokens."""
        text = " ".join(e.text for e in self.all_events())
        clients = sorted(set(re.findall(r"\bc\d+-\d+\b", text)))
        tokens = [n for e in self.all_events() if "/token" in e.text for n in e.names]
        asks = "req %s %d POST /introspect " + encoded("<%s>" % self.asker) + " - token={%s}"
        regions = self.watched or self.regions()
        for region in regions:
            yield Event("pull %s - -" % region)
        for region in regions:
            yield from (Event("pull %s - %s" % (region, dot)) for dot in self.dots())
            yield from (Event("look %s %d %s" % (region, LOOKED, it)) for it in clients)
            yield from (Event(asks % (region, LOOKED, it)) for it in tokens)


def encoded(text):
    def basic(found):
        return base64.b64encode(found[1].encode()).decode()
    return re.sub(r"<([\w:-]+)>", basic, text)


class Reader:
    """A story as far as it was read."""

    def __init__(self, name):
        self.story, self.follows, self.pulled, self.fronts = Story(name), None, {}, {}
        self.into = self.story.events

    def take(self, line):
        """Reads a line with a setting of the story."""
        words = line.split()
        if words[0] == "asker":
            self.story.asker = words[1]
        elif words[0] == "watch":
            self.story.watched = words[1:]
        elif words[0] == "options":
            self.story.options = words[1:]
        elif words[0] == "fronts":
            self.fronts[words[1]] = words[2:]
        elif words[0] == "other":
            self.into = []
            self.story.others.append(self.into)
        elif words[0] == "follow":
            self.follows = words[1:]
        else:
            self.add(encoded(line))

    def add(self, line):
        """Adds an event, with the names of what its reply gives."""
        text, _, names = line.removeprefix("! ").partition(" => ")
        event = Event(text, names.split())
        event.is_chosen = line.startswith("! ")
        bundle = re.match(r"deliver \{(\w+)\}", text)
        if bundle and bundle[1] in self.pulled:
            pulled = self.pulled[bundle[1]]
            event.text = text.replace("{%s}" % bundle[1], "{%s}" % pulled[-1])
            event.fronts = pulled[:-1]
        elif bundle:
            event.fronts = self.fronts.get(bundle[1], [])
        self.into.append(event)
        if self.follows and event.region() == self.follows[0]:
            pulled = self.pulled.setdefault(self.follows[3], [])
            pulled.append("%s%d" % (self.follows[3], len(pulled)))
            pull = "pull %s %s %s" % tuple(self.follows[:3])
            self.into.append(Event(pull, [pulled[-1]], is_follower=True))


def read(name, text):
    reader = Reader(name)
    for line in text.splitlines():
        if line.strip() and not line.startswith("#"):
            reader.take(line.strip())
    return reader.story


def read_file(name):
    with open(os.path.join(HERE, "stories", name + ".story"), encoding="utf-8") as file:
        return read(name, file.read())


def read_script(name, text):
    """A script as a story, in which bundles have names: their numbers change in variants."""
    lines, pulls = [], 0
    for line in text.splitlines():
        if line.startswith("pull "):
            line += " => b%d" % pulls
            pulls += 1
        lines.append(re.sub(r"^deliver (\d+) ", r"deliver {b\1} ", line))
    return read(name, "\n".join(lines))
