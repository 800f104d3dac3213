"""variant: a story in which one event runs out of memory, and the same story without that event.

A variant is a list of steps. The step `first` is the event that runs out of memory. The same event
comes `again` behind look-ups and, in some variants, behind other events that take its dot. The
program's allocations are counted from the step `mark` on, which is before `first`.
"""
import threading

import story
from lib import Broken


ID_BYTES = 7001  # the length of an id that no client has
MARK_BYTES = len("client_id=") + ID_BYTES  # of the query for it: the room for its name and value
OWN_REGION = story.Event("open 65535")  # the region that marks ask; it holds no fact
MARK = story.Event("look 65535 1 " + "x" * ID_BYTES)
ROUNDS = 30


class Step:
    """An event, and what it is there for."""

    def __init__(self, event, role):
        self.event, self.role = event, role


def all_as(role, events):
    return [Step(event, role) for event in events]


def plain_steps(made):
    """The steps of a story in which all allocations of the program are counted."""
    return all_as("event", made.events) + all_as("tail", made.looks())


def steps_of(made, place, others=()):
    """The steps of a story that runs out of memory at the event of this place."""
    event, looks = made.events[place], all_as("look", made.looks())
    count = all_as("count", [story.Event("pull %s - -" % event.region())])
    others = all_as("other", others) + looks if others else []
    return (all_as("event", [OWN_REGION] + made.events[:place]) + all_as("mark", [MARK])
            + [Step(event, "first")] + looks + others + count + [Step(event, "again")] + count
            + all_as("event", made.events[place + 1:]) + all_as("tail", made.looks()))


class Variant:
    """Steps, and their texts once they are known.

    `run` gives the lines that a fresh program with enough memory prints for texts.
    """

    def __init__(self, title, steps, run):
        self.title, self.steps, self.run = title, steps, run
        self.texts, self.names, self.answers = None, {}, {}
        self.lock = threading.Lock()

    def place(self, role):
        """The place of the first step with this role; behind the last step if no step has it."""
        roles = [step.role for step in self.steps]
        return roles.index(role) if role in roles else len(roles)

    def is_plain(self):
        return self.place("first") == len(self.steps)

    def prepare(self):
        """Finds the texts. Each run may give names that later events need."""
        with self.lock:
            for _ in range(0 if self.texts else ROUNDS):
                texts = [step.event.filled(self.names) for step in self.steps]
                before = dict(self.names)
                self.learn(texts)
                if self.names == before:
                    self.texts = texts
                    break
            if not self.texts:
                raise Broken("%s: its names change without end" % self.title)
        return self

    def learn(self, texts):
        """Takes the names from a run in which `first` does nothing."""
        first = self.place("first")
        if first < len(texts):
            texts = texts[:first] + [story.NOTHING] + texts[first + 1:]
        for step, line in zip(self.steps, self.run(texts)):
            if step.role != "first":
                step.event.learn(line.decode(), self.names)

    def fresh(self, texts):
        """The lines of a fresh program, which is run once for the same texts."""
        key = "\n".join(texts)
        with self.lock:
            lines = self.answers.get(key)
        if lines is None:
            lines = self.run(texts)
            with self.lock:
                self.answers[key] = lines
        return lines

    def cuts(self, place):
        """Texts for what the event of this place may have done: nothing, or a part of it."""
        if not self.texts[place].startswith("deliver "):
            return [story.NOTHING]
        return [story.NOTHING] + self.steps[place].event.cuts(self.names)
