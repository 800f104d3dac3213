"""scripts: runs scripts out of memory, and compares each run with a run of a fresh program.

An event that runs out of memory prints `memory` and changes nothing, but a delivery may have added
the first facts of its bundle. So a fresh program with enough memory must print the same lines for
the same script with nothing in the place of that event, or with the delivery of the bundle's first
facts there. The random words of an event depend on its place in the script, so both programs make
the same handles.
"""
import re

import variant
from lib import Broken
from refusal import FOR_GOOD, MAX_FAULTS
from story import NOTHING

TOOK = re.compile(rb"took (\d+)$")
HELD = re.compile(rb"bundle \d+ (\d+) \S+ end$")


class Judge:
    """Runs scripts by one command, `script` or `loopback`, and finds what is wrong with a run."""

    def __init__(self, lab, command, options=()):
        self.lab, self.command, self.options = lab, command, list(options)
        self.marks = self.count_marks()

    def count_marks(self):
        """How many marks the program makes until it has run the event that is one."""
        line = variant.MARK.text + "\n"
        opened = variant.OWN_REGION.text + "\n" + line
        read, both = (self.run(text.encode(), mark=variant.MARK_BYTES).marks
                      for text in (line, opened))
        if both <= read:
            raise Broken("the program takes no room of %d bytes for a query" % variant.MARK_BYTES)
        return both

    def run(self, script, **refusal):
        return self.lab.run([self.command] + self.options, script, **refusal)

    def fresh(self, texts):
        """The lines of a run with enough memory."""
        ran = self.run("\n".join(texts).encode())
        lines = ran.lines()
        if ran.status != 0 or ran.errors or len(lines) != len(texts):
            raise Broken("with enough memory a script ends with status %s, %r, %d of %d lines"
                           % (ran.status, ran.errors, len(lines), len(texts)))
        return lines

    def counting(self, made):
        """The table's values by which the count begins at the mark, if the variant has one."""
        return {} if made.is_plain() else {"mark": variant.MARK_BYTES, "pass": self.marks}

    def whole_span(self, made):
        """How many allocations fail until the story's last event, or all of a plain variant."""
        if made.is_plain():
            return FOR_GOOD
        ran = self.run("\n".join(made.texts).encode(), at=1, span=FOR_GOOD, **self.counting(made))
        return max(2, ran.lines()[:made.place("tail")].count(b"memory") - 1)

    def wrong(self, made, ran):
        """What is wrong with a run, or None."""
        if ran.status is None:
            return "no end within a minute"
        if ran.is_out_of_memory():
            return self.wrong_end(made)
        lines = ran.lines()
        if ran.status != 0 or ran.errors or len(lines) != len(made.texts):
            return "status %s, %r, and %d of %d lines" % (
                ran.status, ran.errors, len(lines), len(made.texts))
        out = [place for place, line in enumerate(lines) if line == b"memory"]
        if len(out) > ran.refused:
            return "%d allocations failed, %d events print memory" % (ran.refused, len(out))
        return wrong_line(made, lines, out) or wrong_count(made, lines)

    def wrong_end(self, made):
        """A script may end out of memory before its first event; by sockets it may end at each."""
        if made.is_plain() or self.command == "loopback":
            return None
        return "the program ended behind its first event"


def wrong_line(made, lines, out):
    """The first line that a fresh program prints otherwise, or None.

    `out` are the places of the events that ran out of memory. Only the first of them may have done
    a part: a later one fails at its first allocation.
    """
    texts = [NOTHING if place in out else text for place, text in enumerate(made.texts)]
    furthest, told = -1, None
    for cut in made.cuts(out[0]) if out else [None]:
        if cut:
            texts[out[0]] = cut
        wanted = made.fresh(texts)
        differ = [k for k, line in enumerate(lines) if k not in out and line != wanted[k]]
        if not differ:
            return None
        if differ[0] > furthest:
            furthest = differ[0]
            told = texts[furthest][:150], lines[furthest].decode(), wanted[furthest].decode()
    return "behind it %r prints %r, and not %r" % told


def wrong_count(made, lines):
    """Whether a delivery that came again took another number of facts than its region gained."""
    again = made.place("again")
    if again == len(lines):
        return None
    before, took, after = (form.match(lines[again + k])
                           for k, form in ((-1, HELD), (0, TOOK), (1, HELD)))
    if not (before and took and after) or int(after[1]) - int(before[1]) == int(took[1]):
        return None
    return "%r, and the region went from %s facts to %s" % (
        lines[again].decode(), before[1].decode(), after[1].decode())


def is_past(made, ran):
    """Whether the first allocation that failed, if any, was behind the event `first`."""
    out = [place for place, line in enumerate(ran.lines()) if line == b"memory"]
    return not ran.refused or bool(out) and out[0] > made.place("first")


def sweep(judge, made, is_whole, offset, stride):
    """Yields what is wrong when allocations of a variant fail.

    Each run has another first allocation that fails: number `offset` + 1, and from there on each
    `stride`-th one. It fails alone, or with `is_whole` all fail up to the story's last event.
    """
    made.prepare()
    script = "\n".join(made.texts).encode()
    span = judge.whole_span(made) if is_whole else 1
    at, faults, runs, ends = 1 + offset, 0, 0, 0
    while faults < MAX_FAULTS:
        judge.lab.count()
        ran = judge.run(script, at=at, span=span, **judge.counting(made))
        wrong, runs, ends = judge.wrong(made, ran), runs + 1, ends + ran.is_out_of_memory()
        if at == 1 and not ran.refused:
            wrong = "no allocation is counted"
        if wrong:
            faults += 1
            yield "%s, allocation %d%s: %s" % (made.title, at, " on" if is_whole else "", wrong)
        if is_past(made, ran):
            break
        at += stride
    if not made.is_plain() and not is_whole and ends > runs // 2:
        yield "%s: the program ended in %d of %d runs" % (made.title, ends, runs)


def variants(judge, made, plain=True, others=False):
    """The variants of a story: the plain one, and for each event one alone and one with each group
    of others."""
    title = "%s, %s" % (judge.command, made.name)
    if plain:
        yield variant.Variant(title, variant.plain_steps(made), judge.fresh)
    for place in made.places():
        text = "%s, event %d, %r" % (title, place + 1, made.events[place].text[:60])
        for group in [()] + made.others if others else [()]:
            yield variant.Variant(text, variant.steps_of(made, place, group), judge.fresh)
