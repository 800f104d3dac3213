"""pushes: bundles that are pushed to a server in parts, if the server refuses them whole."""
from __future__ import annotations

from dataclasses import dataclass, field
from typing import Callable

from bundles import Bundle, read_dot
from servers import Ahead, OutOfRange, Refused, Server, Unread


@dataclass
class Pushed:
    """What came of the items that were pushed."""

    new: int = 0  # dots that the server didn't know
    refused: int = 0  # items
    waiting: int = 0  # marks whose horizon is later than the server's clock
    left_out: int = 0  # items under numbers that the server doesn't take
    numbers: set[int] = field(default_factory=set)  # those numbers
    is_plain: bool = False  # the server reads no runs: marks are sent one by one


@dataclass
class Pushing:
    """The pushes of a bundle and of its parts to one server."""

    target: Server
    pushed: Pushed
    complain: Callable[[str], None]

    def push(self, bundle: Bundle) -> None:
        """Pushes a bundle without the items under numbers that the server doesn't take."""
        taken = bundle.without(self.pushed.numbers)
        self.pushed.left_out += len(bundle.items) - len(taken.items)
        if not taken.items:
            return
        if taken.has_runs and self.pushed.is_plain:
            self._push_plain(taken)
            return
        try:
            self.pushed.new += self.target.push(taken)
        except Ahead as refusal:
            self._push_facts(taken, str(refusal))
        except Refused as refusal:
            if taken.has_runs and isinstance(refusal, Unread):
                self.complain("%s refuses a bundle with runs: %s; it gets marks one by one"
                              % (self.target.url, refusal))
                self.pushed.is_plain = True
                self._push_plain(taken)
            elif len(taken.items) > 1:
                self._push_halves(taken, str(refusal))
            elif isinstance(refusal, OutOfRange):
                self._leave_out(taken, str(refusal))
            else:
                self._refuse(taken, str(refusal))

    def _push_facts(self, bundle: Bundle, why: str) -> None:
        """Pushes the facts of a bundle whose horizon is later than the server's clock."""
        if not self.pushed.waiting:
            self.complain("%s takes no marks yet: %s" % (self.target.url, why))
        self.pushed.waiting += bundle.marks
        if bundle.facts:
            self.push(bundle.facts_alone())

    def _push_plain(self, bundle: Bundle) -> None:
        """Pushes the items of a bundle with runs in bundles without."""
        for part in bundle.plain():
            self.push(part)

    def _push_halves(self, bundle: Bundle, why: str) -> None:
        """Pushes both halves of a refused bundle. Complains if the server takes all of them."""
        before = self.pushed.refused, self.pushed.left_out
        for half in bundle.halves():
            self.push(half)
        if (self.pushed.refused, self.pushed.left_out) == before:
            self.complain("%s refuses %d items at once, %s, and takes them in parts"
                          % (self.target.url, len(bundle.items), why))

    def _leave_out(self, bundle: Bundle, why: str) -> None:
        """Counts a single item whose number the server doesn't take, and names the number."""
        number = read_dot(bundle.cursor).region
        self.complain("%s takes no facts of number %d: %s" % (self.target.url, number, why))
        self.pushed.numbers.add(number)
        self.pushed.left_out += 1

    def _refuse(self, bundle: Bundle, why: str) -> None:
        """Counts and names a single item that the server refuses."""
        self.pushed.refused += 1
        self.complain("%s refuses %s%s: %s" % (self.target.url, "the mark " if bundle.marks else "",
                                               read_dot(bundle.cursor), why))


def push_all(target: Server, bundle: Bundle, pushed: Pushed,
             complain: Callable[[str], None]) -> None:
    """Pushes a bundle. A refused one is sent again in halves, down to single items.

    So a refused item holds no other back. If the bundle's horizon is later than the server's clock,
    its facts are pushed alone: its marks wait for a later run. A number that the server doesn't
    take is named once, and its other items are left out. A server that can't read a bundle with
    runs gets its marks one by one, and those of later bundles.
    """
    Pushing(target, pushed, complain).push(bundle)
