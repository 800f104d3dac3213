"""ways: which facts go from which site to which, and how they are carried."""
from __future__ import annotations

import contextlib
import sys
import threading
import time
from pathlib import Path
from typing import Callable, Iterator, NamedTuple, NoReturn, Optional

from bundles import MAX_SERIAL, MARK, Bundle, Dot, Vector, read_dot
from pushes import Pushed, push_all
from servers import Access, Lost, Server, pages
from tables import NUMBERS, Site, Table, Wrong, read_table

ACCESS = Access(connect_time=2, reply_time=10, pauses=())


def say(text: str) -> None:
    """Prints a line at once, so that no line of another thread is in it."""
    sys.stdout.write(text + "\n")
    sys.stdout.flush()


def complain(text: str) -> None:
    sys.stderr.write("cells: %s\n" % text)
    sys.stderr.flush()


class Way(NamedTuple):
    """One way from a site to another, for facts of some region numbers."""

    source: Site
    target: Site
    numbers: range


def ways(table: Table) -> Iterator[Way]:
    """All that is carried: within a cell everything, from the directory what it made itself."""
    for site in table.sites:
        for other in table.beside(site):
            yield Way(other, site, NUMBERS)
        if not site.is_directory:
            for other in table.directory:
                for it in table.directory:
                    yield Way(other, site, it.numbers)


def limited(vector: Vector, source: Vector, numbers: range) -> Vector:
    """The vector to pull with so that no facts of other numbers come: all of these are known."""
    serials = {it.region: it.serial for it in vector.entries if it.region in numbers}
    serials |= {it.region: MAX_SERIAL for it in source.entries if it.region not in numbers}
    return Vector(tuple(Dot(*it) for it in sorted(serials.items())))


def some_of(page: Bundle, numbers: range) -> Optional[Bundle]:
    """The items of these numbers. No vector has facts above a gap, so a pull brings these too."""
    items = tuple(it for it in page.items if read_dot(it).region in numbers)
    if not items:
        return None
    return Bundle(items, page.horizon if any(len(it) == MARK for it in items) else None,
                  page.runs)


def take(way: Way, complain: Callable[[str], None] = complain) -> int:
    """Carries one way. Returns how many dots the target did not know."""
    pushed = Pushed()
    with Server(way.source.url, ACCESS) as one, Server(way.target.url, ACCESS) as other:
        vector = other.vector()
        if way.numbers != NUMBERS:
            vector = limited(vector, one.vector(), way.numbers)
        with contextlib.closing(pages(one, vector)) as found:
            for page in found:
                part = some_of(page, way.numbers)
                if part:
                    push_all(other, part, pushed, complain)
    return pushed.new


def carry_once(table: Table) -> int:
    """Carries each way once, and prints what it brought. Returns the status."""
    status = 0
    for way in ways(table):
        try:
            new = take(way)
            if new:
                print("%s -> %s: %d new" % (way.source.name, way.target.name, new))
        except Lost as why:
            print("%s -> %s: %s" % (way.source.name, way.target.name, why))
            status = 1
    return status


class Carrier:
    """Carries to a site again and again. Prints a line once a way fails, and once it is back.

    An item that the site refuses is sent to it each time, and named once.
    """

    def __init__(self, path: Path, target: str, pause: float) -> None:
        self.path, self.target, self.pause = path, target, pause
        self.lost: set[tuple[str, range]] = set()
        self.complaints: set[str] = set()

    def complain(self, text: str) -> None:
        if text not in self.complaints:
            self.complaints.add(text)
            complain(text)

    def ways(self) -> list[Way]:
        with contextlib.suppress(OSError, Wrong):
            return [it for it in ways(read_table(self.path)) if it.target.name == self.target]
        return []

    def attempt(self, way: Way) -> None:
        """Takes in what a way has, and reports when it is lost and when it is there again."""
        key, names = (way.source.name, way.numbers), "%s -> %s" % (way.source.name, self.target)
        try:
            take(way, self.complain)
            if key in self.lost:
                self.lost.discard(key)
                say("%s: again" % names)
        except Lost as why:
            if key not in self.lost:
                self.lost.add(key)
                say("%s: %s" % (names, why))

    def run(self) -> NoReturn:
        while True:
            for way in self.ways():
                self.attempt(way)
            time.sleep(self.pause)


def carry_on(path: Path, pause: float) -> NoReturn:
    """A thread for each site that takes facts in, so that a silent one holds up no other.

    A site that comes into the table gets its thread within a second.
    """
    begun: set[str] = set()
    while True:
        with contextlib.suppress(OSError, Wrong):
            for it in read_table(path).sites:
                if it.name not in begun:
                    begun.add(it.name)
                    threading.Thread(target=Carrier(path, it.name, pause).run, daemon=True).start()
        time.sleep(1)
