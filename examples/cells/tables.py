"""tables: the table of sites, from which HAProxy's files and the settings of sites are made."""
from __future__ import annotations

import contextlib
import fcntl
import re
import zlib
from dataclasses import dataclass, replace
from pathlib import Path
from typing import Iterator

from bases import UNIX, socket_path

SLOTS = 64
DIRECTORY = "directory"
NUMBERS = range(1, 65_536)  # of regions
NAME = r"[a-z][a-z0-9-]{0,30}"
RESERVED = {"any", "inside", "outside", "users"}  # HAProxy's own names here


class Wrong(Exception):
    """A table or an argument that can't be used, and why."""


@dataclass(frozen=True)
class Site:
    """A line of the table."""

    name: str
    cell: str
    place: str  # a port of 127.0.0.1, or `unix:` and a path
    numbers: range
    slots: tuple[int, ...]
    folder: Path = Path()  # that of the table, where relative paths begin

    @property
    def socket(self) -> str:
        """The path of its socket, or nothing if it has a port."""
        is_socket = self.place.startswith(UNIX)
        return str(self.folder / self.place[len(UNIX):]) if is_socket else ""

    @property
    def url(self) -> str:
        return UNIX + self.socket if self.socket else "http://127.0.0.1:" + self.place

    @property
    def address(self) -> str:
        """Where HAProxy connects."""
        return "unix@" + self.socket if self.socket else "127.0.0.1:" + self.place

    @property
    def is_directory(self) -> bool:
        return self.cell == DIRECTORY

    def __str__(self) -> str:
        return "%-8s %-10s %-16s %-12s %s" % (self.name, self.cell, self.place, "%d-%d" % (
            self.numbers[0], self.numbers[-1]), write_slots(self.slots))


def slot_of(subject: str) -> int:
    """The slot of a subject, as HAProxy computes it."""
    return zlib.crc32(subject.encode()) % SLOTS


def read_range(text: str, limits: range) -> range:
    """The range of `A-B`, or of `A` alone."""
    found = re.fullmatch(r"(\d{1,5})(?:-(\d{1,5}))?", text)
    if found:
        first, last = int(found[1]), int(found[2] or found[1])
        if limits[0] <= first <= last <= limits[-1]:
            return range(first, last + 1)
    raise Wrong("%s is no range within %d-%d" % (text, limits[0], limits[-1]))


def read_slots(text: str) -> tuple[int, ...]:
    """Slots such as `0-10,14`; `-` is no slot."""
    if text == "-":
        return ()
    return tuple(it for part in text.split(",") for it in read_range(part, range(SLOTS)))


def write_slots(slots: tuple[int, ...]) -> str:
    """Returns slots as text, ranges with a dash; - for no slot."""
    parts: list[list[int]] = []
    for it in sorted(slots):
        if parts and parts[-1][-1] == it - 1:
            parts[-1].append(it)
        else:
            parts.append([it])
    return ",".join("%d-%d" % (it[0], it[-1]) if it[1:] else str(it[0]) for it in parts) or "-"


def read_place(text: str, folder: Path) -> str:
    """A port, or `unix:` and a path that can be a socket's."""
    if not text.startswith(UNIX):
        return str(read_range(text, range(1, 65_536))[0])
    try:
        socket_path(str(folder / text[len(UNIX):]) if text != UNIX else "")
    except ValueError as why:
        raise Wrong("%s: %s" % (text, why)) from why
    return text


def read_site(line: str, folder: Path = Path()) -> Site:
    """Returns the site of a line of the table. Raises Wrong."""
    words = line.split()
    if len(words) != 5:
        raise Wrong("not site, cell, place, numbers and slots: %s" % line.strip())
    name, cell, place, numbers, slots = words
    for it in name, cell:
        if not re.fullmatch(NAME, it) or it in RESERVED or it.startswith("kept-"):
            raise Wrong("%s is no name for a site or a cell" % it)
    return Site(name, cell, read_place(place, folder), read_range(numbers, NUMBERS),
                read_slots(slots), folder)


class Table:
    """All sites. Each number, place, name and slot has one site."""

    def __init__(self, sites: list[Site]) -> None:
        self.sites = sites
        for what, all_of in (("name", [it.name for it in sites]),
                             ("place", [it.url for it in sites]),
                             ("slot", [slot for it in sites for slot in it.slots])):
            twice = [it for it in all_of if all_of.count(it) > 1]
            if twice:
                raise Wrong("the %s %s is there twice" % (what, twice[0]))
        ordered = sorted(sites, key=lambda it: it.numbers[0])
        for one, other in zip(ordered, ordered[1:]):
            if one.numbers[-1] >= other.numbers[0]:
                raise Wrong("%s and %s share the number %d" % (one.name, other.name,
                                                               other.numbers[0]))
        if not self.directory:
            raise Wrong("no site is of the cell %s" % DIRECTORY)
        if any(it.slots for it in self.directory):
            raise Wrong("a site of the directory has slots")
        lacking = set(range(SLOTS)) - {slot for it in sites for slot in it.slots}
        if lacking:
            raise Wrong("no site has the slot %d" % min(lacking))

    @property
    def directory(self) -> list[Site]:
        return [it for it in self.sites if it.is_directory]

    @property
    def cells(self) -> dict[str, list[Site]]:
        """The sites of each cell. The directory is none."""
        found: dict[str, list[Site]] = {}
        for it in self.sites:
            if not it.is_directory:
                found.setdefault(it.cell, []).append(it)
        return found

    def site(self, name: str) -> Site:
        for it in self.sites:
            if it.name == name:
                return it
        raise Wrong("no site is named %s" % name)

    def beside(self, site: Site) -> list[Site]:
        """The other sites of its cell."""
        return [it for it in self.sites if it.cell == site.cell and it != site]

    def accepted(self, site: Site) -> str:
        """The numbers whose facts a site takes, as TOKEND_ACCEPT has them."""
        found: list[range] = []
        good = (it.numbers for it in self.sites if it.is_directory or it.cell == site.cell)
        for it in sorted(good, key=lambda it: it[0]):
            if found and found[-1].stop == it.start:
                found[-1] = range(found[-1].start, it.stop)
            else:
                found.append(it)
        return ",".join("%d-%d" % (it[0], it[-1]) for it in found)

    def home(self, slot: int) -> Site:
        return next(it for it in self.sites if slot in it.slots)

    def moved(self, slots: tuple[int, ...], name: str) -> Table:
        """The table in which a site has these slots too, and no other site has."""
        self.site(name)
        return Table([replace(it, slots=tuple(sorted(set(it.slots) | set(slots)))
                              if it.name == name else
                              tuple(slot for slot in it.slots if slot not in slots))
                      for it in self.sites])

    def without(self, cell: str) -> Table:
        return Table([it for it in self.sites if it.cell != cell])


def read_table(path: Path) -> Table:
    """The table in a file. All behind a # is left out."""
    try:
        lines = path.read_text(encoding="utf-8").splitlines()
    except OSError as why:
        raise Wrong("%s: %s" % (path, why.strerror)) from why
    return Table([read_site(line, path.parent) for line in (it.partition("#")[0] for it in lines)
                  if line.strip()])


def write_table(path: Path, table: Table) -> None:
    """Puts a table in the place of the file's. Comments before the first site stay."""
    before: list[str] = []
    for line in path.read_text(encoding="utf-8").splitlines():
        if line.strip() and not line.startswith("#"):
            break
        before.append(line)
    new = path.with_suffix(".new")
    new.write_text("".join(it + "\n" for it in [*before, *map(str, table.sites)]),
                   encoding="utf-8")
    new.replace(path)


@contextlib.contextmanager
def locked(folder: Path) -> Iterator[None]:
    """Lets one command at a time change the table."""
    with open(folder / "lock", "wb") as file:
        fcntl.flock(file, fcntl.LOCK_EX)
        yield
