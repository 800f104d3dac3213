"""logs: the logs of a site's runs, as tokend-start keeps them: FOLDER/log/N.otb, and
FOLDER/old/N.otb once the run under number N has ended.

A log has a record for each fact that its own run made. With --log-taken it also has each bundle
that the run took in. Needs carry's bundles.py, in this folder or in ../carry.
"""
from __future__ import annotations

import sys
from pathlib import Path
from typing import Iterator, NamedTuple, Optional

sys.path.insert(1, str(Path(__file__).resolve().parent.parent / "carry"))
from bundles import MARK, Dot, Malformed, Records, items_of, read_dot

PIECE = 1 << 20  # bytes that are read at once
FOLDERS = "log", "old"


class Item(NamedTuple):
    """A fact or a mark of a record. A mark has the horizon of its record."""

    dot: Dot
    data: bytes
    horizon: Optional[int]
    place: int  # of its first byte in the log; of a mark of a run that of the run


def stamp(folder: Path) -> list[int]:
    """What changes whenever a log of a site is made, moved or removed."""
    return [it.stat().st_mtime_ns for it in (folder / name for name in FOLDERS) if it.is_dir()]


def find(folder: Path) -> dict[int, Path]:
    """The logs of a site, by the region number of the run."""
    paths = [it for name in FOLDERS for it in (folder / name).glob("*.otb")]
    return {int(it.stem): it for it in paths if it.stem.isdigit() and it.stem.isascii()}


class Reader:
    """Reads a log piece by piece, from a place where a record begins."""

    def __init__(self, number: int, path: Path, begin: int = 0) -> None:
        self.number, self.path, self.why = number, path, ""
        self.end = self._read = begin  # behind the last whole record, and behind the last byte
        self._own, self._records = 0, Records(begin)

    def has_more(self) -> bool:
        """Whether the log has grown. One with a malformed record is read no further."""
        return not self.why and self.path.stat().st_size > self._read

    def items(self) -> Iterator[Item]:
        """Yields the items of the next piece's whole records. A cut record waits for its rest."""
        with open(self.path, "rb", buffering=0) as log:
            log.seek(self._read)
            piece = log.read(PIECE)
        self._read += len(piece)
        try:
            for bundle, end in self._records.feed(piece):
                place = end - sum(2 + len(it) for it in bundle.pieces)
                for piece in bundle.pieces:
                    for data in items_of(piece):
                        horizon = bundle.horizon if len(data) == MARK else None
                        yield Item(read_dot(data), data, horizon, place + 2)
                    place += 2 + len(piece)
                self.end = end
        except Malformed as why:
            self.why = "no record at byte %d: %s" % (self.end, why)

    def is_own(self, item: Item) -> bool:
        """Whether the log's own run made an item. Each item is given once, in order.

        A fact of the run that is in the log once more was taken in, and so was each mark.
        """
        is_fact = item.horizon is None and item.dot.region == self.number
        if is_fact and item.dot.serial > self._own:
            self._own = item.dot.serial
            return True
        return False
