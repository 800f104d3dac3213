"""The folder of a site: its logs, its history, the numbers that were taken, and its lock.

    number      the number taken last
    log/        the log of the run that goes on, NUMBER.otb, or its parts, NUMBER.PART.otb
    old/        the logs of ended runs; a start loads them
    history/    segments of whole bundles, by peers and by backup; a start loads them
    peers.part  what a start fetches now
    load.otb    all that a start loads, made anew each time
    swap.lock   held by a start, and by `compact` while it replaces files in old/ and history/

A file has its final name only once it is whole and synced. Two are written in place: a log and
peers.part, of which a cut end is left out.
"""
import contextlib
import fcntl
import glob
import mmap
import os
import re

from starting.bundles import Held, NoBundle, whole_bytes
from starting.stop import HELD, NO_NUMBER, SETTINGS, Stop, no_log

MAX_AHEAD = 64  # how far above all others a number may be that facts are seen of


def sync(path):
    """Makes the bytes of a file last, or the names in a folder."""
    it = os.open(path, os.O_RDONLY)
    try:
        os.fsync(it)
    finally:
        os.close(it)


def free_name(folder, name):
    """A path in the folder at which nothing is: by the name, or with a count behind it."""
    stem, end = os.path.splitext(name)
    path, count = os.path.join(folder, name), 0
    while os.path.lexists(path):
        count += 1
        path = os.path.join(folder, "%s-%d%s" % (stem, count, end))
    return path


@contextlib.contextmanager
def bytes_of(path):
    """The bytes of a file, which aren't read before they are looked at."""
    with open(path, "rb") as file:
        if not os.fstat(file.fileno()).st_size:
            yield b""
            return
        with mmap.mmap(file.fileno(), 0, access=mmap.ACCESS_READ) as data:
            yield data


def copy_front(path, size, out):
    """Appends the first `size` bytes of a file to another."""
    with open(path, "rb") as file:
        at = 0
        while at < size:
            sent = os.sendfile(out.fileno(), file.fileno(), at, size - at)
            if not sent:
                raise OSError("%s became shorter" % path)
            at += sent


class Site:
    """The folder, which nobody else starts a run of as long as this process lives."""

    def __init__(self, folder):
        self.folder = folder
        if not os.path.isdir(folder):
            os.makedirs(folder)
            sync(os.path.dirname(folder))
        owner = os.stat(folder).st_uid
        if owner != os.geteuid():  # who could have put links there, and couldn't read the files
            raise Stop(SETTINGS, "%s belongs to another user, %d: start the site as that one"
                       % (folder, owner))
        for name in "log", "old", "history":
            os.makedirs(self.path(name), exist_ok=True)
        self.lock = os.open(self.path("lock"), os.O_RDWR | os.O_CREAT, 0o600)
        try:
            fcntl.flock(self.lock, fcntl.LOCK_EX | fcntl.LOCK_NB)
        except BlockingIOError:
            raise Stop(HELD, "a run holds %s" % folder) from None
        # up to the end of this start: `compact` waits for it before it removes a file
        swap = os.open(self.path("swap.lock"), os.O_RDWR | os.O_CREAT, 0o600)
        fcntl.flock(swap, fcntl.LOCK_SH)

    def path(self, *names):
        return os.path.join(self.folder, *names)

    def hand_lock_on(self):
        """Lets the program that takes the place of this one hold the lock."""
        os.set_inheritable(self.lock, True)

    def segments(self, *folders):
        """The logs and segments in some folders."""
        return [path for folder in folders
                for path in sorted(glob.glob(os.path.join(
                    glob.escape(self.path(folder)), "*.otb")))]

    def move(self, path, folder, name=None):
        """Moves a file into a folder, where it never takes the place of another."""
        to = free_name(self.path(folder), name or os.path.basename(path))
        sync(path)
        os.rename(path, to)
        sync(self.path(folder))
        sync(os.path.dirname(path))
        return to

    def history(self):
        """What is held, the paths with how many bytes of each are whole bundles, and the horizon
        of each path."""
        held, parts, horizons = Held(), [], {}
        for path in self.segments("old", "history"):
            held.horizon = 0
            with bytes_of(path) as data:
                try:
                    parts.append((path, whole_bytes(data, held)))
                except NoBundle as why:
                    raise no_log(path, why) from None
            horizons[path] = held.horizon
        return held, parts, horizons

    def write_load(self, parts):
        """The file of all parts, one behind the other."""
        path = self.path("load.otb")
        with open(path, "wb", buffering=0) as out:
            for part, size in parts:
                copy_front(part, size, out)
        return path

    def last_number(self):
        """The number taken last; 0 if the file that says so is empty or gone."""
        path = self.path("number")
        if not os.path.exists(path):
            return 0
        with open(path, encoding="ascii", errors="replace") as file:
            text = file.read().strip()
        if not re.fullmatch(r"[0-9]{0,5}", text):
            raise Stop(SETTINGS, "%s has %r, and no region number" % (path, text))
        return int(text or 0)

    def numbers_of_logs(self):
        """The numbers that the names of logs have."""
        names = (os.path.basename(it) for it in self.segments("log", "old"))
        return {int(it[1]) for name in names if (it := re.match(r"0*([0-9]{1,5})\b", name))}

    def next_number(self, numbers, seen):
        """The number above all of the site's that were taken, or that facts were seen of.

        A number that facts were seen of isn't counted if it is far above all others: whoever may
        push can make it up. Returns the number, and those that weren't counted.
        """
        taken = {self.last_number()} | self.numbers_of_logs()
        top = max((it for it in taken if it in numbers), default=numbers[0] - 1)
        others = []
        for it in sorted(it for it in seen if it in numbers):
            if it > top + MAX_AHEAD:
                others.append(it)
            top = top if others else max(top, it)
        if top + 1 not in numbers:
            raise Stop(NO_NUMBER, "all numbers from %d to %d are used" % (
                numbers[0], numbers[-1]))
        return top + 1, others

    def take(self, number, has_parts):
        """Takes a number for good, and makes its log, or the first part: returns the log's path."""
        with open(self.path("number.new"), "w", encoding="ascii") as file:
            file.write("%d\n" % number)
            file.flush()
            os.fsync(file.fileno())
        os.replace(self.path("number.new"), self.path("number"))
        sync(self.folder)
        path = self.path("log", "%05d.otb" % number)
        first = self.path("log", "%05d.0001.otb" % number) if has_parts else path
        log = os.open(first, os.O_WRONLY | os.O_CREAT | os.O_EXCL, 0o600)
        os.fsync(log)
        os.close(log)
        sync(self.path("log"))
        return path
