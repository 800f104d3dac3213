"""parts: a log that goes on in parts, its starts, and `compact` of a site that runs.

Each is a function of a room.
"""
import contextlib
import glob
import os
import shutil

from lib import Broken
from lib.facts import bundle
from room import COMPACT, Child, retirements, wanted

PART = 65_536  # bytes: the least
FULL, PAGES = 128, 60  # items of a push, and how many pushes fill more than two parts
BY_SETTING = {"TOKEND_LOG_PART": str(PART)}


def fill(run, region=50):
    """Pushes more bytes than two parts have: returns how far the region's facts go."""
    for page in range(PAGES):
        run.push(retirements(region, page * FULL + 1, (page + 1) * FULL))
    return PAGES * FULL


def names_of(room, *names):
    return sorted(os.path.basename(it) for it in glob.glob(room.path(*names)))


def parted(room, name="x.otb", before=()):
    """A server with such a log, which may not listen yet. Words may stand before the program."""
    room.write("seed", os.urandom(32))
    return Child(room, [*before, room.program, "serve", "--region", "1", "--port", "0", "--seed",
                        room.path("seed"), "--log", room.path(name), "--log-taken",
                        "--log-part", str(PART)])


def logs_of_a_site_have_parts(room):
    """All of a log is loaded again, and a start without the setting goes on in one file."""
    run = room.start(**BY_SETTING).listening()
    last = fill(run)
    run.add_client()
    run.stop()
    names = ["00001.%04d.otb" % it for it in (1, 2, 3)]
    wanted(names_of(room, "site/log/*") == names, "other parts", names_of(room, "site/log/*"))
    sizes = [os.path.getsize(room.path("site/log", it)) for it in names]
    wanted(all(it >= PART for it in sizes[:-1]), "a part is too short", sizes)
    run = room.start(**BY_SETTING).listening()
    wanted(run.held_to() == {1: 1, 50: last}, "facts are lost", run.held_to())
    wanted(names_of(room, "site/old/*") == names, "not moved", names_of(room, "site/old/*"))
    wanted(names_of(room, "site/log/*") == ["00002.0001.otb"], "another first part")
    wanted(run.add_client() == (2, 1), "another number")
    run.stop()
    run = room.start().listening()
    wanted(run.held_to() == {1: 1, 2: 1, 50: last}, "facts are lost", run.held_to())
    wanted(names_of(room, "site/log/*") == ["00003.otb"], "parts without the setting")


def cut_end_of_the_last_part_is_left_out(room):
    run = room.start(**BY_SETTING).listening()
    last = fill(run)
    run.stop()
    log = room.read("site/log/00001.0003.otb")
    room.write("site/log/00001.0003.otb", log + bundle(retirements(1, 2, 2))[:-1])
    run = room.start(**BY_SETTING).listening()
    wanted(run.held_to() == {50: last}, "another vector", run.held_to())


def part_is_set_by_its_setting(room):
    for given in ({"TOKEND_LOG_PART": "65535"}, {"TOKEND_LOG_PART": "x"},
                  {"TOKEND_LOG_PART": str(2 ** 40 + 1)},
                  {"TOKEND_OPTIONS": "--log-part 65536"}):
        run = room.start(**given)
        wanted(run.ended() == 6, "not refused with status 6", (given, run.errors()))
    wanted(room.number() == 0, "a number was used", room.number())
    room.start(TOKEND_LOG_PART="").listening()


def log_with_parts_is_refused(room):
    """A first part with bytes, and any later part; not an empty first part."""
    for name, content in (("x.0001.otb", b"x"), ("x.0002.otb", b""), ("x.9999.otb", b"x")):
        path = room.write(name, content)
        run = parted(room)
        wanted(run.ended() == 2, "not refused with status 2", (name, run.errors()))
        wanted(run.errors() == "tokend: bad log file\n", "another message", run.errors())
        wanted(room.read(name) == content, "changed", name)
        os.unlink(path)
    room.write("x.otb", b"not a part of it")
    room.write("x.0001.otb", b"")
    parted(room).listening().stop()
    run = parted(room, "gone/x.otb")
    wanted(run.ended() == 1, "no folder isn't status 1", run.errors())
    wanted(run.errors() == "tokend: cannot open %s\n" % room.path("gone/x.otb"), "another message",
           run.errors())


def names_of_parts(room):
    """The number is before the extension, or behind a name that has none."""
    for name, first in (("one.log", "one.0001.log"), ("two", "two.0001"),
                        ("a.b/three", "a.b/three.0001"), (".four", ".four.0001"),
                        ("five.x.y", "five.x.0001.y"), ("six.", "six.0001.")):
        os.makedirs(os.path.dirname(room.path(name)), exist_ok=True)
        run = parted(room, name).listening()
        wanted(os.path.exists(room.path(first)), "another name", (name, os.listdir(room.folder)))
        wanted(not os.path.exists(room.path(name)), "there is a file without a number", name)
        run.stop()


def part_that_cant_be_made_stops_nothing(room):
    """The log goes on in the part that it has, and in a next one once that can be made."""
    run = parted(room).listening()
    room.write("x.0002.otb", b"somebody else's")
    fill(run)
    wanted(room.read("x.0002.otb") == b"somebody else's", "written to")
    os.unlink(room.path("x.0002.otb"))
    fill(run, 51)
    names = names_of(room, "x.*")
    wanted(names[:2] == ["x.0001.otb", "x.0002.otb"], "others", names)
    wanted(len(room.read(names[0])) > 2 * PART, "the first part is short", names)
    wanted(run.held_to() == {50: PAGES * FULL, 51: PAGES * FULL}, "facts are lost")
    run.stop()
    again = room.serve(70, "--load", room.write("all", b"".join(map(room.read, names))))
    wanted(again.held_to() == {50: PAGES * FULL, 51: PAGES * FULL}, "the parts lack facts",
           again.held_to())


def at_sync(room, step, what):
    """Words by which a sync does something else: the first two are those of the first part."""
    return ["strace", "-D", "-f", "-o", room.path("trace"), "-e", "trace=fsync", "-e",
            "inject=fsync:%s:when=%d" % (what, step)]


def part_that_isnt_synced_is_given_up(room):
    """The new part is removed if its sync fails, or that of its name, and is tried again later."""
    if not shutil.which("strace"):
        return
    for step in (3, 4):
        run = parted(room, "%d.otb" % step, at_sync(room, step, "error=EIO")).listening()
        last = fill(run)
        wanted(run.held_to() == {50: last}, "facts are lost", (step, run.held_to()))
        names = names_of(room, "%d.*" % step)
        wanted(names == ["%d.%04d.otb" % (step, it) for it in (1, 2)], "other parts", names)
        wanted(len(room.read(names[0])) > 2 * PART, "it went on in the part", step)
        run.stop()


def killed_as_parts_turn_over(room):
    """SIGKILL before a new part is synced, or its name: what was replied is in the parts."""
    if not shutil.which("strace"):
        return
    for step in (3, 4):
        run = parted(room, "%d.otb" % step, at_sync(room, step, "signal=KILL")).listening()
        last = 0
        with contextlib.suppress(Broken, OSError):
            for page in range(PAGES):
                run.push(retirements(50, page * FULL + 1, (page + 1) * FULL))
                last = (page + 1) * FULL
        wanted(run.ended() == -9 and 0 < last < PAGES * FULL, "it wasn't killed", (step, last))
        names = names_of(room, "%d.*" % step)
        wanted(names == ["%d.%04d.otb" % (step, it) for it in (1, 2)], "other parts", names)
        again = room.serve(70, "--load", room.write("all", b"".join(map(room.read, names))))
        wanted(again.held_to()[50] >= last, "what was replied is lost", (step, again.held_to()))


def compact_takes_parts_of_a_run(room):
    """All but the one that is written, and an empty one behind that changes nothing."""
    run = room.start(**BY_SETTING).listening()
    last = fill(run)
    room.write("site/log/00001.0009.otb", b"")
    done = Child(room, [COMPACT, "site"])
    wanted(done.ended() == 0, "not compacted", done.errors())
    left = names_of(room, "site/log/*")
    wanted(left == ["00001.0003.otb", "00001.0009.otb"], "others are left", left)
    os.unlink(room.path("site/log/00001.0009.otb"))
    wanted(len(names_of(room, "site/history/*.otb")) == 1, "no segment")
    wanted(fill(run, 51) == last, "it doesn't go on")
    run.stop()
    run = room.start(**BY_SETTING).listening()
    wanted(run.held_to() == {50: last, 51: last}, "facts are lost", run.held_to())


CASES = [
    logs_of_a_site_have_parts, cut_end_of_the_last_part_is_left_out, part_is_set_by_its_setting,
    log_with_parts_is_refused, names_of_parts, part_that_cant_be_made_stops_nothing,
    part_that_isnt_synced_is_given_up, killed_as_parts_turn_over, compact_takes_parts_of_a_run]
