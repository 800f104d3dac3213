"""compacts: what `compact` makes of a site's folder. Each is a function of a room.

The last case kills it before each of its steps, and then the next start must have all facts.
"""
import fcntl
import glob
import os
import shutil
import signal
import sys
import time

from families import LOGINS, OldLogins, marks_of
from lib.facts import bundle, marks_in
from lib.peer import Peer
from room import COMPACT, Child, dated, retirements, wanted
from steps import KILLED

DAY = ("--margin", "86400")


def compacted(room, *options, site="site", **environ):
    return Child(room, [COMPACT, *options, site], environ)


def names_of(room, *names):
    return sorted(os.path.basename(it) for it in glob.glob(room.path(*names)))


def only_segment(room, site="site"):
    """The bytes of the one segment that is left."""
    wanted(names_of(room, site, "old", "*") == [], "old logs are left")
    found = names_of(room, site, "history", "*.otb")
    wanted(len(found) == 1, "another number of segments", found)
    wanted(not os.path.exists(room.path(site, "compact.new")), "its folder is left")
    return room.read(os.path.join(site, "history", found[0]))


def prepared(room):
    """A site whose second run has ended too, and left a cut record; and a segment."""
    site = OldLogins(room)
    run = room.start().listening()
    run.add_client()
    run.stop()
    log = room.read("site/log/00002.otb")
    room.write("site/log/00002.otb", log + bundle(retirements(2, 2, 2))[:-1])
    room.write("site/history/mine.otb", bundle(retirements(61, 1, 2)))
    site.vector |= {2: 1, 61: 2}
    return site


def compact_keeps_all(room):
    """Without a margin, while the site runs, whose own log stays."""
    site = prepared(room)
    run = room.start().listening()
    run.add_client()
    run.push(retirements(50, 1, 5))
    done = compacted(room)
    wanted(done.ended() == 0, "not compacted", done.errors())
    wanted(marks_in(only_segment(room)) == 0, "pruned without a margin")
    wanted(names_of(room, "site/load.otb"), "load.otb is gone, and no server said that it has it")
    run.stop()
    site.vector |= {3: 1, 50: 5}
    run = room.start().listening()
    site.is_as_ever(run)
    run.stop()
    wanted(compacted(room).ended() == 0, "not compacted a second time")
    done = compacted(room)
    wanted(done.ended() == 0 and done.output == b"nothing to compact\n", "again", done.output)
    site.is_as_ever(room.start().listening())


def compact_prunes_and_pushes(room):
    """A server that runs has the marks afterwards, in its own place, and answers as ever."""
    site = prepared(room)
    run = room.start().listening()
    site.is_as_ever(run)
    done = compacted(room, *DAY, "--push", run.url)
    wanted(done.ended() == 0, "not compacted", done.errors())
    wanted(done.output.endswith(b": %d marks, 0 new, 0 refused\n" % (2 * LOGINS)), "pushed",
           done.output)
    wanted(marks_in(only_segment(room)) == 2 * LOGINS, "not pruned")
    wanted(marks_of(run) == 2 * LOGINS, "not pushed", marks_of(run))
    wanted(not names_of(room, "site/load.otb"), "load.otb has all that was pruned")
    logged = marks_in(room.read("site/log/00003.otb"))
    wanted(logged == 2 * LOGINS, "the log has other marks", logged)
    site.is_as_ever(run)
    run.stop()
    run = room.start().listening()
    wanted(marks_of(run) == 2 * LOGINS, "the marks are lost", marks_of(run))
    site.is_as_ever(run)


def items_of(log):
    """The facts of a log without marks."""
    at, found = 0, []
    while at < len(log):
        count, at = int.from_bytes(log[at + 4:at + 6], "big"), at + 6
        for _ in range(count):
            end = at + 2 + int.from_bytes(log[at:at + 2], "big")
            found.append(log[at + 2:end])
            at = end
    return found


def first_run(room):
    """A site, its first run, and the facts of the site, which are all in the log of that run."""
    site = OldLogins(room)
    os.rename(room.path("site/log/00001.otb"), room.path("log"))
    sent = items_of(room.read("log"))
    run = room.start("2-9").listening()
    for at in range(0, len(sent), 100):
        run.push(sent[at:at + 100])
    return site, run, sent


def prunes_all(room, site, run):
    """Compacts, and sees that the server has the marks of all families that are over."""
    done = compacted(room, *DAY, "--push", run.url)
    wanted(done.ended() == 0, "not compacted", done.errors())
    wanted(marks_of(run) == 2 * LOGINS, "not all are skipped", marks_of(run))
    site.is_as_ever(run)


def compact_takes_the_log_of_a_run(room):
    """Families whose facts are in the log that is written are pruned whole."""
    site, run, sent = first_run(room)
    room.write("site/history/mine.otb", bundle(sent[2:4]))
    prunes_all(room, site, run)


def compact_prunes_a_first_run(room):
    """A server is pruned whose facts are all in the log that it writes."""
    site, run, _ = first_run(room)
    done = compacted(room, *DAY)
    wanted(done.ended() == 0 and done.output == b"nothing to compact\n", "no push", done.output)
    prunes_all(room, site, run)
    wanted(marks_in(only_segment(room)) == 2 * LOGINS, "not pruned")


def compact_is_refused(room):
    """Whatever it is refused for, the folder stays as it is."""
    site = prepared(room)
    room.start().listening().stop()
    held = room.read("site/old/00001.otb")
    for words, status in (
            (["--margin", "86399", "site"], 2), (["--prune", "x", "site"], 2), ([], 2),
            (["--margin", "86400", "--prune", "1", "site"], 2), (["gone"], 2),
            (["--push", "nowhere", "site"], 2), (["site/old"], 2)):
        wanted(Child(room, [COMPACT, *words]).ended() == status, "another status", words)
    wanted(compacted(room, TOKEND_PRUNE_MARGIN="9").ended() == 2, "a short margin isn't status 2")
    wanted(compacted(room, TOKEND=room.path("gone")).ended() == 2, "no program isn't status 2")
    room.write("fail", b"#!/bin/sh\necho 'tokend: memory' >&2\nexit 1\n", 0o700)
    done = compacted(room, TOKEND=room.path("fail"))
    wanted(done.ended() == 1 and "memory" in done.errors(), "the cause isn't named", done.errors())
    with open(room.path("site/compact.lock"), "wb") as file:
        fcntl.flock(file, fcntl.LOCK_EX)
        done = compacted(room)
        wanted(done.ended() == 1 and "another" in done.errors(), "two run at once", done.errors())
    room.write("site/history/bad.otb", b"nothing of this kind")
    done = compacted(room)
    wanted(done.ended() == 1 and "bad.otb" in done.errors(), "not named", done.errors())
    os.unlink(room.path("site/history/bad.otb"))
    wanted(room.read("site/old/00001.otb") == held, "another old log")
    wanted(names_of(room, "site/history/*.otb") == ["mine.otb"], "another history")
    site.is_as_ever(room.start().listening())


def clock_ahead_compacts_nothing(room):
    """A prune by a clock that is far ahead of a peer's, or up to a moment that is to come there."""
    site = prepared(room)
    room.start().listening().stop()
    held, other, now = names_of(room, "site/*/*"), room.serve(70), int(time.time())
    with Peer(dated(other, 302)) as late, Peer(dated(other, 250)) as near:
        done = compacted(room, *DAY, TOKEND_PEERS="%s %s" % (near.url, late.url))
        wanted(done.ended() == 4, "not status 4", done.errors())
        wanted(done.errors().startswith("compact: %s: its clock is 30" % late.url)
               and done.errors().endswith("seconds behind this one: nothing is pruned\n"),
               "the peer isn't named", done.errors())
        done = compacted(room, "--prune", str(now - 200), TOKEND_PEERS=near.url)
        wanted(done.ended() == 4 and "the moment is later than its clock" in done.errors(),
               "a moment to come isn't status 4", done.errors())
        wanted(names_of(room, "site/*/*") == held, "the folder changed")
        wanted(not os.path.exists(room.path("site/compact.new")), "its folder is left")
        wanted(compacted(room, TOKEND_PEERS=late.url).ended() == 0, "compared without a prune")
        done = compacted(room, *DAY, TOKEND_PEERS="%s %s" % (near.url, other.url))
        wanted(done.ended() == 0 and not done.errors(), "not compacted", done.errors())
    wanted(marks_in(only_segment(room)) == 2 * LOGINS, "not pruned")
    wanted(compacted(room, TOKEND_PEERS="nowhere").ended() == 2, "no base URL isn't status 2")
    site.is_as_ever(room.start().listening())


def peer_away_stops_no_compact(room):
    """A peer that isn't reached is named, and the prune goes on."""
    prepared(room)
    room.start().listening().stop()
    done = compacted(room, *DAY, TOKEND_PEERS="http://127.0.0.1:%d" % room.port)
    wanted(done.ended() == 0 and "its clock isn't known" in done.errors(), "not named",
           done.errors())
    wanted(marks_in(only_segment(room)) == 2 * LOGINS, "not pruned")


def start_waits_for_a_swap(room):
    """A start that begins while files are replaced goes on once they are."""
    site = prepared(room)
    with open(room.path("site/swap.lock"), "wb") as file:
        fcntl.flock(file, fcntl.LOCK_EX)
        run = room.start()
        time.sleep(1)
        wanted(run.child.poll() is None and not names_of(room, "site/old/00002.otb"),
               "it doesn't wait", run.errors())
    site.is_as_ever(run.listening())


def attempt(room, step):
    """A compact of a new copy of the site that is killed before a step; 0 for none of them."""
    shutil.rmtree(room.path("tried"), ignore_errors=True)
    shutil.copytree(room.path("site"), room.path("tried"))
    room.write("steps", b"")
    return Child(room, [sys.executable, KILLED, str(step), room.path("steps"), COMPACT, *DAY,
                        room.path("tried")])


def killed_compact_harms_no_start(room):
    """It is killed before each of its steps, some thirty. The next one does what it should."""
    site = prepared(room)
    room.start().listening().stop()
    wanted(attempt(room, 0).ended() == 0, "not compacted")
    steps = room.read("steps").decode().replace(room.path("tried") + "/", "").splitlines()
    swapped = next(at for at, it in enumerate(steps) if it.startswith("rename"))
    removed = [at for at, it in enumerate(steps) if it.startswith("unlink old")]
    wanted("fsync history" in steps[swapped:removed[0]], "removed before the name lasts", steps)
    for step in range(1, len(steps) + 1):
        status = attempt(room, step).ended()
        wanted(status == -signal.SIGKILL, "not killed before step %d" % step, status)
        if step % 4 and step < swapped:
            continue  # nothing of the site was changed yet, so some of these steps are enough
        run = room.start(site="tried").listening()
        site.is_as_ever(run)
        run.stop()
        done = compacted(room, *DAY, site="tried")
        wanted(done.ended() == 0, "the next one fails", (steps[step - 1], done.errors()))
        wanted(marks_in(only_segment(room, "tried")) == 2 * LOGINS, "not pruned", steps[step - 1])


CASES = [
    compact_keeps_all, compact_prunes_and_pushes, compact_takes_the_log_of_a_run,
    compact_prunes_a_first_run, compact_is_refused, clock_ahead_compacts_nothing,
    peer_away_stops_no_compact, start_waits_for_a_swap,
    killed_compact_harms_no_start]
