"""steps: a start that is killed before each of its steps, and the next one.

The site has a log with a cut end, an older log, a segment of history, and pages of a start that
was killed while it fetched. The next start has no peer, so whatever it holds was kept.
"""
import os
import re
import shutil
import signal
import sys

from lib.facts import bundle
from room import START, Child, retirements, wanted

KILLED = os.path.join(os.path.dirname(os.path.abspath(__file__)), "killed.py")
KEPT = {1: 2, 2: 1, 50: 3, 60: 3, 61: 2}
FETCHED = {50: 5, 71: 200}
LEFT = re.compile(r"(swap\.)?lock|number|load\.otb|log/\d{5}\.otb|old/\d{5}\.otb|"
                  r"history/(mine|peers-[0-9TZ]+(-\d+)?)\.otb")


def prepare(room):
    """The site, and a peer that holds more."""
    run = room.start().listening()
    for _ in range(2):
        run.add_client()
    run.stop()
    run = room.start().listening()
    run.add_client()
    run.push(retirements(60, 1, 3))
    run.stop()
    log = room.read("site/log/00002.otb")
    room.write("site/log/00002.otb", log + bundle(retirements(2, 2, 2))[:-1])
    room.write("site/history/mine.otb", bundle(retirements(61, 1, 2)))
    room.write("site/peers.part",
               bundle(retirements(50, 1, 3)) + bundle(retirements(50, 4, 5))[:-1])
    room.port = run.port
    peer = room.serve(70)
    peer.push(retirements(50, 1, 5))
    for first in (1, 101):
        peer.push(retirements(71, first, first + 99))
    return peer


def attempt(room, peer, step):
    """A start of a new copy of the site that is killed before a step; 0 for none of them."""
    shutil.rmtree(room.path("tried"), ignore_errors=True)
    shutil.copytree(room.path("site"), room.path("tried"))
    room.write("steps", b"")
    words = [sys.executable, KILLED, str(step), room.path("steps"), START, "tried",
             str(room.port), "1-9"]
    return Child(room, words, {"TOKEND_PEERS": peer.url})


def steps_of(room):
    """The steps of the last attempt, by names below its folder."""
    return room.read("steps").decode().replace(room.path("tried") + "/", "").splitlines()


def all_steps(room, peer):
    """The steps of a start that nothing ends."""
    run = attempt(room, peer, 0).listening()
    wanted(run.held_to() == {**KEPT, **FETCHED}, "another vector", run.held_to())
    run.stop()
    steps = steps_of(room)
    made = steps.index("open log/00003.otb")
    for synced in ("fsync log/00003.otb", "fsync log", "fsync number.new"):
        wanted(synced in steps[:-1], "not synced before the server begins", synced)
    wanted("fsync log" in steps[made:], "the name of the new log isn't synced", steps)
    return steps


def names_of(folder):
    return {os.path.relpath(os.path.join(at, name), folder)
            for at, _, names in os.walk(folder) for name in names}


def next_start(room, before):
    """The start behind one that was killed, which had done these steps."""
    is_fetched = before.count("fsync peers.part") > 1  # once of what was there, once of the pages
    held = {**KEPT, **(FETCHED if is_fetched else {})}
    run = room.start(site="tried").listening()
    try:
        wanted(all(run.held_to().get(it, 0) >= held[it] for it in held), "facts are lost",
               (before[-1:], run.held_to()))
        region, serial = run.add_client()
        wanted(region in (3, 4) and serial == 1, "the number of the next start", region)
        wanted(room.number("tried") == region, "another number is kept", region)
        strange = [it for it in names_of(room.path("tried")) if not LEFT.fullmatch(it)]
        wanted(not strange, "files that nobody needs", strange)
    finally:
        run.stop()
    return region


def killed_start_harms_no_other(room):
    """A start that is killed before each of its steps, some forty."""
    peer = prepare(room)
    steps = all_steps(room, peer)
    for step in range(1, len(steps) + 1):
        status = attempt(room, peer, step).ended()
        wanted(status == -signal.SIGKILL, "not killed before step %d" % step, status)
        taken, before = room.number("tried"), steps_of(room)[:-1]
        region = next_start(room, before)
        wanted(region > taken, "a number was taken twice", (steps[step - 1], region))


CASES = [killed_start_harms_no_other]
