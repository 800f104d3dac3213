"""prunes: a region that is pruned at its start. Each is a function of a room."""
import os
import re
import time

from families import LOGINS, OldLogins, marks_of
from lib import TOP
from lib.asking import CLIENT
from lib.facts import bundle, limited_client, mark, secret_set
from lib.peer import Peer
from room import Child, dated, retirements, wanted

DAY = "86400"
CARRY = os.path.join(TOP, "examples", "carry", "carry")


def start_prunes(room):
    """Each start with a margin prunes, and one without loads all that the logs have."""
    site = OldLogins(room)
    run = room.start(TOKEND_PRUNE_MARGIN=DAY).listening()
    wanted(run.output.startswith(b"pruned %d\n" % (2 * LOGINS)), "not pruned", run.output)
    site.is_as_ever(run)
    wanted(marks_of(run) == 2 * LOGINS, "another number of marks", marks_of(run))
    wanted(run.add_client() == (2, 1), "it makes no fact")
    run.stop()
    run = room.start().listening()
    wanted(run.output.startswith(b"listening"), "pruned without a margin", run.output)
    wanted(run.held_to().get(2) == 1, "a fact of the pruned run is lost", run.held_to())
    site.is_as_ever(run)
    wanted(marks_of(run) == 0, "a mark is left", marks_of(run))


def margin_is_refused(room):
    """A margin that is too short, or none, or beside the option that it makes."""
    for margin in ("86399", "x", "-1", "1000000000"):
        status = room.start(TOKEND_PRUNE_MARGIN=margin).ended()
        wanted(status == 6, "the status of %s" % margin, status)
    run = room.start(TOKEND_PRUNE_MARGIN=DAY, TOKEND_OPTIONS="--prune 5")
    wanted(run.ended() == 6, "two prunes aren't status 6", run.errors())
    wanted(room.number() == 0, "a start that was refused used a number")
    run = room.start(TOKEND_PRUNE_MARGIN="", TOKEND_OPTIONS="--prune 5").listening()
    wanted(run.output.startswith(b"pruned 0\n"), "not pruned by the option", run.output)


def server_gets_the_margin(room):
    """The server prunes while it runs, too: with the margin of the setting, or of the option."""
    for given, passed in (
            ({}, []), ({"TOKEND_PRUNE_MARGIN": DAY}, [DAY]),
            ({"TOKEND_OPTIONS": "--prune-margin 90000"}, ["90000"]),
            ({"TOKEND_PRUNE_MARGIN": DAY, "TOKEND_OPTIONS": "--prune-margin 90000"}, ["90000"])):
        run = room.start(**given).listening()
        words = run.arguments()
        found = [value for word, value in zip(words, words[1:]) if word == "--prune-margin"]
        wanted(found == passed, "another margin", words)
        run.stop()


def horizon_passes(room):
    """A region whose horizon is ahead replies 503, but to other regions, and then as ever."""
    horizon = int(time.time()) + 3
    run = room.serve(50, "--prune", str(horizon))
    early = run.ask("/admin/client", CLIENT)
    wanted(early == (503, b'{"error":"temporarily_unavailable"}'), "no 503", early)
    wanted(run.ask("/sync/vector")[0] == 200, "no vector before the horizon")
    while (said := run.ask("/admin/client", CLIENT))[0] == 503:
        wanted(time.time() < horizon + 2, "503 behind the horizon")
        time.sleep(0.1)
    wanted(said[0] == 201 and time.time() >= horizon, "no reply at the horizon", said)
    wanted(run.held_to() == {50: 1}, "a request before the horizon made a fact", run.held_to())


def peers_differ_and_agree(room):
    """An empty peer gets marks by `carry`; one that holds the facts keeps them until its own prune.
    All of them answer alike."""
    site = OldLogins(room)
    run = room.start(TOKEND_PRUNE_MARGIN=DAY).listening()
    full = room.serve(70, "--load", room.path("site/load.otb"))
    empty = room.serve(71)
    wanted(marks_of(full) == 0, "the peer has marks already")
    urls = [it.url for it in (run, full, empty)]
    done = Child(room, [CARRY, *urls])
    wanted(done.ended() == 0, "not carried", done.errors())
    for peer, marks in (full, 0), (empty, 2 * LOGINS), (run, 2 * LOGINS):
        wanted(marks_of(peer) == marks, "another number of marks", marks_of(peer))
        site.is_as_ever(peer)
    again = Child(room, [CARRY, *urls])
    wanted(again.ended() == 0 and b" 2 others, 0 facts in 0 pages" in again.output,
           "facts go to a peer that has skipped them", again.output)


def peer_ahead_stops_no_start(room):
    """Of a peer whose horizon is ahead a start takes the facts alone, if it isn't to take all."""
    horizon = int(time.time()) + 3600
    marks = bundle([mark(51, 5)], horizon)
    peer = room.serve(50)
    peer.push([limited_client(51, 1), *retirements(51, 2, 2)])
    peer.push([secret_set((51, 3), (1, 1), 1, b"n3w")])
    said = peer.ask("/sync/push", marks)
    wanted(said == (200, b'{"took":1}'), "the peer took no mark", said)
    run = room.start(peers=[peer.url]).listening()
    wanted(run.held_to() == {51: 3}, "the facts are not there", run.held_to())
    wanted(run.add_client() == (1, 1), "it makes no fact")
    wanted("started without its marks" in run.errors(), "nothing is said of it", run.errors())
    said = run.ask("/sync/push", marks)
    wanted(said == (409, b'{"error":"horizon_ahead"}'), "a horizon ahead was taken", said)
    run.stop()
    run = room.start(site="other", peers=[peer.url], TOKEND_OPTIONS="--ahead taken").listening()
    said = run.ask("/admin/client", CLIENT)
    wanted(said == (503, b'{"error":"temporarily_unavailable"}'), "no marks were taken", said)


def file_ahead_ends_a_start(room):
    """A start names each file whose horizon is ahead, and takes no number; unless it is to take
    all. The next start goes well once the clock has passed the horizon."""
    soon, far = int(time.time()) + 5, int(time.time()) + 3600
    room.write("site/history/mine.otb", bundle([mark(51, 5)], far))
    room.write("site/history/next.otb", bundle([mark(51, 4)], soon))
    room.write("site/history/past.otb", bundle([mark(51, 3)], soon - 100))
    run = room.start()
    said = ["%s: its horizon is ahead of the clock: %s\n" % (
        room.path("site/history", name), time.strftime("%Y-%m-%dT%H:%M:%SZ", time.gmtime(it)))
            for name, it in (("mine.otb", far), ("next.otb", soon))]
    wanted(run.ended(10) == 7 and all(it in run.errors() for it in said), "not named",
           run.errors())
    wanted("past.otb" not in run.errors(), "a horizon that has passed is named", run.errors())
    wanted(room.number() == 0, "a start that was refused used a number")
    os.unlink(room.path("site/history/mine.otb"))
    wanted(room.start(TOKEND_AHEAD_SECONDS="0").ended(10) == 7, "another status")
    time.sleep(max(0.0, soon - time.time()))
    run = room.start().listening()
    wanted(run.add_client() == (1, 1), "it makes no fact, or an earlier start took a number")


def log_ahead_ends_a_start(room):
    """A horizon that a run was pushed is in its log, and stops the next start."""
    taken = {"TOKEND_OPTIONS": "--ahead taken"}
    run = room.start(**taken).listening()
    run.push([mark(51, 5)], int(time.time()) + 3600)
    run.stop()
    again = room.start()
    wanted(again.ended(10) == 7 and "old/00001.otb" in again.errors(), "not named", again.errors())
    wanted(room.number() == 1, "a start that was refused used a number")
    said = room.start(**taken).listening().ask("/admin/client", CLIENT)
    wanted(said == (503, b'{"error":"temporarily_unavailable"}'), "the horizon is lost", said)


def start_waits_for_its_clock(room):
    """With TOKEND_AHEAD_SECONDS a start waits for the horizon, and then goes on."""
    horizon = int(time.time()) + 4
    room.write("site/history/mine.otb", bundle([mark(51, 5)], horizon))
    for text in ("x", "-1", "86401"):
        wanted(room.start(TOKEND_AHEAD_SECONDS=text).ended() == 6, "not status 6", text)
    run = room.start(TOKEND_AHEAD_SECONDS="60").listening()
    wanted(time.time() >= horizon, "it didn't wait")
    wanted("mine.otb: its horizon is ahead" in run.errors(), "not named", run.errors())
    wanted(run.add_client() == (1, 1), "it makes no fact")


def clock_ahead_prunes_nothing(room):
    """A start by a clock that is far ahead of a peer's goes on without its prune, and says so."""
    site = OldLogins(room)
    site.vector |= {70: 1}
    other = room.serve(70)
    other.add_client()
    margin = {"TOKEND_PRUNE_MARGIN": DAY}
    with Peer(dated(other, 302)) as late, Peer(dated(other, 0)) as right:
        run = room.start(peers=[right.url, late.url], **margin).listening()
        wanted(run.output.count(b"pruned") == 0, "pruned", run.output)
        said = re.findall(r"(\S+): its clock is (\d+) seconds behind this one: nothing is pruned\n",
                          run.errors())
        wanted([(it, 300 < int(seconds) < 310) for it, seconds in said] == [(late.url, True)],
               "the peer isn't named", run.errors())
        site.is_as_ever(run)
        wanted(marks_of(run) == 0, "a fact was pruned", marks_of(run))
        run.stop()
        run = room.start(peers=[right.url, late.url]).listening()
        wanted("clock" not in run.errors(), "compared without a prune", run.errors())
        run.stop()


def clock_that_agrees_prunes(room):
    """By a peer's clock that is behind by less, or ahead, and of a peer whose clock isn't known."""
    site = OldLogins(room)
    site.vector |= {70: 1}
    other = room.serve(70)
    other.add_client()
    with (Peer(dated(other, 290)) as near, Peer(dated(other, -9000)) as ahead,
          Peer(dated(other, 0, lambda *_, **__: "yesterday")) as strange):
        run = room.start(peers=[near.url, ahead.url, strange.url, other.url],
                         TOKEND_PRUNE_MARGIN=DAY).listening()
        wanted(b"pruned %d\n" % (2 * LOGINS) in run.output, "not pruned", run.output)
        wanted("clock" not in run.errors(), "a peer is named", run.errors())
        site.is_as_ever(run)


CASES = [start_prunes, margin_is_refused, server_gets_the_margin, horizon_passes,
         peers_differ_and_agree, peer_ahead_stops_no_start, file_ahead_ends_a_start,
         log_ahead_ends_a_start, start_waits_for_its_clock, clock_ahead_prunes_nothing,
         clock_that_agrees_prunes]
