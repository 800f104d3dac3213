"""with_runs: a start whose peers send runs of marks. Each case is a function of a room."""
from cases import SOON
from lib.facts import bundle_with_runs, run
from lib.peer import Peer, older
from room import retirements, vector, wanted

MARKS = 3000  # of a peer that pruned


def peer_with_marks(room):
    """A peer that holds a fact, and marks behind it that follow one another."""
    peer = room.serve(70)
    peer.push(retirements(50, 1, 1))
    for first in range(2, MARKS + 2, 1000):
        peer.ask("/sync/push", bundle_with_runs([run(50, first, first + 999)]))
    return peer


def pages_with_runs_come(room):
    """All marks of a peer come, in few bytes, and a later start has them."""
    peer = peer_with_marks(room)
    start = room.start(peers=[peer.url]).listening(SOON)
    wanted(start.held_to() == {50: MARKS + 1}, "another vector", start.held_to())
    start.stop()
    start = room.start().listening(SOON)
    wanted(start.held_to() == {50: MARKS + 1}, "another vector later", start.held_to())


def pages_of_an_older_peer_come(room):
    peer = peer_with_marks(room)
    with Peer(older(peer), drops=True) as stand_in:
        start = room.start(peers=[stand_in.url]).listening(SOON)
        wanted(start.held_to() == {50: MARKS + 1}, "another vector", start.held_to())
        pulls = [it for it in stand_in.asked if "pull" in it]
        wanted(pulls == ["/sync/pull?runs=1"] * 24, "other requests", pulls)


def full_pages_with_runs_are_gone_on_from(room):
    """A page of 128 pieces, one of 1,024 items, and one with fewer of both, which is the last."""
    pages = [bundle_with_runs([run(50, 3 * n, 3 * n + 1) for n in range(1, 129)]),
             bundle_with_runs([run(50, 1001, 2024)]),
             bundle_with_runs([run(50, 2101, 2105)])]
    left = list(pages)

    def reply(path, _):
        return vector(r50=1) if path == "/sync/vector" else left.pop(0)
    with Peer(reply, drops=True) as peer:
        start = room.start(peers=[peer.url]).listening(SOON)
    cursors = [it[:10] for it in peer.bodies if it]
    wanted(cursors == [bytes(10), run(50, 385, 0)[:10], run(50, 2024, 0)[:10]],
           "other cursors", cursors)
    held = start.held_to()
    wanted(held == {}, "a serial that isn't known is covered", held)


def hostile_runs_stop_no_start(room):
    """A peer whose page has runs that fall, or too many marks, is passed over."""
    for pieces in ([run(50, 5, 3)], [run(50, 5, 3)] * 128, [run(50, 1, 2**63 - 1)],
                   [run(50, 0, 2**64 - 1)], [run(50, 1, 1025)],
                   [run(50, 2048 * n + 1, 2048 * n + 1024) for n in range(128)],
                   [run(50, 3 * n, 3 * n + 1) for n in range(129)],
                   [run(50, 3, 4), run(50, 5, 6)], [run(50, 6, 7), run(50, 3, 4)]):
        def reply(path, _, said=bundle_with_runs(pieces)):
            return vector(r50=3) if path == "/sync/vector" else said
        with Peer(reply, drops=True) as peer:
            start = room.start(peers=[peer.url]).listening(SOON)
            wanted(start.held_to() == {}, "another vector", start.held_to())
            wanted(len([it for it in peer.asked if "pull" in it]) <= 2, "it was asked on",
                   peer.asked)
            start.stop()


CASES = [pages_with_runs_come, pages_of_an_older_peer_come, full_pages_with_runs_are_gone_on_from,
         hostile_runs_stop_no_start]
