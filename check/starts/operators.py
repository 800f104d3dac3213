"""operators: starts, backups and compactions of facts in which operators are named. Each case is a
function of a room.
"""
import time

from backups import backed, segments
from compacts import compacted
from lib.asking import CLIENT
from lib.facts import EMPTY_VECTOR, administered, each_administered, facts_of, mark, retirement
from room import wanted

ROOT = {"X-Operator": "root"}


def begun(room):
    """A first run of a site, which made facts by an operator and was pushed others: all of them."""
    run = room.start().listening()
    for name, form in ("client", CLIENT), ("retire", b"client_id=c1-1"):
        said = run.ask_as("POST", "/admin/" + name, form, **ROOT)
        wanted(said[0] in (200, 201), "no reply", said)
    run.push(each_administered(50))
    return run, run.held()


def later_starts_have_operators(room):
    """After SIGKILL, in the next run, and in the run behind that from its history alone."""
    run, facts = begun(room)
    wanted([it[10] for it in facts[:2]] == [16, 18] and facts[2:] == each_administered(50),
           "other facts", facts)
    for _ in range(2):
        run.stop()
        run = room.start().listening()
        wanted(run.held() == facts, "other facts later", run.held())
    run.stop()
    wanted(compacted(room, "--margin", "86400").ended() == 0, "not compacted")
    run = room.start(TOKEND_PRUNE_MARGIN="86400").listening()
    wanted(run.held() == facts, "other facts behind a compaction", run.held())


def backups_have_operators(room):
    run, facts = begun(room)
    wanted(backed(room, run.url).ended() == 0, "not kept")
    kept = b"".join(room.read(it) for it in segments(room))
    wanted(facts_of(kept) == facts, "other facts are kept", facts_of(kept))
    server = room.serve(65_000, "--load", room.write("all", kept))
    wanted(server.held() == facts, "other facts are restored", server.held())


def peer_ahead_gives_operators(room):
    """A start takes the facts of a peer without its marks, which are ahead."""
    ahead = int(time.time()) + 3600
    for number, facts in (50, each_administered(51)), (60, [
            administered(retirement((51, 1), (1, 1)), b"root")]):
        peer = room.serve(number)
        peer.push(facts)
        peer.push([mark(52, 5)], ahead)
        run = room.start(site="site-%d" % number, peers=[peer.url]).listening()
        wanted("started without its marks" in run.errors(), "nothing is said", run.errors())
        wanted(run.held() == facts, "other facts", run.held())
        wanted(run.ask("/sync/pull", bytes(10) + EMPTY_VECTOR)[1][:4] == b"OTB4", "the version")
        run.stop()


CASES = [later_starts_have_operators, backups_have_operators, peer_ahead_gives_operators]
