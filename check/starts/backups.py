"""backups: what `backup` keeps of a server, and what it refuses. Each is a function of a room."""
import glob
import os
import time

from lib.facts import DOT, bundle
from lib.peer import Peer
from room import BACKUP, Child, retirements, vector, wanted

MARK = DOT.pack(50, 3)


def backed(room, url, *options, **environ):
    """A backup into the folder `kept`, without another try."""
    environ = {"BACKUP_TRIES": "0", **environ}
    return Child(room, [BACKUP, *options, url, "kept"], environ)


def segments(room):
    return sorted(glob.glob(room.path("kept", "*.otb")))


def loaded(room):
    """The vector of a server that loads all segments."""
    whole = b"".join(room.read(it) for it in segments(room))
    return room.serve(65_000, "--load", room.write("all", whole)).held_to()


def of(room):
    """A server with facts, and its URL."""
    server = room.serve(50)
    for _ in range(3):
        server.add_client()
    for first in (1, 101):
        server.push(retirements(51, first, first + 99))
    return server, server.url


def backup_keeps_all(room):
    server, url = of(room)
    wanted(backed(room, url).ended() == 0, "not kept")
    wanted(len(segments(room)) == 1, "another number of segments", segments(room))
    wanted(backed(room, url).ended() == 0 and len(segments(room)) == 1, "kept twice")
    server.add_client()
    wanted(backed(room, url).ended() == 0 and len(segments(room)) == 2, "not kept")
    wanted(loaded(room) == {50: 4, 51: 200}, "another vector")
    wanted(backed(room, url, "-a").ended() == 0 and len(segments(room)) == 1, "not one segment")
    wanted(loaded(room) == {50: 4, 51: 200}, "another vector")


def backup_ignores_proxies(room):
    _, url = of(room)
    run = backed(room, url, http_proxy="http://127.0.0.1:9")
    wanted(run.ended() == 0, "the proxy was used", run.errors())


def backup_reads_marks(room):
    """A page with marks, of which the last item gives the next cursor."""
    asked = []

    def reply(path, body):
        if path == "/sync/vector":
            return vector(r50=130)
        asked.append(body[:10])
        if body[:10] != bytes(10):
            return bundle(retirements(50, 129, 130))
        items = retirements(50, 1, 128)
        return bundle(items[:2] + [MARK] + items[3:])
    with Peer(reply, drops=True) as peer:
        run = backed(room, peer.url)
        wanted(run.ended() == 0, "not kept", run.errors())
    wanted(asked == [bytes(10), DOT.pack(50, 128)], "another cursor", asked)


def backup_claims_nothing_that_was_forgotten(room):
    """A server that begins anew between the vector and the pages."""
    vectors = [vector(r2=300, r50=9, r51=2), vector(r2=300, r50=4, r51=2)]

    def reply(path, _):
        if path == "/sync/vector":
            return vectors.pop(0)
        return bundle(retirements(50, 1, 4))
    with Peer(reply, drops=True) as peer:
        wanted(backed(room, peer.url).ended() == 1, "not refused with status 1")
        wanted(not os.path.exists(room.path("kept/vector")), "a vector was kept")
        vectors += [vector(r2=300, r50=4), vector(r2=300, r50=5)]
        wanted(backed(room, peer.url).ended() == 0, "a vector that grew was refused")
        vectors += [vector(r2=255, r50=5), vector(r50=5)]
        wanted(backed(room, peer.url).ended() == 1, "an entry that is gone was not refused")


def backup_refuses_strange_folders(room):
    """A site's own folder, and a folder of another user."""
    _, url = of(room)
    for name in ("number", "load.otb"):
        room.write("kept/" + name, b"1")
    wanted(backed(room, url).ended() == 2, "a site's folder isn't refused with status 2")
    os.unlink(room.path("kept/number"))
    os.unlink(room.path("kept/load.otb"))
    if os.getuid() == 0:
        os.chown(room.path("kept"), 12_345, 12_345)
        wanted(backed(room, url).ended() == 2, "another user's folder isn't refused")
        wanted(not os.listdir(room.path("kept")), "a file was made in it")


def killed_backup_leaves_nothing_that_counts(room):
    """A backup that is killed while it asks; the next one removes what is left of it."""
    with Peer() as silent:
        run = backed(room, silent.url)
        while not glob.glob(room.path("kept", ".backup.*")):
            wanted(run.child.poll() is None, "it ended", run.errors())
            time.sleep(0.01)
        wanted(backed(room, silent.url).ended() == 1, "two backups write to one folder")
        run.stop()
    wanted(segments(room) == [], "a segment counts")
    _, url = of(room)
    wanted(backed(room, url).ended() == 0, "not kept")
    wanted(loaded(room) == {50: 3, 51: 200}, "another vector")
    wanted(not glob.glob(room.path("kept", ".backup.*")), "a folder of the killed one is left")


CASES = [
    backup_keeps_all, backup_ignores_proxies, backup_reads_marks,
    backup_claims_nothing_that_was_forgotten, backup_refuses_strange_folders,
    killed_backup_leaves_nothing_that_counts]
