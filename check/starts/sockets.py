"""sockets: starts of a site that listens at sockets. Each is a function of a room."""
import os
import signal
import socket
import stat

from lib import TOP
from room import COMPACT, START, Child, wanted

RECORDS = """#!/bin/sh
echo "$*" >>"$RECORD"
exec "$REAL" "$@"
"""


def start(room, site="site", place="unix:site/socket", numbers="1-9", **environ):
    """A start at a socket in the site's folder, and at an inner one beside it."""
    return Child(room, [START, site, place, numbers], {"TOKEND_INNER": "site/inner"} | environ)


def sockets(room):
    return [room.path("site", it) for it in ("socket", "inner")]


def start_listens_at_sockets(room):
    """At two sockets of the site's user and group, and at no port."""
    run = start(room).listening()
    wanted((run.port, run.socket, run.inner) == (None, *sockets(room)), "other places", run.output)
    wanted({stat.S_IMODE(os.stat(it).st_mode) for it in sockets(room)} == {0o660}, "other modes")
    wanted(run.add_client() == (1, 1), "no fact was made")
    it = room.environ | {"TOKEND_SOCKET": run.socket, "TOKEND_INNER": run.inner,
                         "MAINPID": str(run.child.pid)}
    wanted(Child(room, [START, "--wait"], it).ended(5) == 0, "the wait asks elsewhere")
    run.stop(signal.SIGTERM)
    wanted(Child(room, [START, "--wait"], it).ended(5) == 1, "it waits for what has ended")


def variables_name_the_sockets(room):
    """As a unit has them. Paths of one folder, which a later start finds as they were left."""
    os.mkdir(room.path("run"), 0o750)
    environ = {"STATE_DIRECTORY": room.path("site"), "TOKEND_FIRST": "1", "TOKEND_LAST": "9",
               "TOKEND_SOCKET": room.path("run/clients"), "TOKEND_INNER": room.path("run/inner")}
    for number in (1, 2, 3):
        run = Child(room, [START], environ).listening()
        wanted(run.socket == room.path("run/clients"), "another socket", run.socket)
        wanted(run.add_client() == (number, 1), "another number")
        run.stop()
        wanted(os.path.exists(run.socket), "it is gone, so nothing is left over to be tried")
    wanted(run.output.count(b"listening ") == 1, "listens elsewhere too", run.output)


def port_may_have_an_inner_socket(room):
    run = start(room, place=str(room.port)).listening()
    wanted((run.port, run.inner) == (room.port, room.path("site/inner")), "other places")
    wanted(run.add_client() == (1, 1), "no fact was made")


def folder_that_others_may_write_is_refused(room):
    """Whoever may write there could put a socket of their own in its place."""
    os.mkdir(room.path("run"))
    for mode in (0o770, 0o702, 0o1777):
        os.chmod(room.path("run"), mode)
        for place in ({"place": "unix:run/socket"}, {"TOKEND_INNER": "run/inner"}):
            run = start(room, **place)
            wanted(run.ended(5) == 6 and "others may write to %s\n" % room.path("run")
                   in run.errors(), "not refused", run.errors())
    os.chmod(room.path("run"), 0o2750)
    start(room, place="unix:run/socket").listening()
    wanted(room.number() == 1, "a start that was refused used a number")


def socket_in_a_folder_of_another_user_is_refused(room):
    folder = room.folder_of_another("run")
    run = start(room, place="unix:%s/socket" % folder)
    wanted(run.ended(5) == 6 and "another user" in run.errors(), "not refused", run.errors())


def place_is_refused(room):
    """What is no place for sockets: each has status 6, names what is wrong and uses no number."""
    room.write("site/file", b"")
    os.symlink("nowhere", room.path("site/link"))
    for said, given in (
            ("TOKEND_SOCKET and TOKEND_INNER are one path", {"TOKEND_INNER": "site/socket"}),
            ("no folder for a socket", {"place": "unix:none/socket"}),
            ("over 107 bytes", {"place": "unix:site/" + "x" * 108}),
            ("is no path of a socket", {"place": "unix:site/a b"}),
            ("unix: has no path", {"place": "unix:"}),
            ("file is no socket", {"TOKEND_INNER": "site/file"}),
            ("link is no socket", {"place": "unix:site/link"}),
            ("name that socket by TOKEND_INNER", {"TOKEND_OPTIONS": "--inner site/other"}),
            ("the options are refused", {"TOKEND_OPTIONS": "--socket site/other"})):
        run = start(room, **given)
        wanted(run.ended(5) == 6 and said in run.errors(), "not refused: " + said, run.errors())
    environ = {"STATE_DIRECTORY": room.path("site"), "TOKEND_FIRST": "1", "TOKEND_LAST": "9"}
    for said, given in (
            ("are both set", {"TOKEND_SOCKET": "site/socket", "TOKEND_PORT": "7001"}),
            ("TOKEND_PORT is ''", {"TOKEND_INNER": "site/inner"})):
        run = Child(room, [START], environ | given)
        wanted(run.ended(5) == 6 and said in run.errors(), "not refused: " + said, run.errors())
    wanted(room.number() == 0, "a start that was refused used a number")
    wanted(room.read("site/file") == b"", "the file was changed")


def socket_that_is_answered_is_left(room):
    """By another site, by one that is stopped for now, and by one whose queue is full."""
    first = start(room).listening()
    for place in ({}, {"place": "unix:other/socket"}):
        run = start(room, site="other", **place)
        wanted(run.ended(5) == 3 and "somebody answers at %s" % room.path("site") in run.errors(),
               "not refused with status 3", run.errors())
    first.child.send_signal(signal.SIGSTOP)
    wanted(start(room, site="other").ended(5) == 3, "a stopped server's socket is taken")
    first.child.send_signal(signal.SIGCONT)
    wanted(first.add_client() == (1, 1), "the first server lost its sockets")
    wanted(room.number("other") == 0, "a start that was refused used a number")
    os.mkdir(room.path("run"), 0o700)
    with socket.socket(socket.AF_UNIX) as full, socket.socket(socket.AF_UNIX) as waits:
        full.bind(room.path("run/socket"))
        full.listen(0)
        waits.connect(room.path("run/socket"))
        run = start(room, site="other", place="unix:run/socket", TOKEND_INNER="run/inner")
        wanted(run.ended(5) == 3, "a socket without room is taken", run.errors())


def second_run_leaves_the_sockets(room):
    """A second run of the folder has status 3 before it looks at the sockets."""
    first = start(room).listening()
    run = start(room)
    wanted(run.ended(5) == 3 and "a run holds" in run.errors(), "not refused", run.errors())
    wanted(first.add_client() == (1, 1), "the first server lost its sockets")


def peer_may_have_a_socket(room):
    """Also one behind a way of this machine, whose Date says what clock it has."""
    other = start(room, site="other", place="unix:other/socket", numbers="50-59",
                  TOKEND_INNER="other/inner").listening()
    other.add_client()
    run = start(room, TOKEND_PEERS="unix:%s unix:%s unix:none %s" % (
        other.inner, other.socket, "unix:x?y")).listening()
    wanted(run.held_to() == {50: 1}, "another vector", run.held_to())
    for said in ("unix:%s: status 404; started without it" % other.socket,
                 "unix:none: No such file or directory; started without it",
                 "not a base URL: unix:x?y"):
        wanted(said in run.errors(), "not said: " + said, run.errors())


def compact_opens_no_port(room):
    """Its servers listen at a socket in the site's folder, however long the folder's path is."""
    room.write("record", RECORDS.encode(), 0o700)
    far = "site-" + "x" * 120
    first = room.start(site=far).listening()
    first.add_client()
    first.stop()
    room.start(site=far).listening().stop()
    run = room.start(site=far).listening()
    said = room.path("said")
    done = Child(room, [COMPACT, "--prune", "100", "--push", run.url, far],
                 {"TOKEND": room.path("record"), "REAL": room.program, "RECORD": said})
    wanted(done.ended() == 0, "not done", done.errors())
    lines = room.read("said").decode().splitlines()
    wanted(len(lines) == 3 and not any("--port" in it for it in lines), "another place", lines)
    wanted(sorted(os.listdir(room.path(far)))[0] == "compact.lock" and not os.path.exists(
        room.path(far, "compact.new")), "files are left", os.listdir(room.path(far)))


def unit_allows_sockets(_):
    with open(os.path.join(TOP, "examples/systemd/tokend.service"), encoding="utf-8") as file:
        unit = file.read()
    wanted("RestrictAddressFamilies=AF_INET AF_UNIX\n" in unit, "the unit refuses sockets")
    limit = int(unit.partition("LimitNOFILE=")[2].split()[0])
    wanted(limit > 65_536, "--connections may be more than the unit's files", limit)


CASES = [
    start_listens_at_sockets, variables_name_the_sockets, port_may_have_an_inner_socket,
    folder_that_others_may_write_is_refused, socket_in_a_folder_of_another_user_is_refused,
    place_is_refused, socket_that_is_answered_is_left, second_run_leaves_the_sockets,
    peer_may_have_a_socket, compact_opens_no_port, unit_allows_sockets]
