"""cases: what a start does that goes well, and one that doesn't. Each is a function of a room."""
import os
import re
import shutil
import signal
import time

from lib import TOP
from lib.facts import bundle
from lib.peer import Peer
from room import START, Child, retirements, vector, wanted

FULL = 128
SOON = 25  # seconds that no start may be held up for
FAIL = """#!/bin/sh
case "$*" in *log/00001.otb*) echo 'tokend: memory' >&2; exit 1 ;; esac
exec "$REAL" "$@"
"""
KILL = """#!/bin/sh
case "$*" in *"--load "*"$UNLOADED --log "*) kill -9 $$ ;; esac
exec "$REAL" "$@"
"""
SLOW = """#!/bin/sh
case "$*" in *--requests*) ;; *) sleep 3 ;; esac
exec "$REAL" "$@"
"""


def later_start_has_all(room):
    """Facts made and facts pushed are there after SIGKILL, from the logs alone."""
    first = room.start().listening()
    made = [first.add_client() for _ in range(3)]
    first.push(retirements(50, 1, 5))
    first.stop()
    second = room.start().listening()
    wanted(made[-1] == (1, 3), "the first run has another number", made)
    wanted(second.held_to() == {1: 3, 50: 5}, "facts are lost", second.held_to())
    wanted(second.add_client() == (2, 1), "the second run has another number")
    second.stop()
    third = room.start().listening()
    wanted(third.held_to() == {1: 3, 2: 1, 50: 5}, "facts are lost", third.held_to())


def cut_record_is_left_out(room):
    first = room.start().listening()
    first.add_client()
    first.stop()
    log = room.read("site/log/00001.otb")
    room.write("site/log/00001.otb", log + bundle(retirements(1, 2, 2))[:-1])
    for number in (2, 3):
        run = room.start().listening()
        wanted(run.held_to() == {1: 1}, "another vector", run.held_to())
        wanted(room.number() == number, "another number", room.number())
        run.stop()


def second_run_is_refused(room):
    room.start().listening()
    wanted(room.start().ended() == 3, "a second run of the folder isn't refused with status 3")
    wanted(room.number() == 1, "the refused run used a number")


def option_uses_no_number(room):
    """Neither a wrong option, nor one by which the program doesn't serve, nor a busy port."""
    for options in ("--access 999999", "--nonsense", "--help", "--port 5", "--load x"):
        status = room.start(TOKEND_OPTIONS=options).ended()
        wanted(status == 6, "the status of %s" % options, status)
        wanted(room.number() == 0, "%s used a number" % options)
    room.start(site="other").listening()
    wanted(room.start().ended() == 1, "a busy port isn't status 1")
    wanted(room.number() == 0, "a busy port used a number")


def option_of(run, name):
    """The values of an option among the arguments of a run."""
    words = run.listening().arguments()
    return [value for word, value in zip(words, words[1:]) if word == name]


def choice_is_passed_unless_it_is_made(room):
    run = room.start()
    wanted(option_of(run, "--refresh-seen") == ["client"], "another choice", run.arguments())
    run.stop()
    run = room.start(TOKEND_OPTIONS="--refresh-seen all")
    wanted(option_of(run, "--refresh-seen") == ["all"], "another choice", run.arguments())


def challenge_is_required_by_a_setting(room):
    for given, passed in (
            ({}, []), ({"TOKEND_CHALLENGE": ""}, []),
            ({"TOKEND_CHALLENGE": "all,S256"}, ["all,S256"]),
            ({"TOKEND_CHALLENGE": "all", "TOKEND_OPTIONS": "--challenge S256"}, ["S256"])):
        run = room.start(**given)
        wanted(option_of(run, "--challenge") == passed, "another challenge", run.arguments())
        run.stop()
    status, number = room.start(TOKEND_CHALLENGE="plain").ended(), room.number()
    wanted((status, number) == (6, 4), "a word that is none isn't status 6", (status, number))


def issuer_is_passed_by_a_setting(room):
    for given, passed in (
            ({}, []), ({"TOKEND_ISSUER": ""}, []),
            ({"TOKEND_ISSUER": "https://id.example"}, ["https://id.example"]),
            ({"TOKEND_ISSUER": "https://id.example",
              "TOKEND_OPTIONS": "--issuer https://other.example"}, ["https://other.example"])):
        run = room.start(**given)
        wanted(option_of(run, "--issuer") == passed, "another issuer", run.arguments())
        run.stop()
    status, number = room.start(TOKEND_ISSUER="id.example").ended(), room.number()
    wanted((status, number) == (6, 4), "a text that is none isn't status 6", (status, number))


def setting_is_refused(room):
    """A setting that is no good has status 6, and so has no folder."""
    for words in (["site", "x", "1-9"], ["site", "7001", "9-1"], ["site", "7001", "0-9"],
                  ["site", "7001", "5"], ["site", "7001", "1-65536"], ["site"]):
        wanted(Child(room, [START, *words]).ended() == 6, "not refused with status 6", words)
    variables = {"TOKEND_PORT": "7001", "TOKEND_FIRST": "1", "TOKEND_LAST": "9"}
    wanted(Child(room, [START], variables).ended() == 6, "no STATE_DIRECTORY isn't status 6")


def folder_of_another_user_is_refused(room):
    """Root, too, writes nothing where a link of that user could lead elsewhere."""
    folder = room.folder_of_another("site")
    names = os.listdir(folder)
    run = room.start(site=folder)
    wanted(run.ended(5) == 6 and "another user" in run.errors(), "not refused", run.errors())
    wanted(os.listdir(folder) == names, "files were made", os.listdir(folder))


def start_by_hand_shows_nobody_its_seed(room):
    """The commands of the manual page leave no file that another user can read."""
    with open(os.path.join(TOP, "docs/tokend.1"), encoding="utf-8") as file:
        page = file.read().replace("\\-", "-")
    lines = re.search(r"^[.]SH EXAMPLES\n[.]EX\n(.*?)[.]EE", page, re.S | re.M)[1]
    lines = lines.replace("8080", "0").replace("log1", "log1 --requests 0")
    os.symlink(room.program, room.path("tokend"))
    run = Child(room, ["sh", "-c", "umask 022\n" + lines],
                {"PATH": room.folder + ":" + os.environ["PATH"]})
    wanted(run.ended() == 0, "the example ends otherwise", run.errors())
    modes = {name: os.stat(room.path(name)).st_mode & 0o777 for name in ("seed", "log1")}
    wanted(set(modes.values()) == {0o600}, "others can read", modes)


def program_that_fails_is_no_bad_log(room):
    """A check that fails says why, and doesn't say that the log is bad."""
    run = room.start().listening()
    run.add_client()
    run.stop()
    room.write("fail", FAIL.encode(), 0o700)
    run = room.start(TOKEND=room.path("fail"), REAL=room.program)
    wanted(run.ended() == 1, "out of memory isn't status 1", run.errors())
    wanted("memory" in run.errors(), "the cause isn't named", run.errors())
    run = room.start(TOKEND=room.path("gone"))
    wanted(run.ended() == 6, "no program isn't status 6", run.errors())
    room.write("site/log/00001.otb", room.read("site/log/00001.otb") + bytes(100))
    run = room.start()
    wanted(run.ended() == 4, "a bad log isn't status 4", run.errors())
    wanted("00001.otb" in run.errors(), "the bad log isn't named", run.errors())
    wanted(room.number() == 1, "a start that was refused used a number")


def log_of_a_site_without_memory_is_checked(room):
    """The program is killed if it loads a log beside this start. The start itself goes well."""
    first = room.start().listening()
    first.add_client()
    first.stop()
    room.write("kill", KILL.encode(), 0o700)
    killed = {"TOKEND": room.path("kill"), "REAL": room.program}
    run = room.start(UNLOADED="log/00001.otb", **killed).listening()
    wanted(run.held_to() == {1: 1}, "another vector", run.held_to())
    run.stop()
    room.write("site/peers.part", bundle(retirements(50, 1, 2)))
    run = room.start(UNLOADED="peers.part", **killed).listening()
    wanted(run.held_to() == {1: 1}, "another vector", run.held_to())
    wanted("status -9: ; started without it" in run.errors(), "not said", run.errors())


def whole_front_of_a_log_is_counted(room):
    """Of a log that ends in zeros, as some file systems leave it, or in a cut record."""
    good = bundle(retirements(7, 1, 2)) + b"OTB3" + bytes(10)
    for rest in (b"", bytes(100), good[:9]):
        run = Child(room, [START, "--whole", room.write("log", good + rest)])
        wanted(run.ended() == 0 and run.output == b"%d\n" % len(good), "another count", run.output)


def history_that_is_bad_is_named(room):
    room.write("site/history/mine.otb", b"nothing of this kind")
    run = room.start()
    wanted(run.ended() == 4 and "mine.otb" in run.errors(), "not named", run.errors())
    wanted(room.number() == 0, "a start that was refused used a number")


def log_may_have_any_name(room):
    room.write("site/log/mended.otb", bundle(retirements(7, 1, 2)))
    run = room.start().listening()
    wanted(run.held_to() == {7: 2}, "another vector", run.held_to())
    wanted(room.number() == 8, "the number of facts in a log was taken", room.number())


def folders_have_spaces(room):
    """A relative TOKEND in a folder with a space, and CDPATH exported."""
    folder = room.path("a folder")
    os.makedirs(os.path.join(folder, "bin"))
    os.symlink(room.program, os.path.join(folder, "bin", "tokend"))
    os.symlink(os.path.dirname(START), os.path.join(folder, "starter"))
    words = [os.path.join("starter", os.path.basename(START)), "my site", str(room.port), "1-9"]
    Child(room, words, {"TOKEND": "bin/tokend", "CDPATH": folder}, folder).listening()


def silent_peer_is_passed_over(room):
    with Peer() as silent:
        room.start(peers=[silent.url]).listening(SOON)


def slow_start_is_waited_for(room):
    """A wait ends with the server's first reply, and with the start that failed."""
    room.write("slow", SLOW.encode(), 0o700)
    run = room.start(TOKEND=room.path("slow"), REAL=room.program)
    variables = {"TOKEND_PORT": str(room.port), "MAINPID": str(run.child.pid)}
    waiting = Child(room, [START, "--wait"], variables)
    time.sleep(1)
    wanted(waiting.child.poll() is None, "it doesn't wait", waiting.errors())
    wanted(waiting.ended() == 0, "the server listens, and another status", waiting.errors())
    run.stop()
    waiting = Child(room, [START, "--wait"], variables)
    wanted(waiting.ended(5) == 1, "it waits for a process that has ended")
    wanted(waiting.errors() == "", "the start's own message isn't the last", waiting.errors())


def unit_kills_no_start(_):
    """The unit sets no time to a start, and doesn't repeat one that would be refused again."""
    with open(os.path.join(TOP, "examples/systemd/tokend.service"), encoding="utf-8") as file:
        unit = file.read()
    wanted("TimeoutStartSec=infinity\n" in unit, "a start has a limit")
    wanted("--retry" not in unit, "a start has a limit by curl")
    wanted("RestartPreventExitStatus=2 3 4 5 6\n" in unit, "a start is repeated that is refused")
    waited, most = (int(re.search(r"(?m)^%s=(\d+)$" % it, unit)[1]) for it in (
        "Environment=TOKEND_AHEAD_SECONDS", "StartLimitBurst"))
    wanted("Restart=on-failure\n" in unit and "StartLimitIntervalSec=1h\n" in unit
           and waited * most > 3600, "starts with status 7 end at the limit", (waited, most))


def pages_that_came_are_kept(room):
    """A peer that fails after its first page: what came isn't asked for again."""
    page, rest = bundle(retirements(50, 1, FULL)), bundle(retirements(50, FULL + 1, FULL + 9))

    def reply(path, body):
        if path == "/sync/vector":
            return vector(r50=FULL + 9)
        if body[10:] != vector():
            return rest
        return page if body[:10] == bytes(10) else None
    with Peer(reply, drops=True) as peer:
        run = room.start(peers=[peer.url]).listening(SOON)
        wanted(run.held_to() == {50: FULL}, "the page that came is lost", run.held_to())
        run.stop()
        run = room.start(peers=[peer.url]).listening(SOON)
        wanted(run.held_to() == {50: FULL + 9}, "another vector", run.held_to())
        again = [body for body in peer.bodies if body[10:] == vector()]
        wanted(len(again) == 2, "a page was asked for again", len(again))


def cut_page_of_a_killed_start_is_left_out(room):
    whole = bundle(retirements(50, 1, FULL))
    room.write("site/peers.part", whole + bundle(retirements(50, FULL + 1, FULL + 2))[:-5])
    run = room.start().listening()
    wanted(run.held_to() == {50: FULL}, "another vector", run.held_to())
    wanted(not os.path.exists(room.path("site/peers.part")), "peers.part is still there")


def second_peer_isnt_asked_for_the_same(room):
    asked = []

    def reply(path, body):
        if path == "/sync/vector":
            return vector(r50=3)
        asked.append(body[10:])
        return bundle([] if body[10:] == vector(r7=1, r50=3) else retirements(50, 1, 3))
    room.write("site/history/mine.otb", bundle(retirements(7, 1, 1)))
    room.write("site/history/vector", vector(r7=1))
    with Peer(reply, drops=True) as one, Peer(reply, drops=True) as two:
        room.start(peers=[one.url, two.url]).listening()
    wanted(asked == [vector(r7=1), vector(r7=1, r50=3)], "both were asked for the same", asked)


def one_list_serves_all_sites(room):
    """A start doesn't ask itself, by the URL that the list has for it."""
    peer = room.serve(70)
    peer.push(retirements(50, 1, 3))
    own = "http://127.0.0.1:%d" % room.port
    run = room.start(peers=[own + "/", peer.url], TOKEND_URL=own).listening()
    wanted(run.held_to() == {50: 3}, "another vector", run.held_to())
    wanted(run.errors() == "", "a start complains", run.errors())
    run.stop()
    run = room.start(peers=[own, peer.url]).listening()
    wanted("%s: Connection refused" % own in run.errors(), "it didn't ask itself", run.errors())


def bad_page_stops_no_start(room):
    """A peer whose page is no bundle, or whose facts are none, is passed over."""
    def other(path, _):
        return vector(r50=3) if path == "/sync/vector" else b"<html>"

    def malformed(path, _):
        bad = [fact[:10] + b"\x63" + fact[11:] for fact in retirements(50, 1, 3)]
        return vector(r50=3) if path == "/sync/vector" else bundle(bad)
    for reply in (other, malformed):
        with Peer(reply, drops=True) as peer:
            run = room.start(peers=[peer.url]).listening()
            wanted(run.held_to() == {}, "another vector", run.held_to())
            run.stop()


def signal_leaves_no_seed(room):
    with Peer() as silent:
        run = room.start(peers=[silent.url])
        time.sleep(1)
        run.stop(signal.SIGTERM)
    found = [name for _, _, names in os.walk(room.path("site")) for name in names]
    wanted("seed" not in found, "a seed stays after SIGTERM", found)
    room.start().listening()


def restored_copy_takes_no_used_number(room):
    """An older copy of the folder, or history alone, with a peer that knows of later numbers."""
    peer = room.serve(50)
    for _ in range(3):
        run = room.start().listening()
        run.add_client()
        peer.ask("/sync/push", run.ask("/sync/pull", bytes(10) + vector())[1])
        run.stop()
        if not os.path.exists(room.path("copy")):
            shutil.copytree(room.path("site"), room.path("copy"))
    run = room.start(site="copy", peers=[peer.url]).listening()
    wanted(run.add_client() == (4, 1), "a number was used twice", run.held_to())
    wanted(run.held_to() == {1: 1, 2: 1, 3: 1, 4: 1}, "another vector", run.held_to())
    run.stop()
    room.write("fresh/history/all.otb", peer.ask("/sync/pull", bytes(10) + vector())[1])
    run = room.start(site="fresh").listening()
    wanted(run.add_client() == (4, 1), "a number of history was used again")


def number_of_a_peer_counts_without_its_pages(room):
    def reply(path, _):
        return vector(r4=1, r50=1) if path == "/sync/vector" else None
    with Peer(reply, drops=True) as peer:
        room.start(peers=[peer.url]).listening()
    wanted(room.number() == 5, "a number was taken that a peer has facts of", room.number())


def numbers_run_out(room):
    for number in (1, 2):
        run = room.start("1-2").listening()
        wanted(room.number() == number, "another number", room.number())
        run.stop()
    wanted(room.start("1-2").ended() == 5, "not status 5")
    room.start("100-101").listening()
    wanted(room.number() == 100, "another number", room.number())


def proxies_are_ignored(room):
    peer = room.serve(50)
    peer.push(retirements(51, 1, 2))
    run = room.start(peers=[peer.url], http_proxy="http://127.0.0.1:9").listening()
    wanted(run.held_to() == {51: 2}, "the proxy was used", run.held_to())


CASES = [
    later_start_has_all, cut_record_is_left_out, second_run_is_refused, option_uses_no_number,
    choice_is_passed_unless_it_is_made, challenge_is_required_by_a_setting,
    issuer_is_passed_by_a_setting, setting_is_refused,
    folder_of_another_user_is_refused, start_by_hand_shows_nobody_its_seed,
    program_that_fails_is_no_bad_log,
    log_of_a_site_without_memory_is_checked, whole_front_of_a_log_is_counted,
    history_that_is_bad_is_named, log_may_have_any_name, folders_have_spaces,
    silent_peer_is_passed_over, slow_start_is_waited_for, unit_kills_no_start,
    pages_that_came_are_kept, cut_page_of_a_killed_start_is_left_out,
    second_peer_isnt_asked_for_the_same, one_list_serves_all_sites, bad_page_stops_no_start,
    signal_leaves_no_seed, restored_copy_takes_no_used_number,
    number_of_a_peer_counts_without_its_pages, numbers_run_out, proxies_are_ignored]
