"""ranges: which region numbers a start counts, and which a run takes facts of."""
from lib.facts import bundle
from lib.peer import Peer
from room import retirements, vector, wanted

RANGE = "1-8191"
REFUSED = 409, b'{"error":"out_of_range"}'


def number_with(room, *seen, site="site"):
    """The number that a start of a new site takes whose history has facts of some numbers."""
    facts = [fact for number in seen for fact in retirements(number, 1, 1)]
    room.write(site + "/history/mine.otb", bundle(facts))
    run = room.start(RANGE, site=site).listening()
    run.stop()
    return room.number(site), run.errors()


def number_far_above_all_others_is_left_out(room):
    """One that is more than 64 above the others, or above the first of the range, is named."""
    for site, seen, number, named in (
            ("one", [64], 65, []), ("two", [65], 1, [65]), ("three", [8191], 1, [8191]),
            ("four", [3, 67], 68, []), ("five", [3, 68], 4, [68]),
            ("six", [64, 128, 192], 193, []), ("seven", [9, 8190, 8191], 10, [8190, 8191]),
            ("eight", [5, 9000], 6, [])):
        said = number_with(room, *seen, site=site)
        lines = "".join("tokend-start: there are facts of the number %d, far above all others of "
                        "this site: not counted\n" % it for it in named)
        wanted(said == (number, lines), "another number, or other lines, with %s" % seen, said)


def number_far_above_those_of_a_peer_is_left_out(room):
    def reply(path, _):
        return vector(r4=1, r5=1, r8191=1) if path == "/sync/vector" else bundle([])
    with Peer(reply, drops=True) as peer:
        run = room.start(RANGE, peers=[peer.url]).listening()
    wanted(room.number() == 6, "another number", room.number())
    wanted("facts of the number 8191, far above" in run.errors(), "not named", run.errors())


def number_that_was_taken_counts_wherever_it_is(room):
    """The file `number` and the names of logs are the starter's own."""
    room.write("one/number", b"5000\n")
    room.write("two/old/05000.otb", bundle(retirements(5000, 1, 1)))
    for site in ("one", "two"):
        run = room.start(RANGE, site=site).listening()
        wanted((room.number(site), run.errors()) == (5001, ""), "another number", room.number(site))
        run.stop()


def run_takes_no_facts_of_later_numbers(room):
    run = room.start("1-9").listening()
    for number, reply in ((2, REFUSED), (9, REFUSED), (10, (200, b'{"took":1}'))):
        said = run.ask("/sync/push", bundle(retirements(number, 1, 1)))
        wanted(said == reply, "another reply to facts of %d" % number, said)
    run.stop()
    run = room.start("1-9", TOKEND_ACCEPT="1-9,50-59").listening()
    for number, reply in ((1, (200, b'{"took":1}')), (3, REFUSED), (11, REFUSED), (60, REFUSED),
                          (59, (200, b'{"took":1}'))):
        said = run.ask("/sync/push", bundle(retirements(number, 1, 1)))
        wanted(said == reply, "another reply to facts of %d" % number, said)
    wanted(run.held_to() == {1: 1, 10: 1, 59: 1}, "another vector", run.held_to())


def file_with_later_numbers_is_loaded(room):
    room.write("site/history/mine.otb", bundle(retirements(8191, 1, 1)))
    room.write("site/peers.part", bundle(retirements(8190, 1, 1)))
    run = room.start(RANGE, TOKEND_ACCEPT="1-9").listening()
    wanted(run.held_to() == {8190: 1, 8191: 1}, "another vector", run.held_to())


def ranges_that_are_wrong_are_refused(room):
    for variables, what in (({"TOKEND_ACCEPT": "9-1"}, "--accept takes FIRST-LAST"),
                            ({"TOKEND_OPTIONS": "--accept 1-9"}, "TOKEND_ACCEPT"),
                            ({"TOKEND_OPTIONS": "--range=1-9"}, "TOKEND_FIRST and TOKEND_LAST")):
        run = room.start(**variables)
        wanted(run.ended() == 6, "not refused with status 6", variables)
        wanted(what in run.errors(), "not named", run.errors())
        wanted(room.number() == 0, "a start that was refused used a number")


CASES = [
    number_far_above_all_others_is_left_out, number_far_above_those_of_a_peer_is_left_out,
    number_that_was_taken_counts_wherever_it_is, run_takes_no_facts_of_later_numbers,
    file_with_later_numbers_is_loaded, ranges_that_are_wrong_are_refused,
]
