"""rounds: which edits of a crate are tried together.

No two edits of a round are in one function, or change one text. One that is in no single function,
or that changes what another of its own pairs made, is tried alone.
"""

ROOM = 20  # edits in a round, so that rounds are short beside each other


def stands_alone(edit):
    return edit.of is None or edit.places() is None


def rounds_of(edits):
    """Parts edits into rounds: each goes to the first that has room and none that clashes."""
    rounds = []
    for it in edits:
        if stands_alone(it):
            continue
        free = (them for them in rounds
                if len(them) < ROOM and not any(map(it.clashes, them)))
        them = next(free, None)
        if them is None:
            rounds.append([it])
        else:
            them.append(it)
    return rounds + [[it] for it in edits if stands_alone(it)]
