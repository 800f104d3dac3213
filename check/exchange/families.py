"""families: which facts a prune skips, by the words of docs/DEFINITIONS.md.

`held` has the bytes of each fact that is held, by its dot.
"""
CODE, REDEMPTION, ROTATION, REVOCATION, REUSE, REFRESHED = 5, 6, 7, 8, 9, 12
ENDED = 21  # a revocation in which an operator is named
MINTING = {CODE, REDEMPTION, ROTATION, REFRESHED}  # kinds of facts that mint a token
PASSING = MINTING | {REVOCATION, REUSE, ENDED}  # kinds that are kept for a token; others last
KIND, NAMED, GENERATION, FAMILY_END = 10, 11, 21, 79  # places in a fact


def number(fact, at, size):
    return int.from_bytes(fact[at:at + size], "big")


def named(fact):
    """The dot that a fact of a passing kind names, other than a code."""
    return number(fact, NAMED, 2), number(fact, NAMED + 2, 8)


def fits(fact, above):
    """Whether a redemption or a rotation fits the fact at the dot that it names."""
    if fact[KIND] == REDEMPTION:
        return above[KIND] == CODE
    generation = number(fact, GENERATION, 2)
    if above[KIND] == REDEMPTION:
        return generation == 1
    return above[KIND] == ROTATION and generation == number(above, GENERATION, 2) + 1


def code_over(held, dot):
    """The code that a dot is under, or None."""
    fact = held.get(dot)
    if fact is None or fact[KIND] not in (CODE, REDEMPTION, ROTATION):
        return None
    if fact[KIND] == CODE:
        return fact
    above = held.get(named(fact))
    return code_over(held, named(fact)) if above and fits(fact, above) else None


def is_over(held, horizon, dot):
    """Whether the family of the tokens that were minted at a dot is over."""
    fact = held.get(dot)
    if fact is None:
        return False
    code = code_over(held, named(fact) if fact[KIND] == REFRESHED else dot)
    return code is not None and number(code, FAMILY_END, 8) <= horizon


def may_skip(held, horizon, dot):
    """Whether the fact at a dot is kept for a token whose family is over, or that can't come."""
    fact = held[dot]
    if fact[KIND] not in PASSING:
        return False
    kept_for = dot if fact[KIND] in (CODE, REDEMPTION, ROTATION) else named(fact)
    barren = kept_for in held and held[kept_for][KIND] not in MINTING
    return barren or is_over(held, horizon, kept_for)
