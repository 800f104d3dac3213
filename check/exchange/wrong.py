"""wrong: plain programs of which one rule is wrong. The comparison must find each to differ."""
from beside import OWN
from families import may_skip
from plain import CONFLICT, KIND, VERSIONS, Region


class CountsPastGaps(Region):
    def serial_held(self, region):
        return max(serial for number, serial in self.known if number == region)


class CountsNoMarks(Region):
    def serial_held(self, region):
        held = super().serial_held(region)
        return next((it - 1 for it in range(1, held + 1) if self.known[region, it] is None), held)


class HasEntriesOfZero(Region):
    def front(self):
        return dict.fromkeys((region for region, _ in self.known), 0) | super().front()


class CoversOneTooFew(Region):
    def is_covered(self, dot, vector):
        return dot[1] < vector.get(dot[0], 0)


class CoversOneTooMany(Region):
    def is_covered(self, dot, vector):
        return dot[0] in vector and dot[1] <= vector[dot[0]] + 1


class CoversOtherRegions(Region):
    def is_covered(self, dot, vector):
        return dot[1] <= max(vector.values(), default=0)


class BeginsAtItsCursor(Region):
    def is_above(self, dot, after):
        return after is None or dot >= after


class ComparesSerialsAlone(Region):
    def is_above(self, dot, after):
        return after is None or dot[1] > after[1]


class SortsBySerial(Region):
    def sort(self, dots):
        return sorted(dots, key=lambda dot: (dot[1], dot[0]))


class HasPagesOfOneMore(Region):
    max_items = Region.max_items + 1


class HasPagesOfOneLess(Region):
    max_items = Region.max_items - 1


class TakesOnePieceMore(Region):
    max_pieces = Region.max_pieces + 1


class TakesOnePieceLess(Region):
    max_pieces = Region.max_pieces - 1


class TakesOneMarkMore(Region):
    max_run_items = Region.max_run_items + 1


class TakesOneMarkLess(Region):
    max_run_items = Region.max_run_items - 1


class JoinsNoRuns(Region):
    def is_joined(self, before, item):
        return False


class JoinsOverGaps(Region):
    def is_joined(self, before, item):
        return before[1] is item[1] is None and before[0][0] == item[0][0]


class JoinsNoPairs(Region):
    """Marks are a run if there are three of them or more."""

    def pieces(self, items):
        found = super().pieces(items)
        return [part for piece in found for part in (
            [[it] for it in piece] if len(piece) == 2 else [piece])]


class HasSignOutsInTheFirst(Region):
    def has_item(self, version, fact):
        return super().has_item(version, fact) or fact is not None and fact[KIND] == 10


class HasKeepingClientsInTheFirst(Region):
    """A client that keeps its refresh token is in each version that has clients."""

    def has_item(self, version, fact):
        return super().has_item(version, fact) or fact is not None and fact[KIND] == 1


class TakesTheLastVersion(Region):
    def version(self, items, is_run):
        return [it for it in VERSIONS if (it == b"OTB6") == is_run
                and all(self.has_item(it, fact) for _, fact in items)][-1]


class LowersItsHorizon(Region):
    def raise_horizon(self, moment):
        self.horizon = moment


class KeepsItsHorizon(Region):
    def raise_horizon(self, moment):
        self.horizon = self.horizon or moment


class KeepsFactsAtMarks(Region):
    def join(self, dot, fact):
        self.known.setdefault(dot, fact)


class TakesFactsAtMarks(Region):
    def join(self, dot, fact):
        self.known[dot] = fact


class RaisesIfRefused(Region):
    def take(self, bundle):
        if bundle and bundle[0]:
            self.raise_horizon(bundle[0])
        return super().take(bundle)


class TakesTheFirstOfARefused(Region):
    def take(self, bundle):
        if bundle and self.refusal(bundle[1]):
            for item in bundle[1][:1]:
                self.join(*item)
        return super().take(bundle)


class AgreesWithAnyMark(Region):
    """A mark drops a fact of whatever kind."""

    def agrees(self, dot, fact):
        return fact is None or super().agrees(dot, fact)


class TakesAnyAtMarks(Region):
    """A fact of whatever kind is dropped at a mark."""

    def agrees(self, dot, fact):
        return self.known.get(dot, fact) is None or super().agrees(dot, fact)


class TakesItsOwn(Region):
    def refusal(self, items):
        return None if all(self.agrees(*it) for it in items) else CONFLICT


class PrunesOneSecondLate(Region):
    def may_skip(self, held, dot):
        return may_skip(held, self.horizon - 1, dot)


ALL = [it for it in list(globals().values()) if isinstance(it, type) and it.__mro__[1] is Region]


def differs(wrong, trace):
    """Whether a wrong program differs from the server's replies at some step of a trace."""
    region = wrong(OWN)
    return any(getattr(region, name)(*words) != got for name, words, got in trace)
