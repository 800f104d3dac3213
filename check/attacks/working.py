"""working: work that grows with what is held, for whoever may push or has signed in.

Each test gives a server facts in great number, and bounds the time of one further request. The
bounds are wide: without what stops the attack, each takes several times as long.
"""
import time

from lib.asking import request
from lib.cases import Case
from lib.facts import FAMILY, Maker, bundle, client, consent, dot, mark, text, withdrawal

CODES, USES, CONSENTS, PAGE = 20_000, 40_000, 20_000, 128


def sign_out(maker, moment):
    return dot(maker.new_dot()) + b"\n" + text(maker.subject) + moment.to_bytes(8, "big")


class Working(Case):
    def pushed(self, it, facts):
        for at in range(0, len(facts), PAGE):
            self.assertEqual(it.push(facts[at:at + PAGE])[0], 200)

    def timed(self, ask, wanted):
        """The seconds of a request that must have this status."""
        begin = time.perf_counter()
        said = ask()
        seconds = time.perf_counter() - begin
        self.assertEqual(said[0], wanted, said)
        return seconds

    def test_many_sign_outs_of_a_subject_with_many_codes(self):
        """3 KB held a server for 14 seconds, when each sign-out looked at all codes."""
        it, maker = self.tokend(1), Maker(2, subject=b"ann")
        self.pushed(it, [maker.code()[1] for _ in range(CODES)])
        outs = [sign_out(maker, maker.now + 1 + at) for at in range(PAGE)]
        self.assertLess(self.timed(lambda: it.push(outs), 200), 1)

    def test_marks_of_the_uses_of_one_token(self):
        """A page held a server for 1.5 seconds, when each mark looked at all uses."""
        it, maker = self.tokend(1), Maker(2, subject=b"ann")
        maker.now -= 2 * FAMILY
        at, given = maker.code()
        uses = [maker.redemption(at) for _ in range(USES)]
        self.pushed(it, [given, *(fact for _, fact in uses)])
        marks = [mark(*at) for at, _ in uses[:PAGE]]
        horizon = maker.now + FAMILY + 1
        self.assertLess(self.timed(lambda: it.push(marks, horizon), 200), 0.3)

    def test_consents_that_were_withdrawn(self):
        """A user gives and withdraws a consent by turns; each code looked at all of them."""
        it, facts = self.tokend(1), [client(2, 1)]
        for serial in range(2, 2 * CONSENTS, 2):
            facts.append(consent((2, serial), (2, 1), b"ann"))
            facts.append(withdrawal((2, serial + 1), (2, serial)))
        self.pushed(it, facts + [consent((2, 2 * CONSENTS), (2, 1), b"ann")])
        ask = "/authorize?response_type=code&client_id=c2-1&code_challenge=" + 43 * "x"
        ann = {"X-Subject": "ann"}
        self.assertIn("?code=", it.ask_as("GET", ask, **ann)[1])
        spent = [self.timed(lambda: it.ask_as("GET", ask, **ann), 302) for _ in range(11)]
        self.assertLess(sorted(spent)[5], 0.005)
