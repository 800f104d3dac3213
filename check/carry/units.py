"""units: the carrier's unit of examples/systemd, whose lines are run without a systemd; and what a
start waits for."""
import os
import shutil
import time
import unittest

from lib import TOP
from lib.cases import Case
from lib.facts import clients
from lib.unit import Unit, settings
from scripts import loaded

UNITS = os.path.join(TOP, "examples/systemd")
CARRY = UNITS + "/tokend-carry@.service"


class Carriers(Case):
    def setUp(self):
        super().setUp()
        units, commands = (os.path.join(self.folder, it)
                           for it in ("lib/systemd/system", "usr/lib/tokend"))
        os.makedirs(units)
        shutil.copy(CARRY, units)
        shutil.copytree(os.path.join(TOP, "examples/carry"), commands)
        shutil.copy(os.path.join(TOP, "starter/bases.py"), commands)

    def carrier(self, name, hub, *peers):
        """The unit of a file of two lines."""
        path = os.path.join(self.folder, "etc/tokend", name + ".conf")
        os.makedirs(os.path.dirname(path), exist_ok=True)
        with open(path, "w", encoding="utf-8") as file:
            file.write("TOKEND_PORT=%d\nTOKEND_PEERS=%s\n" % (hub.port, " ".join(peers)))
        return Unit(self.folder, "tokend-carry@.service", name)

    def test_a_silent_peer_holds_up_no_other(self):
        one, two = self.tokend(1, *clients(3, 1, 2)), self.tokend(2)
        _, silent = self.listener()
        quiet = self.carrier("silent", one, silent).start(TMPDIR=self.folder,
                                                          CARRY_CURL="curl -m 20")
        self.addCleanup(quiet.communicate)
        self.addCleanup(quiet.kill)
        time.sleep(1)
        began = time.monotonic()
        status, said = self.carrier("two", one, two.url).run(TMPDIR=self.folder)
        self.assertEqual(status, 0, said)
        self.assertLess(time.monotonic() - began, 5)
        self.assertEqual(two.held(), clients(3, 1, 2))
        self.assertIsNone(quiet.poll())

    def whole(self, unit, **more):
        """How the unit ends: systemd skips it if a condition has one of the statuses 1 to 254."""
        for number in range(len(unit.settings.get("ExecCondition", []))):
            status, said = unit.run("ExecCondition", number, **more)
            if status:
                return "skipped" if 1 <= status <= 254 else "failed", said
        status, said = unit.run(**more)
        return "failed" if status else "done", said

    def test_a_region_without_peers_fails_no_unit(self):
        one, two = self.tokend(1, *clients(3, 1)), self.tokend(2)
        self.assertEqual(self.whole(self.carrier("one", one)), ("skipped", ""))
        self.assertEqual(self.whole(self.carrier("one", one, two.url))[0], "done")
        self.assertEqual(two.held(), clients(3, 1))
        self.assertEqual(self.whole(self.carrier("one", one, "nowhere"))[0], "failed")

    def test_one_list_serves_all_sites(self):
        """What a site's own file has comes after the list; its own URL there is no other."""
        one, two, three = self.tokend(1, *clients(9, 1)), self.tokend(2), self.tokend(3)
        unit = self.carrier("one", one, two.url)
        with open(os.path.join(self.folder, "etc/tokend/sites"), "w", encoding="utf-8") as file:
            file.write("TOKEND_PEERS=http://localhost:%d %s %s\n" % (one.port, two.url, three.url))
        self.assertEqual(self.whole(unit)[0], "done")
        self.assertEqual((two.held(), three.held()), (clients(9, 1), []))
        with open(os.path.join(self.folder, "etc/tokend/one.conf"), "w", encoding="utf-8") as file:
            file.write("TOKEND_PORT=%d\nTOKEND_URL=http://localhost:%d\n" % (one.port, one.port))
        status, said = unit.run()
        self.assertEqual(status, 0)
        self.assertIn("%s: 2 others, 1 facts" % one.url, said)
        self.assertEqual(three.held(), clients(9, 1))

    def test_a_silent_peer_ends_its_own_run(self):
        one = self.tokend(1, *clients(3, 1))
        _, silent = self.listener()
        status, said = self.carrier("silent", one, silent).run(CARRY_CURL="curl -m 1")
        self.assertEqual(status, 1)
        self.assertIn("carry: %s/sync/pull: no reply within 1 s (tries: 1)" % silent, said)


class Clock(unittest.TestCase):
    def test_a_wait_that_gave_up_is_no_failure_and_is_not_repeated(self):
        """The unit stays as one that went well: no later start waits while the region is down."""
        with open(UNITS + "/tokend-clock.service", encoding="utf-8") as file:
            unit = settings(file.read())
        self.assertEqual(unit.get("SuccessExitStatus"), ["1"])
        self.assertEqual(unit.get("RemainAfterExit"), ["yes"])

    def setUp(self):
        self.clock, self.slept = loaded("systemd/await-clock"), []

    def wait(self, seconds, *states):
        """Whether it ends well if the kernel has these states, one after the other."""
        states = list(states)
        return self.clock.wait(seconds, lambda: states.pop(0) if states[1:] else states[0],
                               self.slept.append)

    def test_a_start_waits_for_a_clock_that_is_right(self):
        """By a unit that it wants and that ends before it, whoever synchronises the clock."""
        with open(UNITS + "/tokend.service", encoding="utf-8") as file:
            start = settings(file.read())
        waited = set(" ".join(start.get("Wants", [])).split()) & set(
            " ".join(start["After"]).split())
        self.assertEqual(waited, {"tokend-clock.service"})
        with open(UNITS + "/tokend-clock.service", encoding="utf-8") as file:
            clock = settings(file.read())
        self.assertEqual(clock["ExecStart"], ["/usr/lib/tokend/await-clock 120"])
        self.assertEqual(clock["Type"], ["oneshot"])
        allowed = " ".join(clock["SystemCallFilter"]).split()
        self.assertIn("clock_adjtime", allowed)
        self.assertNotIn("ProtectClock", clock)  # it would deny to ask

    def test_it_waits_until_the_kernel_says_so(self):
        self.assertTrue(self.wait(120, 5, 5, 5, 0))
        self.assertEqual(len(self.slept), 3)

    def test_a_leap_second_is_no_fault(self):
        for state in range(5):
            self.assertTrue(self.wait(120, state))
        self.assertEqual(self.slept, [])

    def test_a_clock_that_stays_wrong_is_waited_for_no_longer(self):
        self.assertFalse(self.wait(120, 5))
        self.assertEqual(len(self.slept), 120)

    def test_the_clock_of_this_machine(self):
        status, said = 0, ""
        if self.clock.state() == self.clock.ERROR:
            status, said = 1, "await-clock: not synchronised after 0 s: .*\n"
        child = Unit.begin([UNITS + "/await-clock", "0"])
        output = child.communicate()[0]
        self.assertEqual(child.returncode, status)
        self.assertRegex(output, "^" + said + "$")
