"""streams: a site whose facts go to a region by a stream of Redis."""
import hashlib
import os
import random
import shutil
import subprocess
import unittest

from lib import TOP, command
from lib.cases import Case
from lib.waiting import free_port, listens, until

PYTHON = "/usr/bin/python3"  # the distribution's, which its packages are for
REDIS = shutil.which("redis-server")
EXAMPLE = os.path.join(TOP, "examples/fan-out")
START, COMPACT = "../starter/tokend-start", "two-regions/compact"
NUMBERS, TWO = 99, 2000  # of the site's numbers; the region's
FACTS, EVERY = 40, 5  # facts of a test, and facts between two kills
PATIENCE = 60


def has_module():
    return REDIS and os.path.exists(PYTHON) and not subprocess.run(
        [PYTHON, "-c", "import redis"], capture_output=True, check=False).returncode


@unittest.skipUnless(has_module(), "passed over: no redis-server, or no python3-redis")
class Streams(Case):
    def setUp(self):
        super().setUp()
        self.one, self.two = self.site(1, count=NUMBERS, script=START), self.tokend(TWO)
        self.children, self.port = {}, free_port()
        for user in "follow", "push":
            self.write(user, "word of " + user)
        self.configure()
        self.begin("redis")

    def write(self, name, text):
        path = os.path.join(self.folder, name)
        with open(path, "w", encoding="utf-8") as file:
            file.write(text)
        return path

    def configure(self):
        """The files of the example, with folder, port and digests of passwords in their places."""
        words = {"@DIR@": self.folder, "@PORT@": str(self.port)}
        words |= {"@%s@" % user.upper(): hashlib.sha256(("word of " + user).encode()).hexdigest()
                  for user in ("follow", "push")}
        for name in "redis.conf", "users.acl":
            with open(os.path.join(EXAMPLE, name), encoding="utf-8") as file:
                text = file.read()
            for word, value in words.items():
                text = text.replace(word, value)
            self.write(name, text)

    def words(self, name):
        """The command of a part."""
        broker = ["--broker", "redis", "--topic", "tokend:one", "--port", str(self.port),
                  "--password", os.path.join(self.folder, name)]
        folder = str(self.one.folder)
        return {
            "redis": [REDIS, self.folder + "/redis.conf"],
            "follow": [EXAMPLE + "/follow", "--state", self.folder + "/state", "--user", "follow",
                       *broker, "--history", folder + "/history", "--numbers", self.one.numbers,
                       folder + "/log", folder + "/old"],
            "push": [EXAMPLE + "/push", "--name", "push-two", "--user", "push-two", "--to",
                     self.two.url, *broker]}[name]

    def begin(self, *names):
        """Starts programs by their names, and waits for Redis."""
        for name in names:
            with open(os.path.join(self.folder, name + ".out"), "ab") as out:
                child = subprocess.Popen(self.words(name), stdin=subprocess.DEVNULL, stdout=out,
                                         stderr=out, cwd=self.folder)
            self.addCleanup(child.wait)
            self.addCleanup(child.kill)
            self.children[name] = child
            if name == "redis":
                self.assertTrue(until(lambda: listens(self.port)), self.said(name))

    def said(self, name):
        with open(os.path.join(self.folder, name + ".out"), encoding="utf-8") as file:
            return file.read()

    def slay(self, name):
        self.children[name].kill()
        self.children[name].wait()

    def assert_arrives(self, number, serial):
        """Waits until the region has all facts of a number up to this one."""
        until(lambda: self.two.held_to().get(number, 0) >= serial, PATIENCE)
        self.assertEqual(self.two.held_to().get(number, 0), serial, self.said("redis")[-300:])

    def restart(self):
        """The next run of the site, whose number it returns."""
        self.one.stop()
        self.one.begin(script=START)
        self.assertTrue(until(self.one.is_up), self.one.said())
        return int((self.one.folder / "number").read_text(encoding="ascii"))

    def compact(self):
        """Merges the logs of ended runs."""
        said = self.run_script(COMPACT, str(self.one.folder), TOKEND=command.GIVEN.program)
        self.assertEqual(said[0], 0, said)
        self.assertEqual(list((self.one.folder / "old").iterdir()), [])

    def test_facts_arrive_by_themselves(self):
        self.begin("follow", "push")
        self.one.add(3)
        self.assert_arrives(1, 3)
        self.assertEqual(self.said("follow") + self.said("push"), "")

    def test_a_reader_that_comes_late_gets_all(self):
        self.begin("follow")
        self.one.add(3)
        until(lambda: os.path.exists(self.folder + "/state"))
        self.begin("push")
        self.assert_arrives(1, 3)

    def test_nothing_is_lost_whoever_is_killed(self):
        self.begin("follow", "push")
        dice, names = random.Random(1), ("redis", "follow", "push")
        for count in range(1, FACTS + 1):
            self.one.add()
            if count % EVERY == 0:
                name = dice.choice(names) if count > EVERY * len(names) else (
                    names[count // EVERY - 1])
                self.slay(name)
                self.one.add()
                self.begin(name)
        self.assert_arrives(1, FACTS + FACTS // EVERY)

    def test_what_compact_merges_before_it_was_published_arrives(self):
        self.one.add(5)
        number = self.restart()
        self.one.add(1)
        last = self.restart()
        self.one.add(2)
        self.compact()
        self.begin("follow", "push")
        for dot in (1, 5), (number, 1), (last, 2):
            self.assert_arrives(*dot)

    def test_a_publisher_that_was_dead_goes_on(self):
        """Its place outlasts it: what was published isn't sent again, also after a compact."""
        self.begin("follow", "push")
        self.one.add(5)
        self.assert_arrives(1, 5)
        until(lambda: '"published": {"1": [5' in self.state())
        self.slay("follow")
        number = self.restart()
        self.one.add(2)
        last = self.restart()
        self.compact()
        before = len(self.two.held())
        self.begin("follow")
        self.one.add(1)
        self.assert_arrives(number, 2)
        self.assert_arrives(last, 1)
        self.assertEqual(before, 5)
        self.assertLessEqual(self.messages(), 5 + 2 + 1)

    def state(self):
        path = self.folder + "/state"
        if not os.path.exists(path):
            return ""
        with open(path, encoding="utf-8") as file:
            return file.read()

    def messages(self):
        """How many messages the stream has got, by the file that Redis appends to."""
        folder, count = os.path.join(self.folder, "appendonlydir"), 0
        for name in os.listdir(folder):
            with open(os.path.join(folder, name), "rb") as file:
                count += file.read().upper().count(b"\r\nXADD\r\n")
        return count

    def test_a_stranger_and_a_reader_publish_nothing(self):
        self.write("follow", "a guess")
        self.begin("follow", "push")
        self.one.add(1)
        self.assertTrue(until(lambda: "invalid username-password pair" in self.said("follow")))
        self.slay("follow")
        words = self.words("follow")
        words[words.index("follow", 1)] = "push-two"
        self.write("follow", "word of push")
        self.children["follow"] = child = subprocess.Popen(
            words, stdin=subprocess.DEVNULL, stderr=subprocess.PIPE, text=True, cwd=self.folder)
        self.addCleanup(child.communicate)
        self.addCleanup(child.kill)
        self.assertIn("no permissions to run the 'xadd' command", child.stderr.readline())
        self.assertEqual(self.two.held_to(), {})
