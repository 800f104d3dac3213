"""port: whom the rules that docs/OPERATING.md has for a port let through."""
import os
import re
import shutil
import subprocess
import sys
import tempfile
import unittest

from lib import TOP

HERE = os.path.dirname(os.path.abspath(__file__))
PATH = os.environ.get("PATH", "") + ":/usr/sbin:/sbin"
NEEDED = "nft", "ip", "unshare"
LACKING = [it for it in NEEDED if not shutil.which(it, path=PATH)]
IS_HERE = not LACKING and os.geteuid() == 0
FRONT, NOBODY = "33", "65534"  # www-data of Debian, and nobody


def rules():
    """The table that the page shows."""
    with open(TOP + "/docs/OPERATING.md", encoding="utf-8") as file:
        return re.search(r"^ *table inet tokend\n.*?(?=^ *```$)", file.read(), re.M | re.S).group()


@unittest.skipUnless(IS_HERE, "passed over: it needs root and %s" % ", ".join(LACKING or NEEDED))
class RulesOfAPort(unittest.TestCase):
    def test_the_front_end_connects_and_nobody_else(self):
        with tempfile.NamedTemporaryFile("w", suffix=".nft") as file:
            file.write(rules())
            file.flush()
            done = subprocess.run(
                ["unshare", "-n", sys.executable, HERE + "/allowed.py", file.name, FRONT, NOBODY],
                capture_output=True, text=True, check=False)
        self.assertEqual(done.returncode, 0, done.stderr)
        self.assertEqual(done.stdout.split(), [FRONT + ":connected:connected",
                                               NOBODY + ":connected:refused"])
