"""fronts: half requests at the front end, with the rules of nftables and without."""
import os
import shutil
import subprocess
import sys
import tempfile
import unittest

from lib import TOP
from lib.tls import make_certificate

HERE = os.path.dirname(os.path.abspath(__file__))
FRONT = os.path.join(TOP, "examples/front-end")
PATH = os.environ.get("PATH", "") + ":/usr/sbin:/sbin"
NEEDED = "nginx", "nft", "ip", "unshare", "openssl"
LACKING = [it for it in NEEDED if not shutil.which(it, path=PATH)]
IS_HERE = not LACKING and os.geteuid() == 0


def filled(folder):
    """nginx.conf of the front end, on port 443 of both loopback addresses."""
    make_certificate(folder)
    with open(FRONT + "/nginx.conf", encoding="utf-8") as file:
        text = file.read()
    text = text.replace("        listen 127.0.0.1:@FRONT@ ssl;\n",
                        "        listen 443 ssl;\n        listen [::]:443 ssl;\n")
    for name, value in (("DIR", folder), ("TOKEND", "127.0.0.1:9"), ("PAGE", "9"),
                        ("INTROSPECT", "9009"), ("USER", "www-data")):
        text = text.replace("@%s@" % name, value)
    with open(folder + "/nginx.conf", "w", encoding="utf-8") as file:
        file.write(text)


@unittest.skipUnless(IS_HERE, "passed over: it needs root and %s" % ", ".join(LACKING or NEEDED))
class HalfRequests(unittest.TestCase):
    def flooded(self, host, *rules):
        """What another address gets during the flood, and how many connections that holds."""
        with tempfile.TemporaryDirectory() as folder:
            os.chmod(folder, 0o711)  # nginx works as a user of its own
            filled(folder)
            done = subprocess.run(
                ["unshare", "-n", sys.executable, HERE + "/flood.py", folder, host, *rules],
                capture_output=True, text=True, check=False)
        self.assertEqual(done.returncode, 0, done.stderr)
        said, held = done.stdout.split()
        return said, int(held)

    def test_without_rules_one_address_shuts_the_front_end(self):
        """If this fails, nginx stops it, and the rules of the example are needed no more."""
        said, held = self.flooded("127.0.0.1")
        self.assertEqual((said, held > 200), ("silent", True), held)

    def test_with_the_rules_others_get_a_reply(self):
        for host in "127.0.0.1", "::1":
            said, held = self.flooded(host, FRONT + "/connections.nft")
            self.assertEqual((said, held), ("replied", 50), host)
