"""at_once: programs that refresh more than once at a time: mutt_oauth2.py, an application."""
import json
import os
import shutil
import subprocess
import sys
import time
import unittest
import urllib.request
from concurrent.futures import ThreadPoolExecutor

from mail_programs import OAUTH2, mutt_oauth2, write_tokens
from repeating import RepeatCase, Repeats

NODE = shutil.which("node")
HAS_FETCH = NODE and not subprocess.run([NODE, "-e", "fetch"], capture_output=True,
                                        check=False).returncode
REQUESTS = 8
ROUND_TRIP = 0.05  # seconds
APPLICATION = """
const [url, form] = process.argv.slice(1);
let kept = {...JSON.parse(form), expiry: 0};
async function access() {  // without a lock
    if (Date.now() > kept.expiry) {
        const {grant_type, client_id, refresh_token} = kept;
        const reply = await fetch(url, {
            method: "POST", body: new URLSearchParams({grant_type, refresh_token, client_id})});
        const said = await reply.json();
        if (!reply.ok) return said.error;
        kept = {...kept, ...said, expiry: Date.now() + said.expires_in * 1000};
    }
    return kept.access_token;
}
require("http").createServer(async (request, response) => response.end(await access()))
    .listen(0, "127.0.0.1", function () { console.log(this.address().port); });
"""


@unittest.skipUnless(os.path.exists(OAUTH2), "passed over: no " + OAUTH2)
class TwoOfMuttOauth2(Repeats, RepeatCase):
    """Two processes of Debian's script, which has no lock, with one file of tokens.

    The front end is as far from them as over the internet, not on their machine.
    """

    def serve(self, *options):
        super().serve(*options)
        self.treat = self.far

    def far(self, path, body):
        time.sleep(ROUND_TRIP)
        return self.pass_on(path, body)

    def refresh(self, tokens):
        path = os.path.join(self.folder, tokens["refresh_token"])
        write_tokens(path, tokens["refresh_token"])
        script = os.path.join(self.folder, "mutt_oauth2.py")
        with open(script, "w", encoding="utf-8") as file:
            file.write(mutt_oauth2(self.front.url + "/token", self.back, self.client))
        children = [subprocess.Popen([sys.executable, script, path], text=True,
                                     stdout=subprocess.PIPE) for _ in range(2)]
        said = [child.communicate(timeout=60)[0] for child in children]
        return [it.split()[-1] for it in said if it]  # nothing if it read a file half written


@unittest.skipUnless(HAS_FETCH, "passed over: no node with fetch (apt-get install nodejs)")
class EightAtOnce(Repeats, RepeatCase):
    """A small application that gets eight requests after its access token's end."""

    def refresh(self, tokens):
        with subprocess.Popen([NODE, "-e", APPLICATION, self.front.url + "/token", json.dumps(
                self.form_of(tokens))], text=True, stdout=subprocess.PIPE) as child:
            url = "http://127.0.0.1:%d/" % int(child.stdout.readline())
            with ThreadPoolExecutor(REQUESTS) as pool:
                got = list(pool.map(lambda _: self.page(url), range(REQUESTS)))
            child.terminate()
        return got

    @staticmethod
    def page(url):
        with urllib.request.urlopen(url, timeout=60) as reply:
            return reply.read().decode()
