"""browser: a headless Chromium, driven by chromedriver."""
import base64
import contextlib
import http.client
import json
import os
import shutil
import subprocess
import unittest

from lib.waiting import free_port, listens, until

CHROMIUM, DRIVER = shutil.which("chromium"), shutil.which("chromedriver")
ELEMENT = "element-6066-11e4-a52e-4f735466cecf"
need_browser = unittest.skipUnless(CHROMIUM and DRIVER,
                                   "passed over: no chromium or no chromium-driver")


class Browser:
    """A session of WebDriver."""

    def __init__(self, port, folder):
        self.port, self.base = port, ""
        options = {"binary": CHROMIUM, "args": [
            "--headless=new", "--no-sandbox", "--disable-gpu", "--disable-dev-shm-usage",
            "--ignore-certificate-errors", "--window-size=480,560", "--hide-scrollbars",
            "--user-data-dir=" + folder]}
        said = self.ask("POST", "/session", {"capabilities": {"alwaysMatch": {
            "browserName": "chrome", "goog:chromeOptions": options,
            "acceptInsecureCerts": True}}})
        self.base = "/session/" + said["sessionId"]

    def ask(self, method, path, body=None):
        """Returns the value of a reply of chromedriver, of which an error is a failed test."""
        link = http.client.HTTPConnection("127.0.0.1", self.port, timeout=60)
        with contextlib.closing(link):
            link.request(method, self.base + path, None if body is None else json.dumps(body))
            value = json.load(link.getresponse())["value"]
        if isinstance(value, dict) and "error" in value:
            raise AssertionError(value["message"])
        return value

    def open(self, url):
        self.ask("POST", "/url", {"url": url})

    def find(self, css):
        return "/element/" + self.ask("POST", "/element", {"using": "css selector",
                                                           "value": css})[ELEMENT]

    def write(self, css, text):
        self.ask("POST", self.find(css) + "/value", {"text": text})

    def click(self, css):
        self.ask("POST", self.find(css) + "/click", {})

    def text(self, css="body"):
        return self.ask("GET", self.find(css) + "/text")

    def run(self, script):
        return self.ask("POST", "/execute/sync", {"script": script, "args": []})

    def press(self, key):
        """Presses a key where the focus is."""
        self.ask("POST", "/actions", {"actions": [{"type": "key", "id": "keys", "actions": [
            {"type": it, "value": key} for it in ("keyDown", "keyUp")]}]})

    def resize(self, width, height, scale=1):
        """Gives the page a size, which may be below that of a window; a picture is scaled."""
        self.ask("POST", "/goog/cdp/execute", {
            "cmd": "Emulation.setDeviceMetricsOverride", "params": {
                "width": width, "height": height, "deviceScaleFactor": scale, "mobile": False}})

    def says(self, text):
        """Whether the page, which may be on its way, comes to have a text."""
        def has():
            with contextlib.suppress(AssertionError):
                return text in self.text()
            return False
        return until(has, 10)

    def picture(self):
        return base64.b64decode(self.ask("GET", "/screenshot"))


def browser(case):
    """A browser of a test, which ends with it."""
    port = free_port()
    child = subprocess.Popen([DRIVER, "--port=%d" % port], stdout=subprocess.DEVNULL,
                             stderr=subprocess.DEVNULL)
    case.addCleanup(child.wait)
    case.addCleanup(child.terminate)
    case.assertTrue(until(lambda: listens(port)))
    it = Browser(port, os.path.join(case.folder, "chromium"))
    case.addCleanup(it.ask, "DELETE", "")
    return it
