"""rules: the alert rules, judged and tested by promtool."""
import os
import re
import shutil
import subprocess
import unittest

from lib import TOP

FOLDER = os.path.join(TOP, "examples/metrics")


def promtool(*words):
    done = subprocess.run(["promtool", *words], cwd=FOLDER, text=True, stdout=subprocess.PIPE,
                          stderr=subprocess.STDOUT, check=False)
    return done.returncode, done.stdout


def read(name):
    with open(os.path.join(FOLDER, name), encoding="utf-8") as file:
        return file.read()


class Rules(unittest.TestCase):
    def test_each_alert_says_what_to_do_and_is_tested(self):
        alerts = read("rules.yml").split("- alert: ")[1:]
        self.assertGreater(len(alerts), 5)
        for text in alerts:
            name = text.split()[0]
            self.assertEqual(len(re.findall('(?m)^ +do: ".*[.]"$', text)), 1, name)
            self.assertIn('alertname="%s"' % name, read("rules-test.yml"))

    def test_each_metric_of_a_rule_is_collected(self):
        """It is one that the command writes, or that the server shows."""
        named = set(re.findall(r"tokend_(\w+)", read("rules.yml")))
        sources = "".join(read(os.path.join(TOP, "crates/tokend/src", it + ".rt"))
                          for it in ("exposition", "replies_text"))
        shown = set(re.findall(r"# TYPE tokend_(\w+)", sources))
        written = set(re.findall(r'(?m)^    "(\w+)": ', read("metrics")))
        self.assertLessEqual(named, written | shown)

    @unittest.skipUnless(shutil.which("promtool"), "passed over: no promtool (prometheus)")
    def test_promtool_finds_no_fault(self):
        status, said = promtool("check", "rules", "--lint=all", "--lint-fatal", "rules.yml")
        self.assertEqual(status, 0, said)

    @unittest.skipUnless(shutil.which("promtool"), "passed over: no promtool (prometheus)")
    def test_each_alert_fires_for_a_bad_site_alone(self):
        status, said = promtool("test", "rules", "rules-test.yml")
        self.assertEqual(status, 0, said)
