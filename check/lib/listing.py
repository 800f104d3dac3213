"""listing: facts as `tokend facts` prints them, and by whom they were administered."""
import json
import subprocess

from lib import command


def listed(data):
    """The objects that `tokend facts` prints of bundles."""
    ran = subprocess.run([command.GIVEN.program, "facts"], input=data, stdout=subprocess.PIPE,
                         check=True)
    return [json.loads(it) for it in ran.stdout.splitlines()]


def operators(data):
    """Of each fact of bundles in which an operator is named: its kind and the operator."""
    return [(it["kind"], it["by"]["operator"]) for it in listed(data) if "by" in it]
