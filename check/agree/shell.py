"""Shell blocks: the requests of README.md and QUICKSTART.md, and the script of SCRIPT.md, are run.

A block has commands, and below each its output behind `# `; a line that begins with `#` and three
spaces continues the one above. CODE, ACCESS, REFRESH and NEW_ACCESS are handles of earlier replies.
The requests take curl; without it a note on standard error says that they weren't sent."""
import re
import shutil
import subprocess
import sys

from lib import TOP
from requests import HANDLE, masked
from server import Server
from texts import QUICKSTART, README, SCRIPT, same, text_of


def commands(block):
    """Each command with its output."""
    block = re.sub(r"\\\n\s*", " ", block)
    block = block.replace("\n#   ", "")
    found = []
    for line in block.splitlines():
        if line.startswith("# "):
            found[-1][1].append(line[2:])
        elif line:
            found.append((line, []))
    return found


def blocks(name):
    return re.findall(r"^```sh\n(.*?)^```$", text_of(name), re.M | re.S)


def learn(handles, said):
    """Names the handles of a reply that are new."""
    fresh = [h for h in re.findall(HANDLE, said) if h not in handles.values()]
    for handle in fresh:
        kind = {"AQE": "CODE", "AQI": "ACCESS", "AQM": "REFRESH"}[handle[:3]]
        handles[kind if kind not in handles else "NEW_" + kind] = handle


def compare_requests(program, name):
    """Runs the requests of a document, and compares what each prints."""
    handles = {}
    with Server(program) as server:
        for block in blocks(name):
            for command, wanted in commands(block):
                if not command.startswith("curl "):
                    continue
                line = re.sub(r"=(CODE|ACCESS|REFRESH|NEW_ACCESS)\b",
                              lambda m: "=" + handles.get(m.group(1), m.group(1)), command)
                line = "at=http://127.0.0.1:%d; %s" % (server.port, line)
                line = line.replace("curl ", "curl -q --noproxy '*' ")
                done = subprocess.run(["bash", "-c", line], capture_output=True, text=True,
                                      timeout=20)
                said = done.stdout.replace("\r", "").strip()
                learn(handles, said)
                same(name, "the output of `%s`" % command, masked("\n".join(wanted)), masked(said))


def compare_script(program):
    """Runs the commands of SCRIPT.md, and compares what each prints."""
    for block in blocks(SCRIPT):
        for command, wanted in commands(block):
            line = command.replace("build/tokend", '"$TOKEND"', 1)
            done = subprocess.run(["bash", "-c", line], capture_output=True, text=True, cwd=TOP,
                                  timeout=20, env={"TOKEND": program, "PATH": "/usr/bin:/bin"})
            same(SCRIPT, "the output of `%s`" % command, wanted, done.stdout.splitlines())


def compare(program):
    compare_script(program)
    if not shutil.which("curl"):
        print("agree: no curl: the requests of %s and %s were not sent" % (README, QUICKSTART),
              file=sys.stderr)
        return
    for name in (README, QUICKSTART):
        compare_requests(program, name)
