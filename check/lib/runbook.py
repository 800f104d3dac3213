"""runbook: the shell blocks of docs/RUNBOOKS.md."""
import os
import re

from lib import TOP

PAGE = os.path.join(TOP, "docs/RUNBOOKS.md")


def sections(text):
    """The shell blocks of each section by its heading, with comments for this check in them."""
    found = {}
    for part in text.split("\n## ")[1:]:
        lines = re.sub(r"<!-- try: (.*) -->", r"```sh\n:: \1\n```", part)
        blocks = re.findall(r"^```sh\n(.*?)^```$", lines, re.M | re.S)
        if blocks:
            found[part.splitlines()[0]] = "".join(blocks)
    return found


def chunks(block):
    """Commands, and the lines that they print, behind `# `. A folded line goes on after spaces."""
    found, commands = [], []
    for line in block.replace("\n#   ", " ").splitlines():
        if line.startswith("# "):
            if commands:
                found.append(("\n".join(commands), []))
                commands = []
            found[-1][1].append(line[2:])
        else:
            commands.append(line)
    if commands:
        found.append(("\n".join(commands), []))
    return found
