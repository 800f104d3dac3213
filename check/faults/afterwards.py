"""afterwards: whether a server whose calls failed, and its log, are as docs/OPERATING.md says."""
import os
import re
import subprocess

from lib import TOP, Broken
from lib.asking import Asked
from lib.command import GIVEN
from lib.listing import listed
from lib.server import Server

SECONDS = 60
SEALED = "fault log"
NEXT = 3  # the number of the region that loads the log


def read_messages():
    """Each line on standard error of docs/OPERATING.md, as a pattern, with its status or none."""
    with open(os.path.join(TOP, "docs/OPERATING.md"), encoding="utf-8") as file:
        found = re.findall(r"^\| `([^`]+)` \| ?(\d?) ?\|", file.read(), re.M)
    return [(re.sub(r"\bN\b|\bK\b", r"\\d+", re.sub("FILE", ".+", re.escape(text))),
             int(status or 0)) for text, status in found]


MESSAGES = read_messages()


def is_listed(line, status=0):
    """Whether the page has a line with this exit status; 0 for a program that goes on."""
    return any(re.fullmatch(text, line) and status == it for text, it in MESSAGES)


def wrong_end(ended, folder, old=None):
    """Yields what is wrong with a program that ended before it listened, and with its logs."""
    lines = ended.errors.splitlines()
    if len(lines) != 1 or not is_listed(lines[0], ended.status):
        yield "it ended with status %s and %r" % (ended.status, ended.errors)
    for name in os.listdir(folder):
        if name.startswith("log") and os.path.getsize(os.path.join(folder, name)):
            yield "it left a log that isn't empty"
    if old:
        with open(os.path.join(folder, "old"), "rb") as file:
            if file.read() != old:
                yield "it changed the old log"


def wrong_server(server, story):
    """Yields what is wrong with a server that runs behind its story.

    A log that failed is reported, left a request without a reply, and had all later ones get 503.
    """
    if server.child.poll() is not None:
        yield "it ended with status %d" % server.child.poll()
    lines = server.errors().splitlines()
    for it in lines:
        if not is_listed(it):
            yield "it printed %r" % it
    if (SEALED in lines) != bool(story.away):
        yield "%d times %s, and %d times 503" % (lines.count(SEALED), SEALED, story.away)
    if story.away and not (story.row.way.is_of_log and story.silent):
        yield "503, and no call of the log failed under a request"
    if story.is_over and not story.row.is_lasting and not story.away:
        yield "a request got no reply at its last attempt"


def wrong_log(story, log):
    """Yields what is wrong with the log of a server: it loads whole, and has all that was said."""
    ran = subprocess.run([GIVEN.program, "facts", "--check"], input=log, capture_output=True,
                         timeout=SECONDS, check=False)
    if ran.returncode or ran.stderr:
        yield "the log doesn't load: %r" % ran.stderr
        return
    objects = listed(log)
    for wanted in story.facts:
        if not any(wanted.items() <= it.items() for it in objects):
            yield "the log lacks %s" % wanted
    try:
        yield from wrong_tokens(story, log)
    except Broken as why:
        yield "after a start: %s" % why


def wrong_tokens(story, log):
    """Yields what a region that loads the log replies of tokens, other than the story was told."""
    if not story.active:
        return
    with Server(GIVEN.program, region=NEXT, load=log) as server:
        asked = Asked()
        asked.port, asked.resource = server.port, story.resource
        for token, is_active in story.active.items():
            if asked.is_active(token) != is_active:
                yield "the token %s is %s after a start" % (
                    token, "inactive" if is_active else "active")
