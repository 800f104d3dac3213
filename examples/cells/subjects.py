"""subjects: clients, consents and sign-outs in all cells."""
from __future__ import annotations

import contextlib
import http.client
import json
import os
import subprocess
import threading
import time
import urllib.parse
from typing import Iterable, Iterator, NamedTuple

from bases import connection_to, read_base
from bundles import Vector
from servers import Lost, Server, pages
from tables import NUMBERS, Site, Table, Wrong, slot_of
from ways import ACCESS, Way, complain, take

TIME = 10  # seconds for one request
STEP = 0.02
FORM = {"Content-Type": "application/x-www-form-urlencoded"}


class Given(NamedTuple):
    """A consent, whatever its id."""

    client: str
    subject: str
    scope: str


class Away(Wrong):
    """A site that gave no reply."""


def ask(site: Site, path: str, form: dict[str, str] | None = None,
        operator: str = "") -> tuple[int, str]:
    """Status and body of a site's reply. A form is sent in the name of an operator."""
    link = connection_to(read_base(site.url), TIME)
    with contextlib.closing(link):
        try:
            body = None if form is None else urllib.parse.urlencode(form)
            fields = {} if form is None else FORM | {"X-Operator": operator}
            link.request("GET" if form is None else "POST", path, body, fields)
            reply = link.getresponse()
            return reply.status, reply.read().decode(errors="replace").strip()
        except (OSError, http.client.HTTPException) as why:
            said = getattr(why, "strerror", None) or "no reply"
            raise Away("%s: %s" % (site.name, said)) from why


def ask_first(sites: list[Site], path: str, form: dict[str, str],
              operator: str) -> tuple[int, str]:
    """The reply of the first of these sites that gives one."""
    for it in sites[:-1]:
        with contextlib.suppress(Away):
            return ask(it, path, form, operator)
    return ask(sites[-1], path, form, operator)


def add_client(table: Table, form: dict[str, str], operator: str, patience: float) -> str:
    """Adds a client at the directory, and waits until all other sites know it. Returns its id."""
    status, said = ask_first(table.directory, "/admin/client", form, operator)
    if status != 201:
        raise Wrong("the directory: %d %s" % (status, said))
    client: str = json.loads(said)["client_id"]
    waiting, end = list(table.sites), time.monotonic() + patience
    while waiting:
        for it in list(waiting):
            with contextlib.suppress(Away):
                if ask(it, "/admin/client?client_id=" + client)[0] == 200:
                    waiting.remove(it)
        if waiting and time.monotonic() > end:
            raise Wrong("%s is added; not yet known at %s" % (
                client, " ".join(it.name for it in waiting)))
        time.sleep(STEP)
    return client


# -- a sign-out

def sign_out_at(sites: list[Site], subject: str, operator: str) -> str:
    """Signs a subject out at the first of a cell's sites that replies, and hands that on.

    Returns what went wrong, or nothing. A site that is down has it from the others at its start.
    """
    why = ""
    for it in sites:
        try:
            status, said = ask(it, "/admin/signout", {"subject": subject}, operator)
        except Away as error:
            why = str(error)
            continue
        if status == 200:
            hand_on(it, [other for other in sites if other != it])
            return ""
        if status == 400:
            raise Wrong("%s: %d %s" % (it.name, status, said))
        why = "%s: %d %s" % (it.name, status, said)
    return why


def hand_on(site: Site, others: list[Site]) -> None:
    for it in others:
        with contextlib.suppress(Lost):
            take(Way(site, it, NUMBERS))


def sign_out(table: Table, subject: str, operator: str, patience: float) -> int:
    """Signs a subject out in each cell and in the directory, and tries again each second.

    Status 1 if some cell has not replied in time. If the directory has replied, that cell has the
    sign-out from there, at its start or by the next carry.
    """
    home = table.home(slot_of(subject))
    waiting = {home.cell: [home, *table.beside(home)]}
    waiting |= {name: sites for name, sites in table.cells.items() if name != home.cell}
    waiting["directory"] = table.directory
    end = time.monotonic() + patience
    while True:
        causes: dict[str, str] = {}  # why a cell has not replied, by its name
        for name, sites in list(waiting.items()):
            why = sign_out_at(sites, subject, operator)
            if why:
                causes[name] = why
            else:
                print("%s: signed out" % name, flush=True)
                del waiting[name]
        if not waiting:
            return 0
        if time.monotonic() > end:
            for name, why in causes.items():
                print("%s: not yet: %s" % (name, why), flush=True)
            return 1
        time.sleep(1)


# -- what a site holds

def lines(site: Site) -> Iterator[dict[str, str]]:
    """All facts of a site, as `tokend facts` prints them."""
    program = subprocess.Popen([os.environ.get("TOKEND", "tokend"), "facts"],
                               stdin=subprocess.PIPE, stdout=subprocess.PIPE)
    lost: list[Lost] = []

    def feed() -> None:
        """Writes all pages of the site to the program's input."""
        try:
            with Server(site.url, ACCESS) as server, \
                    contextlib.closing(pages(server, Vector())) as found:
                for page in found:
                    program.stdin.write(page.write())
        except Lost as why:
            lost.append(why)
        program.stdin.close()

    feeder = threading.Thread(target=feed, daemon=True)
    feeder.start()
    for line in program.stdout:
        yield json.loads(line)
    feeder.join()
    if program.wait() or lost:
        raise lost[0] if lost else Wrong("tokend facts: status %d" % program.returncode)


def consents(site: Site) -> set[Given]:
    """The consents that a site holds, without those withdrawn and those to retired clients."""
    given, gone, retired = {}, set(), set()
    for it in lines(site):
        if it["kind"] == "consent_given":
            given[it["dot"]] = Given(it["client"], it["subject"], it["scope"])
        elif it["kind"] == "consent_withdrawn":
            gone.add(it["consent"])
        elif it["kind"] == "client_retired":
            retired.add(it["client"])
    return {it for dot, it in given.items() if dot not in gone and it.client not in retired}


def consents_of(sites: Iterable[Site]) -> set[Given]:
    """The consents of a cell, by its first site that replies."""
    why = None
    for it in sites:
        try:
            return consents(it)
        except Lost as error:
            why = error
    raise Wrong("no consents of a cell that is down: %s" % why)


def last_end(sites: list[Site]) -> int:
    """The moment at which the last family of a cell is over, in seconds since 1970."""
    why = None
    for it in sites:
        try:
            return max((int(fact["family_end_seconds"]) for fact in lines(it)
                        if fact["kind"] == "code_issued"), default=0)
        except Lost as error:
            why = error
    raise Wrong("a cell is down, and it is not known whether it has live families: %s" % why)


def give_again(table: Table, slots: tuple[int, ...], name: str, operator: str) -> int:
    """Gives the consents of these slots' subjects at another site too. Returns how many.

    They name who gives them again, and not who gave them at first.
    """
    target = table.site(name)
    there, count = consents_of([target, *table.beside(target)]), 0
    cells = {table.home(slot).cell: table.home(slot) for slot in slots}
    for home in cells.values():
        if home.cell == target.cell:
            continue
        for it in sorted(consents_of([home, *table.beside(home)]) - there):
            if slot_of(it.subject) in slots:
                status, said = ask(target, "/admin/consent", {
                    "client_id": "c" + it.client.replace(":", "-"), "subject": it.subject,
                    "scope": it.scope}, operator)
                if status not in (200, 201):
                    complain("%s: %s: %d %s" % (target.name, it, status, said))
                count += status == 201
    return count
