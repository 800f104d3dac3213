"""fronts: HAProxy's files, made from the table, and HAProxy itself."""
from __future__ import annotations

import os
import re
import shutil
import socket
import subprocess
import time
from pathlib import Path
from typing import Iterator

from tables import SLOTS, Site, Table, Wrong

HERE = Path(__file__).resolve().parent
SCALE_OUT = HERE.parent / "scale-out/haproxy.cfg"
PATIENCE = 10  # seconds for HAProxy to listen
CHECKED = "check observe layer7 error-limit 1 on-error mark-down"
KEPT = "    http-reuse always\n"  # connections are kept, and used by all clients


def replaced(text: str, old: str, new: str) -> str:
    """Puts new text in the place of all of the old, of which there must be some."""
    if old not in text:
        raise Wrong("%s lacks %s" % (SCALE_OUT, old))
    return text.replace(old, new)


def common() -> str:
    """The front end of scale-out up to its administration, with this folder's number of slots."""
    text, found, _ = SCALE_OUT.read_text(encoding="utf-8").partition("\n# Administration")
    if not found:
        raise Wrong("%s has no administration" % SCALE_OUT)
    text = replaced(text, "mod(16)", "mod(%d)" % SLOTS)
    # a process that ends has each kept connection reply once more, and say that it closes
    text = replaced(text, "    mode http\n", "    mode http\n    option idle-close-on-response\n")
    # a new process takes the listening sockets over from the old one by this socket
    return replaced(text, "level admin", "level admin expose-fd listeners")


def server(site: Site, rest: str) -> str:
    return "    server %s %s %s\n" % (site.name, site.address, rest)


def tracked(site: Site, prefix: str = "") -> str:
    return server(site, "track %s%s/%s" % (prefix, site.name, site.name))


def of_site(table: Table, site: Site, prefix: str, more: str) -> str:
    """A site's backend, in which the other sites of its cell stand in."""
    others = "".join(server(it, "track %s%s/%s backup" % (prefix, it.name, it.name))
                     for it in table.beside(site))
    return "\nbackend %s%s\n%s%s%s" % (prefix, site.name, more, server(site, CHECKED), others)


def of_any(table: Table, prefix: str, more: str) -> str:
    """The backend of requests that name no site, such as those with an unknown handle."""
    return "\nbackend %sany\n%s    balance roundrobin\n%s" % (prefix, more, "".join(
        tracked(it, prefix) for it in table.sites if not it.is_directory))


def backends(table: Table) -> Iterator[str]:
    """Two backends for each site, one of them for introspections, and three more."""
    for prefix, more in ("", ""), ("kept-", KEPT):
        for site in table.sites:
            yield of_site(table, site, prefix, more)
        yield of_any(table, prefix, more)
    yield "\nbackend directory\n" + "".join(map(tracked, table.directory))


def configuration(table: Table, folder: Path, given: dict[str, str]) -> str:
    """The whole configuration. The folder's `users` has HAProxy's lines of who may sign in."""
    text = common() + "\n" + (HERE / "inside.cfg").read_text(encoding="utf-8")
    text += "".join(backends(table)) + "\nuserlist users\n"
    text += (folder / "users").read_text(encoding="utf-8")
    words = {"DIR": str(folder), "SLOTS": str(SLOTS), **given}
    return re.sub("@([A-Z]+)@", lambda it: words[it[1]], text)


def write_maps(table: Table, folder: Path) -> None:
    """The site of each region number, and the site of each slot."""
    write(folder / "sites.map", "".join("%d:%d %s\n" % (
        it.numbers[0], it.numbers[-1], it.name) for it in table.sites))
    write(folder / "subjects.map", "".join("%d %s\n" % (
        slot, table.home(slot).name) for slot in range(SLOTS)))


def write(path: Path, text: str) -> None:
    """Puts a file in the place of another at once."""
    new = path.with_name(path.name + ".new")
    new.write_text(text, encoding="utf-8")
    new.replace(path)


def command() -> str:
    found = shutil.which("haproxy", path=os.environ.get("PATH", "") + ":/usr/sbin")
    if not found:
        raise Wrong("no HAProxy (apt-get install haproxy)")
    return found


def begin(words: list[str], folder: Path) -> subprocess.Popen[bytes]:
    """Starts HAProxy so that it goes on when this command has ended. Its output has its log."""
    with open(folder / "haproxy.out", "ab") as file:
        return subprocess.Popen([command(), *words], stdin=subprocess.DEVNULL, stdout=file,
                                stderr=file, start_new_session=True)


def start(table: Table, folder: Path, given: dict[str, str]) -> None:
    """Writes HAProxy's files, and starts it, or has a new process take over from the old one.

    A configuration that HAProxy refuses is left beside the old one, which goes on.
    """
    write_maps(table, folder)
    new, path = folder / "haproxy.cfg.new", folder / "haproxy.cfg"
    new.unlink(missing_ok=True)
    new.touch(mode=0o600)  # it has the hashes of passwords
    new.write_text(configuration(table, folder, given), encoding="utf-8")
    if begin(["-c", "-q", "-f", str(new)], folder).wait():
        raise Wrong("HAProxy refuses %s: see %s" % (new, folder / "haproxy.out"))
    new.replace(path)
    words, old = ["-f", str(path)], running(folder)
    if old:
        words += ["-x", str(folder / "haproxy.sock"), "-sf", old]
    child = begin(words, folder)
    end = time.monotonic() + PATIENCE
    while running(folder) != str(child.pid):
        if child.poll() is not None or time.monotonic() > end:
            raise Wrong("HAProxy did not start: see %s" % (folder / "haproxy.out"))
        time.sleep(0.02)
    write(folder / "haproxy.pid", "%d\n" % child.pid)


def running(folder: Path) -> str:
    """The process of the HAProxy that has the socket, or nothing."""
    try:
        found = re.search(r"^Pid: (\d+)$", tell(folder, "show info"), re.M)
    except OSError:
        return ""
    return found[1] if found else ""


def tell(folder: Path, command: str) -> str:
    """The reply of a running HAProxy to a command."""
    with socket.socket(socket.AF_UNIX) as link:
        link.settimeout(10)
        link.connect(str(folder / "haproxy.sock"))
        link.sendall(command.encode() + b"\n")
        said = b""
        while piece := link.recv(65_536):
            said += piece
    return said.decode().strip()


def require(folder: Path, site: str) -> None:
    """Refuses a site that a running HAProxy has not read yet: requests for it would be lost."""
    if running(folder) and site not in tell(folder, "show backend").split():
        raise Wrong("HAProxy doesn't know %s yet: `cells front` first" % site)


def move(table: Table, folder: Path, slots: tuple[int, ...]) -> None:
    """Has a running HAProxy send new logins of these slots to their sites in the table."""
    write_maps(table, folder)
    if not running(folder):
        return
    for slot in slots:
        said = tell(folder, "set map %s %d %s" % (folder / "subjects.map", slot,
                                                  table.home(slot).name))
        if said:
            raise Wrong("HAProxy: %s" % said)
