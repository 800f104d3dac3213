"""The settings of a start: its arguments, and variables of the environment."""
import os
import re
import shutil
import time
import typing

from bases import UNIX, own, socket_path
from starting.stop import SETTINGS, Stop

MAX_NUMBER = 65_535  # of region numbers and of ports
SECONDS = 60  # that all peers together may take
MIN_MARGIN = 86_400  # seconds: more than clocks of regions ever differ
MIN_PART, MAX_PART = 65_536, 1 << 40  # bytes of a log's part


class Places(typing.NamedTuple):
    """Where a run listens: at a socket, or at a port if that is empty; and at an inner socket."""
    socket: str
    port: int
    inner: str

    def sockets(self):
        return [it for it in (self.socket, self.inner) if it]

    def options(self):
        """The options of the server for these."""
        first = ["--socket", self.socket] if self.socket else ["--port", str(self.port)]
        return first + (["--inner", self.inner] if self.inner else [])


class Settings(typing.NamedTuple):
    """All of it, with names of files that are absolute."""
    folder: str
    places: Places
    numbers: range
    accepted: str
    tokend: str
    options: list
    challenge: str
    issuer: str
    peers: list
    seconds: int
    margin: typing.Optional[int]
    patience: int
    part: typing.Optional[int]

    def ranges(self):
        """The options of the server for the site's numbers, and for those of all sites."""
        own = ["--range", "%d-%d" % (self.numbers[0], self.numbers[-1])]
        return own + (["--accept", self.accepted] if self.accepted else [])

    def prune(self):
        """The moment up to which a run is pruned that starts now; None for no prune."""
        return None if self.margin is None else max(0, int(time.time()) - self.margin)


def number(text, least, greatest, what):
    """The number that a text of decimal digits spells, within its bounds."""
    if not re.fullmatch(r"[0-9]{1,13}", text) or not least <= int(text) <= greatest:
        raise Stop(SETTINGS, "%s is %r, and not a number from %d to %d"
                   % (what, text, least, greatest))
    return int(text)


def given(environ, arguments):
    """The environment, with the three arguments in the places of their variables."""
    if not arguments:
        return environ
    if len(arguments) != 3:
        raise Stop(SETTINGS, "usage: tokend-start [FOLDER PORT|unix:PATH FIRST-LAST]")
    folder, place, numbers = arguments
    is_socket = place.startswith(UNIX)
    if place == UNIX:
        raise Stop(SETTINGS, "unix: has no path behind it")
    first, _, last = numbers.partition("-")
    return {**environ, "STATE_DIRECTORY": folder, "TOKEND_FIRST": first, "TOKEND_LAST": last,
            "TOKEND_PORT": "" if is_socket else place,
            "TOKEND_SOCKET": place[len(UNIX):] if is_socket else ""}


def command(text):
    """The absolute name of a program, which is a file or a name on the path."""
    found = shutil.which(text)
    if not found:
        raise Stop(SETTINGS, "TOKEND is %r, and no program" % text)
    return os.path.abspath(found)


def path_in(environ, name):
    """The absolute path of a socket that a variable names; nothing if it is empty."""
    path = environ.get(name)
    try:
        return path and socket_path(os.path.abspath(path))
    except ValueError as why:
        raise Stop(SETTINGS, "%s: %s" % (name, why)) from None


def places_of(environ):
    """The sockets, or the port and perhaps an inner socket."""
    it = Places(path_in(environ, "TOKEND_SOCKET"), 0, path_in(environ, "TOKEND_INNER"))
    if it.socket and it.socket == it.inner:
        raise Stop(SETTINGS, "TOKEND_SOCKET and TOKEND_INNER are one path")
    text = environ.get("TOKEND_PORT", "")
    if it.socket and text:
        raise Stop(SETTINGS, "TOKEND_SOCKET and TOKEND_PORT are both set")
    return it if it.socket else it._replace(port=number(text, 1, MAX_NUMBER, "TOKEND_PORT"))


def url_of(environ):
    """The base URL at which the site answers the starter."""
    places_of(environ)
    return own(environ)


def main_process(environ):
    """The process that a service manager watches; 0 if there is none."""
    return number(environ.get("MAINPID") or "0", 0, 999_999_999, "MAINPID")


def margin_of(environ):
    """How many seconds before its start, and before now, a run is pruned; None for no prune."""
    text = environ.get("TOKEND_PRUNE_MARGIN")
    return number(text, MIN_MARGIN, 999_999_999, "TOKEND_PRUNE_MARGIN") if text else None


def part_of(environ):
    """At how many bytes a log goes on in a next file; None for a log of one file."""
    text = environ.get("TOKEND_LOG_PART")
    return number(text, MIN_PART, MAX_PART, "TOKEND_LOG_PART") if text else None


def peers_of(environ):
    """The other regions: of a list that all sites may have, those that aren't this one."""
    own = environ.get("TOKEND_URL", "").rstrip("/")
    return [it for it in environ.get("TOKEND_PEERS", "").split() if it.rstrip("/") != own]


def read(environ, arguments):
    """The settings of a start. Nothing is changed by reading them."""
    environ = given(environ, arguments)
    folder = environ.get("STATE_DIRECTORY", "")
    if not folder:
        raise Stop(SETTINGS, "STATE_DIRECTORY is not set, and no folder is named")
    first = number(environ.get("TOKEND_FIRST", ""), 1, MAX_NUMBER, "TOKEND_FIRST")
    last = number(environ.get("TOKEND_LAST", ""), first, MAX_NUMBER, "TOKEND_LAST")
    seconds = environ.get("TOKEND_PEER_SECONDS", str(SECONDS))
    return Settings(
        os.path.abspath(folder), places_of(environ), range(first, last + 1),
        environ.get("TOKEND_ACCEPT", ""), command(environ.get("TOKEND") or "tokend"),
        environ.get("TOKEND_OPTIONS", "").split(), environ.get("TOKEND_CHALLENGE", ""),
        environ.get("TOKEND_ISSUER", ""), peers_of(environ),
        number(seconds, 0, 86_400, "TOKEND_PEER_SECONDS"), margin_of(environ),
        number(environ.get("TOKEND_AHEAD_SECONDS") or "0", 0, 86_400, "TOKEND_AHEAD_SECONDS"),
        part_of(environ))
