"""The program that is started: what it says of a file and of options, and where it listens."""
import contextlib
import os
import re
import signal
import socket
import stat
import subprocess
import time

from starting.peers import FAULTS, Peer
from starting.stop import FAILED, HELD, SETTINGS, Stop, no_log

NOTHING = "/dev/null"
ANY_PORT = "--port", "0"
PAUSE = 0.2  # seconds between two questions whether it listens
# what is passed unless TOKEND_OPTIONS has the option
CHOICES = (("ahead", "refused"), ("revoke-unseen", "authenticated"), ("consent", "held"),
           ("redirects", "https,loopback,app"), ("refresh-seen", "client"), ("keep", "60"),
           ("repeat", "10"))
# options that TOKEND_OPTIONS can't have, and what stands for them
INSTEAD = (("inner", "name that socket by TOKEND_INNER"),
           ("range", "name these numbers by TOKEND_FIRST and TOKEND_LAST"),
           ("accept", "name these numbers by TOKEND_ACCEPT"),
           ("log-part", "name these bytes by TOKEND_LOG_PART"))


@contextlib.contextmanager
def seed():
    """The reading end of a pipe with 32 random bytes. No file ever has them."""
    reader, writer = os.pipe()
    try:
        os.write(writer, os.urandom(32))
        os.close(writer)
        yield reader
    finally:
        os.close(reader)


def said_of(name, options):
    """The value of an option among these; nothing if they don't have it."""
    found = re.search(r"(?:^| )--%s[= ](\S*)" % name, " ".join(options))
    return found[1] if found else ""


def words(settings, number, places, load, log, secret, prune):
    pruned = [] if prune is None else ["--prune", str(prune)]
    margin = "" if prune is None else str(settings.margin)
    given = (("challenge", settings.challenge), ("issuer", settings.issuer),
             ("prune-margin", margin))
    choices = CHOICES + tuple(it for it in given if it[1])
    ranges = settings.ranges() if number in settings.numbers else []
    chosen = [word for name, value in choices if not said_of(name, settings.options)
              for word in ("--" + name, value)]
    return [settings.tokend, "serve", "--region", str(number), *places,
            "--seed", "/dev/fd/%d" % secret, "--load", load, "--log", log, "--log-taken",
            *pruned, *ranges, *chosen, *settings.options]


def tried(settings, number, load, prune=None):
    """What the program does with a file and the options, if it serves no connection."""
    with seed() as secret:
        line = words(settings, number, ANY_PORT, load, NOTHING, secret, prune)
        line += ["--requests", "0"]
        try:
            return subprocess.run(line, stdin=subprocess.DEVNULL, capture_output=True,
                                  text=True, errors="replace", pass_fds=[secret], check=False)
        except OSError as why:
            raise Stop(SETTINGS, "%s can't be run: %s" % (settings.tokend, why)) from None


def check_options(settings):
    """Stops if the program refuses the options, or would do something else than serve."""
    for name, instead in INSTEAD:
        if any(re.match("--%s(=|$)" % name, it) for it in settings.options):
            raise Stop(SETTINGS, "the options are refused\n--%s: %s" % (name, instead))
    done = tried(settings, settings.numbers[0], NOTHING, settings.prune())
    if done.returncode == 2:
        raise Stop(SETTINGS, "the options are refused\n" + done.stderr.strip())
    if done.returncode:
        raise Stop(FAILED, "the program ends with status %d: %s"
                   % (done.returncode, done.stderr.strip()))
    if not re.match(r"(pruned 0\n)?listening ", done.stdout):
        raise Stop(SETTINGS, "with these options the program doesn't serve")


def check_port(port):
    """Stops if the port can't be listened on."""
    with socket.socket() as it:
        it.setsockopt(socket.SOL_SOCKET, socket.SO_REUSEADDR, 1)
        try:
            it.bind(("127.0.0.1", port))  # fails if another listens; nobody can connect meanwhile
        except OSError as why:
            raise Stop(FAILED, "port %d: %s" % (port, why)) from None


def check_folder(folder):
    """Stops if somebody else could put a socket into a folder."""
    try:
        it = os.stat(folder)
    except OSError as why:
        raise Stop(SETTINGS, "no folder for a socket: %s: %s" % (folder, why.strerror)) from None
    if it.st_uid != os.geteuid():
        raise Stop(SETTINGS, "%s belongs to another user, %d" % (folder, it.st_uid))
    if it.st_mode & (stat.S_IWGRP | stat.S_IWOTH):
        raise Stop(SETTINGS, "others may write to %s" % folder)


def check_socket(path):
    """Stops if a socket can't be listened at."""
    check_folder(os.path.dirname(path))
    if not os.path.lexists(path):
        return
    if not stat.S_ISSOCK(os.lstat(path).st_mode):
        raise Stop(SETTINGS, "%s is no socket" % path)
    with socket.socket(socket.AF_UNIX) as it:
        it.settimeout(PAUSE)
        try:
            it.connect(path)
        except ConnectionRefusedError:
            return  # a server that has ended left it, and the next one removes it
        except BlockingIOError:
            pass  # too many wait to be accepted
        except OSError as why:
            raise Stop(FAILED, "%s: %s" % (path, why.strerror)) from None
    raise Stop(HELD, "somebody answers at %s" % path)


def check_places(places):
    """Stops if the server couldn't listen."""
    if not places.socket:
        check_port(places.port)
    for path in places.sockets():
        check_socket(path)


def refuse(path, done):
    """Stops if the program found a file to be no log, or failed."""
    if done.returncode == 2:
        raise no_log(path, done.stderr.strip())
    if done.returncode:
        raise Stop(FAILED, "%s was not checked: the program ended with status %d: %s"
                   % (path, done.returncode, done.stderr.strip()))


def cut_bytes(settings, path):
    """How many bytes at the end of a log are a cut record. Stops if it is no log.

    The program reads one bundle after the other and holds none, so a site that is out of memory
    can start again.
    """
    try:
        done = subprocess.run([settings.tokend, "facts", path], stdin=subprocess.DEVNULL,
                              stdout=subprocess.DEVNULL, stderr=subprocess.PIPE, text=True,
                              errors="replace", check=False)
    except OSError as why:
        raise Stop(SETTINGS, "%s can't be run: %s" % (settings.tokend, why)) from None
    refuse(path, done)
    cut = re.match(r"tokend: dropped (\d+) bytes\n", done.stderr)
    return int(cut[1]) if cut else 0


def check_load(settings, number, path):
    """Stops if the program can't load the file alone. A load takes memory for all of its facts."""
    refuse(path, tried(settings, number, path))


def become(settings, number, load, log):
    """Puts the program in the place of this one, which must hold its lock open by then."""
    for kind in signal.SIGPIPE, signal.SIGXFSZ:  # Python ignores them, and so would the program
        signal.signal(kind, signal.SIG_DFL)
    with seed() as secret:
        os.set_inheritable(secret, True)
        line = words(settings, number, settings.places.options(), load, log, secret,
                     settings.prune())
        if settings.part:  # the first part is a new file, so no other run is given it
            line += ["--log-part", str(settings.part)]
        os.execv(line[0], line)


def is_running(process):
    try:
        os.kill(process, 0)
    except ProcessLookupError:
        return False
    except PermissionError:
        pass
    return True


def wait(url, process):
    """Waits until a server replies or the process ends: returns whether one replied."""
    while True:
        try:
            Peer(url, time.monotonic() + 60).regions()
            return True
        except FAULTS:
            if process and not is_running(process):
                return False
        time.sleep(PAUSE)
