"""trial: one run of a program for a row, with its files, its devices and its connections."""
import array
import contextlib
import fcntl
import os
import re
import resource
import select
import signal
import socket
import struct
import subprocess
import tempfile
import termios
import time

SECONDS = 60
LISTENING = re.compile(rb"^listening (?:127\.0\.0\.1:(\d+)|unix:(\w+))\n", re.M)


class Ran:
    """What came of a run."""

    def __init__(self):
        self.output, self.errors = b"", b""
        self.status = None  # None stays where it had to be ended
        self.replies = []  # what came back of each connection
        self.lasted = []  # how many milliseconds each was open
        self.files = {}  # what each file of the row's had then, if it was there

    def port(self):
        """The port that a service printed, as text."""
        told = LISTENING.search(self.output)
        return told and told[1]

    def socket(self):
        """The socket that a service printed, as text."""
        told = LISTENING.search(self.output)
        return told and told[2]


def reset_behind(sent):
    """A connection that gives these bytes, and then fails."""
    with socket.create_server(("127.0.0.1", 0)) as server:
        client = socket.create_connection(server.getsockname())
        here, _ = server.accept()
    client.sendall(sent)
    # It closes by a reset.
    client.setsockopt(socket.SOL_SOCKET, socket.SO_LINGER, struct.pack("ii", 1, 0))
    client.close()
    return here.detach()


def is_in(process, state):
    """Whether the program comes into this state: `S`, it waits, or `T`, it was stopped."""
    end = time.monotonic() + SECONDS
    while time.monotonic() < end:
        with open("/proc/%d/stat" % process.pid) as file:
            now = file.read().rpartition(")")[2].split()[0]
        if now in (state, "Z"):
            return now == state
        time.sleep(0.001)
    return False


class Interrupted:
    """A connection on which the program waits: an input behind these bytes, or an output."""

    def __init__(self, sign, sent):
        here, self.there = socket.socketpair()
        # A signal that stops the program interrupts it only with a limit of time.
        for option in (socket.SO_RCVTIMEO, socket.SO_SNDTIMEO):
            here.setsockopt(socket.SOL_SOCKET, option, struct.pack("ll", SECONDS, 0))
        self.filled = 0
        if sign == "0<":
            self.there.sendall(sent)
        while sign != "0<":
            try:
                self.filled += here.send(bytes(1024), socket.MSG_DONTWAIT)
            except BlockingIOError:
                break
        self.here = here.detach()

    def interrupt(self, process):
        """Interrupts the program where it waits; an output takes all then, and an input ends."""
        unread, end = array.array("i", [not self.filled]), time.monotonic() + SECONDS
        while unread[0] and process.poll() is None and time.monotonic() < end:
            fcntl.ioctl(self.here, termios.FIONREAD, unread)
            time.sleep(0.001)
        if process.returncode is None and is_in(process, "S"):
            process.send_signal(signal.SIGSTOP)
            is_in(process, "T")
            process.send_signal(signal.SIGCONT)
        if self.filled:
            self.there.recv(self.filled, socket.MSG_WAITALL)
        else:
            self.there.close()

    def taken(self):
        """What came to an output, whose program has ended."""
        try:
            return self.there.recv(1 << 20, socket.MSG_DONTWAIT)
        except BlockingIOError:
            return b""


def opened(how, row, room):
    """A descriptor in the place of an input or an output that fails."""
    if how == "folder":
        return os.open(room, os.O_RDONLY)
    if how == "reset":
        return reset_behind(row.sent())
    if how == "full":
        return os.open("/dev/full", os.O_WRONLY)
    if how == "shut":
        reader, writer = os.pipe()
        os.close(reader)
        return writer
    with tempfile.TemporaryFile() as file:
        return os.dup(file.fileno())


@contextlib.contextmanager
def limited(row):
    """What is started meanwhile can't write more to a file than the row's output takes."""
    sizes = [how for how, _ in row.devices.values() if isinstance(how, int)]
    before = resource.getrlimit(resource.RLIMIT_FSIZE)
    resource.setrlimit(resource.RLIMIT_FSIZE, (sizes[0] if sizes else before[0], before[1]))
    try:
        yield
    finally:
        resource.setrlimit(resource.RLIMIT_FSIZE, before)


def started(program, words, row, room, ends):
    """The program, begun. An output that fails returns an error, and sends it no signal."""
    given = subprocess.PIPE if row.sent() else subprocess.DEVNULL
    with limited(row):
        return subprocess.Popen(
            ["tokend"] + words, executable=os.path.abspath(program), cwd=room,
            restore_signals=not ends, stdin=ends.get("0<", given),
            stdout=ends.get("1>", subprocess.PIPE), stderr=ends.get("2>", subprocess.PIPE))


def wait_for_place(process, ran):
    """Reads on until port or socket are printed. There may come none."""
    while not LISTENING.search(ran.output):
        ready, _, _ = select.select([process.stdout], [], [], SECONDS)
        piece = os.read(process.stdout.fileno(), 65536) if ready else b""
        if not piece:
            return
        ran.output += piece


def send_at_once(connection, sent):
    """Sends the bytes and ends the stream. It yields what comes back."""
    connection.sendall(sent)
    connection.shutdown(socket.SHUT_WR)
    while piece := connection.recv(65536):
        yield piece


def send_in_drips(connection, sent, gap):
    """Sends the bytes one by one, some milliseconds apart. Yields what comes back."""
    left, end = sent, time.monotonic() + SECONDS
    while time.monotonic() < end:
        if select.select([connection], [], [], gap / 1000)[0]:
            piece = connection.recv(65536)
            if not piece:
                return
            yield piece
        elif left:
            connection.sendall(left[:1])
            left = left[1:]


def connected(room, ran, wanted):
    """A connection to the socket of the folder that is wanted, or where the service listens."""
    name = wanted.socket or (ran.socket() or b"").decode()
    if not name:
        return socket.create_connection(("127.0.0.1", int(ran.port())), SECONDS)
    connection = socket.socket(socket.AF_UNIX)
    connection.settimeout(SECONDS)
    connection.connect(os.path.join(room, name))
    return connection


def answered(room, ran, wanted):
    """What comes back of a connection, and how many milliseconds it was open."""
    time.sleep(wanted.pause / 1000)
    said, begun = b"", time.monotonic()
    try:
        with connected(room, ran, wanted) as connection:
            sending = (send_in_drips(connection, wanted.sent, wanted.drip[0]) if wanted.drip
                       else send_at_once(connection, wanted.sent))
            for piece in sending:
                said += piece
    except OSError:
        pass  # what came before stands
    return said, round((time.monotonic() - begun) * 1000)


def talk(process, row, room, ran):
    """Makes the row's connections, sends the program its events, and waits for its end."""
    if row.connections:
        wait_for_place(process, ran)
    for connection in row.connections if LISTENING.search(ran.output) else []:
        said, lasted = answered(room, ran, connection)
        ran.replies.append(said)
        ran.lasted.append(lasted)
    sent = row.sent() if process.stdin else None
    try:
        output, errors = process.communicate(sent, SECONDS)
    except subprocess.TimeoutExpired:
        process.kill()
        process.communicate()
        return
    ran.output += output or b""
    ran.errors += errors or b""
    ran.status = process.returncode


def interrupted(process, row, halts):
    """Interrupts the program where it waits, with its events before it."""
    if process.stdin:
        with contextlib.suppress(BrokenPipeError):
            process.stdin.write(row.sent())
            process.stdin.close()
        process.stdin = None
    for halt in halts:
        halt.interrupt(process)


def run(program, words, row):
    """What comes of the row, run with these arguments in a folder that has its files alone."""
    ran, ends, halts = Ran(), {}, {}
    with tempfile.TemporaryDirectory() as room, contextlib.ExitStack() as stack:
        for name, content in row.files.items():
            with open(os.path.join(room, name), "wb") as file:
                file.write(content)
        for sign, (how, _) in row.devices.items():
            if how == "interrupted":
                halts[sign] = Interrupted(sign, row.sent())
            ends[sign] = halts[sign].here if sign in halts else opened(how, row, room)
            stack.callback(os.close, ends[sign])
        with started(program, words, row, room, ends) as process:
            if halts:
                interrupted(process, row, halts.values())
            talk(process, row, room, ran)
        taken = {sign: os.pread(end, 1 << 20, 0) for sign, end in ends.items()
                 if isinstance(row.devices[sign][0], int)}
        taken.update((sign, halt.taken()) for sign, halt in halts.items() if sign != "0<")
        ran.output += taken.get("1>", b"")
        ran.errors += taken.get("2>", b"")
        for name in row.afterwards:
            path = os.path.join(room, name)
            if os.path.isfile(path):
                with open(path, "rb") as file:
                    ran.files[name] = file.read()
    return ran
