"""waiting: until something holds, and ports of this machine."""
import contextlib
import socket
import time

PATIENCE, STEP = 30, 0.01  # seconds


def until(what, patience=PATIENCE, step=STEP, child=None):
    """Waits for a condition, while a child runs if one is given: returns whether it was met."""
    end = time.monotonic() + patience
    while not what():
        if time.monotonic() > end or child and child.poll() is not None:
            return False
        time.sleep(step)
    return True


def free_ports(count):
    """Ports that differ, and that nobody listens on now."""
    with contextlib.ExitStack() as stack:
        found = [stack.enter_context(socket.socket()) for _ in range(count)]
        for it in found:
            it.bind(("127.0.0.1", 0))
        return [it.getsockname()[1] for it in found]


def free_port():
    return free_ports(1)[0]


def listens(port):
    """Whether somebody listens on a port."""
    with contextlib.suppress(OSError):
        socket.create_connection(("127.0.0.1", port), 1).close()
        return True
    return False


def listens_soon(child, port, seconds):
    """Waits until a child listens on a port, and returns whether it did so in that time."""
    return until(lambda: listens(port), seconds, 0.05, child)
