"""redis: Debian's Redis, asked by its own redis-benchmark."""
import contextlib
import csv
import shutil
import subprocess
import tempfile

from lib import Absent, Broken
from lib.server import Process
from lib.waiting import free_port, listens_soon

RECORD = 300  # bytes of a value: as long as the record of a refresh
PATIENCE = 10


class Redis(Process):
    """A Redis without snapshots. With a log it syncs that before it replies, once a turn."""

    def __init__(self, folder, has_log, before=()):
        self.port = free_port()
        words = ["redis-server", "--bind", "127.0.0.1", "--port", str(self.port),
                 "--dir", folder, "--save", "", "--appendfsync", "always",
                 "--appendonly", "yes" if has_log else "no"]
        super().__init__([*before, *words], folder)

    def listening(self, patience=PATIENCE):
        if not listens_soon(self.child, self.port, patience):
            raise Broken("redis-server doesn't listen")
        return self

    def benchmark(self, kind, count, clients, how):
        """What a run of get or set took, as Driver.run has it. A `new` one connects each time."""
        before = self.used()
        words = ["redis-benchmark", "-h", "127.0.0.1", "-p", str(self.port), "-t", kind,
                 "-n", str(count), "-c", str(clients), "-d", str(RECORD), "--csv",
                 "-k", "1" if how == "kept" else "0"]
        done = subprocess.run(words, capture_output=True, text=True, check=False)
        if done.returncode:
            raise Broken("redis-benchmark: " + done.stderr.strip())
        row, = csv.DictReader(done.stdout.splitlines())
        return {"rate": float(row["rps"]), "median": float(row["p50_latency_ms"]) * 1e3,
                "slow": float(row["p99_latency_ms"]) * 1e3,
                "processor": (self.used() - before) * 1e6 / count}


@contextlib.contextmanager
def redis(has_log, before=()):
    """Yields a Redis that listens, in a folder that is removed afterwards."""
    for command in "redis-server", "redis-benchmark":
        if not shutil.which(command):
            raise Absent("no Redis (%s)" % command)
    with tempfile.TemporaryDirectory() as folder:
        server = Redis(folder, has_log, before)
        try:
            yield server.listening()
        finally:
            server.stop()
