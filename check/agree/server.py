"""A running `tokend serve`, and requests to it whose replies are taken apart."""
import lib.server
from lib.asking import exchange


class Server(lib.server.Server):
    """`tokend serve`, until the block ends. Then `at_end` is all that it printed as errors."""

    def __exit__(self, *_):
        self.stop()
        self.at_end = self.errors()
        self.end()

    def ask(self, method, target, fields=(), body=None):
        """Status, first line, fields and body of the reply; None if none came."""
        head = "%s %s HTTP/1.1\r\nHost: 127.0.0.1\r\n" % (method, target)
        if body is not None:
            fields = list(fields) + ["Content-Length: %d" % len(body)]
        head += "".join(f + "\r\n" for f in fields) + "\r\n"
        said = exchange(self.port, head.encode() + (body or b""), 7)
        if not said:
            return None
        head, _, body = said.partition(b"\r\n\r\n")
        first, *fields = head.decode("latin-1").split("\r\n")
        return int(first.split()[1]), first, fields, body
