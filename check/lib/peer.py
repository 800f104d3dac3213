"""peer: a stand-in for a region, or for what is before one."""
import contextlib
import threading
from http.server import BaseHTTPRequestHandler, ThreadingHTTPServer


class Peer:
    """A peer whose `reply` takes path and body, and returns a body, or status, fields and body.

    Each reply has a Date, by this clock if the fields have none. If `reply` returns None, or there
    is none, the connection ends without a reply, or never gets one. Connections stay open, as those
    of a proxy, unless it drops each one unannounced. `asked`, `heads` and `bodies` have all paths,
    fields and bodies, `connections` is how many connections there were.
    """

    def __init__(self, reply=None, tls=None, drops=False):
        self.asked, self.heads, self.bodies, self.connections = [], [], [], 0
        self.reply, self.drops, self.closed = reply, drops, threading.Event()
        self.server = ThreadingHTTPServer(("127.0.0.1", 0), self.handler())
        self.server.daemon_threads = True
        self.server.block_on_close = False
        self.url = "http://127.0.0.1:%d" % self.server.server_port
        if tls:
            self.server.socket = tls.wrap_socket(self.server.socket, server_side=True)
            self.url = "https" + self.url[4:]
        threading.Thread(target=self.server.serve_forever, args=[0.05], daemon=True).start()

    def __enter__(self):
        return self

    def __exit__(self, *_):
        self.closed.set()
        self.server.shutdown()
        self.server.server_close()

    def handler(self):
        """Returns a class of handlers that reply by this peer, and that count connections."""
        peer = self

        class Handler(BaseHTTPRequestHandler):
            protocol_version = "HTTP/1.1"
            disable_nagle_algorithm = True

            def setup(self):
                super().setup()
                peer.connections += 1

            def handle(self):
                with contextlib.suppress(ConnectionError):  # a client may end it as it likes
                    super().handle()

            def do_GET(self):
                with contextlib.suppress(ConnectionError):
                    self.close_connection = peer.answer(self)

            do_POST = do_GET

            def log_message(self, *_):
                pass
        return Handler

    def answer(self, it):
        """Replies to one request, and returns whether its connection is to end."""
        body = it.rfile.read(int(it.headers.get("Content-Length", 0)))
        self.asked.append(it.path)
        self.heads.append(it.headers)
        self.bodies.append(body)
        if not self.reply:
            self.closed.wait()
            return True
        said = self.reply(it.path, body)
        if said is None:
            return True
        status, fields, said = said if isinstance(said, tuple) else (200, {}, said)
        (it.send_response_only if "Date" in fields else it.send_response)(status)
        for name, value in ({"Content-Length": len(said)} | fields).items():
            it.send_header(name, value)
        it.end_headers()
        it.wfile.write(said)
        return self.drops or int(fields.get("Content-Length", 0)) > len(said)


def without_query(path):
    """The path of a request, as a server takes it that knows no query there."""
    return path.partition("?")[0]


def proxy(server):
    """The replies of a server, for a Peer before it."""
    def reply(path, body):
        status, said = server.ask(path, body)
        return status, {}, said
    return reply


def older(server):
    """The replies that a server of a build without runs would give in the place of this one."""
    def reply(path, body):
        if body.startswith(b"OTB6"):
            return 400, {"Content-Type": "application/json"}, b'{"error":"malformed"}'
        return proxy(server)(without_query(path), body)
    return reply
