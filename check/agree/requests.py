"""HTTP.md: its examples are sent, and its tables compared with the replies."""
import re

from lib.asking import CLIENT
from lib.facts import bundle, mark
from limits import documents
from server import Server
from texts import HTTP, coded, differ, rows, same, text_of

HANDLE = r"\bAQ[EIM][A-Za-z0-9_-]{45}(?![A-Za-z0-9_-])"
CLOCK = r"\b1[0-9]{9}\b"
MARKS = bundle([mark(2, 3), mark(2, 4)], 1100)  # that region 1 is pushed
FORM = ("Content-Type: application/x-www-form-urlencoded",)


def unfolded(text):
    return text.replace("\n  ", "")


def masked(text):
    """A text without what differs from run to run."""
    return re.sub(CLOCK, "TIME", re.sub(HANDLE, lambda m: m.group()[:4], text))


def examples():
    """Method and target, fields, body, status with fields, and body of the reply."""
    for block in re.findall(r"^```\n(.*?)^```$", text_of(HTTP), re.M | re.S):
        request, reply = unfolded(block).split("\nHTTP/1.1 ", 1)
        head, _, body = request.partition("\n\n")
        first, *fields = head.strip().split("\n")
        status, _, said = reply.partition("\n\n")
        yield first.split(), fields, body.strip(), status.strip().split("\n"), said.strip()


def send(server, example, now):
    """Sends an example with this run's handles in place of the text's, and compares the reply."""
    (method, target), fields, body, (status, *said_fields), said = example
    where = "%s, %s %s" % (HTTP, method, target.split("?")[0])
    for old, new in now.items():
        body = body.replace(old, new)
    reply = server.ask(method, target, fields, body.encode() if method == "POST" else None)
    if not reply:
        differ(where, "no reply")
        return
    same(where, "the status", "HTTP/1.1 " + status, reply[1])
    got = {f.split(": ")[0]: f for f in reply[2]}
    here = reply[3].decode()
    for field in said_fields:
        said, here = said + "\n" + field, here + "\n" + got.get(field.split(": ")[0], "")
    for old, new in zip(re.findall(HANDLE, said), re.findall(HANDLE, here)):
        now.setdefault(old, new)
    same(where, "the reply", masked(said), masked(here))
    for field in ("Content-Length: %d" % len(reply[3]), "Cache-Control: no-store",
                  "Pragma: no-cache", "Connection: close"):
        if field not in reply[2]:
            differ(where, "the reply has no %s" % field)
    wanted = "Content-Type: application/json" if reply[3] else None
    same(where, "Content-Type", wanted, got.get("Content-Type"))


def compare_examples(program):
    plain = [e for e in examples() if not e[0][1].startswith("/sync/")]
    plain.sort(key=lambda e: e[0] != ["POST", "/admin/client"])  # the client comes first
    now = {}  # to each handle of the text, this run's
    with Server(program) as server:
        for number, example in enumerate(plain):
            send(server, example, now)
            if number == 0:
                consent = b"client_id=c1-1&subject=ann&scope=read+write"
                server.ask("POST", "/admin/consent", (), consent)
    if server.at_end:
        differ("the examples of " + HTTP, "standard error has %r" % server.at_end)


def compare_exchange(program):
    sync = [e for e in examples() if e[0][1].startswith("/sync/")]
    same(HTTP, "how many examples it has of regions' exchange", 3, len(sync))
    with Server(program) as one, \
            Server(program, region=2) as two:
        one.ask("POST", "/admin/client", (), CLIENT)
        replies = {}
        for (method, target), _, body, (status, *_), said in sync:
            where = "%s, %s" % (HTTP, target)
            if "runs" in target:
                one.ask("POST", "/sync/push", (), MARKS)
            reply = one.ask(method, target, (), bytes.fromhex(body) if method == "POST" else None)
            replies[target] = reply[3]
            same(where, "the status", "HTTP/1.1 " + status, reply[1])
            same(where, "the reply", bytes.fromhex(said).hex(), reply[3].hex())
            if "Content-Type: application/octet-stream" not in reply[2]:
                differ(where, "the reply's type isn't that of bytes")
        page = replies["/sync/pull"]
        took = [two.ask("POST", "/sync/push", (), page)[3].decode() for _ in range(2)]
    wanted = re.findall(r"`(\{\"took\":\d\})`", text_of(HTTP))
    same(HTTP, "the replies to two pushes", wanted, took)


def paths_of_http():
    paths = {}
    for method, path in re.findall(r"^(?:## )?(GET|POST) `?(/[\w/]+)`?", text_of(HTTP), re.M):
        paths.setdefault(path, set()).add(method)
    return paths


def compare_names(names):
    """Paths and methods in other documents are those of HTTP.md, and so are names of errors."""
    paths = paths_of_http()
    for name in documents():
        text = text_of(name)
        for method, path in re.findall(r"(?:\b(GET|POST) )?`(/[a-z]+(?:/[a-z]*)?)`", text):
            if path not in ("/admin/", "/sync/", "/page/", "/cb") and path not in paths:
                differ(name, "%s is no path of %s" % (path, HTTP))
            elif method and method not in paths.get(path, ()):
                differ(name, "%s has no %s" % (path, method))
        for error in re.findall(r"\b[45]\d\d `([a-z_]+)`", text):
            if error not in names:
                differ(name, "%s is no error of %s" % (error, HTTP))


def compare_methods(server):
    """Each path has the methods that HTTP.md names."""
    paths = paths_of_http()
    for path, methods in sorted(paths.items()):
        for method in sorted(methods):
            reply = server.ask(method, path, (), b"" if method == "POST" else None)
            if not reply or reply[0] in (404, 405, 503):
                differ(HTTP, "%s %s gets %s" % (method, path, reply and reply[1]))
        reply = server.ask("DELETE", path)
        allowed = {m for f in reply[2] if f.startswith("Allow: ")
                   for m in re.findall(r"\w+", f[7:])}
        same("DELETE " + path, "the reply", (405, b'{"error":"method_not_allowed"}', methods),
             (reply[0], reply[3], allowed))


TWICE = ["X-Subject: a", "X-Subject: b"]
OPERATORS = ["X-Operator: a", "X-Operator: a"]
BASIC = "Authorization: Basic YTpi"
BEFORE = (
    ("no such path", 404, "not_found", ("GET", "/nothing", (), None)),
    ("no head", 400, "bad_request", ("nothing like a", "head\r\n\r\n", (), None)),
    ("65 fields", 400, "bad_request", ("POST", "/token", ["X: y"] * 64, b"")),
    ("a long head", 400, "bad_request", ("GET", "/" + "x" * 8192, (), None)),
    ("a field twice", 400, "bad_request", ("GET", "/authorize", TWICE, None)),
    ("two operators", 400, "bad_request", ("POST", "/admin/retire", OPERATORS, b"")),
    ("no length", 411, "length_required", ("POST", "/token", (), None)),
    ("chunks", 411, "length_required",
     ("POST", "/token", ["Transfer-Encoding: chunked"], b"")),
    ("a length that is none", 400, "bad_request", ("POST", "/token", ["Content-Length: x"], None)),
    ("a long body", 413, "too_large", ("POST", "/token", ["Content-Length: 16385"], None)),
    ("a long bundle", 413, "too_large",
     ("POST", "/sync/push", ["Content-Length: 1049601"], None)),
    ("no form", 400, "bad_request", ("POST", "/token", ["Content-Type: application/json"], b"{}")),
    ("a short body", 400, "bad_request", ("POST", "/token", ["Content-Length: 9"], None)))
ASKS = (
    ("a parameter twice", 400, "invalid_request", ("POST", "/token", FORM, b"code=a&code=b")),
    ("two places", 400, "invalid_request",
     ("POST", "/token", [BASIC], b"client_id=a&client_secret=b")),
    ("nobody", 401, "invalid_client", ("POST", "/revoke", FORM, b"token=a")))
ADMINISTERS = (
    ("an operator", 404, "not_found",
     ("POST", "/admin/retire", OPERATORS[:1], b"client_id=c1-1")),
    ("an operator that is none", 400, "invalid_request",
     ("POST", "/admin/retire", ["X-Operator: a b"], b"client_id=c1-1")))


def compare_cases(server, table, cases):
    """Cases that a table names, each by a request."""
    known = {(int(c[0]), it) for c in rows(table, "reply | error") for it in coded(c[1])}
    for what, status, name, (method, target, fields, body) in cases:
        if (status, name) not in known:
            differ(HTTP, "its tables have no %d `%s`, for: %s" % (status, name, what))
        reply = server.ask(method, target, fields, body)
        wanted = (status, ('{"error":"%s"}' % name).encode())
        same("a request with " + what, "the reply", wanted, reply and (reply[0], reply[3]))
        if status == 401 and 'WWW-Authenticate: Basic realm="tokend"' not in reply[2]:
            differ("a request with " + what, "the reply has no WWW-Authenticate")


def compare_fields(server):
    """The fields that count: those that are read, and refused if they come twice."""
    said = re.search(r"The fields that count are ([^.]*)\.", text_of(HTTP))
    read = re.findall(r'value_named\(buf, headers, b"([a-z-]+)"\)',
                      text_of("crates/tk_edge/src/field.rt"))
    refused = [it for it in read
               if server.ask("GET", "/sync/vector", ["%s: 0" % it] * 2)[0] == 400]
    same(HTTP, "the fields that count", sorted(refused),
         sorted(it.lower() for it in re.findall("`([^`]+)`", said[1] if said else "")))


def compare(program):
    compare_examples(program)
    compare_exchange(program)
    before, behind = text_of(HTTP).split("## Who asks")
    with Server(program, "--health", "--metrics") as server:
        compare_methods(server)
        compare_fields(server)
        compare_cases(server, before, BEFORE)
        compare_cases(server, behind.split("\n## ")[0], ASKS)
        compare_cases(server, behind.split("\n## Administration")[1], ADMINISTERS)
    sources = text_of("crates/tk_message/src/error_code.rt")
    names = set(re.findall(r'ErrorCode::\w+ => "(\w+)"', sources))
    for name in sorted(names - set(re.findall(r"`([a-z]+(?:_[a-z]+)*)`", text_of(HTTP)))):
        differ(HTTP, "has no error `%s`" % name)
    compare_names(names)
    codes = text_of("crates/tk_message/src/status_code.rt")
    statuses = set(re.findall(r"StatusCode::\w+ => (\d+)", codes))
    counted = re.search(r"(\d+) codes and (\d+) statuses", text_of("docs/DEFINITIONS.md")).groups()
    same("docs/DEFINITIONS.md", "how many codes and statuses there are",
         (len(names), len(statuses)), tuple(int(n) for n in counted))
