"""serving: connections of a server whose allocations fail, compared with those of a fresh server.

Both servers have the same number, seed and time, so they make the same handles. The fresh server
has enough memory; it is asked for nothing in the place of a request that got no reply, or is
pushed the first facts of its bundle. It must give the same replies to all that follows, and have
the same log. A server of another number that loads the facts held after the request must answer
the look-ups alike.
"""
import re
import threading

import refusal
import story
from lib.asking import body_of
from lib.facts import MARK, facts_of
from many import written_out
from server import NOTHING, PULL, PULL_RUNS, VECTOR, Server, http, push, request_of, run_story

PARTS = " --log-part 65536"  # a start looks for 9,998 later parts: as many allocations
PRUNED = " --prune 1702592000"  # the families of the old log are over at this moment
PASSING = (5, 6, 7, 8, 9, 21)  # the kinds of facts that may be skipped
DIGEST = slice(31, 63)  # of a code's fact
REGION, OLD_REGION, OTHER_REGION, READER = 1, 2, 3, 9
LOOK = "req 1 0 POST /introspect <c2-2:s3cret> - token="

# The stories of many.py ask for client c1-1; region 2 adds the clients here. The last word of a
# line, behind the form, is an operator.
OLD = """
req 2 0 POST /admin/client - - kind=confidential&secret=s3cret&scope=read&redirects=https://a.test/
req 2 0 POST /admin/client - - kind=resource&secret=s3cret&scope=read&redirects=https://b.test/
req 2 0 CONSENT ann root
req 2 0 ASK ann - => code1
req 2 0 ASK ann - => code2
req 2 0 REDEEM {code1} => access1 refresh1
"""
FAMILY = """
req 3 0 CONSENT s{n} root => consent{n}
req 3 0 ASK s{n} - => grant{n}
req 3 0 REDEEM {grant{n}} => access3{n} refresh3{n}
req 3 0 ROTATE {refresh3{n}} => access4{n} refresh4{n}
"""
ENDS = [
    "req 3 0 REVOKE {access4{n}}",
    "req 3 0 ROTATE {refresh3{n}}",
    "req 3 0 POST /admin/signout - - subject=s{n} root",
    "req 3 0 WITHDRAW {consent{n}} root",
    """req 3 0 GET /admin/subject?subject=s{n} - - - => client id same login{n}
req 3 0 POST /admin/logout - - login_id={login{n}} root""",
]
ASKED = """
req 1 0 POST /admin/client - - kind=public&scope=read&redirects=https://c.example/
req 1 0 REDEEM {code2}
req 1 0 POST /admin/logout - - login_id=l2-4
req 1 0 POST /admin/secret - - client_id=c2-2&secret=n3w
req 1 0 POST /admin/secret - - client_id=c2-1&secret=n3w&old=ended
req 1 0 ROTATE {refresh1}
req 1 0 REDEEM {code1}
req 1 0 REVOKE {access1}
req 1 0 ASK ann -
req 1 0 POST /introspect <c2-2:s3cret> - token={refresh1}
req 1 0 POST /admin/signout - - subject=ann
req 1 0 POST /admin/retire - - client_id=c2-1
req 1 0 GET /admin/clients - - -
req 1 0 GET /admin/subject?subject=ann - - -
"""

LONGEST = "~" * 128
BY_OPERATORS = """
req 1 0 POST /admin/client - - kind=public&scope=read&redirects=https://c.example/ {longest}
req 1 0 GET /admin/client?client_id=c2-1 - - - root
req 1 0 POST /admin/secret - - client_id=c2-1&secret=n3w root
req 1 0 CONSENT bob root
req 1 0 POST /admin/withdraw - - consent_id=g2-3 root
req 1 0 POST /admin/logout - - login_id=l2-4 {longest}
req 1 0 POST /admin/signout - - subject=ann root
req 1 0 POST /admin/retire - - client_id=c2-1 root
req 1 0 POST /admin/retire - - client_id=c2-1 {longest}~
""".replace("{longest}", LONGEST)

# requests that a region with these options decides otherwise than the profile; 9:1 is not known
CHOICES = " --revoke-unseen none --consent held --redirects https,app --refresh-seen client" \
          " --challenge all,S256"
CHOSEN = """
req 1 0 POST /revoke <c2-1:s3cret> - token=AQIACQAAAAAAAAABAAAAAAAAAAAAAAAAAAAAAAAAAAAAAAAA
req 1 0 CONSENT ann
req 1 0 POST /introspect <c2-2:s3cret> - token={refresh1}
req 1 0 ASK ann -
req 1 0 POST /admin/client - - kind=public&scope=read&redirects=https://c.example/+a.b:/
req 1 0 POST /admin/client - - kind=public&scope=read&redirects=https://c.example/+http://c.example/
"""


def events_of(text):
    return story.read("serve", written_out(text).replace("c1-1", "c2-1")).events


def families_of(count):
    """The events of this many families of tokens, each of which ends in another way."""
    return events_of("".join((FAMILY + ENDS[n % len(ENDS)] + "\n").replace("{n}", str(n))
                             for n in range(count)))


class Request:
    """What a connection sends, and what may have been done if it got no reply.

    The server has these options.
    """

    def __init__(self, title, sent, cuts=(), options=""):
        self.title, self.sent, self.cuts = title, sent, [NOTHING] + list(cuts)
        self.options = options


class Scene:
    """The facts that servers begin with, the facts that are pushed to them, and the look-ups."""

    def __init__(self, lab, families):
        self.lab, self.names, self.lock, self.cached = lab, {}, threading.Lock(), {}
        self.old = run_story(lab, OLD_REGION, events_of(OLD), b"", self.names)
        pushed = run_story(lab, OTHER_REGION, families_of(families), self.old, self.names)
        self.pushed = facts_of(pushed)
        tokens = [it for name, it in sorted(self.names.items())
                  if re.match("access|refresh", name)]
        self.looks = [VECTOR, PULL, http("GET", "/admin/client?client_id=c2-1")]
        self.looks += [request_of(story.encoded(LOOK) + it) for it in tokens]

    def requests(self):
        """All requests but the push."""
        for event in events_of(ASKED):
            yield Request(event.text[8:60], request_of(event.filled(self.names)))
        for event in events_of(CHOSEN):
            sent = request_of(event.filled(self.names))
            yield Request(event.text[8:60] + CHOICES, sent, options=CHOICES)
        yield Request("GET /sync/vector", VECTOR)
        yield Request("POST /sync/pull", PULL)

    def by_operators(self):
        """Requests of each path that administers, and one whose operator is malformed."""
        for event in events_of(BY_OPERATORS):
            yield Request(event.text[8:60] + " by an operator", request_of(event.text))

    def pull_with_runs(self):
        """A pull of a page with runs, at a server that pruned what it loaded."""
        return Request("POST /sync/pull?runs=1" + PRUNED, PULL_RUNS, options=PRUNED)

    def counted(self):
        """A request of a server that makes the text of its metrics before it decides it."""
        return Request("POST /introspect --metrics", self.looks[-1], options=" --metrics")

    def push(self):
        fronts = [self.pushed[:count + 1] for count in range(len(self.pushed))]
        return Request("POST /sync/push of %d facts" % len(fronts), push(self.pushed),
                       [push(front) for front in fronts])

    def push_marks(self):
        """A push of facts, and of marks in the place of codes and of what was made of them."""
        items = [fact[:MARK] if fact[MARK] in PASSING else fact for fact in self.pushed]
        held = [fact[:MARK] for fact in facts_of(self.old) if fact[MARK] in PASSING][:2]
        items = held + items
        fronts = [items[:count + 1] for count in range(len(items))]
        return Request("POST /sync/push of %d facts and marks" % len(items), push(items),
                       [push(front) for front in fronts])

    def push_skipped(self):
        """A push to a pruned server: another body at a skipped dot, marks, facts, known or new."""
        code, *rest = [fact for fact in facts_of(self.old) if fact[MARK] in PASSING]
        other = code[:DIGEST.start] + bytes(32) + code[DIGEST.stop:]
        new = [fact[:MARK] if n % 2 and fact[MARK] in PASSING else fact
               for n, fact in enumerate(self.pushed)]
        items = [other, rest[0][:MARK], *rest[1:], *new]
        return Request("POST /sync/push of %d items, some skipped" % len(items), push(items))

    def remembered(self, key, make):
        """The value of the key, which is made once."""
        with self.lock:
            found = self.cached.get(key)
        if found is None:
            found = make()
            with self.lock:
                self.cached[key] = found
        return found

    def fresh(self, firsts, request, options=""):
        """The talk of a server with enough memory, which is sent `firsts` first."""
        def make():
            with Server(self.lab, REGION, self.old, options) as server:
                return Talk(self, server, firsts, request)
        return self.remembered((tuple(firsts), request.sent, options), make)

    def read_back(self, facts, choices):
        """The look-ups of a server of another number, by these choices, that loaded the facts."""
        def make():
            with Server(self.lab, READER, facts, choices) as server:
                return server.ask_all(self.looks)
        return self.remembered(("read back", facts, choices), make)

    def loaded(self, facts, options):
        """What a server of another number holds once it loaded this, or None if it refuses it."""
        def make():
            with Server(self.lab, READER, facts, options) as server:
                return [server.port and facts_of(body_of(server.ask(PULL)))]
        return self.remembered((facts, options), make)[0]


class Talk:
    """A server's replies to the first requests, to look-ups, and to a request and look-ups again.

    The allocations of the first requests fail from number `at` on, `span` of them.
    """

    def __init__(self, scene, server, firsts, request, at=0, span=0):
        server.refuse(at, span)
        self.firsts = server.ask_all(firsts)
        self.refused = server.refused()
        server.refuse(0, 0)
        self.looks = server.ask_all(scene.looks)
        self.rest = [server.ask(request.sent)] + server.ask_all(scene.looks)
        self.errors, self.log = server.errors(), server.logged()

    def apart(self, wanted):
        """The first difference to a fresh server's talk, or None. First replies may be empty."""
        said = [it or one for it, one in zip(self.firsts, wanted.firsts)] + self.looks + self.rest
        for one, other in zip(wanted.firsts + wanted.looks + wanted.rest, said):
            if one != other:
                return "a reply is %r, and not %r" % (other[-200:], one[-200:])
        if wanted.log == self.log:
            return None
        return "the log has %d bytes, and not %d" % (len(self.log), len(wanted.log))


def wrong(scene, talk, request):
    """What is wrong with a talk of a server whose allocations failed, or None."""
    empty = talk.firsts.count(b"")
    if talk.errors != "fault memory\n" * empty or empty > talk.refused:
        return "%d replies are empty, %d allocations failed, and standard error has %r" % (
            empty, talk.refused, talk.errors)
    choices = CHOICES if request.options == CHOICES else ""
    if scene.read_back(body_of(talk.looks[1]), choices) != talk.looks:
        return "a server that loads the facts held after the request answers otherwise"
    told = None
    for cut in request.cuts if talk.firsts[0] == b"" else [request.sent]:
        firsts = [cut] + [request.sent if it else NOTHING for it in talk.firsts[1:]]
        told = talk.apart(scene.fresh(firsts, request, request.options))
        if told is None:
            return None
    return told


def sweep(scene, request, is_whole, offset, stride):
    """Yields what is wrong when allocations of a request fail, each time on a new server.

    One allocation fails, or with `is_whole` all that follow too, until the request was sent twice.
    """
    firsts = [request.sent] * (2 if is_whole else 1)

    def trial(at, span):
        with Server(scene.lab, REGION, scene.old, request.options) as server:
            talk = Talk(scene, server, firsts, request, at, span)
        return talk.refused, wrong(scene, talk, request)

    title = "serve, " + request.title
    yield from refusal.sweep(scene.lab, title, trial, is_whole, offset, stride)


def wrong_log(scene, held, log, options):
    """What is wrong with a server of another number that loads these logs, or None.

    A server that prunes what it loaded may have skipped what the other one held.
    """
    back = scene.loaded(log, options)
    if back is None:
        return "the log isn't loaded again"
    lost = [it for it in held if it not in back and not (options and it[:MARK] in back)]
    return "%d facts and marks of %d aren't loaded" % (len(lost), len(held)) if lost else None


def sweep_taken(scene, request, options, is_whole, offset, stride):
    """Yields what is wrong with a log of bundles when allocations of a push fail.

    A server of another number that loads the log must hold all that the pushed one holds, and skip
    what that one skips.
    """
    def trial(at, span):
        with Server(scene.lab, REGION, scene.old, " --log-taken" + options) as server:
            server.refuse(at, span)
            server.ask(request.sent)
            refused = server.refused()
            server.refuse(0, 0)
            held, log = facts_of(body_of(server.ask(PULL))), server.logged()
        return refused, wrong_log(scene, held, scene.old + log, options)

    title = "serve%s, %s to a log of bundles" % (options, request.title)
    yield from refusal.sweep(scene.lab, title, trial, is_whole, offset, stride)


def sweep_start(scene, is_whole, offset, stride, options=""):
    """Yields what is wrong when allocations of a start fail. It ends, or it serves as ever."""
    nothing = Request("a start", VECTOR)

    def trial(at, span):
        with Server(scene.lab, REGION, scene.old, options, at=at, span=span) as server:
            refused, told = server.refused(), None
            if server.port:
                wanted = scene.fresh([], nothing, options)
                told = Talk(scene, server, [], nothing).apart(wanted)
            end, wanted = server.ended(), (None, server.output, "")
        if not server.port:
            wanted = (1, b"", "tokend: memory\n")
        is_wrong = told or end != wanted
        return refused, "%s, and it ends with %s" % (told, end) if is_wrong else None

    title = "serve%s, a start" % options
    yield from refusal.sweep(scene.lab, title, trial, is_whole, offset, stride)
