"""forms: the rows of this folder, as they are read. What each form means stands in `run`."""
import glob
import os
import re

from texts import Bad, bytes_in, counted, number_in, values_in

HERE = os.path.dirname(os.path.abspath(__file__))
SHARED = "beginnings.rows"
NAME = re.compile(r"[A-Za-z0-9][A-Za-z0-9._-]*")
EVENT = re.compile(r"[A-Za-z]|[>\\] |[>\\]$")
# What may come several times: events, and lines of files and of connections.
SEVERAL = re.compile(EVENT.pattern + r"|[+=] |(->|<-)( |$)")
# What stands behind `0<`, and behind `1>` and `2>` where that is no number.
INPUTS, OUTPUTS = ("folder", "reset", "interrupted"), ("full", "shut", "interrupted")


class Connection:
    """What a client does, and what it is to get."""

    def __init__(self, coming):
        self.pause = coming.get("--", 0)  # how many milliseconds pass before the client connects
        # how many pass between two bytes, how many it may be open, and the place
        self.drip = coming.get("-:")
        self.socket = coming.get("-@")  # of the folder, if it isn't where the service listens
        self.sent = b""
        self.reply = []  # the texts that are to come back, each with its place


class Part:
    """A row, for one of those that it is run for, or a beginning."""

    def __init__(self, place, is_row, name):
        self.place, self.is_row, self.name = place, is_row, name
        self.words = []  # a list for each time that it is run
        self.events = []  # of each its bytes, and the lines of its answer, each with its place
        self.errors, self.status = [], 0
        self.devices = {}  # to `0<`, `1>` and `2>` what becomes of them, and the place
        self.files = {}  # to each name its bytes
        self.afterwards = {}  # to each name what its bytes are to be then, as texts with places
        self.connections = []
        self.coming = {}  # to the signs `--`, `-:` and `-@` what they say of the next connection
        self.beginnings, self.is_used = [], False

    def use(self):
        self.is_used = True
        for beginning in self.beginnings:
            beginning.use()

    def sent(self):
        """Standard input."""
        return b"".join(line for line, _ in self.events)

    def said(self):
        """The lines of standard output, each with its place."""
        return [line for _, answer in self.events for line in answer]


def is_between(line):
    """Whether the line is part of what an event is answered, or of nothing."""
    return line.startswith(("  ", "#")) or not line.strip()


def end_of(sign, lines, at):
    """Where what comes several times ends: an event and its answer, a line, or all before a **."""
    if sign == "**":
        return next((k for k in range(at, len(lines)) if lines[k][1] == "**"), None)
    stops = [k for k in range(at, len(lines)) if not is_between(lines[k][1])]
    return stops[1] if len(stops) > 1 else len(lines)


def repeated(lines):
    """The lines, with those that come several times as often as they come."""
    out, at = [], 0
    while at < len(lines):
        place, line = lines[at]
        sign, _, text = line.partition(" ")
        at += 1
        if sign not in ("*", "**"):
            out.append((place, line))
            continue
        times, end = number_in(text, 1, 10000, place), end_of(sign, lines, at)
        body = lines[at:end]
        told = [l for _, l in body if l.strip() and not l.startswith("#")]
        are_known = all(SEVERAL.match(l) or l.startswith("  ") for l in told)
        if end is None or not told or told[0].startswith("  ") or not are_known:
            raise Bad("%s: nothing that can come %d times" % (place, times))
        out += [(p, counted(l, n, times, p)) for n in range(1, times + 1) for p, l in body]
        at = end + 1 if sign == "**" else end
    return out


def put_beginning(part, text, place, known):
    """Puts the events and files of a beginning into a part of a row."""
    if text not in known:
        raise Bad("%s: no beginning %s above" % (place, text))
    part.beginnings.append(known[text])
    part.events += known[text].events + [(b"", [])]  # what stands below isn't the beginning's
    for name, content in known[text].files.items():
        part.files[name] = part.files.get(name, b"") + content


def put_words(part, text, place, known):
    part.words.append(text.split())


def put_error(part, text, place, known):
    part.errors.append((text.encode() + b"\n", place))


def put_status(part, text, place, known):
    if part.status:
        raise Bad("%s: a second status" % place)
    part.status = number_in(text, 1, 255, place)


def put_input(part, text, place, known):
    if "0<" in part.devices or text not in INPUTS:
        raise Bad("%s: a second standard input, or none of %s" % (place, ", ".join(INPUTS)))
    part.devices["0<"] = text, place


def put_output(part, sign, text, place):
    if "1>" in part.devices or "2>" in part.devices:
        raise Bad("%s: a second output that fails" % place)
    part.devices[sign] = text if text in OUTPUTS else number_in(text, 0, 99999, place), place


def named(text, place):
    """The name of a file, and what stands behind it."""
    name, _, more = text.partition(" ")
    if not NAME.fullmatch(name):
        raise Bad("%s: no name of a file" % place)
    return name, more


def put_file(part, text, place, known):
    name, more = named(text, place)
    part.files[name] = part.files.get(name, b"") + bytes_in(more, place)


def put_afterwards(part, text, place, known):
    name, more = named(text, place)
    part.afterwards.setdefault(name, []).append((values_in(more, place), place))


def is_open(part):
    """Whether the lines below may still be of the last connection."""
    return bool(part.connections) and not part.connections[-1].reply


def put_coming(part, sign, how, place):
    if sign in part.coming or is_open(part):
        raise Bad("%s: a second line of this form, or one within a connection" % place)
    part.coming[sign] = how


def put_pause(part, text, place, known):
    put_coming(part, "--", number_in(text, 1, 30000, place), place)


def put_drip(part, text, place, known):
    words = re.fullmatch(r"(\d+) (\d+)\.\.(\d+)", text)
    if not words:
        raise Bad("%s: no number, and two with .. between them" % place)
    gap, least, most = (number_in(word, 1, 30000, place) for word in words.groups())
    put_coming(part, "-:", (gap, least, most, place), place)


def put_socket(part, text, place, known):
    put_coming(part, "-@", named(text, place)[0], place)


def put_request(part, text, place, known):
    if not is_open(part):
        part.connections.append(Connection(part.coming))
        part.coming = {}
    part.connections[-1].sent += bytes_in(text, place)


def put_reply(part, text, place, known):
    if not part.connections or part.coming:
        raise Bad("%s: a reply to nothing" % place)
    part.connections[-1].reply.append((values_in(text, place), place))


FORMS = {
    "<<": put_beginning, "$": put_words, "!": put_error, "?": put_status, "0<": put_input,
    "1>": lambda part, text, place, known: put_output(part, "1>", text, place),
    "2>": lambda part, text, place, known: put_output(part, "2>", text, place),
    "+": put_file, "=": put_afterwards, "->": put_request, "<-": put_reply,
    "--": put_pause, "-:": put_drip, "-@": put_socket,
}


def put(part, line, place, known):
    """Adds what a line says to a row or a beginning."""
    sign, _, text = line.partition(" ")
    if line.startswith("  "):
        if not part.events:
            part.events.append((b"", []))
        part.events[-1][1].append((text[1:].encode() + b"\n", place))
    elif EVENT.match(line):
        whole = (text if sign == ">" else line).encode() + b"\n"
        part.events.append((bytes_in(text, place) if sign == "\\" else whole, []))
    elif sign not in FORMS:
        raise Bad("%s: neither an event nor a line of another form" % place)
    elif not (part.is_row or sign in ("<<", "+")):
        raise Bad("%s: a beginning has events, answers and files alone" % place)
    else:
        FORMS[sign](part, text, place, known)


def read(part, lines, known):
    """Reads the lines of a row or a beginning, which may use these beginnings."""
    # How many empty lines there were just now, and whether a line of an answer was before them.
    empty, was_answer = 0, False
    for place, line in repeated(lines):
        if not line.strip():
            empty += 1
            continue
        is_answer = line.startswith("  ")
        if is_answer and was_answer and empty:
            part.events[-1][1].extend([(b"\n", place)] * empty)
        if not line.startswith("#"):
            put(part, line, place, known)
        empty, was_answer = 0, is_answer
    if part.coming or is_open(part):
        raise Bad("%s: no reply to the last connection of %s" % (part.place, part.name))
    if part.connections and "1>" in part.devices:
        raise Bad("%s: connections to a service whose port nobody is told" % part.devices["1>"][1])
    for sign, lines in ("1>", part.said()), ("2>", part.errors):
        how, place = part.devices.get(sign, (0, ""))
        if how not in OUTPUTS and how > sum(len(line) for line, _ in lines):
            raise Bad("%s: fewer than %d bytes are said" % (place, how))
    return part


def items_in(text, place, tables):
    """What a row is run for: of each a name, and what stands for `{it}`."""
    if text in tables:
        tables[text].is_used = True
        return tables[text].items
    items = []
    for word in text.split():
        ends = re.fullmatch(r"(\d{1,5})(?:\.\.(\d{1,5}))?", word)
        if not ends or int(ends[2] or ends[1]) < int(ends[1]):
            raise Bad("%s: neither numbers nor a table above" % place)
        items += [(str(n), str(n)) for n in range(int(ends[1]), int(ends[2] or ends[1]) + 1)]
    if not items:
        raise Bad("%s: neither numbers nor a table above" % place)
    return items


def rows_in(place, name, lines, known, tables):
    """A row, once for each that it is run for."""
    each = [(p, line[2:]) for p, line in lines if line.startswith("% ")]
    rest = [(p, line) for p, line in lines if not line.startswith("% ")]
    if len(each) > 1 or bool(each) != any("{it}" in line for _, line in rest):
        raise Bad("%s: a row has {it} and one line of what it is run for, or neither" % place)
    if not each:
        return [read(Part(place, True, name), rest, known)]
    return [read(Part(place, True, "%s, %s" % (name, what)),
                 [(p, line.replace("{it}", it)) for p, line in rest], known)
            for what, it in items_in(each[0][1], each[0][0], tables)]


class Table:
    """Lines that rows are run for: of each its name, and its text."""

    def __init__(self, place, name, lines):
        self.place, self.name, self.items, self.is_used = place, name, [], False
        for here, line in lines:
            entry = re.fullmatch(r"\| ([^:]+): (.*)", line)
            if entry and entry[1] not in (what for what, _ in self.items):
                self.items.append((entry[1], entry[2]))
            elif line.strip() and not line.startswith("#"):
                raise Bad("%s: no line of a table, or a second one of this name" % here)


def blocks_in(name):
    """Of each row, beginning and table of a file its place, its sign, its name and its lines."""
    with open(os.path.join(HERE, name), "rb") as f:
        content = f.read()
    try:
        lines = content.decode().split("\n")
    except UnicodeDecodeError as e:
        line = content.count(b"\n", 0, e.start) + 1
        raise Bad("check/rows/%s:%d: bytes that are no text" % (name, line))
    blocks = []
    for number, line in enumerate(lines, 1):
        place, (sign, _, text) = "check/rows/%s:%d" % (name, number), line.partition(" ")
        if sign in ("==", "::", "||"):
            if not text.strip() or any(block[1:3] == (sign, text) for block in blocks):
                raise Bad("%s: a name that is none, or comes twice" % place)
            blocks.append((place, sign, text, []))
        elif blocks:
            blocks[-1][3].append((place, line))
        elif line.strip() and not line.startswith("#"):
            raise Bad("%s: in no row, beginning or table" % place)
    return blocks


def parts_in(name, shared):
    """The rows, the beginnings and the tables of a file, which may use these beginnings too."""
    rows, tables, known = [], {}, dict(shared)
    for place, sign, text, lines in blocks_in(name):
        if sign == "==":
            rows += rows_in(place, text, lines, known, tables)
        elif sign == "||":
            tables[text] = Table(place, text, lines)
        elif text in known or any("{it}" in line for _, line in lines):
            raise Bad("%s: a second beginning %s, or one with {it}" % (place, text))
        else:
            known[text] = read(Part(place, False, text), lines, known)
    own = {text: part for text, part in known.items() if text not in shared}
    return rows, own, tables


def all_rows():
    """The rows of all files."""
    names = sorted(os.path.basename(path) for path in glob.glob(os.path.join(HERE, "*.rows")))
    rows, others, shared = [], [], {}
    for name in sorted(names, key=lambda name: name != SHARED):
        here, beginnings, tables = parts_in(name, shared)
        if name == SHARED:
            shared = beginnings
        elif not here:
            raise Bad("check/rows/%s:1: no row" % name)
        rows += here
        others += list(beginnings.values()) + list(tables.values())
    if not rows:
        raise Bad("rows: no row")
    for row in rows:
        if not (row.words or row.events or row.devices):
            raise Bad("%s: nothing in the row %s" % (row.place, row.name))
        row.use()
    for other in others:
        if not other.is_used:
            raise Bad("%s: no row uses %s" % (other.place, other.name))
    return rows
