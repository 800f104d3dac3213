"""texts: what the texts of a row stand for. What each form means stands in `run`."""
import re

ESCAPES = {"n": 10, "r": 13, "t": 9, "\\": 92}
PIECE = re.compile(r"(?P<plain>[^\\]+)|\\(?P<one>[nrt\\])|\\x(?P<byte>[0-9a-f]{2})|\\(?P<any>\?)"
                   r"|\\\{(?P<text>[^{}]*)(?P<how>[*/:])(?P<count>[1-9]\d{0,6})\}")
COUNTED = re.compile(r"(?<!\\)\{(n: [^{}]*|[-+*/%() 0-9]*n[-+*/%() 0-9]*)\}")


class Bad(Exception):
    """What can't be read, after its file and line."""


def number_in(text, least, greatest, place):
    if not re.fullmatch(r"0|[1-9]\d{0,4}", text) or not least <= int(text) <= greatest:
        raise Bad("%s: %r is no number from %d to %d" % (place, text, least, greatest))
    return int(text)


def number_bytes(text, count, place):
    """A number in this many bytes, the high one first."""
    if not re.fullmatch(r"0|[1-9]\d*", text) or int(text) >= 1 << 8 * count:
        raise Bad("%s: %r is no number of %d bytes" % (place, text, count))
    return list(int(text).to_bytes(count, "big"))


def values_of_piece(piece, place):
    """The bytes that a piece of a text stands for, None for any."""
    if piece["plain"]:
        return list(piece["plain"].encode())
    if not piece["how"]:
        return [None if piece["any"] else ESCAPES.get(piece["one"]) or int(piece["byte"], 16)]
    count = int(piece["count"])
    if piece["how"] == ":":
        return number_bytes(piece["text"], count, place)
    values = values_in(piece["text"], place)
    if piece["how"] == "*":
        return values * count
    if len(values) < count:
        raise Bad("%s: no %d bytes, but %d" % (place, count, len(values)))
    return values[:count]


def values_in(text, place):
    """The bytes that a text stands for, None for any."""
    values, at = [], 0
    while at < len(text):
        piece = PIECE.match(text, at)
        if not piece:
            raise Bad("%s: a backslash before something else than n, r, t, another one, x and two "
                      "digits, or { and a repetition, a front or a number" % place)
        values += values_of_piece(piece, place)
        at = piece.end()
    return values


def bytes_in(text, place):
    values = values_in(text, place)
    if None in values:
        raise Bad("%s: any byte where one is to be sent" % place)
    return bytes(values)


def counted(line, n, times, place):
    """The line as it comes for the n-th of its times."""
    def value(found):
        if found[1].startswith("n: "):
            items = found[1][3:].split()
            if len(items) != times:
                raise Bad("%s: %d for %d times" % (place, len(items), times))
            return items[n - 1]
        try:
            number = eval(found[1], {"__builtins__": {}}, {"n": n})
        except (SyntaxError, TypeError, ArithmeticError):
            number = None
        if not isinstance(number, int) or number < 0:
            raise Bad("%s: {%s} is no number" % (place, found[1]))
        return str(number)

    return COUNTED.sub(value, line)
