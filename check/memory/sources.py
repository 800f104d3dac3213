"""sources: `tokend facts`, with and without --check, whose allocations fail.

What the program must write with enough memory comes from a reader in Python, lib/reading.py.
A program that ran out of memory has printed the lines of the first bundles and vectors, each whole,
or of a check nothing.
"""
import os

import refusal
from lib.reading import Region, parts_of, printed
from lib.writing import BUNDLES, bundle, dot, fact, text

NUMBER = 65535  # of the region that loads what is checked
CUT, BAD = b"OTB1\0", b"OTB9\0\0"
VECTOR = BUNDLES["a vector"]
OTHER = BUNDLES["a resource server"]  # another fact at the dot of the first one of each log
SHORT = b"".join(BUNDLES[name] for name in (
    "a public client", "a code", "a mark and a fact", "a retired client by an operator"))
# Longer than what is read at once.
LONG = b"".join([BUNDLES[name] for name in (
    "a confidential client", "a consent", "a code with a challenge", "a redeemed code",
    "a rotation", "a refresh token that was revoked by an operator", "a reused code", "marks",
    "a retired client by an operator")]
    + [bundle([fact(3, dot(1, 1) + text(b"a" * 128) + text(b"b" * 1024), serial)
               for serial in range(10, 74)])])


class Reading:
    """Arguments and an input, what must come of them, and the outputs allowed out of memory."""

    def __init__(self, title, words, given, end, outputs):
        self.title, self.words, self.given = title, words, given
        self.end, self.outputs = end, outputs

    def wrong(self, ran):
        """What is wrong with a run, or None."""
        if (ran.status, ran.output, ran.errors) == self.end:
            return None
        is_memory = (ran.status, ran.errors) == (1, b"tokend: memory\n")
        if ran.refused and is_memory and ran.output in self.outputs:
            return None
        return "status %s, %r, and %d bytes of output" % (ran.status, ran.errors, len(ran.output))


def outputs_of(data):
    """The lines of the first bundles and vectors, of none, of one, and so on."""
    outputs = [b""]
    for _, _, objects in parts_of(data):
        outputs.append(outputs[-1] + printed(objects))
    return outputs


def count_of(log):
    """The line of the number of facts."""
    region = Region(NUMBER)
    region.load(log)
    return b"loaded %d facts\n" % region.facts()


def ends(log):
    """Of each command its options, its bytes, what must come of it, and the outputs allowed.

    `%s` is in the place of the source's name.
    """
    shown, check, dropped = log + VECTOR, ["--check"], b"tokend: dropped %d bytes\n" % len(CUT)
    outputs, bad = outputs_of(shown), b"tokend: bad bytes at %d of %%s\n"
    refused = b"tokend: refused bundle at %d of %%s\n" % len(log)
    yield [], shown + CUT, (0, outputs[-1], dropped), outputs
    yield [], shown + BAD, (2, outputs[-1], bad % len(shown)), outputs
    yield check, log + CUT, (0, count_of(log), dropped), [b""]
    yield check, log + VECTOR, (2, b"", bad % len(log)), [b""]
    yield check, log + OTHER, (2, b"", refused), [b""]


def readings(lab, log):
    """Each command over a log and what is behind it, from the standard input and from a file."""
    for number, (options, data, (status, output, errors), outputs) in enumerate(ends(log)):
        name = "source-%d" % number
        with open(os.path.join(lab.folder, name), "wb") as file:
            file.write(data)
        for names, given in (([], data), ([name], b"")):
            words, place = ["facts"] + options + names, (names or ["-"])[0].encode()
            end = status, output, errors.replace(b"%s", place)
            title = "%s, %d bytes" % (" ".join(words), len(data))
            yield Reading(title, words, given, end, outputs)


def sweep(lab, reading, is_whole, offset, stride):
    """Yields what is wrong when allocations fail while sources are read."""
    def trial(at, span):
        ran = lab.run(reading.words, reading.given, at=at, span=span)
        return ran.refused, reading.wrong(ran)

    yield from refusal.sweep(lab, reading.title, trial, is_whole, offset, stride)
