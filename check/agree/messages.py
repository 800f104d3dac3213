"""Messages: the sources against OPERATING.md and the manual page.

To each line, with K, N, P and FILE for what varies, its exit status; None if the program goes
on."""
import re

from texts import OPERATING, PAGE, coded, rows, same, text_of

FAULT, LOSSES = "crates/tokend/src/fault.rt", "crates/tokend/src/losses.rt"
LISTEN, FACTS = "crates/tokend/src/listen.rt", "crates/tokend/src/facts.rt"
CHECK = "crates/tokend/src/check.rt"
START_PAGE = "docs/tokend-start.1"
LINE = r'\bFault::(\w+)(?:\(\w+\))? => (?:say|tell_\w+)\(faults, [^"\n]*b"([^"]*)"'


def statuses_of_sources(fault):
    """Returns the status of each fault by its name."""
    arms = fault.split("impl Fault {", 1)[1].split("fn status(", 1)[1].split("\n    }\n", 1)[0]
    statuses = {}
    for names, number in re.findall(r"((?:\bFault::\w+(?:\(_\))?\s*\|?\s*)+)=> (\d)", arms):
        for name in re.findall(r"Fault::(\w+)", names):
            statuses[name] = int(number)
    return statuses


def of_sources():
    """Returns the lines on standard output, and those of errors with their statuses."""
    fault, losses, listen = text_of(FAULT), text_of(LOSSES), text_of(LISTEN)
    statuses = statuses_of_sources(fault)
    errors = {}
    for name, line in re.findall(LINE, fault):
        key = line.replace("\\n", "") + ("FILE" if line.endswith(" ") else "")
        errors[key] = statuses.pop(name)
    errors[re.search(r'b"(tokend: bad line )"', fault).group(1) + "K"] = statuses.pop("BadLine")
    arm = r"FactsFault::Malformed\(_, _\) \| FactsFault::Refused\(_, _\) => (\d)"
    bad = int(re.search(arm, fault)[1])
    for place in re.findall(r'tell_place\(faults, b"([^"]*)"', fault):
        errors[place + "N of FILE"] = bad
    errors[re.search(r'b"(tokend: dropped )"', text_of(FACTS))[1] + "N bytes"] = None
    same(FAULT, "faults without a line of their own", {"Arguments": 2, "Output": 1}, statuses)
    for name in re.findall(r'EdgeFault::\w+ => say\(faults, &\[b"([^"\\]*)\\n"\]\)', losses):
        errors[name] = None
    names = re.findall(r"fn put_(dropped_bytes|pruned_facts|inner|port|path)<", listen)
    output = {line_of(listen, name) for name in names}
    return output | {line_of(text_of(CHECK), "count")}, errors


def line_of(listen, name):
    """The line that a function prints, with a letter for its number, or FILE for its path."""
    body = listen.split("fn put_%s<" % name, 1)[1].split("\n}\n", 1)[0]
    pieces = re.search(r'&\[(b"[^\]]*)\]', body)[1].replace(".as_bytes()", "")
    found = re.findall(r'b"([^"]*)"|(\w+)', pieces)
    letter = {"port": "P", "path": "FILE", "inner": "FILE"}.get(name, "N")
    return "".join(text or letter for text, _ in found).replace("\\n", "")


def of_operating():
    """Returns the same as `of_sources`, by the tables of OPERATING.md."""
    text = text_of(OPERATING)
    output = {line for cells in rows(text, "on standard output | cause")
              for line in coded(cells[0])}
    errors = {line: int(cells[1]) if cells[1] else None
              for cells in rows(text, "on standard error | status") for line in coded(cells[0])}
    return output, errors


def of_page(part):
    """Returns the lines of a part of the manual page, each with its status."""
    text = text_of(PAGE).split(".SH %s\n" % part, 1)[1]
    text = re.split(r"^\.SH ", text, maxsplit=1, flags=re.M)[0]
    text = text.replace("\\-", "-").replace("\\~", "~")
    lines = {}
    for head, told in re.findall(r"^\.TP\n\.B\w* ?(.*)\n((?:(?!\.TP|\.PP).*\n?)*)", text, re.M):
        status = re.search(r"Status (\d)\.", told)
        words = head.replace('"', "")
        if "~" in head:
            words = words.replace(" ", "").replace("~", " ")
        for line in words.split(" , "):
            lines[line.strip()] = int(status.group(1)) if status else None
    return lines


def compare_errors(where, wanted, said):
    for line in sorted(set(wanted) | set(said)):
        same(where, "the status of `%s`" % line, wanted.get(line, "no line"),
             said.get(line, "no line"))


def compare_scripts():
    """Statuses of the examples' scripts, in their sources and on their pages."""
    start, page = text_of("starter/starting/stop.py"), text_of(START_PAGE)
    wanted = set(re.findall(r"\d", re.search(r"^FAILED, .* = (.*)$", start, re.M)[1]))
    said = page.split('.SH "EXIT STATUS"')[1].split(".SH ")[0]
    same(START_PAGE, "the statuses", wanted, set(re.findall(r"^\.B (\d)$", said, re.M)))
    wanted = set(re.findall(r'"(TOKEND\w*|STATE_DIRECTORY|MAINPID)"',
                            text_of("starter/starting/settings.py")))
    said = page.split(".SH ENVIRONMENT")[1].split(".SH ")[0]
    same(START_PAGE, "the variables", wanted, set(re.findall(r"^\.B (\w+)$", said, re.M)))
    carry = text_of("examples/carry/carry").split("Status 0")[1].split("\n\n")[0]
    page = "examples/carry/README.md"
    said = {cells[0] for cells in rows(text_of(page), "status | meaning")}
    same(page, "the statuses", {"0"} | set(re.findall(r"(\d): ", carry)), said)


def compare():
    """Compares the messages of the sources with OPERATING.md and the manual page."""
    compare_scripts()
    output, errors = of_sources()
    plain = {line: status for line, status in errors.items() if line != "tokend: cannot read -"}
    said_output, said_errors = of_operating()
    same(OPERATING, "its lines on standard output", output, said_output)
    compare_errors(OPERATING, plain, said_errors)
    same(PAGE, "its lines on standard output", output, set(of_page('"STANDARD OUTPUT"')))
    compare_errors(PAGE, plain, of_page('"STANDARD ERROR"'))
    statuses = sorted({0} | {s for s in errors.values() if s is not None})
    said = sorted(int(c[0]) for c in rows(text_of(OPERATING), "status | meaning"))
    same(OPERATING, "its exit statuses", statuses, said)
    page = text_of(PAGE).split('.SH "EXIT STATUS"', 1)[1].split(".SH ", 1)[0]
    said = sorted(int(n) for n in re.findall(r"^\.TP\n\.B (\d)$", page, re.M))
    same(PAGE, "its exit statuses", statuses, said)
    return errors
