"""Options: the program's help against OPERATING.md and the manual page, and each range by trial.

To each option its range, or None for a file or a flag, and its default: a number's text, "must be
given", "none", or of a flag "off"."""
import re
import subprocess

from limits import documents
from texts import OPERATING, PAGE, differ, rows, same, text_of

OPTION = r"^ +(?:-\w, )?--([\w-]+)(?: <(\w+)>)?((?:.*\n(?! *(?:-\w, )?--))*.*)"
OF_PAGE = r"^\.TP\n\.BI? --([\w-]+)(?: +\w+)?\n((?:(?!\.TP|\.S[SH]).*\n?)*)"
FLAG = None, "off"  # an option without a value
# options whose value is one of some words
CHOICES = ("ahead", "revoke-unseen", "consent", "refresh-seen")
# options whose value is some words with commas between
LISTS, URLS = ("range", "accept", "redirects", "challenge"), ("issuer",)
SPELLINGS = {"no log": "none", "without end": "none"}


def range_in(text):
    m = re.search(r"\b(\d[\d,]*) to (\d[\d,]*)\b", text)
    return tuple(int(n.replace(",", "")) for n in m.groups()) if m else None


def default_in(text, limits):
    """Returns a default as the program's help has it."""
    if text.startswith("or `--"):  # another option may be given in its place
        return ""
    text = text.replace(",", "").strip("`")
    if text == "the greatest":
        return str(limits[1]) if limits else ""
    return SPELLINGS.get(text, text)


def value_said(is_required, default, limits):
    """The default of an option, from the match that found it; or that the option must be given."""
    if is_required:
        return "must be given"
    return default_in(default.group(1), limits) if default else ""


def help_of(program, command):
    words = [program, command, "--help"]
    return subprocess.run(words, capture_output=True, text=True, timeout=60).stdout


def of_program(program, command):
    """Those of the help, in its order."""
    options = {}
    where = "tokend %s --help" % command
    for name, value, told in re.findall(OPTION, help_of(program, command), re.M):
        told = " ".join(told.split())
        if not value:
            options[name] = FLAG
            continue
        limits = range_in(told)
        default = re.search(r"\[default: ([^\]]*)\]", told)
        said = value_said("[required]" in told, default, limits)
        named = {**dict.fromkeys(CHOICES, "WORD"), **dict.fromkeys(LISTS, "LIST"),
                 **dict.fromkeys(URLS, "URL")}.get(name, "FILE")
        named = "N" if limits else named
        same(where, "--%s's value" % name, named, value)
        options[name] = (limits, said)
    if not options:
        differ(where, "has no options")
    options.pop("help", None)
    return options


def of_operating():
    """Returns range and default of each option, by the table of OPERATING.md."""
    options = {}
    for cells in rows(text_of(OPERATING), "option | range"):
        limits = range_in(cells[1])
        name = re.match(r"`--([\w-]+)(?: \w+)?`", cells[0]).group(1)
        options[name] = (limits, default_in(cells[2], limits))
    return options


def of_page(part):
    """Those below a heading of the manual page."""
    text = text_of(PAGE).split(".SS " + part, 1)[1]
    text = re.split(r"^\.S[SH] ", text, maxsplit=1, flags=re.M)[0]
    text = text.replace("\\-", "-").replace("\\~", " ")
    options = {}
    for name, told in re.findall(OF_PAGE, text, re.M):
        limits = range_in(told)
        default = re.search(r"Default: ([^.,]*)", told)
        said = value_said("Must be given" in told, default, limits)
        options[name] = (limits, said)
    return options


def compare_each(where, wanted, said):
    for name in sorted(set(wanted) | set(said)):
        same(where, "--" + name, wanted.get(name), said.get(name))
    same(where, "the order of options", list(wanted), list(said))


def compare_mentions(known):
    """Each option that a document names is one of the program; GATE.md names others' too."""
    for name in documents():
        if name != "docs/GATE.md":
            for option in re.findall(r"`(?:tokend serve )?--([a-z-]+)", text_of(name)):
                if option not in known and option not in ("help", "version", "install"):
                    differ(name, "--%s is no option" % option)


def compare(program):
    """Compares the help with OPERATING.md and the manual page, and returns the options."""
    serve, script = of_program(program, "serve"), of_program(program, "script")
    same("tokend loopback --help", "its options", script, of_program(program, "loopback"))
    settings = {name: serve.get(name) for name in script}
    same("tokend serve --help", "its settings", script, settings)
    own = {name: value for name, value in serve.items() if name not in script}
    facts = of_program(program, "facts")
    compare_mentions({**serve, **facts})
    compare_each(OPERATING, serve, of_operating())
    compare_each(PAGE + ", of serve", own, of_page("Of serve"))
    compare_each(PAGE + ", of facts", facts, of_page("Of facts"))
    compare_each(PAGE + ", settings", script, of_page("Settings, of all three"))
    synopsis = text_of(PAGE).split(".SH DESCRIPTION")[0]
    for name, (_, default) in serve.items():
        is_there = re.search(r"^\.BI \\-\\-%s\\~" % name, synopsis, re.M)
        if default == "must be given" and not is_there:
            differ(PAGE, "--%s isn't in the synopsis" % name)
    return serve, script


def status(program, command, given):
    words = [w for name, value in given.items() for w in ("--" + name, value)]
    done = subprocess.run([program, command] + words, stdin=subprocess.DEVNULL,
                          capture_output=True, timeout=60)
    return done.returncode


def try_one(program, command, given, name, option):
    """The ends of a range are taken, and what is beyond isn't, nor an absent required option."""
    limits, default = option
    where = "tokend %s --%s" % (command, name)
    if limits:
        least, greatest = limits
        for n, wanted in ((least, 0), (greatest, 0), (least - 1, 2), (greatest + 1, 2)):
            if (name, n) in (("port", greatest), ("requests", greatest)):
                continue  # perhaps somebody else's; a very long wait
            said = status(program, command, {**given, name: str(n)})
            same("%s %d" % (where, n), "its status", wanted, said)
    if default == "must be given":
        rest = {k: v for k, v in given.items() if k != name}
        same(where + " left out", "its status", 2, status(program, command, rest))


def try_all(program, serve, script, seed):
    base = {"region": "1", "port": "0", "seed": seed, "requests": "0"}
    for name, option in serve.items():
        log = {"log": seed + ".log"} if name == "log-part" else {}
        try_one(program, "serve", {**base, **log}, name, option)
    for name, option in script.items():
        try_one(program, "script", {}, name, option)


def try_words(program):
    """Arguments of no task; help and the version."""
    for words, wanted in ((["script", "--code", "1", "--code", "1"], 2),
                          (["script", "--nothing", "1"], 2), ([], 2), (["nothing"], 2),
                          (["--help"], 0), (["--version"], 0)):
        done = subprocess.run([program] + words, stdin=subprocess.DEVNULL,
                              capture_output=True, text=True, timeout=60)
        where = "tokend " + " ".join(words)
        same(where, "its status", wanted, done.returncode)
        if wanted == 2 and not (done.stderr and not done.stdout):
            differ(where, "nothing on standard error, or something on standard output")
    version = subprocess.run([program, "--version"], capture_output=True, text=True).stdout.strip()
    page = re.search(r'"(tokend [\d.]+)"', text_of(PAGE)).group(1)
    same(PAGE, "the version", version, page)
    readme = "tokend " + re.search(r"^Version ([\d.]+\d)", text_of("README.md"), re.M).group(1)
    same("README.md", "the version", version, readme)
