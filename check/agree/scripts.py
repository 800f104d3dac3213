"""Scripts of the checks, examples, starter and packaging: the width of each line, and the help."""
import os
import subprocess
from concurrent.futures import ThreadPoolExecutor

from lib import TOP
from texts import differ

FOLDERS = "check", "examples", "packaging", "starter"
WIDTH = 100
HELP = "--help", "argparse"
WIDE = ".rows", ".story", ".html", ".in", ".md", ".png"  # inputs, and what `markdown` looks at


def names():
    """The names of the files, without what Python keeps beside a script."""
    for top in FOLDERS:
        for folder, folders, files in os.walk(os.path.join(TOP, top)):
            folders[:] = sorted(it for it in folders if it not in ("__pycache__", "build", "out"))
            yield from (os.path.join(folder, it) for it in sorted(files) if not it.endswith(WIDE))


def helped():
    """The names of the scripts that read `--help`, by themselves or by argparse."""
    for name in names():
        with open(name, encoding="utf-8", errors="replace") as f:
            text = f.read()
        is_script = text.startswith("#!") and os.access(name, os.X_OK)
        if is_script and any(it in text for it in HELP):
            yield name


def help_of(name):
    """Name, status and text of a script's help, at a terminal that is wide."""
    ran = subprocess.run([name, "--help"], stdin=subprocess.DEVNULL, capture_output=True,
                         text=True, check=False, env=os.environ | {"COLUMNS": "250"})
    return os.path.relpath(name, TOP), ran.returncode, ran.stdout


def compare_help():
    with ThreadPoolExecutor(os.cpu_count()) as pool:
        for name, status, text in pool.map(help_of, helped()):
            if status or not text.strip():
                differ(name, "--help ends with status %d and %d bytes" % (status, len(text)))
            for line in text.splitlines():
                if len(line) > WIDTH:
                    differ(name, "a line of its help has %d columns: %s" % (len(line), line[:60]))


def compare():
    """Names each line that is wider than 100 columns, and each script without help."""
    compare_help()
    for name in names():
        with open(name, encoding="utf-8", errors="replace") as f:
            for number, line in enumerate(f, 1):
                columns = len(line.rstrip("\n"))
                if columns > WIDTH:
                    differ(os.path.relpath(name, TOP), "line %d has %d columns" % (number, columns))
