"""measured: the marks of tables in docs/MEASURED.md and docs/SCALE.md, and the commands in
MEASURED.md, beside those of check/measure."""
import os
import re

from lib import TOP
from measuring import blocks
from texts import MEASURED, SCALE, differ, text_of

FOLDER = os.path.join(TOP, "check/measure")
OTHERS = {"all", "report", "pictures", "proofs"}  # these measure nothing of the program


def compare_names(document, what, here, there):
    for name in sorted(set(here) ^ set(there)):
        where = "only in the document" if name in here else "missing from the document"
        differ(document, "the %s %s is %s" % (what, name, where))


def compare():
    """Compares the tables of both documents, and the commands, with those that there are."""
    text, more = text_of(MEASURED), text_of(SCALE)
    both = text + more
    marked = re.findall(r"^<!-- measured: (\w+) -->\n(?:(?!<!-- ).*\n)*<!-- end -->$", both, re.M)
    compare_names(MEASURED + " or " + SCALE, "table", marked, blocks.ALL)
    if not len(set(marked)) == len(marked) == len(re.findall("<!-- ", both)) / 2:
        differ(MEASURED + " or " + SCALE, "the marks of tables aren't one pair for each table")
    commands = [it for it in os.listdir(FOLDER)
                if os.path.isfile(os.path.join(FOLDER, it)) and it != "README.md"]
    listed = re.findall(r"^\| `(\w+)` \|", text.partition("## Speed")[0], re.M)
    compare_names(MEASURED, "command", listed, set(commands) - OTHERS)
