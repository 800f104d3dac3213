"""Placeholders: the names in @ of a configuration against the table of its page."""
import re

from texts import coded, rows, same, text_of

FOLDERS = ["examples/between-sites", "examples/operators"]
NAME = r"@[A-Z_]+@"


def compare():
    """Compares the names of each configuration with the table of its page."""
    for folder in FOLDERS:
        page = folder + "/README.md"
        table = {name for cells in rows(text_of(page), "name | what goes in its place")
                 for name in coded(cells[0])}
        same(page, "what goes in the place of names", table,
             set(re.findall(NAME, text_of(folder + "/nginx.conf"))))
