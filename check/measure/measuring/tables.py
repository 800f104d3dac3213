"""tables: the data of a measurement, and its text: a Markdown table of medians and spreads."""
import hashlib
import json
import os
import statistics
import subprocess
import time


def about_machine():
    """The machine, and how busy it is now."""
    with open("/proc/cpuinfo", encoding="utf-8") as file:
        models = [it.split(":", 1)[1].strip() for it in file if it.startswith("model name")]
    return {"processors": os.cpu_count(), "model": models[0] if models else "unknown",
            "kernel": os.uname().release, "load": round(os.getloadavg()[0], 2),
            "date": time.strftime("%Y-%m-%d %H:%M", time.gmtime())}


def about_program(path):
    """Its version, and the digest, which differs between two builds of a version."""
    said = subprocess.run([path, "--version"], capture_output=True, text=True, check=False)
    with open(path, "rb") as file:
        digest = hashlib.sha256(file.read()).hexdigest()[:12]
    return {"name": os.path.basename(path), "version": said.stdout.strip(), "digest": digest}


def data(name, about, machine, given, rows):
    """What --json writes."""
    return {"command": name, "about": about.split("\n")[0], "machine": machine,
            "programs": [about_program(it) for it in given.program],
            "rounds": given.rounds, "small": given.small,
            "rows": [{"name": row, "values": values} for row, values in rows.items()]}


def write(path, found):
    with open(path, "w", encoding="utf-8") as file:
        json.dump(found, file, indent=1)
        file.write("\n")


def machine(about):
    return ("%(date)s UTC, %(processors)d processors (%(model)s), Linux %(kernel)s, "
            "load %(load).2f" % about)


def part_of(ascending, part):
    """What a part of the values, such as 0.99, isn't above."""
    return ascending[min(int(len(ascending) * part), len(ascending) - 1)]


def number(value):
    """A number with two or three digits that count, or more if it is great or whole."""
    if value >= 100 or value == int(value):
        return format(value, ",.0f")
    return format(value, ".3g" if value >= 1 else ".2g")


def cell(values):
    """The median, and the least and the greatest of several rounds; nothing of no round."""
    if not values:
        return ""
    middle = number(statistics.median(values))
    if len(values) == 1:
        return middle
    return "%s (%s to %s)" % (middle, number(min(values)), number(max(values)))


def ratio(values):
    """The second program's median by the first's, if both have one."""
    if not all(values):
        return ""
    first, second = (statistics.median(it) for it in values)
    return "%.2f" % (second / first) if first else "-"


def cells(row):
    both = [ratio(row["values"])] if len(row["values"]) == 2 else []
    return [row["name"]] + [cell(values) for values in row["values"]] + both


def programs(found):
    return ["%s (%s)" % (it["name"], ", ".join(filter(None, (it["version"], it["digest"]))))
            for it in found["programs"]]


def columns(found):
    """The programs' names, or their digests if the names are alike."""
    names = [it["name"] for it in found["programs"]]
    return names if len(set(names)) == len(names) else [it["digest"] for it in found["programs"]]


def table(found):
    """The title, the programs, and a line for each name."""
    names = columns(found)
    lines = [[""] + names + (["ratio"] if len(names) == 2 else [])]
    lines += [cells(row) for row in found["rows"]]
    widths = [max(map(len, column)) for column in zip(*lines)]
    lines.insert(1, ["-" * width for width in widths])
    text = ["| " + " | ".join(map(str.ljust, line, widths)) + " |" for line in lines]
    many = "%d rounds" % found["rounds"] if found["rounds"] > 1 else "1 round"
    head = ["%s: %s" % (found["command"], found["about"].partition(": ")[0]),
            "%s%s; %s" % (many, ", small sizes" if found["small"] else "",
                          "; ".join(programs(found)))]
    return "\n".join(head + [""] + text)
