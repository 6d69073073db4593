#!/usr/bin/env python3
"""Compares what the documents print with the code that it is printed from.

crates.txt with the table of crates; the statuses, causes and limits with the tables that tell them;
the files of definitions with the page that names them; calls, clauses and edits with the page on answers.
Prints each difference as one line, with the place where it is to be mended, and ends with status 1 if there is one.
"""

import fnmatch
import pathlib
import re
import sys

ROOT = pathlib.Path(__file__).resolve().parent.parent

# A row of the table of crates leaves these out where another of its crates stands on them.
BELOW_ALL = ("lvs_types", "lvs_model")

# Crates whose files of definitions the page gives without the crate's name.
HOMES = ("lvs_model", "lvs_sum")

# Laws, worked examples and tests: their functions have no row among the calls.
WITHOUT_ROWS = ("lvs_laws/*", "lvs_well_formed/*", "lvs_verdicts/*", "lvs_examples/*", "*/laws.rt", "*examples*", "*tests*")

# The limits that stand in a table, by the words of its row.
PROFILE_LIMITS = {
    "whole input": ("max_input",),
    "rounds of a script": ("max_rounds",),
    "items of a script, the clock's aside": ("max_items",),
    "workers, buckets": ("max_workers", "max_buckets"),
    "clients of a demonstration": ("max_clients",),
    "seconds of a round that is made of a capture": ("max_capture_step",),
    "digits of the counts of a pair": ("max_counts",),
    "moment": ("max_moment",),
}
SCRIPT_LIMITS = {
    "the whole script": ("max_input",),
    "rounds": ("max_rounds",),
    "items of all rounds": ("max_items",),
}

found = []


def differs(place, what):
    """Notes a difference."""
    found.append(f"{place}: {what}")


def read(path):
    """The text of a file of the repository."""
    return (ROOT / path).read_text(encoding="utf-8")


def compare(place, what, told, wanted):
    """Notes what is told and isn't so, and what is so and isn't told."""
    for name in sorted(set(told) - set(wanted)):
        differs(place, f"{what} {name} isn't in the code")
    for name in sorted(set(wanted) - set(told)):
        differs(place, f"{what} {name} is missing")


def rows(path, first_header):
    """The rows of the tables of a page whose first column has that header, as lists of cells."""
    inside = False
    for line in read(path).splitlines():
        cells = [cell.strip() for cell in re.split(r"(?<!\\)\|", line.strip().strip("|"))]
        if not line.startswith("|"):
            inside = False
        elif cells[0] == first_header:
            inside = True
        elif inside and not set(line) <= set("|-: "):
            yield cells


def variants(path, name):
    """The variants of an enum, in order."""
    body = re.search(rf"pub enum {name} \{{\n(.*?)^\}}", read(path), re.S | re.M).group(1)
    return re.findall(r"^    ([A-Z]\w*)", body, re.M)


def numbers(text):
    """The whole numbers of a text, with commas between their thousands."""
    return [int(number.replace(",", "")) for number in re.findall(r"\d[\d,]*", text)]


def check_crates():
    """crates.txt and the table of crates."""
    place = "docs/ARCHITECTURE.md"
    stands_on = {}
    for line in read("crates.txt").splitlines():
        line = line.split("#")[0].strip()
        if line:
            head, _, below = line.partition(":")
            stands_on[head.split()[0]] = below.split()

    def reaches(crate, target):
        return any(it == target or reaches(it, target) for it in stands_on.get(crate, ()))

    told = {}
    for cells in rows(place, "Crate"):
        below = [] if cells[2] == "none" else re.split(r",\s*", cells[2])
        whole = [it for pattern in below for it in fnmatch.filter(stands_on, pattern) or [pattern]]
        for crate in re.split(r",\s*", cells[0]):
            told[crate] = whole
    compare(place, "crate", told, stands_on)
    for crate in sorted(set(told) & set(stands_on)):
        implied = {
            low
            for low in BELOW_ALL
            if any(it != low and reaches(it, low) for it in stands_on[crate])
        }
        compare(place, f"{crate} stands on", told[crate], set(stands_on[crate]) - implied)


def check_statuses():
    """The exit statuses, the fixed lines of standard error, and the page that tells them."""
    page = "docs/REPORT.md"
    table = dict(re.findall(r"^exit_number \(?status\.(\w+)[^=]*= (\d+)$", read("crates/lvs_run/specs/ExitCodes.antt"), re.M))
    compare("crates/lvs_run/specs/ExitCodes.antt", "status", table, variants("crates/lvs_types/src/status.rt", "Status"))
    told = list(rows(page, "Exit status"))
    compare(page, "exit status", [cells[0] for cells in told], table.values())
    texts = read("crates/lvs_model/specs/FaultLines.antt")
    for status, text in re.findall(r'^fault_text \(?status\.(\w+)[^=]*= codes "([^"]*)"', texts, re.M):
        lines = [cells[1].strip("`") for cells in told if cells[0] == table.get(status)]
        if not any(line.startswith(text.rstrip()) for line in lines):
            differs(page, f"no line of exit status {table.get(status)} begins with '{text}'")
    sentence = re.search(r"The exit status is (.*)", read("README.md"))
    if sentence is None:
        differs("README.md", "no sentence says 'The exit status is ..'")
        return
    numbered = re.findall(r"(?<![\d,])(\d)(?![\d,])", sentence.group(1))
    for number in sorted(set(numbered) - set(table.values())):
        differs("README.md", f"exit status {number} isn't in the code")


def check_causes():
    """The causes of refusals, in the two pages that list them."""
    script = variants("crates/lvs_types/src/script.rt", "ScriptCause")
    words = variants("crates/lvs_types/src/script.rt", "WordsCause")
    capture = variants("crates/lvs_types/src/capture.rt", "CaptureCause")
    tables = {"The line": [], "The word": []}
    kind = None
    for line in read("docs/SCRIPT.md").splitlines():
        cells = [cell.strip() for cell in line.strip("|").split("|")]
        if not line.startswith("|"):
            kind = None
        elif cells[0] == "Cause":
            kind = cells[1]
        elif kind in tables and not set(line) <= set("|-: "):
            tables[kind] += re.split(r",\s*", cells[0])
    compare("docs/SCRIPT.md", "cause of a line", tables["The line"], script)
    compare("docs/SCRIPT.md", "cause of a word", tables["The word"], words)
    report = read("docs/REPORT.md")
    for what, wanted in (("script", script + words), ("capture", capture)):
        line = re.search(rf"^The cause of a refused {what} is one of .*$", report, re.M)
        told = re.findall(r"`([A-Z]\w*)`", line.group(0)) if line else []
        compare("docs/REPORT.md", f"cause of a refused {what}", told, wanted)


def check_replies():
    """The causes that a report spells in lower case."""
    page = "docs/REPORT.md"
    told = {cells[0].strip("`"): re.findall(r"`([a-z0-9]+)`", cells[1]) for cells in rows(page, "Reply")}
    for reply, path, name in (
        ("drop malformed CAUSE", "head.rt", "Malformed"),
        ("refused CAUSE", "reply.rt", "EditRefused"),
        ("learn CAUSE", "sync.rt", "Learnt"),
        ("badsync CAUSE", "sync.rt", "BadSync"),
    ):
        wanted = [it.lower() for it in variants(f"crates/lvs_types/src/{path}", name)]
        compare(page, f"`{reply}` with the cause", told.get(reply, []), wanted)


def check_limits():
    """The limits, in the tables and sentences that give them."""
    limits = {name: int(value) for name, value in re.findall(r"^(max_\w+) = (\d+)$", read("crates/lvs_types/specs/Limits.antt"), re.M)}
    for page, names in (("docs/PROFILE.md", PROFILE_LIMITS), ("docs/SCRIPT.md", SCRIPT_LIMITS)):
        told = {cells[0]: cells[1] for cells in rows(page, "Quantity")}
        for row, wanted in names.items():
            if row not in told:
                differs(page, f"the limits have no row '{row}' for {', '.join(wanted)}")
                continue
            for name in wanted:
                if limits.get(name) not in numbers(told[row]):
                    differs(page, f"the row '{row}' says {told[row]}, and {name} is {limits.get(name)}")
    told = {name for wanted in PROFILE_LIMITS.values() for name in wanted}
    compare(".ci/documents.py", "limit", told, limits)
    for page in ("README.md", "docs/REPORT.md"):
        for number in re.findall(r"more than ([\d,]+) bytes", read(page)):
            if numbers(number) != [limits["max_input"]]:
                differs(page, f"an input of more than {number} bytes is told, and max_input is {limits['max_input']}")


def definition_files():
    """The files of definitions that the page names, by crate: in its table, and as helpers."""
    page = "docs/DEFINITIONS.md"
    told = {crate: set() for crate in HOMES}
    for cells in rows(page, "Definition"):
        names, _, crate = re.sub(r",? (of|in) (lvs_\w+)$", r"@\2", cells[2]).partition("@")
        for name in re.split(r",\s*", names):
            home = crate or next((it for it in HOMES if (ROOT / f"crates/{it}/specs/{name}.antt").exists()), HOMES[0])
            told.setdefault(home, set()).add(name)
    for crate, names in re.findall(r"^- (lvs_\w+): ([\w, ]+)$", read(page), re.M):
        told.setdefault(crate, set()).update(re.split(r",\s*", names.strip()))
    return told


def check_definitions():
    """The files of definitions, in the page that says what a reader must believe."""
    for crate, told in sorted(definition_files().items()):
        files = {path.stem for path in (ROOT / f"crates/{crate}/specs").glob("*.antt")} - {"Lib"}
        compare("docs/DEFINITIONS.md", f"the file of {crate}", told, files)


def contracts(path, name):
    """The names of the clauses of each function of that name in a file, with None for a clause without one."""
    for found_at in re.finditer(rf"^ *(?:pub )?fn {name}\b", read(path), re.M):
        head = re.split(r"\n *\{|;\n|\n\n", read(path)[found_at.start() :], maxsplit=1)[0]
        yield {name or None for name in re.findall(r"^ *ensures (\w*)", head, re.M)}


def check_answers():
    """Calls, clauses and files of the page on answers, and the edits that it names."""
    page = "docs/ANSWERS.md"
    told = [(cells[1], cells[3], cells[4]) for cells in rows(page, "Answer")]
    told += [(cells[0], cells[2], cells[3]) for cells in rows(page, "Call")]
    for call, clauses, path in told:
        path = f"crates/{path}"
        if not (ROOT / path).exists():
            differs(page, f"{path} isn't there, for {call}")
            continue
        wanted = {None} if clauses == "its clause" else set() if clauses == "none" else set(re.findall(r"`(\w+)`", clauses))
        if not any(wanted <= has for has in contracts(path, re.match(r"`(\w+)`", call).group(1))):
            differs(page, f"{call} has no clause {clauses} in {path}")
    named = {(re.match(r"`(\w+)`", call).group(1), path) for call, _, path in told}
    for file in sorted(ROOT.glob("crates/*/src/**/*.rt")):
        path = file.relative_to(ROOT / "crates").as_posix()
        if not any(fnmatch.fnmatch(path, pattern) for pattern in WITHOUT_ROWS):
            for name in re.findall(r"^ *pub fn (\w+)", read(f"crates/{path}"), re.M):
                if (name, path) not in named:
                    differs(page, f"{name} of {path} has no row")
    for cells in rows(page, "A body that"):
        for crate, edit in re.findall(r"\b((?:lvs_|ipvsd)\w*)/(\w+)", cells[1]):
            if not (ROOT / f"crates/{crate}/must-fail/{edit}.edit").exists():
                differs(page, f"crates/{crate}/must-fail/{edit}.edit isn't there")


def main():
    for check in (check_crates, check_statuses, check_causes, check_replies, check_limits, check_definitions, check_answers):
        check()
    for line in found:
        print(line)
    return 1 if found else 0


if __name__ == "__main__":
    sys.exit(main())
