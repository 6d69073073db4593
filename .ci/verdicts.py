#!/usr/bin/env python3
"""Spoils the reports of examples/ in every line, and asks the proved program's `check` about each.

A report is cut behind each line, and each line is left out, doubled, swapped with the next one, and
changed in one byte. None of these is legal, unless the report is the same as before. What is called
legal is told, and the exit status is 1. Without a proved program that is told.

    .ci/verdicts.py [PROGRAM]
"""
import glob
import os
import subprocess
import sys

ROOT = os.path.dirname(os.path.dirname(os.path.abspath(__file__)))
LEGAL, ILLEGAL = 0, 7


def spoilt(lines):
    """What was done to the report, and the report's lines then."""
    for at, line in enumerate(lines):
        after = lines[at + 1:]
        middle = len(line) // 2
        changed = line[:middle] + bytes([line[middle] ^ 1]) + line[middle + 1:]
        yield "cut before line %d" % (at + 1), lines[:at]
        yield "line %d left out" % (at + 1), lines[:at] + after
        yield "line %d doubled" % (at + 1), lines[:at] + [line, line] + after
        yield "line %d changed" % (at + 1), lines[:at] + [changed] + after
        if after:
            yield "line %d swapped with the next" % (at + 1), lines[:at] + [after[0], line] + after[1:]


def status_of(program, script, report):
    given = script + b"report\n" + report
    return subprocess.run([program, "check"], input=given, capture_output=True).returncode


def main(words):
    program = words[0] if words else os.path.join(ROOT, "crates", "ipvsd", "out", "ipvsd")
    if not os.access(program, os.X_OK):
        print("verdicts: skipped, no proved program at %s" % program)
        return 0
    count = wrong = 0
    for path in sorted(glob.glob(os.path.join(ROOT, "examples", "*.report"))):
        with open(path, "rb") as text, open(path[:-len("report")] + "ipvs", "rb") as given:
            report, script = text.read(), given.read()
        for what, lines in spoilt(report.splitlines(keepends=True)):
            other = b"".join(lines)
            expected = LEGAL if other == report else ILLEGAL
            status = status_of(program, script, other)
            count += 1
            if status != expected:
                print("verdicts: %s, %s: status %d" % (os.path.basename(path), what, status))
                wrong += 1
    print("verdicts: %d spoilt reports" % count)
    return 1 if wrong else 0


if __name__ == "__main__":
    sys.exit(main(sys.argv[1:]))
