#!/usr/bin/env python3
"""Runs the commands that README.md prints behind a `$`, in order, and compares what they print with the lines below them.

    .ci/readme.py

They run in a folder of their own with the samples in it, and with the proved programs behind the launcher's name. Where no
proved program stands, or a tool that a command needs isn't there, that is told and skipped. Ends with 1 where something
differs.
"""
import os
import re
import shutil
import subprocess
import sys
import tempfile

ROOT = os.path.dirname(os.path.dirname(os.path.abspath(__file__)))
TOOLS = ("tcpdump",)


def commands(text):
    """Each command, and the lines that are printed below it."""
    found = []
    for line in text.splitlines():
        if line.startswith("    $ "):
            found.append((line[6:], []))
        elif line.startswith("    ") and found and found[-1][1] is not None:
            found[-1][1].append(line[4:])
        elif found and not line.startswith("    "):
            found.append((None, None))
    return [(command, lines) for command, lines in found if command]


def differs(command, wanted, folder):
    """Runs a command and tells whether it printed something else."""
    done = subprocess.run(["sh", "-c", command], cwd=folder, stdout=subprocess.PIPE, stderr=subprocess.STDOUT, text=True, timeout=120)
    printed = done.stdout.splitlines()
    if printed == wanted:
        return False
    print("readme: %s" % command)
    for line in printed[:10]:
        print("readme:     %s" % line)
    return True


def stand_in(path):
    """A launcher that starts the proved programs and never builds one."""
    crates = os.path.join(ROOT, "crates")
    with open(path, "w", encoding="utf-8") as launcher:
        launcher.write('#!/bin/sh\nname=ipvsd\ncase $1 in\nchart | script)\n    name=ipvsd_$1\n    shift\n    ;;\nesac\nexec "%s/$name/out/$name" "$@"\n' % crates)
    os.chmod(path, 0o755)


def main():
    for name in ("ipvsd", "ipvsd_chart", "ipvsd_script"):
        if not os.access(os.path.join(ROOT, "crates", name, "out", name), os.X_OK):
            print("readme: skipped, no proved program of %s" % name)
            return 0
    with open(os.path.join(ROOT, "README.md"), encoding="utf-8") as page:
        found = commands(page.read())
    count = failures = 0
    with tempfile.TemporaryDirectory() as folder:
        os.symlink(os.path.join(ROOT, "examples"), os.path.join(folder, "examples"))
        stand_in(os.path.join(folder, "ipvsd"))
        for command, wanted in found:
            missing = [tool for tool in TOOLS if re.search(r"\b%s\b" % tool, command) and not shutil.which(tool)]
            if missing:
                print("readme: skipped, there is no %s: %s" % (missing[0], command))
                continue
            count += 1
            failures += differs(command, wanted, folder)
    if failures:
        print("readme: %d differences in %d commands" % (failures, count))
        return 1
    print("readme: %d commands" % count)
    return 0


if __name__ == "__main__":
    sys.exit(main())
