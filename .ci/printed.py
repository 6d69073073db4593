#!/usr/bin/env python3
"""Prints scripts as scripts, and compares what `serial` makes of the one and of the other.

    .ci/printed.py [COUNT]

The scripts are the samples of examples/, each as it is and then changed by chance in a few places, the same ones in each run.
A script that is refused must be refused by the printer with the same status and line; of any other the printed text must give
the same report, and be printed as itself. Skipped where no proved programs stand; ends with 1 where something differs.
"""
import os
import pathlib
import random
import subprocess
import sys

ROOT = pathlib.Path(__file__).resolve().parent.parent
SERIAL = ROOT / "crates/ipvsd/out/ipvsd"
PRINTER = ROOT / "crates/ipvsd_script/out/ipvsd_script"
# The head of a capture file that holds no packets: little endian, version 2.4, raw IP.
NO_PACKETS = bytes.fromhex("d4c3b2a1 02000400 00000000 00000000 00000400 65000000")
LETTERS = b"0123456789abcdefABCDEF -.:#tufwxypMo"


def run(words, given):
    done = subprocess.run(words, input=given, capture_output=True, timeout=60)
    return done.returncode, done.stdout, done.stderr


def serial(script):
    return run([SERIAL, "serial"], script)


def printed(script):
    return run([PRINTER, "0.0.0.0", "0", "1"], script + b"capture\n" + NO_PACKETS)


def changed(chance, script):
    """The script with one to four changes: a line left out, doubled, moved or spelled otherwise, or a byte replaced."""
    lines = script.splitlines()
    for _ in range(chance.randint(1, 4)):
        at = chance.randrange(len(lines))
        kind = chance.randrange(6)
        if kind == 0 and len(lines) > 1:
            del lines[at]
        elif kind == 1:
            lines.insert(at, lines[chance.randrange(len(lines))])
        elif kind == 2:
            lines.insert(chance.randrange(len(lines)), lines.pop(at))
        elif kind == 3:
            lines[at] = b"\t" + lines[at].replace(b" ", b"  ")
        elif kind == 4:
            words = lines[at].split(b" ")
            words[-1] = words[-1].upper()
            lines[at] = b" ".join(words)
        elif lines[at]:
            place = chance.randrange(len(lines[at]))
            lines[at] = lines[at][:place] + bytes([chance.choice(LETTERS)]) + lines[at][place + 1 :]
    return b"\n".join(lines) + b"\n"


def difference(script):
    """What differs of a script and of its print, or None."""
    wanted, (status, text, error) = serial(script), printed(script)
    if wanted[0] != 0:
        return None if (status, text, error) == (wanted[0], b"", wanted[2]) else "refused otherwise: %s" % error.decode().strip()
    if status != 0:
        return "not printed: %s" % error.decode().strip()
    if serial(text) != wanted:
        return "printed and run it gives another report"
    return None if printed(text) == (0, text, b"") else "printed twice it differs"


def main():
    for program in (SERIAL, PRINTER):
        if not os.access(program, os.X_OK):
            print("printed: skipped, no proved program at %s" % program.relative_to(ROOT))
            return 0
    count = int(sys.argv[1]) if len(sys.argv) > 1 else 200
    chance = random.Random(38)
    samples = sorted((ROOT / "examples").glob("*.ipvs"))
    refused = failures = 0
    for number in range(len(samples) + count):
        path = samples[number % len(samples)]
        script = path.read_bytes()
        if number >= len(samples):
            script = changed(chance, script)
        refused += serial(script)[0] != 0
        found = difference(script)
        if found:
            failures += 1
            print("printed: %s, script %d: %s" % (path.name, number, found))
    print("printed: %d scripts, %d of them refused, %d differences" % (len(samples) + count, refused, failures))
    return 1 if failures else 0


if __name__ == "__main__":
    sys.exit(main())
