#!/usr/bin/env python3
"""Runs scripts with threads again and again, and lets `check` judge each report: all are to be legal.

    hostile/threads.py [--program PROGRAM] [--runs RUNS] [--load LOAD] [--only WORD]

Each sample of examples/ and a script of 20,000 connections is run RUNS times (50) with `run 4 16`, while LOAD other processes
(4) take all the processor time that they get. A script whose report and itself are too long for one input can't be judged, so
the script of 20,000 connections has two packets of each. Prints how many reports were legal and how many differed from one
another, and ends with 1 where one wasn't legal.
"""
import argparse
import glob
import hashlib
import os
import signal
import subprocess
import sys

ROOT = os.path.join(os.path.dirname(os.path.abspath(__file__)), "..")
PROGRAM = os.path.join(ROOT, "crates", "ipvsd", "out", "ipvsd")
TRAFFIC = os.path.join(ROOT, "measure", "traffic.py")
SECONDS = 120


def judge(program, script):
    """Runs once, and tells the report and whether it is legal."""
    ran = subprocess.run([program, "run", "4", "16"], input=script, stdout=subprocess.PIPE, timeout=SECONDS)
    judged = subprocess.run([program, "check"], input=script + b"report\n" + ran.stdout, stdout=subprocess.PIPE, stderr=subprocess.DEVNULL, timeout=SECONDS)
    legal = ran.returncode == 0 and judged.returncode == 0 and judged.stdout == b"legal\n"
    return ran.stdout, legal, "run %d, check %d: %r" % (ran.returncode, judged.returncode, judged.stdout[:100])


def judge_all(program, name, script, runs):
    """The number of reports of a script that aren't legal."""
    reports, failed = set(), 0
    for number in range(runs):
        report, legal, line = judge(program, script)
        reports.add(hashlib.sha256(report).digest())
        if not legal:
            failed += 1
            print("%s, run %d: %s" % (name, number, line), flush=True)
    print("%s: %d of %d legal, %d reports that differ" % (name, runs - failed, runs, len(reports)), flush=True)
    return failed


def scripts():
    for path in sorted(glob.glob(os.path.join(ROOT, "examples", "*.ipvs"))):
        with open(path, "rb") as file:
            yield os.path.basename(path), file.read()
    yield "20,000 connections", subprocess.run([sys.executable, TRAFFIC, "script", "20000", "2"], stdout=subprocess.PIPE, check=True).stdout


def main():
    parser = argparse.ArgumentParser(usage=__doc__)
    parser.add_argument("--program", default=PROGRAM)
    parser.add_argument("--runs", type=int, default=50)
    parser.add_argument("--load", type=int, default=4)
    parser.add_argument("--only", default="")
    given = parser.parse_args()
    if not os.access(given.program, os.X_OK):
        sys.exit("threads: no proved program at %s" % given.program)
    # A request to end is to end the load, too.
    signal.signal(signal.SIGTERM, lambda *_: sys.exit(143))
    load = [subprocess.Popen([sys.executable, "-c", "while True: pass"]) for _ in range(given.load)]
    try:
        failed = sum(judge_all(os.path.abspath(given.program), name, script, given.runs) for name, script in scripts() if given.only in name)
    finally:
        for process in load:
            process.kill()
            process.wait()
    print("threads: %d reports aren't legal" % failed)
    return 1 if failed else 0


if __name__ == "__main__":
    sys.exit(main())
