#!/usr/bin/env python3
"""Runs `rt ci` and tells what it cost: processor time of each crate for its proofs, its tests and its
edits, and the dearest functions, tests and edits.

    measure/gate.py [NAME ..]

The output of `rt ci` goes to standard error, and the tables, in Markdown, to standard output. Processor
time is read from /proc twice a second, so a process may have used half a second more than is told; the
last line compares the sum with what the system counted. The time of a function is that since the line of
the function before it in the same crate, so it is right where a crate is proved by one job.
"""
import collections
import os
import re
import resource
import subprocess
import sys
import threading
import time

ROOT = os.path.dirname(os.path.dirname(os.path.abspath(__file__)))
TICKS = os.sysconf("SC_CLK_TCK")
CHECKED = re.compile(r"^checked ((\w+)::\S+), \d+ of \d+")
Job = collections.namedtuple("Job", "crate kind edit")


def edit_of(crate, folder):
    """The name of the edit that was applied in a copy of a crate, or None."""
    edits = os.path.join(ROOT, "crates", crate, "must-fail")
    for name in sorted(os.listdir(edits)) if os.path.isdir(edits) else []:
        with open(os.path.join(edits, name), encoding="utf-8") as text:
            lines = text.read().splitlines()
        file = lines[0].partition(": ")[2]
        new = [line[5:] for line in lines if line.startswith("new: ")]
        try:
            with open(os.path.join(folder, file), encoding="utf-8") as text:
                there = text.read()
            with open(os.path.join(ROOT, "crates", crate, file), encoding="utf-8") as text:
                before = text.read()
        except OSError:
            continue
        if there != before and new and all(text in there for text in new):
            return name.removesuffix(".edit")
    return None


def job_of(pid):
    """What a process of the gate works at, or None."""
    with open("/proc/%d/cmdline" % pid, "rb") as text:
        words = text.read().decode("utf-8", "replace").split("\0")
    if not os.path.basename(words[0]).startswith("rattle"):
        return None
    crate = next((word for before, word in zip(words, words[1:]) if before == "--crate-name"), None)
    if crate is None:
        return None
    folder = os.readlink("/proc/%d/cwd" % pid)
    if os.path.basename(folder).startswith("rt-edit"):
        return Job(crate, "edits", edit_of(crate, folder))
    kind = "tests" if "--test" in words or crate.endswith("_tests") else "proofs"
    return Job(crate.removesuffix("_tests"), kind, None)


def processes(session):
    """The processes of a session, with the seconds that each has used."""
    for name in os.listdir("/proc"):
        if not name.isdigit():
            continue
        try:
            with open("/proc/%s/stat" % name, encoding="utf-8") as text:
                fields = text.read().rpartition(")")[2].split()
        except OSError:
            continue
        if int(fields[3]) == session:
            yield int(name), (int(fields[11]) + int(fields[12])) / TICKS


def watch(session, used, jobs, ended):
    """Reads what each process has used, twice a second."""
    while not ended.wait(0.5):
        for pid, seconds in processes(session):
            try:
                if pid not in jobs:
                    jobs[pid] = job_of(pid)
            except OSError:
                continue
            used[pid] = seconds


def pass_on(stream, functions):
    """Hands the output on, and notes how long each function took."""
    since = {}
    for line in stream:
        sys.stderr.write(line)
        found = CHECKED.match(line)
        crate = found.group(2) if found else None
        now = time.monotonic()
        if found and crate in since:
            functions[found.group(1)] = max(functions.get(found.group(1), 0), now - since[crate])
        if found:
            since[crate] = now


def print_tables(costs, edits, functions, total):
    """The tables of crates, edits and functions."""
    print("| Crate | Proofs, min | Tests, min | Edits, min |\n|---|---|---|---|")
    sums = collections.Counter()
    for crate in sorted(costs, key=lambda name: -sum(costs[name].values())):
        row = [costs[crate][kind] / 60 for kind in ("proofs", "tests", "edits")]
        print("| %s | %.1f | %.1f | %.1f |" % (crate, *row))
        sums.update(costs[crate])
    print("| all | %.0f | %.0f | %.0f |" % tuple(sums[kind] / 60 for kind in ("proofs", "tests", "edits")))
    for what, found in (("Edit", edits), ("Function", functions)):
        print("\n| %s | s |\n|---|---|" % what)
        for name, seconds in sorted(found.items(), key=lambda row: -row[1])[:10]:
            print("| %s | %.0f |" % (name, seconds))
    print("\nSeen: %.0f of %.0f processor minutes." % (sum(sums.values()) / 60, total / 60))


def main(names):
    used, jobs, functions, ended = {}, {}, {}, threading.Event()
    gate = subprocess.Popen(["rt", "ci", *names], cwd=ROOT, start_new_session=True, text=True, stdout=subprocess.PIPE, stderr=subprocess.STDOUT)
    watcher = threading.Thread(target=watch, args=(gate.pid, used, jobs, ended))
    watcher.start()
    pass_on(gate.stdout, functions)
    status = gate.wait()
    ended.set()
    watcher.join()
    costs, edits = collections.defaultdict(collections.Counter), collections.Counter()
    for pid, seconds in used.items():
        job = jobs.get(pid)
        if job is None:
            continue
        costs[job.crate][job.kind] += seconds
        if job.edit:
            edits["%s/%s" % (job.crate, job.edit)] += seconds
    spent = resource.getrusage(resource.RUSAGE_CHILDREN)
    print_tables(costs, edits, functions, spent.ru_utime + spent.ru_stime)
    return status


if __name__ == "__main__":
    sys.exit(main(sys.argv[1:]))
