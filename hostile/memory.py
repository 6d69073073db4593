#!/usr/bin/env python3
"""Refuses memory in turn: one request a run, and tells each run that isn't a want of memory or the whole answer.

    hostile/memory.py [--program PROGRAM] [--step STEP] [CASE ..]

The proved program is run with refuse.c before the C library, which needs a compiler for C: first with nothing refused, which
counts the requests, then once for each request, or each STEPth. Behind a refusal the status is to be 5, with a prefix of the
whole answer, or that of the first run, with the whole of it. Threads differ in what they ask for from run to run, so that
for `run` the whole answer is one that `check` calls legal, and a prefix is that of the first round alone. The first requests
are those of the C library and of the toolchain's start, before the program's own. A line for each case says how many requests
were tried and what came of them. Ends with 1 where a run was neither.
"""
import argparse
import collections
import os
import subprocess
import sys
import tempfile

ROOT = os.path.join(os.path.dirname(os.path.abspath(__file__)), "..")
PROGRAM = os.path.join(ROOT, "crates", "ipvsd", "out", "ipvsd")
SYN = "4500002800014000400684b5ac1000090a0000019c4000500000000000000000500220003d380000"
ACK = "4500002800014000400684b5ac1000090a0000019c4000500000000000000000501020003d2a0000"
ANSWER = "45000028000140004006ce0cc0a80001ac1000091f909c4000000000000000005012200067 3f0000".replace(" ", "")
SECOND = "4500002800014000400684b5ac1000090a0000019c4100500000000000000000500220003d370000"
THIRD = "4500002800014000400684b5ac1000090a0000019c4200500000000000000000500220003d360000"

# An ordinary web service by NAT, whose director is a master, with each listing.
WEB = """local 10.0.0.254
at 100
ipvs -A -t 10.0.0.1:80 -s wlc
ipvs -a -t 10.0.0.1:80 -r 192.168.0.1:8080 -m -w 2
ipvs -a -t 10.0.0.1:80 -r 192.168.0.2:8080 -m
ipvs --start-daemon master --mcast-interface eth0 --syncid 7
in 0 %s
out %s
in 0 %s
list
conns
save
""" % (SYN, ANSWER, ACK)

# Two rounds, one of edits and one of three connections, for two threads.
ROUNDS = """local 10.0.0.254
at 0
ipvs -A -t 10.0.0.1:80 -s rr
ipvs -a -t 10.0.0.1:80 -r 192.168.0.1 -g
ipvs -a -t 10.0.0.1:80 -r 192.168.0.2 -g
at 0
in 0 %s
in 0 %s
in 0 %s
""" % (SYN, SECOND, THIRD)


def sample(name):
    with open(os.path.join(ROOT, "examples", name), "rb") as file:
        return file.read()


CASES = {
    "serial": (["serial"], lambda: WEB.encode()),
    "run": (["run", "2", "4"], lambda: ROUNDS.encode()),
    "check": (["check"], lambda: sample("three-syns.ipvs") + b"report\n" + sample("three-syns.report")),
    "capture": (["capture", "192.168.0.0", "16", "1"], lambda: sample("capture.ipvs") + b"capture\n" + sample("capture.pcap")),
    "demo": (["demo", "20"], lambda: b""),
}
KINDS = ("want of memory", "the whole answer")


class Trial:
    """The program, the library that refuses, and the room of a case."""

    def __init__(self, program, room, case):
        self.program, self.case = program, case
        self.words, make = CASES[case]
        self.given = make()
        self.library, self.count = os.path.join(room, "refuse.so"), os.path.join(room, "count")

    def run(self, refused=0):
        """The status, what was written, standard error, and the number of requests."""
        with open(self.count, "wb") as out:
            out.write(bytes(8))
        around = {**os.environ, "LD_PRELOAD": self.library, "COUNT": self.count, "REFUSE": str(refused)}
        try:
            done = subprocess.run([self.program, *self.words], env=around, input=self.given, stdout=subprocess.PIPE, stderr=subprocess.PIPE, timeout=60)
        except subprocess.TimeoutExpired:
            return None, b"", b"it hangs", 0
        with open(self.count, "rb") as counted:
            return done.returncode, done.stdout, done.stderr, int.from_bytes(counted.read(), "little")

    def is_legal(self, text):
        """Whether a text is the report of a run of the case's script."""
        judged = subprocess.run([self.program, "check"], input=self.given + b"report\n" + text, stdout=subprocess.PIPE, stderr=subprocess.DEVNULL)
        return judged.returncode == 0

    def is_prefix(self, whole, text):
        if self.case != "run":
            return whole.startswith(text)
        rounds = text.split(b"round ")
        return text == b"" or rounds[0] == b"" and whole.startswith(b"round " + rounds[1][:20])

    def judge(self, whole, end):
        """What became of a run."""
        status, text, line, _ = end
        same = text == whole[1] or self.case == "run" and self.is_legal(text)
        if status == whole[0] and same:
            return "the whole answer"
        if status == 5 and line == b"ipvsd: no memory\n":
            return "want of memory" if self.is_prefix(whole[1], text) else "what isn't a prefix"
        return "another answer"


def try_all(trial, step):
    """Refuses each request of a case in turn, and tells each run that is neither."""
    whole = trial.run()
    most = max(trial.run()[3], whole[3])
    came = collections.Counter()
    for number in range(1, most + 1, step):
        end = trial.run(number)
        kind = trial.judge(whole, end)
        came[kind] += 1
        if kind not in KINDS:
            print("%s, request %d: %s, status %s, %d bytes of %d, %r" % (trial.case, number, kind, end[0], len(end[1]), len(whole[1]), end[2][:100]), flush=True)
    print("%s: %d requests, %d tried: %s" % (trial.case, most, sum(came.values()), ", ".join("%d %s" % (count, kind) for kind, count in came.most_common())), flush=True)
    return sum(count for kind, count in came.items() if kind not in KINDS)


def main():
    parser = argparse.ArgumentParser(usage=__doc__)
    parser.add_argument("--program", default=PROGRAM)
    parser.add_argument("--step", type=int, default=1)
    parser.add_argument("cases", nargs="*")
    given = parser.parse_args()
    if not os.access(given.program, os.X_OK) or set(given.cases) - set(CASES):
        sys.exit("memory: no proved program at %s, or no such case" % given.program)
    with tempfile.TemporaryDirectory() as room:
        source = os.path.join(ROOT, "hostile", "refuse.c")
        subprocess.run(["cc", "-O1", "-shared", "-fPIC", "-o", os.path.join(room, "refuse.so"), source, "-ldl"], check=True)
        failed = sum(try_all(Trial(os.path.abspath(given.program), room, case), given.step) for case in given.cases or CASES)
    return 1 if failed else 0


if __name__ == "__main__":
    sys.exit(main())
