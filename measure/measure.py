#!/usr/bin/env python3
"""Measures the proved program beside common tools on the same bytes, and prints a table in Markdown.

    measure.py [--quick] [--program PROGRAM] [--room FOLDER] [--inputs] [ROW ..]

    rows: capture, script, doubling, tcp, check, demo, services, sticky, attacks; all where none is named

Processor time of the process and its children. What stands in one table is run in turns, one of each and then again, so that
other work on the machine falls on all alike: nine turns, five where a turn of one takes over a second, three with --quick. A
ratio is that of the medians and, behind it, that of the least. --room keeps the inputs in a folder, and --inputs makes them and
measures nothing. A row whose tool isn't there is left out, and that is said.
"""
import argparse
import os
import shutil
import statistics
import subprocess
import sys
import tempfile
import typing

import attacks

HERE = os.path.dirname(os.path.abspath(__file__))
PROGRAM = os.path.join(HERE, "..", "crates", "ipvsd", "out", "ipvsd")
TRAFFIC = os.path.join(HERE, "traffic.py")
MOST = 16777216


class Work(typing.NamedTuple):
    """A command with its input, and the work that it is compared with."""

    name: str
    words: list
    given: str
    beside: typing.Optional[str] = None
    # What the ratio is called.
    times: str = ""
    statuses: tuple = (0,)


class Taken(typing.NamedTuple):
    """What the runs of a work took: seconds, the greatest peak in bytes, and the last status."""

    least: float
    median: float
    peak: int
    status: int


class Bench:
    """The program that is measured, where its inputs are, and how often each work is run."""

    def __init__(self, program, room, runs, inputs_alone):
        self.program, self.room, self.runs, self.inputs_alone = program, room, runs, inputs_alone

    def path(self, name):
        return os.path.join(self.room, name)

    def make(self, *words):
        """An input of traffic.py."""
        path = self.path("-".join(map(str, words)))
        if not os.path.exists(path):
            with open(path + ".new", "wb") as out:
                subprocess.run([sys.executable, TRAFFIC, *map(str, words)], stdout=out, check=True)
            os.rename(path + ".new", path)
        return path

    def judged(self, script):
        """A script, the line `report`, and the report of `serial`."""
        path = script + ".judged"
        if not os.path.exists(path):
            report = self.report(script)
            joined([script, b"report\n", report], path)
        return path

    def report(self, script):
        path = script + ".report"
        if not os.path.exists(path):
            with open(script, "rb") as given, open(path, "wb") as out:
                subprocess.run([self.program, "serial"], stdin=given, stdout=out, check=True)
        return path

    def measure(self, works):
        """Runs the works in turns and prints a row for each."""
        if self.inputs_alone:
            return {}
        ends = {work.name: [] for work in works}
        runs = self.runs
        turn = 0
        while turn < runs:
            for work in works:
                ends[work.name].append(self.run_once(work))
                if ends[work.name][-1][1] > 1:
                    runs = min(runs, 5)
            turn += 1
        took = {name: Taken(min(it[1] for it in all_of), statistics.median(it[1] for it in all_of), max(it[2] for it in all_of), all_of[-1][0]) for name, all_of in ends.items()}
        for work in works:
            told(work, took)
        return took

    def run_once(self, work):
        """The status, the processor seconds and the peak of memory in bytes of one run."""
        with open(work.given, "rb") as given, open(self.path("taken"), "wb") as taken:
            process = subprocess.Popen(work.words, stdin=given, stdout=taken, stderr=subprocess.DEVNULL)
            _, status, usage = os.wait4(process.pid, 0)
            process.returncode = os.waitstatus_to_exitcode(status)
        return process.returncode, usage.ru_utime + usage.ru_stime, usage.ru_maxrss * 1024

    def ours(self, name, words, given, beside=None, times="", statuses=(0,)):
        return Work(name, [self.program, *words], given, beside, times, statuses)


def joined(parts, path):
    """A file of these files and bytes."""
    with open(path, "wb") as out:
        for part in parts:
            if isinstance(part, bytes):
                out.write(part)
                continue
            with open(part, "rb") as text:
                shutil.copyfileobj(text, out)
    return path


def told(work, took):
    mine = took[work.name]
    notes = []
    if work.beside:
        other = took[work.beside]
        notes.append("%.2f (%.2f) %s" % (mine.median / other.median, mine.least / other.least, work.times))
    size = os.path.getsize(work.given)
    if size > 1000000 and mine.peak:
        notes.append("peak %d MiB, %.1f times the input" % (mine.peak >> 20, mine.peak / size))
    if mine.status not in work.statuses:
        notes.append("STATUS %d" % mine.status)
    print("| %s | %.3f | %.3f | %s |" % (work.name, mine.least, mine.median, "; ".join(notes)), flush=True)


def capture_rows(bench):
    if not shutil.which("tcprewrite"):
        print("| capture | | | left out: there is no tcprewrite |")
        return
    works = []
    for clients in (100, 10000, 239000):
        given, alone = bench.make("capture", clients, 239000), bench.make("pcap", clients, 239000)
        tool = "tcprewrite, 239,000 frames of %d clients" % clients
        works.append(Work(tool, ["tcprewrite", "--dstipmap=10.0.0.1/32:192.168.0.1/32", "--portmap=80:8080", "--fixcsum", "--infile", alone, "--outfile", bench.path("rewritten")], alone))
        works.append(bench.ours("`capture` of the same, %d clients" % clients, ["capture", "192.168.0.0", "16", "1"], given, tool, "times tcprewrite"))
    bench.measure(works)


def script_rows(bench):
    given = bench.make("script", 10000, 19)
    both = joined([given, bench.report(given)], bench.path("both"))
    tool = "sha256sum over script and report, %d bytes" % os.path.getsize(both)
    serial = "`serial`, %d bytes of script, 10,000 connections" % os.path.getsize(given)
    bench.measure([Work(tool, ["sha256sum"], both), bench.ours(serial, ["serial"], given, tool, "times sha256sum"), bench.ours("`run 4 16` of the same", ["run", "4", "16"], given, serial, "times `serial`")])


def doubled(bench, name, words, given):
    """A command at each number of clients, each beside half as many."""
    works, before = [], None
    for clients, path in given.items():
        title = "`%s`, %d connections, two packets each" % (name, clients)
        works.append(bench.ours(title, words, path, before, "times half as many"))
        before = title
    return works


def doubling_rows(bench):
    """Datagrams: two packets of 100,000 TCP connections are more than an input may have."""
    scripts = {clients: bench.make("udp", clients, 2) for clients in (25000, 50000, 100000)}
    commands = [["serial"], ["run", "4", "16"], ["run", "1", "1"], ["run", "16", "256"]]
    works = [work for words in commands for work in doubled(bench, " ".join(words), words, scripts)]
    works = [work if "serial" in work.name else work for work in works]
    took = bench.measure(works)
    for words in commands[1:]:
        for clients in scripts:
            title = "`%s`, %d connections, two packets each" % (" ".join(words), clients)
            serial = "`serial`, %d connections, two packets each" % clients
            if took:
                print("%s: %.2f (%.2f) times `serial`" % (title, took[title].median / took[serial].median, took[title].least / took[serial].least))
    captures = {clients: bench.make("capture", clients, 2 * clients) for clients in (25000, 50000, 100000)}
    bench.measure(doubled(bench, "capture 192.168.0.0 16 1", ["capture", "192.168.0.0", "16", "1"], captures))


def tcp_rows(bench):
    """As many TCP connections as fit."""
    scripts = {clients: bench.make("script", clients, 2) for clients in (24375, 48750, 97500)}
    bench.measure(doubled(bench, "serial", ["serial"], scripts) + doubled(bench, "run 4 16", ["run", "4", "16"], scripts))


def check_rows(bench):
    """Script and report together are one input, so that half as many connections fit."""
    works, before = [], None
    for clients in (12500, 25000, 50000):
        script = bench.make("udp", clients, 2)
        serial, check = "`serial`, %d connections, two packets each" % clients, "`check` of its report, %d connections" % clients
        works.append(bench.ours(serial, ["serial"], script))
        works.append(bench.ours(check, ["check"], bench.judged(script), serial, "times the `serial` that made it"))
        if before:
            works.append(bench.ours(check + ", again", ["check"], bench.judged(script), before, "times half as many"))
        before = check
    bench.measure(works)


def demo_rows(bench):
    """`demo 100000` plays more than fits in an input, so that it stands beside `serial` over 97,000 clients."""
    given = bench.make("demo", 97000)
    serial = "`serial` over the script of `demo 97000`"
    bench.measure([
        bench.ours(serial, ["serial"], given),
        bench.ours("`run 4 16` over it", ["run", "4", "16"], given, serial, "times `serial`"),
        bench.ours("`demo 97000`", ["demo", "97000"], os.devnull, serial, "times `serial`"),
        bench.ours("`demo 100000`", ["demo", "100000"], os.devnull),
    ])


def service_rows(bench):
    for scheduler in ("rr", "wrr", "lc", "sh", "mh"):
        few = bench.make("script", 100000, 1, 1, 8, "-g", scheduler)
        many = bench.make("script", 100000, 1, 1000, 100, "-g", scheduler)
        alone = bench.make("script", 0, 1, 1000, 100, "-g", scheduler)
        one = "`serial`, 100,000 connections, one service of 8 servers, %s" % scheduler
        bench.measure([
            bench.ours(one, ["serial"], few),
            bench.ours("1,000 services of 100 servers, %s" % scheduler, ["serial"], many, one, "times the one service"),
            bench.ours("these services without a packet, %s" % scheduler, ["serial"], alone, one, "times the one service"),
        ])


def sticky_rows(bench):
    works, before = [], None
    for clients in (25000, 50000, 100000):
        title = "`serial`, %d persistent clients, and a reap" % clients
        works.append(bench.ours(title, ["serial"], bench.make("sticky", clients), before, "times half as many"))
        before = title
    bench.measure(works)


def attack_rows(bench):
    """Scripts of 1 MB that go at one place each, and those of less that took longest on plain lists."""
    smaller = {
        "1,370 servers and as many connections": lambda: attacks.servers_and_connections(1370),
        "2,750 servers and as many connections": lambda: attacks.servers_and_connections(2750),
        "2,200 servers, 1,100 entries and 4,096 rounds": lambda: attacks.rounds_of_nothing(2200, 1100, 4096),
    }
    for name, make in [*((name, lambda name=name: attacks.script(name)) for name in attacks.ATTACKS), *smaller.items()]:
        given = bench.path("attack-" + name.replace(" ", "-"))
        if not os.path.exists(given):
            with open(given, "w") as out:
                out.writelines(line + "\n" for line in make())
        bench.measure([bench.ours("%s, %d bytes" % (name, os.path.getsize(given)), ["serial"], given)])


ROWS = {"capture": capture_rows, "script": script_rows, "doubling": doubling_rows, "tcp": tcp_rows, "check": check_rows, "demo": demo_rows, "services": service_rows, "sticky": sticky_rows, "attacks": attack_rows}


def main():
    parser = argparse.ArgumentParser(usage=__doc__)
    parser.add_argument("--quick", action="store_true")
    parser.add_argument("--program", default=PROGRAM)
    parser.add_argument("--room")
    parser.add_argument("--inputs", action="store_true")
    parser.add_argument("rows", nargs="*")
    given = parser.parse_args()
    if not os.access(given.program, os.X_OK):
        sys.exit("measure: no proved program at %s" % given.program)
    if set(given.rows) - set(ROWS):
        sys.exit("measure: rows are %s" % ", ".join(ROWS))
    if not given.inputs:
        print("| What | Least, s | Median, s | |\n|---|---|---|---|")
    with tempfile.TemporaryDirectory() as room:
        bench = Bench(os.path.abspath(given.program), given.room or room, 3 if given.quick else 9, given.inputs)
        if given.room:
            os.makedirs(given.room, exist_ok=True)
        for name in given.rows or ROWS:
            ROWS[name](bench)


if __name__ == "__main__":
    main()
