#!/usr/bin/env python3
"""Tries the proved program as a process, in ways that no contract reaches, and prints what became of each as a table.

    hostile/process.py [PROGRAM] [--only WORD] [--quick]

PROGRAM is the build that `rt ci` or `rt run` leaves, where none is given. With --only the cases whose name has the word are
run alone, with --quick the inputs of 16 MiB are left out. Each case is to end by itself, within 120 seconds and 2 GB, with
one of the statuses that are named for it and with the line of that status on standard error. Ends with 1 where one doesn't.
"""
import dataclasses
import fcntl
import os
import re
import resource
import signal
import subprocess
import sys
import tempfile
import threading
import time
import typing

import inputs

ROOT = os.path.join(os.path.dirname(os.path.abspath(__file__)), "..")
PROGRAM = os.path.join(ROOT, "crates", "ipvsd", "out", "ipvsd")
SECONDS = 120
MEBIBYTES = 2000
MI = 1048576

# The line of each status on standard error.
LINES = {
    0: "",
    1: r"ipvsd: script refused, line \d+: [A-Za-z]+( \d+ [A-Za-z]+)?",
    2: r"ipvsd: words refused(, word \d+)?",
    3: "ipvsd: read fault",
    4: "ipvsd: write fault",
    5: "ipvsd: no memory",
    6: "ipvsd: script too long",
    7: "ipvsd: illegal report",
    8: r"ipvsd: capture refused, record \d+: [A-Za-z]+",
}


@dataclasses.dataclass
class Case:
    """What is tried, and the statuses that it may end with."""

    name: str
    statuses: tuple
    words: typing.Sequence = ("serial",)
    given: typing.Any = b""
    # What the child does before it becomes the program, in its own process.
    before: typing.Callable = lambda: None
    # What is done with the running process, given its id and the ends of its pipes.
    beside: typing.Optional[typing.Callable] = None
    taken: str = "null"
    told: bool = True
    stack: int = 0


@dataclasses.dataclass
class End:
    """How a case ended."""

    code: int
    line: str
    seconds: float
    processor: float
    peak: float
    hung: bool


def close(number):
    return lambda: os.close(number)


def without_pipe_signal():
    signal.signal(signal.SIGPIPE, signal.SIG_IGN)


def with_memory(size):
    return lambda: resource.setrlimit(resource.RLIMIT_AS, (size, size))


def nonblocking(number):
    def make():
        fcntl.fcntl(number, fcntl.F_SETFL, fcntl.fcntl(number, fcntl.F_GETFL) | os.O_NONBLOCK)

    return make


def taken_end(case, room):
    """The file that standard output goes to."""
    if case.taken == "pipe":
        return subprocess.PIPE
    return open({"null": os.devnull, "full": "/dev/full", "file": os.path.join(room, "taken")}[case.taken], "wb")


def given_end(case, room):
    """The file that standard input comes from."""
    if case.given == "pipe":
        return subprocess.PIPE
    if isinstance(case.given, str):
        return os.open(case.given, os.O_RDONLY)
    path = os.path.join(room, "given")
    with open(path, "wb") as out:
        # An input is made when it is wanted and not kept: a child's peak of memory begins with its parent's.
        out.write(case.given() if callable(case.given) else case.given)
    return open(path, "rb")


def run(program, case, room):
    """Runs a case, and waits for its end."""

    def prepare():
        most = 3000 * MI
        resource.setrlimit(resource.RLIMIT_AS, (most, most))
        resource.setrlimit(resource.RLIMIT_CORE, (0, 0))
        if case.stack:
            resource.setrlimit(resource.RLIMIT_STACK, (case.stack, case.stack))
        case.before()

    error = os.path.join(room, "error")
    given, taken = given_end(case, room), taken_end(case, room)
    begun = time.monotonic()
    with open(error, "wb") as told:
        process = subprocess.Popen([program, *case.words], stdin=given, stdout=taken, stderr=told, preexec_fn=prepare)
    for end in (given, taken):
        if hasattr(end, "close"):
            end.close()
        elif end is not None and end >= 0:
            os.close(end)
    hung = threading.Event()

    def stop():
        hung.set()
        process.kill()

    clock = threading.Timer(SECONDS, stop)
    clock.start()
    if case.beside:
        threading.Thread(target=case.beside, args=(process,), daemon=True).start()
    _, status, usage = os.wait4(process.pid, 0)
    clock.cancel()
    process.returncode = os.waitstatus_to_exitcode(status)
    seconds = time.monotonic() - begun
    with open(error, "rb") as told:
        line = told.read(4096).decode("utf-8", "replace")
    return End(process.returncode, line, seconds, usage.ru_utime + usage.ru_stime, usage.ru_maxrss / 1024, hung.is_set())


def faults(case, end):
    """What isn't as it is to be."""
    found = []
    if end.hung:
        found.append("it hangs")
    elif end.code < 0:
        found.append("it ends with signal %d" % -end.code)
    elif end.code not in case.statuses:
        found.append("its status isn't named for this")
    if end.peak > MEBIBYTES:
        found.append("it takes more than 2 GB")
    if case.told and end.code >= 0 and not re.fullmatch(LINES.get(end.code, "") + ("\n" if end.code else ""), end.line):
        found.append("its line isn't that of its status")
    return found


def told(case, end, found):
    print("| %s | %d | %s | %.2f | %.2f | %.0f | %s |" % (case.name, end.code, end.line.strip().split("\n")[0][:80], end.seconds, end.processor, end.peak, "; ".join(found) or "as named"), flush=True)


def read_ten(process):
    """A reader that closes after ten bytes."""
    process.stdout.read(10)
    process.stdout.close()


def read_nothing(process):
    """A reader that takes nothing for a second."""
    time.sleep(1)
    process.stdout.close()


def write_for_ever(process):
    try:
        while True:
            process.stdin.write(b"at 0\n" * 10000)
            process.stdin.flush()
    except BrokenPipeError:
        pass


def write_slowly(process):
    """A byte at a time, and signals that a process leaves alone between them."""
    for number, byte in enumerate(inputs.DIRECT):
        process.stdin.write(bytes((byte,)))
        process.stdin.flush()
        if number % 10 == 0:
            for kind in (signal.SIGWINCH, signal.SIGURG, signal.SIGCHLD, signal.SIGSTOP, signal.SIGCONT):
                os.kill(process.pid, kind)
    process.stdin.close()


def write_later(process):
    time.sleep(1)
    process.stdin.close()


def streams():
    """The standard streams, the words and the room."""
    script = inputs.packets_of(2, size=300000)
    yield Case("output to a full device", (4,), given=script, taken="full")
    yield Case("a reader that closes after ten bytes, its signal ignored", (4,), given=script, before=without_pipe_signal, beside=read_ten, taken="pipe")
    yield Case("a reader that closes after ten bytes", (4,), given=script, beside=read_ten, taken="pipe")
    yield Case("no standard input", (3,), before=close(0))
    yield Case("no standard output", (4,), given=script, before=close(1))
    yield Case("no standard output, and nothing to write", (0,), before=close(1))
    yield Case("no standard error, all well", (0,), given=script, before=close(2))
    yield Case("no standard error, and something to tell", (1,), given=b"x\n", before=close(2), told=False)
    yield Case("none of the three", (3,), before=lambda: os.closerange(0, 3), told=False)
    yield Case("a directory as standard input", (3,), given=ROOT)
    yield Case("an endless device", (6,), given="/dev/zero")
    yield Case("an endless pipe", (6,), given="pipe", beside=write_for_ever)
    yield Case("an input of 16 MiB", (0,), given=lambda: b"#" * inputs.MOST)
    yield Case("one byte more", (6,), given=lambda: b"#" * (inputs.MOST + 1))
    yield Case("a byte at a time, and signals between", (0,), given="pipe", beside=write_slowly)
    yield Case("an input that doesn't block", (3,), given="pipe", before=nonblocking(0), beside=write_later)
    yield Case("an output that doesn't block", (4,), given=lambda: inputs.packets_of(2, size=3000000), before=nonblocking(1), beside=read_nothing, taken="pipe")
    yield Case("no words", (2,), words=())
    yield Case("an empty word", (2,), words=("",))
    yield Case("a word that isn't text", (2,), words=(b"serial\xff",))
    yield Case("a second word that isn't text", (2,), words=("serial", b"\xc3\x28"))
    yield Case("ten thousand words", (2,), words=("serial",) * 10000)
    yield Case("ten thousand words that aren't text", (2,), words=(b"\xff",) * 10000)
    yield Case("a word of 100,000 letters", (2,), words=("s" * 100000,))
    yield Case("numbers beyond 64 bits", (2,), words=("capture", "10.0.0.0", "9" * 40, "9" * 40))


def large(stack):
    """Inputs of 16 MiB of the worst form for each reader, on a stack of so many bytes."""
    many = {"one item more": (1,), "one line of 16 MiB, no word of a script": (1,), "all one-digit words": (1,), "one-digit words behind `ipvs`": (1,), "one cluster of letters behind `ipvs -A`": (1,)}
    for name, make in inputs.SCRIPTS.items():
        yield Case("serial: " + name, many.get(name, (0,)), given=make, stack=stack)
    few = {"a record that tells 4 GiB": (8,), "more seconds than rounds": (8,), "no capture": (8,)}
    for name, make in inputs.CAPTURES.items():
        yield Case("capture: " + name, few.get(name, (0,)), words=("capture", "192.168.0.0", "16", "1"), given=make, stack=stack)
    for name, make in inputs.REPORTS.items():
        yield Case("check: " + name, (7,), words=("check",), given=make, stack=stack)


def legal(program, room, stack):
    """A report that is legal, of one long listing, and a round's listings again and again."""
    yield Case("serial: one listing of 55,000 connections", (0,), given=lambda: inputs.listed(55000, 1), taken="file", stack=stack)

    def judged():
        with open(os.path.join(room, "taken"), "rb") as report:
            return inputs.listed(55000, 1) + b"report\n" + report.read()

    yield Case("check: its report", (0,), words=("check",), given=judged, stack=stack)
    for listings in (100, 1000):
        yield Case("serial: %d listings of 1,000 connections" % listings, (0,), given=lambda: inputs.listed(1000, listings), stack=stack)


def little(program, room):
    """Less and less memory, from what is enough for an empty script on."""
    least = next((size for size in range(1, 200) if run(program, Case("", (0,), before=with_memory(size * MI)), room).code == 0), None)
    if least is None:
        print("an empty script needs more than 200 MiB", file=sys.stderr)
        return

    def script():
        return inputs.packets_of(100, size=8 * MI)

    def judged():
        return script() + b"report\n"

    for more in (0, 1, 2, 4, 8, 12, 16, 24, 32, 48, 64, 96, 128):
        yield Case("serial: 8 MiB of packets, %d MiB and %d" % (least, more), (0, 5), given=script, before=with_memory((least + more) * MI))
    for more in (0, 1, 4, 16, 64):
        yield Case("capture: frames of 65,535 bytes, %d MiB and %d" % (least, more), (0, 5), words=("capture", "192.168.0.0", "16", "1"), given=inputs.long_frames, before=with_memory((least + more) * MI))
        yield Case("check: an empty report, %d MiB and %d" % (least, more), (5, 7), words=("check",), given=judged, before=with_memory((least + more) * MI))
        yield Case("ten thousand words, %d MiB and %d" % (least, more), (2, 5), words=("serial",) * 10000, before=with_memory((least + more) * MI))


def floods(program, room, count):
    """A flood of one chain beside as many keys of all chains. The ratio is told, and may be 10."""
    ends = []
    for name, make in (("keys of all chains", inputs.spread), ("keys of one chain", inputs.one_chain)):
        case = Case("serial: %d connections, %s" % (count, name), (0,), given=lambda: make(count))
        ends.append(run(program, case, room))
        told(case, ends[-1], faults(case, ends[-1]))
        if faults(case, ends[-1]):
            return 1
    ratio = ends[1].processor / max(ends[0].processor, 0.001)
    print("\nA flood of one chain of %d connections takes %.1f times the processor time of as many spread keys." % (count, ratio))
    return 0 if ratio <= 10 else 1


def main(words):
    named = [word for word in words if not word.startswith("--")]
    only = named.pop(named.index(words[words.index("--only") + 1])) if "--only" in words else ""
    program = os.path.abspath(named[0] if named else PROGRAM)
    if not os.access(program, os.X_OK):
        sys.exit("process: no proved program at %s" % program)
    quick = "--quick" in words
    failed = 0
    print("| Case | Status | Line | Seconds | Processor | MiB | |\n|---|---|---|---|---|---|---|")
    with tempfile.TemporaryDirectory() as room:
        groups = [streams(), little(program, room)] + ([] if quick else [large(MI), legal(program, room, MI)])
        for group in groups:
            for case in group:
                if only in case.name:
                    end = run(program, case, room)
                    found = faults(case, end)
                    failed += bool(found)
                    told(case, end, found)
        if not quick and only in "floods":
            failed += floods(program, room, 50000)
    print("\nprocess: %d cases aren't as named" % failed)
    return 1 if failed else 0


if __name__ == "__main__":
    sys.exit(main(sys.argv[1:]))
