"""Inputs of the worst form for the program's readers, each of at most 16,777,216 bytes."""
import os
import struct
import sys

sys.path.insert(0, os.path.join(os.path.dirname(os.path.abspath(__file__)), "..", "measure"))
import traffic

MOST = 16777216
MOST_ITEMS = 1048576
MOST_ROUNDS = 4096
VIRTUAL = traffic.address("10.0.0.1")
WEB = b"at 0\nipvs -A -t 10.0.0.1:80 -s rr\n"
DIRECT = WEB + b"ipvs -a -t 10.0.0.1:80 -r 192.168.0.1 -g\n"
MASQUERADE = WEB + b"ipvs -a -t 10.0.0.1:80 -r 192.168.0.1:8080 -m\n"
BACKUP = DIRECT + b"ipvs --start-daemon backup --syncid 7\n"


def filled(head, line, size=MOST):
    """The head, and the line as often as there is room for."""
    return head + line * ((size - len(head)) // len(line))


def packet(source, port, total=40, flags=0x02):
    """A TCP packet of so many bytes to 10.0.0.1:80, without a TCP checksum, which the director doesn't look at."""
    tcp = struct.pack("!HHIIBBHHH", port, 80, 0, 0, 0x50, flags, 0x2000, 0, 0)
    head = struct.pack("!BBHHHBBH", 0x45, 0, total, 1, 0x4000, 64, 6, 0) + struct.pack("!I", source) + VIRTUAL
    head = head[:10] + struct.pack("!H", ~traffic.fold(head) & 0xFFFF) + head[12:]
    return (head + tcp).ljust(total, b"\0")


def arriving(bytes_of_packet):
    return b"in 0 " + bytes_of_packet.hex().encode() + b"\n"


CLIENT = 0xAC100009


def packets_of(clients, head=DIRECT, size=MOST):
    """Packets of so many connections, which take turns."""
    turn = b"".join(arriving(packet(CLIENT, 10000 + number)) for number in range(clients))
    return filled(head, turn, size)


def rounds():
    """As many rounds as a script may have, with packets in each."""
    lines = b"".join(arriving(packet(CLIENT, 10000 + number)) for number in range(45))
    return DIRECT + b"".join(b"at %d\n" % moment + lines for moment in range(1, MOST_ROUNDS))


def items(count):
    """So many items, each a packet of one byte."""
    return b"at 0\n" + b"in 0 45\n" * count


def messages():
    """Sync messages of 255 records each, for a backup that learns them."""
    lines = []
    for first in range(0, 231000, 255):
        records = b"".join(
            struct.pack("!BBHIHHHHII", 0, 6, 36, 0, 1, 1000 + number % 60000, 80, 80, 0, 900) + struct.pack("!I", CLIENT + number // 60000) + VIRTUAL + bytes((192, 168, 0, 1))
            for number in range(first, first + 255)
        )
        message = struct.pack("!BBHBBH", 0, 7, 8 + len(records), 255, 1, 0) + records
        lines.append(b"sync " + message.hex().encode() + b"\n")
    return BACKUP + b"".join(lines)


def errors():
    """ICMP errors that are shown at the end of the round, each of 8 embedded bytes too few."""
    head = struct.pack("!BBHHHBBH", 0x45, 0, 28, 1, 0x4000, 64, 1, 0) + struct.pack("!I", CLIENT) + VIRTUAL
    head = head[:10] + struct.pack("!H", ~traffic.fold(head) & 0xFFFF) + head[12:]
    error = head + bytes((3, 1, 0xFC, 0xFE, 0, 0, 0, 0))
    return filled(MASQUERADE, b"icmp in " + error.hex().encode() + b"\n")


PCAP_RAW = struct.pack("<IHHiIII", 0xA1B2C3D4, 2, 4, 0, 0, 262144, 101)
PCAP_ETHERNET = struct.pack("<IHHiIII", 0xA1B2C3D4, 2, 4, 0, 0, 262144, 1)


def captured(head, records, script=DIRECT):
    """A script, the line `capture`, and a capture file of these records."""
    before = script + b"capture\n" + head
    return before + records[: MOST - len(before)]


def record(moment, frame, told=None):
    size = len(frame) if told is None else told
    return struct.pack("<IIII", moment, 0, size, size) + frame


def empty_records(head):
    return captured(head, b"")[:MOST] + record(0, b"") * ((MOST - len(captured(head, b""))) // 16)


def long_frames():
    frame = record(0, packet(CLIENT, 40000, 65535))
    before = captured(PCAP_RAW, b"")
    return filled(before, frame)


def second_by_second():
    """A capture of one packet a second, more than there may be rounds."""
    return captured(PCAP_RAW, b"".join(record(moment, packet(CLIENT, 40000)) for moment in range(1, 5000)))


# The hash of a client's side, by which an entry finds its bucket and its chain.
MIX = 2654435761
UNMIX = pow(MIX, -1, 2**32)


def flood(count, mixes):
    """SYNs of so many connections of one port, whose sources have these hashes."""
    port = 40000
    lines = [DIRECT]
    for mixed in mixes[:count]:
        source = (mixed * UNMIX - 40503 * port - 6) % 2**32
        lines.append(arriving(packet(source, port)))
    return b"".join(lines)


def one_chain(count):
    """All in one bucket of 256 and in one chain, at most 65,536: the first and the third byte of the hash are 0."""
    return flood(count, [(number // 256 << 16) + number % 256 for number in range(count)])


def spread(count):
    """The same number, over all buckets and chains alike."""
    return flood(count, [(number * 0x9E3779B1) % 2**32 for number in range(count)])


def listed(connections, listings):
    """So many connections, shown so often."""
    return DIRECT + b"".join(arriving(packet(CLIENT + number // 50000, 10000 + number % 50000)) for number in range(connections)) + b"conns\n" * listings


SCRIPTS = {
    "one line of 16 MiB, skipped": lambda: b"#" * MOST,
    "one line of 16 MiB, no word of a script": lambda: b"x" * MOST,
    "all line feeds": lambda: b"\n" * MOST,
    "all one-digit words": lambda: b"1 " * (MOST // 2),
    "one-digit words behind `ipvs`": lambda: filled(b"at 0\nipvs ", b"1 "),
    "one cluster of letters behind `ipvs -A`": lambda: filled(b"at 0\nipvs -A -", b"n"),
    "one packet of 8 MB": lambda: filled(b"at 0\nin 0 ", b"45"),
    "packets of 65,535 bytes, direct": lambda: filled(DIRECT, arriving(packet(CLIENT, 40000, 65535))),
    "packets of 65,535 bytes, masquerade": lambda: filled(MASQUERADE, arriving(packet(CLIENT, 40000, 65535))),
    "packets of 100 connections": lambda: packets_of(100),
    "4,096 rounds of 45 packets": rounds,
    "as many items as there may be": lambda: items(MOST_ITEMS),
    "one item more": lambda: items(MOST_ITEMS + 1),
    "sync messages of 255 records": messages,
    "ICMP errors": errors,
}
CAPTURES = {
    "empty records, raw": lambda: empty_records(PCAP_RAW),
    "empty records, Ethernet": lambda: empty_records(PCAP_ETHERNET),
    "frames of 65,535 bytes": long_frames,
    "a record that tells 4 GiB": lambda: captured(PCAP_RAW, record(0, b"", 0xFFFFFFFF)),
    "more seconds than rounds": second_by_second,
    "no capture": lambda: DIRECT + b"#" * (MOST - len(DIRECT)),
}
REPORTS = {
    "one long listing that the script doesn't have": lambda: filled(b"at 0\nreport\nround 0 at 0 workers 1 buckets 1\nlist\n", b"x\n"),
    "all line feeds": lambda: filled(b"at 0\nreport\n", b"\n"),
    "one line": lambda: filled(b"at 0\nreport\n", b"1"),
    "one-digit lines": lambda: filled(b"at 0\nreport\n", b"1\n"),
    "heads alone": lambda: filled(b"at 0\nreport\n", b"round 0 at 0 workers 1 buckets 1\n"),
    "an empty report of 16 MiB of script": lambda: packets_of(100, size=MOST - 7) + b"report\n",
}
