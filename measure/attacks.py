#!/usr/bin/env python3
"""Makes scripts that are as slow to run as their size allows, to measure with.

    attacks.py NAME [BYTES]        the script of that name, of at most so many bytes (1,000,000)
    attacks.py                     the names

Each goes at one place where an item costs more the more there is: services, servers of one service, entries in one chain,
templates, rounds, buckets of the hashing schedulers. None has listings.
"""
import itertools
import struct
import sys

import traffic

VIRTUAL = traffic.address("10.0.0.1")
WEB = "10.0.0.1:80"


def server_address(number):
    return "192.%d.%d.%d" % (168 + number // 62500, number // 250 % 250, number % 250 + 1)


def add_servers(count, service="-t " + WEB, words="-g"):
    for number in range(count):
        yield "ipvs -a %s -r %s %s" % (service, server_address(number), words)


def packets(first, count, syn=True):
    for number in range(first, first + count):
        yield "in 0 " + traffic.packet(number, VIRTUAL, 80, syn).hex()


def service(scheduler, words=""):
    return ["at 0", "ipvs -A -t %s -s %s %s" % (WEB, scheduler, words)]


def servers_and_connections(count):
    """As many servers as connections, each connection of another client."""
    yield from service("rr")
    yield from add_servers(count)
    yield from packets(0, count)


def rounds_of_nothing(servers, entries, rounds):
    """Tables that every round walks for what is due."""
    yield from servers_and_connections(entries)
    for number in range(entries, servers):
        yield "ipvs -a -t %s -r %s -g" % (WEB, server_address(number))
    for moment in range(1, rounds):
        yield "at %d" % moment


def by_scheduler(scheduler, words, servers):
    """Connections through one service of many servers, to the end."""
    yield from service(scheduler)
    yield from add_servers(servers, words=words)
    for first in itertools.count(0, 100):
        yield from packets(first, 100)


def weightless_hash(servers):
    """mh, where one server alone has a weight."""
    yield from service("mh")
    yield from add_servers(1)
    yield from itertools.islice(add_servers(servers, words="-g -w 0"), 1, None)
    for first in itertools.count(0, 100):
        yield from packets(first, 100)


def coprime_weights(servers):
    """wrr, whose current weight falls by one at each turn, and the heaviest server is soon overloaded."""
    yield from service("wrr")
    for number in range(servers):
        weight = 2147483647 - number if number < 2 else 1 + number % 7
        yield "ipvs -a -t %s -r %s -g -w %d -x %d" % (WEB, server_address(number), weight, 1 + number % 3)
    for first in itertools.count(0, 100):
        yield from packets(first, 100)


def many_services():
    """Services alone, each another one."""
    yield "at 0"
    for number in itertools.count():
        yield "ipvs -A -f %d" % (number + 1)


def edited_servers(count):
    """The servers of one service, edited again and again from the last one on."""
    yield from service("wlc")
    yield from add_servers(count)
    while True:
        for number in reversed(range(count)):
            yield "ipvs -e -t %s -r %s -g -w 2" % (WEB, server_address(number))


def removed_servers(count):
    """Servers that come and leave in turn, the first one always."""
    yield from service("rr")
    yield from add_servers(count)
    while True:
        for number in range(count):
            yield "ipvs -d -t %s -r %s" % (WEB, server_address(number))
        yield from add_servers(count)


def cleared_tables(count):
    """Tables that are cleared and filled again."""
    yield "at 0"
    while True:
        yield "ipvs -A -t %s -s rr" % WEB
        yield from add_servers(count)
        yield "ipvs -C"


def held_servers(count):
    """Connections that hold removed servers, so that each round walks the trash."""
    yield from servers_and_connections(count)
    yield "ipvs -D -t " + WEB
    for moment in range(1, 4096):
        yield "at %d" % moment


def templates(count):
    """Persistence templates of many clients, and rounds that look for the due ones."""
    yield from service("rr", "-p 2678400")
    yield from add_servers(8)
    for number in range(count):
        source = bytes((172, 16 + number // 62500, number // 250 % 250, number % 250 + 1))
        yield "in 0 " + packet_from(source, 40000).hex()
    for moment in range(1, 4096):
        yield "at %d" % moment


def packet_from(source, port):
    """A SYN to the service from that address and port."""
    tcp = struct.pack("!HHIIBBHHH", port, 80, 0, 0, 0x50, 2, 0x2000, 0, 0)
    pseudo = source + VIRTUAL + struct.pack("!BBH", 0, 6, len(tcp))
    tcp = tcp[:16] + struct.pack("!H", ~traffic.fold(pseudo + tcp) & 0xFFFF) + tcp[18:]
    head = struct.pack("!BBHHHBBH", 0x45, 0, 40, 1, 0x4000, 64, 6, 0) + source + VIRTUAL
    return head[:10] + struct.pack("!H", ~traffic.fold(head) & 0xFFFF) + head[12:] + tcp


def mix(source, port):
    """The hash of a client's side (docs/PROFILE.md, Buckets)."""
    return (int.from_bytes(source, "big") + 40503 * port + 6) % 2**32 * 2654435761 % 2**32


def one_chain():
    """Connections whose entries all stand in one chain."""
    yield from service("rr")
    yield from add_servers(2)
    for number in itertools.count():
        source, port = traffic.client(number)
        if mix(source, port) // 256 % 256 == 0:
            yield "in 0 " + packet_from(source, port).hex()


def unbound_entries(servers):
    """Records of entries without a server, and packets that look for one among many."""
    yield from service("rr")
    yield from add_servers(servers)
    yield "ipvs --start-daemon backup --syncid 0"
    for number in itertools.count():
        source, port = traffic.client(number)
        record = struct.pack("!BBHIHHHHII", 0, 6, 36, 0, 1, port, 80, 80, 0, 900) + source + VIRTUAL + bytes((10, 9, 9, 9))
        yield "sync " + (struct.pack("!BBHBBH", 0, 0, 8 + len(record), 1, 1, 0) + record).hex()
        yield "in 0 " + packet_from(source, port).hex()


ATTACKS = {
    "servers_and_connections": lambda: servers_and_connections(7500),
    "rounds_of_nothing": lambda: rounds_of_nothing(9000, 5000, 4096),
    "rr": lambda: by_scheduler("rr", "-g", 8000),
    "wlc": lambda: by_scheduler("wlc", "-g -w 3", 8000),
    "sed": lambda: by_scheduler("sed", "-m -w 3", 8000),
    "nq": lambda: by_scheduler("nq", "-g -w 3", 8000),
    "ovf": lambda: by_scheduler("ovf", "-g -w 1", 8000),
    "sh": lambda: by_scheduler("sh", "-g -w 65535", 8000),
    "dh": lambda: by_scheduler("dh", "-g", 8000),
    "mh": lambda: by_scheduler("mh", "-g", 8000),
    "mh_one_weight": lambda: weightless_hash(8000),
    "wrr_coprime": lambda: coprime_weights(8000),
    "many_services": many_services,
    "edited_servers": lambda: edited_servers(8000),
    "removed_servers": lambda: removed_servers(8000),
    "cleared_tables": lambda: cleared_tables(8000),
    "held_servers": lambda: held_servers(6500),
    "templates": lambda: templates(9500),
    "one_chain": one_chain,
    "unbound_entries": lambda: unbound_entries(4000),
}


def script(name, size=1000000):
    """The lines of an attack, as many as there is room for."""
    left = size
    for line in ATTACKS[name]():
        left -= len(line) + 1
        if left < 0:
            return
        yield line


def main(words):
    if not words:
        print("\n".join(ATTACKS))
    elif words[0] in ATTACKS:
        for line in script(words[0], *map(int, words[1:2])):
            print(line)
    else:
        sys.exit(__doc__)


if __name__ == "__main__":
    main(sys.argv[1:])
