#!/usr/bin/env python3
"""Makes traffic to measure with: scripts and captures of many connections through one or more services.

    traffic.py script  CLIENTS PACKETS [SERVICES SERVERS METHOD SCHEDULER]   a script with PACKETS packets of each client
    traffic.py udp     CLIENTS PACKETS                                       the same of datagrams, the shortest packets there are
    traffic.py demo    CLIENTS                                               the script that `demo CLIENTS` plays
    traffic.py sticky  CLIENTS                                               persistent clients, and a round in which all are due
    traffic.py capture CLIENTS FRAMES                                        a script, the line `capture`, and a capture
    traffic.py pcap    CLIENTS FRAMES                                        the capture alone

Every checksum is right. Clients are told apart by address and port; the first packet of each has SYN, the others ACK.
Packets of clients take turns: first one of each, then the next of each. What is made depends on the words alone.
"""
import struct
import sys

SCRIPT_SERVICE = "10.0.0.1"


def fold(data):
    """The ones' complement sum of RFC 1071, folded to 16 bits."""
    if len(data) % 2:
        data += b"\0"
    total = sum(struct.unpack("!%dH" % (len(data) // 2), data))
    while total >> 16:
        total = (total & 0xFFFF) + (total >> 16)
    return total


def address(text):
    a, b, c, d = (int(part) for part in text.split("."))
    return bytes((a, b, c, d))


def client(number):
    """The address and port of a client: 50,000 ports an address from 172.16.0.1 on."""
    host, port = divmod(number, 50000)
    return bytes((172, 16, host // 250, host % 250 + 1)), 10000 + port


def packet(number, destination, port, syn):
    """A TCP packet of a client without data, 40 bytes."""
    return packet_of(*client(number), destination, port, syn)


def packet_of(source, source_port, destination, port, syn):
    flags = 0x02 if syn else 0x10
    tcp = struct.pack("!HHIIBBHHH", source_port, port, 0, 0, 0x50, flags, 0x2000, 0, 0)
    pseudo = source + destination + struct.pack("!BBH", 0, 6, len(tcp))
    tcp = tcp[:16] + struct.pack("!H", ~fold(pseudo + tcp) & 0xFFFF) + tcp[18:]
    head = struct.pack("!BBHHHBBH", 0x45, 0, 40, 1, 0x4000, 64, 6, 0) + source + destination
    return head[:10] + struct.pack("!H", ~fold(head) & 0xFFFF) + head[12:] + tcp


def datagram(number, destination, port):
    """A UDP packet of a client without data or a checksum, 28 bytes."""
    source, source_port = client(number)
    head = struct.pack("!BBHHHBBH", 0x45, 0, 28, 1, 0x4000, 64, 17, 0) + source + destination
    return head[:10] + struct.pack("!H", ~fold(head) & 0xFFFF) + head[12:] + struct.pack("!HHHH", source_port, port, 8, 0)


def service_address(number):
    return "10.0.%d.%d" % (number // 250, number % 250 + 1)


def service_lines(services, servers, method, scheduler):
    for number in range(services):
        virtual = "%s:80" % service_address(number)
        yield "ipvs -A -t %s -s %s" % (virtual, scheduler)
        for server in range(servers):
            port = ":8080" if method == "-m" else ""
            yield "ipvs -a -t %s -r 192.168.%d.%d%s %s" % (virtual, server // 250, server % 250 + 1, port, method)


def write_script(clients, packets, services=1, servers=8, method="-m", scheduler="rr"):
    out = sys.stdout
    out.write("at 0\n")
    for line in service_lines(services, servers, method, scheduler):
        out.write(line + "\n")
    for turn in range(packets):
        for number in range(clients):
            virtual = address(service_address(number % services))
            out.write("in 0 %s\n" % packet(number, virtual, 80, turn == 0).hex())


def write_udp(clients, packets):
    out = sys.stdout
    out.write("at 0\nipvs -A -u 10.0.0.1:53 -s rr\n")
    for server in range(8):
        out.write("ipvs -a -u 10.0.0.1:53 -r 192.168.0.%d:5353 -m\n" % (server + 1))
    for line in ["in 0 %s\n" % datagram(number, address(SCRIPT_SERVICE), 53).hex() for number in range(clients)] * packets:
        out.write(line)


def write_demo(clients):
    """The demonstration's script (docs/DEFINITIONS.md): clients from 10.1.0.0 on, a SYN of each and then an ACK of each."""
    out = sys.stdout
    out.write("local 10.0.0.254\nat 0\nipvs -A -t 10.0.0.1:80 -s rr\n")
    for server in range(4):
        out.write("ipvs -a -t 10.0.0.1:80 -r 192.168.0.%d:80 -m -w 1\n" % (server + 1))
    for moment in (1, 2):
        out.write("at %d\n" % moment)
        for number in range(clients):
            source = struct.pack("!I", 0x0A010000 + number)
            out.write("in 0 %s\n" % packet_of(source, 1024 + number % 60000, address(SCRIPT_SERVICE), 80, moment == 1).hex())


def write_sticky(clients):
    """One packet each of so many addresses, to a service whose templates are due after 300 s, and a round at 2,000 s."""
    out = sys.stdout
    out.write("at 0\nipvs -A -t 10.0.0.1:80 -s rr -p 300\n")
    for server in range(8):
        out.write("ipvs -a -t 10.0.0.1:80 -r 192.168.0.%d -g\n" % (server + 1))
    for number in range(clients):
        source = bytes((172, 16 + number // 62500, number // 250 % 250, number % 250 + 1))
        out.write("in 0 %s\n" % packet_of(source, 40000, address(SCRIPT_SERVICE), 80, True).hex())
    out.write("at 2000\n")


def write_pcap(clients, frames):
    out = sys.stdout.buffer
    out.write(struct.pack("<IHHiIII", 0xA1B2C3D4, 2, 4, 0, 0, 262144, 1))
    ethernet = bytes.fromhex("020000000001020000000002") + b"\x08\x00"
    virtual = address(SCRIPT_SERVICE)
    for number in range(frames):
        frame = ethernet + packet(number % clients, virtual, 80, number < clients)
        out.write(struct.pack("<IIII", 1, number % 1000000, len(frame), len(frame)) + frame)


def write_capture(clients, frames):
    for line in ["at 0", *service_lines(1, 1, "-m", "rr"), "capture"]:
        sys.stdout.write(line + "\n")
    sys.stdout.flush()
    write_pcap(clients, frames)


def main(words):
    if len(words) >= 3 and words[0] == "script":
        numbers = [int(word) for word in words[1:5]]
        write_script(*numbers, *words[5:7])
    elif len(words) == 3 and words[0] == "udp":
        write_udp(int(words[1]), int(words[2]))
    elif len(words) == 2 and words[0] in ("demo", "sticky"):
        {"demo": write_demo, "sticky": write_sticky}[words[0]](int(words[1]))
    elif len(words) == 3 and words[0] == "capture":
        write_capture(int(words[1]), int(words[2]))
    elif len(words) == 3 and words[0] == "pcap":
        write_pcap(int(words[1]), int(words[2]))
    else:
        sys.exit(__doc__)


if __name__ == "__main__":
    main(sys.argv[1:])
