#!/usr/bin/env python3
"""Packet reports out of a packet capture (pcap), as IPFIX messages on standard output.

    reports.py [--domain N] [--interface N] TRAFFIC.pcap > reports.ipfix

It reads the classic pcap format (not pcapng) of Ethernet or raw IP, v4 and v6, either byte order, times in micro- or nanoseconds. Each IP packet
becomes a data record (RFC 7011) with ingressInterface (10), observationTimeMilliseconds (323) and ipHeaderPacketSection (313), the first
octets of its IP header, so that the length and the code point are those of the packet itself. What isn't IP is left out; standard error
says how many packets were taken and how many weren't.

This script is an example for looking at traffic of one's own. It is no part of the product, and nothing about it is proved.
"""
import argparse
import struct
import sys

TEMPLATE = 256
SECTION = 8  # octets of the header that are kept: enough for version, traffic class and length
A_MESSAGE = 1000
ETHERNET, RAW, LINUX_RAW, NULL, LINUX_COOKED = 1, 101, 12, 0, 113
VLAN, IPV4, IPV6 = {0x8100, 0x88A8}, 0x0800, 0x86DD


def packets(file):
    """Time in milliseconds and octets of each packet, and the kind of link that they came by."""
    head = file.read(24)
    kinds = {
        b"\xd4\xc3\xb2\xa1": ("<", 1000),
        b"\xa1\xb2\xc3\xd4": (">", 1000),
        b"\x4d\x3c\xb2\xa1": ("<", 1000000),
        b"\xa1\xb2\x3c\x4d": (">", 1000000),
    }
    if len(head) < 24 or head[:4] not in kinds:
        sys.exit("reports.py: not a pcap file (pcapng isn't read: tcpdump -w writes pcap)")
    order, a_millisecond = kinds[head[:4]]
    link = struct.unpack(order + "I", head[20:24])[0] & 0xFFFF
    while True:
        record = file.read(16)
        if not record:
            return
        if len(record) < 16:
            sys.exit("reports.py: the pcap file ends within a packet")
        seconds, fraction, held, _ = struct.unpack(order + "IIII", record)
        octets = file.read(held)
        if len(octets) < held:
            sys.exit("reports.py: the pcap file ends within a packet")
        yield seconds * 1000 + fraction // a_millisecond, octets, link


def ip_header(octets, link):
    """The IP packet in a frame, or None."""
    if link == ETHERNET:
        at, kind = 14, int.from_bytes(octets[12:14], "big")
        while kind in VLAN:
            at, kind = at + 4, int.from_bytes(octets[at + 2 : at + 4], "big")
        if kind not in (IPV4, IPV6):
            return None
        octets = octets[at:]
    elif link == LINUX_COOKED:
        if int.from_bytes(octets[14:16], "big") not in (IPV4, IPV6):
            return None
        octets = octets[16:]
    elif link == NULL:
        octets = octets[4:]
    elif link not in (RAW, LINUX_RAW):
        sys.exit(f"reports.py: link type {link} isn't read")
    if len(octets) < SECTION or octets[0] >> 4 not in (4, 6):
        return None
    return octets[:SECTION]


def message(domain, sequence, records, template):
    """An IPFIX message of these records, with the template before them where asked."""
    sets = b""
    if template:
        fields = struct.pack(">HH HH HH HH", TEMPLATE, 3, 10, 4, 323, 8, 313, SECTION)
        sets += struct.pack(">HH", 2, 4 + len(fields)) + fields
    body = b"".join(records)
    sets += struct.pack(">HH", TEMPLATE, 4 + len(body)) + body
    return struct.pack(">HHIII", 10, 16 + len(sets), 0, sequence % 2**32, domain) + sets


def main():
    asked = argparse.ArgumentParser(description=__doc__.split("\n")[0])
    asked.add_argument("--domain", type=int, default=1, help="observation domain of the reports (1)")
    asked.add_argument("--interface", type=int, default=1, help="ingress interface of the reports (1)")
    asked.add_argument("traffic", help="a pcap file, as tcpdump -w writes it")
    words = asked.parse_args()
    out, records, sent, left_out = sys.stdout.buffer, [], 0, 0

    def send():
        nonlocal records, sent
        out.write(message(words.domain, sent, records, sent == 0))
        sent, records = sent + len(records), []

    with open(words.traffic, "rb") as file:
        for time, octets, link in packets(file):
            header = ip_header(octets, link)
            if header is None:
                left_out += 1
                continue
            records.append(struct.pack(">IQ", words.interface, time) + header)
            if len(records) == A_MESSAGE:
                send()
    if records:
        send()
    print(f"reports.py: {sent} packets, {left_out} left out", file=sys.stderr)


if __name__ == "__main__":
    main()
