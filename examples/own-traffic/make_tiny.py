#!/usr/bin/env python3
"""Writes tiny.pcap: five packets of Ethernet, four of them IP, some milliseconds apart. What `run` compares with is worked out by hand from these."""
import struct
import sys

START = 1_700_000_000


def ethernet(kind, payload):
    return bytes(6) + bytes(6) + struct.pack(">H", kind) + payload


def ipv4(total, traffic_class):
    return struct.pack(">BBHHHBBH", 0x45, traffic_class, total, 0, 0, 64, 17, 0) + bytes(8)


def ipv6(payload, traffic_class):
    return struct.pack(">IHBB", 6 << 28 | traffic_class << 20, payload, 17, 64) + bytes(32)


PACKETS = (
    (0, ethernet(0x0800, ipv4(1500, 0))),
    (100_000, ethernet(0x0800, ipv4(1000, 0))),
    (150_000, ethernet(0x0806, bytes(28))),  # ARP
    (200_000, ethernet(0x86DD, ipv6(760, 0))),  # 800 octets with its header
    (200_000, ethernet(0x8100, b"\0\1\x08\x00" + ipv4(60, 38 << 2))),  # in a VLAN, code point 38
)

with open(sys.argv[1], "wb") as file:
    file.write(struct.pack("<IHHiIII", 0xA1B2C3D4, 2, 4, 0, 0, 262144, 1))
    for microseconds, octets in PACKETS:
        file.write(struct.pack("<IIII", START, microseconds, len(octets), len(octets)) + octets)
