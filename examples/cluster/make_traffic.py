#!/usr/bin/env python3
"""Writes a capture of several observation domains and a plan with an account for each: make_traffic.py DOMAINS REPORTS FOLDER.

Each domain has so many packet reports, in order of time, 40 to a message; the domains' messages come in turn. No part of the product.
"""
import struct
import sys
from pathlib import Path

START = 1_700_000_000_000
TEMPLATE = struct.pack(">HHHH8H", 2, 24, 256, 4, 323, 8, 224, 8, 195, 1, 10, 4)
RECORD = struct.Struct(">QQBI")
SIZES = (1500, 40, 576, 1500, 52, 1400, 64, 1024)
CODE_POINTS = (0, 10, 12, 14, 46, 0, 26, 0)


def message(domain, sequence, sets):
    return struct.pack(">HHIII", 10, 16 + len(sets), START // 1000, sequence, domain) + sets


def records(domain, first, count):
    """`count` records of a domain from its report `first` on: one a tenth of a millisecond."""
    data = b"".join(
        RECORD.pack(START + n // 10, SIZES[(n * 5 + domain) % 8], CODE_POINTS[(n * 3 + domain) % 8], 1 + n % 2)
        for n in range(first, first + count)
    )
    return struct.pack(">HH", 256, 4 + len(data)) + data


def write_capture(path, domains, reports):
    with path.open("wb") as out:
        for domain in domains:
            out.write(message(domain, 0, TEMPLATE))
        for first in range(0, reports, 40):
            count = min(40, reports - first)
            for domain in domains:
                out.write(message(domain, first, records(domain, first, count)))


def write_plan(path, domains):
    accounts = "".join(
        f'\n[[account]]\nname = "domain-{domain}"\nmeter = "rfc2697"\ncir = 4000000\ncbs = 60000\nebs = 30000\naware = true\nkeys = [[{domain}, 1], [{domain}, 2]]\n'
        for domain in domains
    )
    path.write_text(f"period = 60000\n{accounts}")


def main():
    count, reports, folder = int(sys.argv[1]), int(sys.argv[2]), Path(sys.argv[3])
    domains = range(1, count + 1)
    write_capture(folder / "capture.ipfix", domains, reports)
    write_plan(folder / "plan.toml", domains)


main()
