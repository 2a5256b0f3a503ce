#!/usr/bin/env python3
"""Sends packet reports as an exporter would, by UDP on this machine: send.py PORT SEQUENCE TIME,OCTETS...  A message a report, the first one with its template."""
import socket
import struct
import sys
import time

port, sequence = int(sys.argv[1]), int(sys.argv[2])
template = struct.pack(">10H", 256, 4, 323, 8, 224, 8, 195, 1, 10, 4)
sender = socket.socket(socket.AF_INET, socket.SOCK_DGRAM)
sets = struct.pack(">HH", 2, 4 + len(template)) + template
for word in sys.argv[3:]:
    moment, octets = map(int, word.split(","))
    record = struct.pack(">QQBI", moment, octets, 0, 1)
    sets += struct.pack(">HH", 256, 4 + len(record)) + record
    sender.sendto(struct.pack(">HHIII", 10, 16 + len(sets), 0, sequence, 7) + sets, ("127.0.0.1", port))
    sequence, sets = sequence + 1, b""
    time.sleep(0.01)
