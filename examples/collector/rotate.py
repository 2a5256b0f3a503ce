#!/usr/bin/env python3
"""IPFIX messages from standard input into files of about so many octets: rotate.py DIR SIZE [SESSION]

A message is never cut, and its records stand in one file alone. Each file but the first begins with the templates that are known by then, so that it can be
read by itself: each in a message of its own that has no data, before the SIZE octets. A file is named after its session and number, and renamed from `.part`
to `.ipfix` when it is full, when the stream ends, and at SIGTERM or SIGINT, behind the last message that came whole.
"""
import os
import re
import select
import signal
import struct
import sys

TEMPLATES, OPTIONS_TEMPLATES = 2, 3  # identifiers of sets
MOST_TEMPLATES, MOST_FIELDS = 4096, 512  # what tcacct reads


def pieces(stopped):
    """What comes on standard input, until it ends or a signal stops it: then what waits there goes out too, 1 MiB at most."""
    woken, wake = os.pipe()
    os.set_blocking(wake, False)
    signal.set_wakeup_fd(wake)
    for number in (signal.SIGINT, signal.SIGTERM):
        signal.signal(number, lambda *_: stopped.append(True))
    turns = 16
    while turns:
        ready = select.select([0, woken], [], [])[0]
        piece = os.read(0, 65536) if 0 in ready else b""
        if not piece:
            return
        yield piece
        turns -= woken in ready


def messages(stopped):
    """Each message that came whole."""
    held, passed = bytearray(), 0
    for piece in pieces(stopped):
        held += piece
        at = 0
        while at + 16 <= len(held):
            version, length = struct.unpack_from(">HH", held, at)
            if version != 10 or length < 16:
                sys.exit(f"rotate.py: no IPFIX message at octet {passed + at} of the stream, and nobody knows where the next one begins")
            if at + length > len(held):
                break
            yield bytes(held[at : at + length])
            at += length
        del held[:at]
        passed += at
    if held:
        print(f"rotate.py: a message at the end is cut, its {len(held)} octets are left out", file=sys.stderr)
        sys.exit(0 if stopped else 1)


def sets(message):
    """The identifier and the octets of each set, up to one that is cut."""
    at = 16
    while at + 4 <= len(message):
        number, length = struct.unpack_from(">HH", message, at)
        if length < 4 or at + length > len(message):
            return
        yield number, message[at + 4 : at + length]
        at += length


def end_of_template(kind, octets, at):
    """Where the template record at an offset ends; None where it is cut, or one that tcacct refuses."""
    number, fields = struct.unpack_from(">HH", octets, at)
    end, shortest = at + 4, 0
    if number < 256 and (number, fields) != (kind, 0) or fields > MOST_FIELDS:
        return None
    if fields == 0:
        return end
    if kind == OPTIONS_TEMPLATES:
        scope = int.from_bytes(octets[end : end + 2], "big")
        end += 2
        if not 0 < scope <= fields:
            return None
    for _ in range(fields):
        if end + 4 > len(octets):
            return None
        element, length = struct.unpack_from(">HH", octets, end)
        end += 8 if element & 0x8000 else 4  # an enterprise's number behind it
        shortest += 1 if length == 65535 else length
    return end if shortest and end <= len(octets) else None


def template_records(kind, octets):
    """Each template record of a set, up to one that is faulty."""
    at = 0
    while at + 4 <= len(octets):
        end = end_of_template(kind, octets, at)
        if end is None:
            return
        yield octets[at:end]
        at = end


class Templates:
    """What is known of templates: a message for each domain and identifier, with the newest definition. A withdrawn one is not known."""

    def __init__(self):
        self.known, self.kinds = {}, {}  # kinds: the identifiers of each domain and kind

    def learn(self, message):
        """Takes what a message says of templates."""
        domain = message[12:16]
        for kind, octets in sets(message):
            if kind in (TEMPLATES, OPTIONS_TEMPLATES):
                for record in template_records(kind, octets):
                    self.take(message, domain, kind, record)

    def take(self, message, domain, kind, record):
        number, fields = struct.unpack_from(">HH", record)
        if number == kind:
            # All of this kind are withdrawn.
            for one in self.kinds.pop((domain, kind), ()):
                del self.known[domain, one]
            return
        if fields and (domain, number) not in self.known and len(self.known) >= MOST_TEMPLATES:
            return
        for each in (TEMPLATES, OPTIONS_TEMPLATES):
            self.kinds.get((domain, each), set()).discard(number)
        if fields == 0:
            self.known.pop((domain, number), None)
            return
        one = struct.pack(">HH", kind, 4 + len(record)) + record
        self.known[domain, number] = message[:2] + struct.pack(">H", 16 + len(one)) + message[4:16] + one
        self.kinds.setdefault((domain, kind), set()).add(number)


def first_number(folder, session):
    """One more than the highest number that a file of this session has, here or in the folders beside, where files are billed."""
    beside = os.path.dirname(os.path.abspath(folder))
    found = [name for at in (folder, f"{beside}/billing", f"{beside}/billed") if os.path.isdir(at) for name in os.listdir(at)]
    numbers = (re.fullmatch(rf"{re.escape(session)}-(\d+)\.(?:part|ipfix)", name) for name in found)
    return max((int(one[1]) + 1 for one in numbers if one), default=0)


class Files:
    """A session's files, one behind the other."""

    def __init__(self, folder, size, session):
        self.path, self.size, self.number = os.path.join(folder, session), size, first_number(folder, session)
        self.file, self.whole, self.room = None, 0, 0

    def write(self, octets):
        rest = octets
        while rest:
            rest = rest[self.file.write(rest) :]
        self.whole += len(octets)

    def put(self, message, templates):
        """Writes a message; where it doesn't fit, into a new file behind the known templates."""
        if self.file and len(message) > self.room:
            self.finish()
        if not self.file:
            self.file = open(f"{self.path}-{self.number:06}.part", "xb", buffering=0)
            self.number, self.whole, self.room = self.number + 1, 0, self.size
            self.write(b"".join(templates.known.values()))
        self.write(message)
        self.room -= len(message)

    def finish(self):
        if self.file:
            file, self.file = self.file, None
            file.truncate(self.whole)  # where a write failed, a message may be cut
            file.close()
            os.rename(file.name, file.name[: -len(".part")] + ".ipfix")


def main():
    folder, size = sys.argv[1], int(sys.argv[2])
    session = sys.argv[3] if len(sys.argv) > 3 else "0"
    files, templates, stopped = Files(folder, size, session), Templates(), []
    try:
        for message in messages(stopped):
            files.put(message, templates)
            templates.learn(message)
    finally:
        files.finish()


if __name__ == "__main__":
    main()
