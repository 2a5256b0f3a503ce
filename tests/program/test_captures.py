"""Random captures and exports, right and spoilt: what the program reads of them, beside the plain model's readers."""
import random
import struct

from model import TIMES, UNSIGNED, Fault, Notes, capture, export, read_input, statement
from program import ProgramTest
from rows import PLAN, TIME

CASES = 400
SECONDS_1970 = 2_208_988_800

# What a field may be: its element, and the length that it has in most templates. 65535 says that each record tells it.
FIELDS = [(323, 8), (322, 4), (324, 8), (325, 8), (224, 8), (224, 2), (190, 2), (1, 8), (195, 1), (5, 1), (10, 4), (10, 2), (313, 65535), (313, 20), (8, 4), (12, 65535)]


def some_value(draw, element, length):
    """Octets of a field, mostly such that the record is a report."""
    if element in TIMES and length == TIMES[element] and draw.random() < 0.95:
        seconds, part = TIME // 1000 + draw.randrange(50), draw.randrange(1 << 32)
        if element == 322:
            return struct.pack(">I", seconds)
        if element == 323:
            return struct.pack(">Q", seconds * 1000 + draw.randrange(1000))
        return struct.pack(">II", (seconds + SECONDS_1970) % (1 << 32), part)
    if element in UNSIGNED and draw.random() < 0.95:
        most = {195: 63, 10: 3}.get(element, 1500)
        return draw.randrange(most + 1).to_bytes(8, "big")[-length:].rjust(length, b"\0")
    if element == 313 and length >= 6:
        head = struct.pack(">BBH", 0x45, draw.randrange(256), draw.randrange(20, 1500)) if draw.random() < 0.5 else struct.pack(">IH", 6 << 28 | draw.randrange(1 << 28), draw.randrange(1500))
        return head + draw.randbytes(length - len(head))
    return draw.randbytes(length)


class Exporter:
    """Messages of some domains, with templates that come, change and go."""

    def __init__(self, draw):
        self.draw = draw
        self.domains = draw.sample(range(5), draw.randint(1, 3))
        self.sequences = {domain: draw.choice((0, 1, 2**32 - 2)) for domain in self.domains}
        self.templates = {}

    def a_template(self, domain):
        """A set of template records, or of options templates: new ones, others in their place, and withdrawals."""
        draw, records = self.draw, b""
        options = draw.random() < 0.2
        for _ in range(draw.randint(1, 3)):
            number = draw.choice((256, 257, 300, 65535))
            if draw.random() < 0.1:
                everything = draw.random() < 0.3
                records += struct.pack(">HH", (3 if options else 2) if everything else number, 0)
                kept = {key: found for key, found in self.templates.items() if key[0] != domain or (found[0] != options if everything else key[1] != number)}
                self.templates = kept
                continue
            fields = [(323, 8), (224, 8)] + draw.sample(FIELDS, draw.randint(0, 4)) if draw.random() < 0.7 else draw.sample(FIELDS, draw.randint(1, 5))
            draw.shuffle(fields)
            specifiers = [(element, draw.choice((None, None, None, None, None, 9)), length) for element, length in fields]
            records += struct.pack(">HH", number, len(fields)) + (struct.pack(">H", draw.randint(1, len(fields))) if options else b"")
            for element, enterprise, length in specifiers:
                records += struct.pack(">HH", element, length) if enterprise is None else struct.pack(">HHI", element | 0x8000, length, enterprise)
            self.templates[domain, number] = (options, specifiers)
        return struct.pack(">HH", 3 if options else 2, 4 + len(records)) + records

    def a_record(self, specifiers):
        draw, octets = self.draw, b""
        for element, _, length in specifiers:
            if length == 65535:
                length = draw.choice((0, 5, 6, 20, 40, 300))
                octets += bytes([length]) if length < 255 and draw.random() < 0.8 else b"\xff" + struct.pack(">H", length)
            octets += some_value(draw, element, length)
        return octets

    def a_set(self, domain):
        draw = self.draw
        known = [number for at, number in self.templates if at == domain]
        kind = draw.random()
        if not known or kind < 0.2:
            return self.a_template(domain)
        if kind < 0.3:
            return struct.pack(">HH", draw.choice((0, 1, 4, 255)), 8) + draw.randbytes(4)
        if kind < 0.35:
            return struct.pack(">HH", 999, 8) + draw.randbytes(4)
        _, specifiers = self.templates[domain, draw.choice(known)]
        records = [self.a_record(specifiers) for _ in range(draw.randint(1, 5))]
        self.sequences[domain] = (self.sequences[domain] + len(records)) % 2**32
        padding = bytes(draw.choice((0, 0, 1, 2, 3)) if min(length for _, _, length in specifiers) > 3 else 0)
        body = b"".join(records) + padding
        return struct.pack(">HH", draw.choice([n for n in known if self.templates[domain, n][1] is specifiers]), 4 + len(body)) + body

    def a_capture(self):
        draw, octets = self.draw, b""
        for _ in range(draw.randint(1, 8)):
            domain = draw.choice(self.domains)
            sequence = self.sequences[domain]
            sets = b"".join(self.a_set(domain) for _ in range(draw.randint(0, 4)))
            octets += struct.pack(">HHIII", 10, 16 + len(sets), 0, sequence, domain) + sets
        return octets


def some_export(draw):
    rows = {(TIME + draw.randrange(9), draw.randrange(3), draw.randrange(2), draw.randrange(9), draw.randrange(1, 1500), draw.randrange(64), 1) for _ in range(draw.randrange(9))}
    return export({row[:2] + (0,) + row[3:] for row in rows}, 1) if draw.random() < 0.5 else export(rows)


def wrong_message(draw):
    """A message with a fault in its sets: right ones may stand in front of it in the message."""
    field = struct.pack(">HH", 323, 8)
    wrong = draw.choice((
        (2, struct.pack(">HH", 255, 1) + field),
        (2, struct.pack(">HH", 3, 0)),
        (2, struct.pack(">HH", 256, 2) + field),
        (2, struct.pack(">HHHH", 256, 1, 0x8000 | 323, 8)),
        (3, struct.pack(">HH", 256, 1)),
        (3, struct.pack(">HHH", 256, 1, 0) + field),
        (3, struct.pack(">HHH", 256, 1, 2) + field),
        (2, struct.pack(">HH", 256, 2) + struct.pack(">HH", 323, 0) * 2),
        (2, struct.pack(">HH", 256, 513) + field * 513),
        (2, b""),
    ))
    front = struct.pack(">HH", 2, 12) + struct.pack(">HH", 300, 1) + struct.pack(">HH", 12, 65535)
    body = front * draw.randrange(2) + struct.pack(">HH", wrong[0], 4 + len(wrong[1])) + wrong[1]
    if not wrong[1]:
        body += draw.choice((b"\1", b"\1\2", b"\1\2\3", b"\1\2\0\3", struct.pack(">HH", 300, 6) + b"\1\2", front + struct.pack(">HH", 300, 7) + b"\5ab"))
    return struct.pack(">HHIII", 10, 16 + len(body), 0, 0, 7) + body


def spoilt(draw, octets):
    """The octets with some of them changed, left out or more of them."""
    octets = bytearray(octets)
    for _ in range(draw.choice((1, 1, 2, 3))):
        at = draw.randrange(len(octets)) if octets else 0
        kind = draw.random()
        if kind < 0.7 and octets:
            octets[at] = draw.choice((0, 1, 2, 3, 4, 255, octets[at] ^ 1, draw.randrange(256)))
        elif kind < 0.8:
            del octets[at:]
        elif kind < 0.9:
            del octets[at : at + draw.randint(1, 4)]
        else:
            octets[at:at] = draw.randbytes(draw.randint(1, 4))
    return bytes(octets)


class Inputs(ProgramTest):
    def setUp(self):
        super().setUp()
        self.write("plan", PLAN.toml())

    def assert_read(self, octets, session):
        """What `combine` and `bill` make of an input, and its family and number where it is refused."""
        word = f"{session}@{self.write('in', octets)}"
        try:
            reports, notes = read_input(octets, session)
        except Fault as fault:
            for run in (self.run_program("combine", "out", word), self.run_program("bill", "plan", word)):
                self.assert_refused(run, word, fault.family, fault.number)
            return fault.family, fault.number
        union = set(reports)
        self.assert_done(self.run_program("combine", "out", word), f"reports {len(union)}\n".encode())
        self.assertEqual(self.read("out"), export(union))
        counts = f"{notes.not_reports} {notes.unplaced} {notes.skipped}"
        line = b"" if notes == Notes() else f"tcacct: {word}: notes {counts}\n".encode()
        self.assert_done(self.run_program("bill", "plan", word), statement(PLAN, union), line)
        return None

    def test_a_capture_of_many_messages(self):
        rows = [(TIME + n, 100, 0, 1) for n in range(70_000)]
        self.assertIsNone(self.assert_read(capture(7, 0, rows, 1), 0))

    def test_the_longest_messages(self):
        """Of 65,535 octets, full of short records: of fixed lengths, and of a variable one."""
        for size, record in ((1, struct.pack(">IB", TIME // 1000, 99)), (65_535, struct.pack(">IBB", TIME // 1000, 1, 99))):
            template = struct.pack(">HHIII", 10, 32, 0, 0, 7) + struct.pack(">8H", 2, 16, 256, 2, 322, 4, 1, size)
            body = (record * (65_515 // len(record))).ljust(65_515, b"\0")
            octets = template + struct.pack(">HHIIIHH", 10, 65_535, 0, 0, 7, 256, 65_519) + body
            self.assertIsNone(self.assert_read(octets, 0))

    def test_right_captures(self):
        held, noted = 0, [0, 0, 0]
        for case in range(CASES):
            with self.subTest(case=case):
                octets = Exporter(random.Random(case)).a_capture()
                self.assertIsNone(self.assert_read(octets, case % 3))
                reports, notes = read_input(octets)
                held += len(reports)
                noted = [noted[0] + notes.not_reports, noted[1] + notes.unplaced, noted[2] + notes.skipped]
        self.assertGreater(held, 2000)
        self.assertGreater(min(noted), 100)

    def test_spoilt_inputs(self):
        told = set()
        for case in range(4 * CASES):
            with self.subTest(case=case):
                draw = random.Random(case)
                octets = Exporter(draw).a_capture() if case % 8 else some_export(draw)
                octets = octets + wrong_message(draw) if case % 8 in (1, 2, 3) else spoilt(draw, octets)
                told.add(self.assert_read(octets, draw.choice((0, 7))))
        # An input that doesn't begin as an export is a capture, so that `export` 1 can't be told here.
        wanted = [("wire", 6), ("decode", 6), ("export", 6)]
        self.assertEqual({(family, n + 1) for family, most in wanted for n in range(most)} - told, {("export", 1)})
