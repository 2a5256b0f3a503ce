"""What the program has to say, worked out in the plainest way.

It shares nothing with the product: reports are tuples in a set, messages are read with `struct`, and buckets are numbers. It follows
RFC 7011, RFC 2597, RFC 2697, RFC 2698 and RFC 4115, and docs/CAPTURES.md and docs/PLAN.md where these leave a choice.

A report is the tuple (time, domain, session, place, octets, dscp, iface), so tuples compare in the order of reports.
"""
import struct
from dataclasses import dataclass, field

MOST_REPORTS = 4_194_304
TIME_END = 1 << 48
MOST_OCTETS = 65_575
NTP_1970 = 2_208_988_800

GREEN, YELLOW, RED = 0, 1, 2


class Fault(Exception):
    """A refusal: its family and number, as a fault line has them."""

    def __init__(self, family, number):
        super().__init__(f"{family} {number}")
        self.family = family
        self.number = number


# Exports


def export(reports, version=2):
    """The log export of reports; in version 1 their sessions have to be 0."""
    rows = sorted(set(reports))
    out = [b"TCAX", struct.pack(">HI", version, len(rows))]
    for time, domain, session, place, octets, dscp, iface in rows:
        if version == 1:
            assert session == 0
            out.append(struct.pack(">QIIIBI", time, domain, place, octets, dscp, iface))
        else:
            out.append(struct.pack(">QIIIIBI", time, domain, session, place, octets, dscp, iface))
    return b"".join(out)


def read_export(octets):
    """The reports of an export."""
    if len(octets) < 4:
        raise Fault("export", 4)
    if octets[:4] != b"TCAX":
        raise Fault("export", 1)
    if len(octets) < 10:
        raise Fault("export", 4)
    version, count = struct.unpack(">HI", octets[4:10])
    if version not in (1, 2):
        raise Fault("export", 2)
    if count > MOST_REPORTS:
        raise Fault("export", 3)
    form, size = (">QIIIBI", 25) if version == 1 else (">QIIIIBI", 29)
    if len(octets) < 10 + size * count:
        raise Fault("export", 4)
    if len(octets) > 10 + size * count:
        raise Fault("export", 3)
    reports = []
    for n in range(count):
        values = struct.unpack_from(form, octets, 10 + size * n)
        report = values[:2] + (0,) + values[2:] if version == 1 else values
        if not in_range(report):
            raise Fault("export", 5)
        if reports and report <= reports[-1]:
            raise Fault("export", 6)
        reports.append(report)
    return reports


def in_range(report):
    time, _, _, _, octets, dscp, _ = report
    return time < TIME_END and 1 <= octets <= MOST_OCTETS and dscp <= 63


# Captures


@dataclass
class Notes:
    """What a capture has besides reports."""

    not_reports: int = 0
    unplaced: int = 0
    skipped: int = 0


UNSIGNED = {1: 8, 5: 1, 10: 4, 190: 2, 195: 1, 224: 8}
TIMES = {322: 4, 323: 8, 324: 8, 325: 8}


def section_says(value):
    """Octets and code point of a packet by the head of it, or None."""
    if len(value) >= 4 and value[0] >> 4 == 4:
        return struct.unpack(">H", value[2:4])[0], value[1] >> 2
    if len(value) >= 6 and value[0] >> 4 == 6:
        traffic_class = (value[0] & 15) << 4 | value[1] >> 4
        return 40 + struct.unpack(">H", value[4:6])[0], traffic_class >> 2
    return None


def extract(fields, options):
    """Time, octets, code point and interface of a record, or None where it is no report."""
    if options:
        return None
    first = {}
    for element, enterprise, value in fields:
        if enterprise is None and element not in first:
            first[element] = value
    section = section_says(first[313]) if 313 in first else None
    time = next((e for e in (323, 324, 325, 322) if e in first), None)
    size = next((e for e in (224, 190, 1) if e in first), None)
    code = next((e for e in (195, 5) if e in first), None)
    if time is None or (size is None and section is None):
        return None
    chosen = [e for e in (size, code, 10 if 10 in first else None) if e is not None]
    if len(first[time]) != TIMES[time]:
        return None
    if any(not 1 <= len(first[e]) <= UNSIGNED[e] for e in chosen):
        return None
    moment = time_of(time, first[time])
    octets = int.from_bytes(first[size], "big") if size is not None else section[0]
    if code is not None:
        dscp = int.from_bytes(first[code], "big") >> (2 if code == 5 else 0)
    else:
        dscp = section[1] if section is not None else 0
    iface = int.from_bytes(first[10], "big") if 10 in first else 0
    if moment is None or not in_range((moment, 0, 0, 0, octets, dscp, iface)):
        return None
    return moment, octets, dscp, iface


def time_of(element, value):
    """Milliseconds from 1970, or None before it."""
    number = int.from_bytes(value, "big")
    if element == 323:
        return number
    if element == 322:
        return number * 1000
    seconds, fraction = number >> 32, number & 0xFFFFFFFF
    if element == 324:
        fraction &= ~0x7FF
    if seconds < NTP_1970:
        return None
    return (seconds - NTP_1970) * 1000 + (fraction * 1000 >> 32)


def template_records(templates, domain, options, body):
    """Takes the template records of a set into `templates`."""
    at = 0
    while len(body) - at >= 4:
        number, count = struct.unpack_from(">HH", body, at)
        all_of_kind = number == (3 if options else 2) and count == 0
        if number < 256 and not all_of_kind:
            raise Fault("decode", 1)
        if count == 0:
            for key in [k for k in templates if k[0] == domain]:
                if (all_of_kind and templates[key][0] == options) or (not all_of_kind and key[1] == number):
                    del templates[key]
            at += 4
            continue
        if count > 512:
            raise Fault("decode", 5)
        at += 4
        if options:
            if len(body) - at < 2:
                raise Fault("decode", 2)
            scope = struct.unpack_from(">H", body, at)[0]
            if not 1 <= scope <= count:
                raise Fault("decode", 3)
            at += 2
        specifiers = []
        for _ in range(count):
            if len(body) - at < 4:
                raise Fault("decode", 2)
            element, length = struct.unpack_from(">HH", body, at)
            at += 4
            enterprise = None
            if element & 0x8000:
                if len(body) - at < 4:
                    raise Fault("decode", 2)
                enterprise = struct.unpack_from(">I", body, at)[0]
                at += 4
            specifiers.append((element & 0x7FFF, enterprise, length))
        if sum(1 if length == 65535 else length for _, _, length in specifiers) == 0:
            raise Fault("decode", 4)
        if (domain, number) not in templates and len(templates) >= 4096:
            raise Fault("decode", 5)
        templates[(domain, number)] = (options, specifiers)


def data_records(specifiers, body):
    """The records of a data set, each a list of (element, enterprise, value)."""
    shortest = sum(1 if length == 65535 else length for _, _, length in specifiers)
    at, records = 0, []
    while len(body) - at >= shortest:
        fields = []
        for element, enterprise, length in specifiers:
            if length == 65535:
                if len(body) - at < 1:
                    raise Fault("decode", 6)
                length = body[at]
                at += 1
                if length == 255:
                    if len(body) - at < 2:
                        raise Fault("decode", 6)
                    length = struct.unpack_from(">H", body, at)[0]
                    at += 2
            if len(body) - at < length:
                raise Fault("decode", 6)
            fields.append((element, enterprise, body[at : at + length]))
            at += length
        records.append(fields)
    return records


def sets_of(message):
    """The sets of a message, each its identifier and its octets."""
    sets, at = [], 16
    while at < len(message):
        if len(message) - at < 4:
            raise Fault("wire", 6)
        number, length = struct.unpack_from(">HH", message, at)
        if length < 4:
            raise Fault("wire", 4)
        if at + length > len(message):
            raise Fault("wire", 5)
        sets.append((number, message[at + 4 : at + length]))
        at += length
    return sets


def read_capture(octets, session):
    """The reports of a capture and its notes."""
    templates, reports, notes, at = {}, [], Notes(), 0
    while at < len(octets):
        if len(octets) - at < 16:
            raise Fault("wire", 1)
        version, length, _, sequence, domain = struct.unpack_from(">HHIII", octets, at)
        if version != 10:
            raise Fault("wire", 2)
        if length < 16:
            raise Fault("wire", 3)
        if len(octets) - at < length:
            raise Fault("wire", 1)
        count, unplaced = 0, False
        for number, body in sets_of(octets[at : at + length]):
            if number in (2, 3):
                template_records(templates, domain, number == 3, body)
            elif number < 256:
                notes.skipped += 1
            elif unplaced:
                pass
            elif (domain, number) not in templates:
                unplaced = True
            else:
                options, specifiers = templates[(domain, number)]
                for fields in data_records(specifiers, body):
                    found = extract(fields, options)
                    place = (sequence + count) % 2**32
                    count += 1
                    if found is None:
                        notes.not_reports += 1
                    else:
                        reports.append((found[0], domain, session, place) + found[1:])
        notes.unplaced += unplaced
        at += length
    return reports, notes


def read_input(octets, session=0):
    """The reports of an input and its notes."""
    if octets[:4] == b"TCAX":
        return read_export(octets), Notes()
    return read_capture(octets, session)


# Meters and bills


def precolour(dscp, other):
    if 10 <= dscp <= 38 and dscp % 2 == 0 and dscp % 8 in (2, 4, 6):
        return dscp % 8 // 2 - 1
    return other


@dataclass(frozen=True)
class Meter:
    """`first` and `second` are (rate, size): CIR and EBS's bucket of RFC 2697 (rate 0), PIR and CIR of RFC 2698, CIR and EIR of RFC 4115."""

    kind: int
    committed: tuple
    other: tuple
    aware: bool = False
    exact: bool = True

    def full(self):
        return [self.committed[1], self.other[1]]

    def fill(self, levels, since, until):
        come = due(self.committed[0], since, until)
        if self.kind == 2697:
            spilled = max(0, levels[0] + come - self.committed[1])
            levels[1] = min(self.other[1], levels[1] + spilled)
        else:
            levels[1] = min(self.other[1], levels[1] + due(self.other[0], since, until))
        levels[0] = min(self.committed[1], levels[0] + come)

    def judge(self, levels, octets, pre):
        pre = pre if self.aware else GREEN
        return {2697: self.by_2697, 2698: self.by_2698, 4115: self.by_4115}[self.kind](levels, octets, pre)

    def by_2697(self, levels, octets, pre):
        if pre == GREEN and octets <= levels[0]:
            levels[0] -= octets
            return GREEN
        if pre <= YELLOW and octets <= levels[1]:
            levels[1] -= octets
            return YELLOW
        return RED

    def by_2698(self, levels, octets, pre):
        if pre == RED or octets > levels[1]:
            return RED
        levels[1] -= octets
        if pre == YELLOW or octets > levels[0]:
            return YELLOW
        levels[0] -= octets
        return GREEN

    def by_4115(self, levels, octets, pre):
        def fits(level):
            return octets <= level if self.exact else octets < level

        if pre == GREEN and fits(levels[0]):
            levels[0] -= octets
            return GREEN
        if pre <= YELLOW and fits(levels[1]):
            levels[1] -= octets
            return YELLOW
        return RED

    def toml(self):
        rate, size = self.committed
        lines = [f'meter = "rfc{self.kind}"', f"aware = {str(self.aware).lower()}", f"cir = {rate}", f"cbs = {size}"]
        rate, size = self.other
        if self.kind == 2697:
            lines.append(f"ebs = {size}")
        elif self.kind == 2698:
            lines += [f"pir = {rate}", f"pbs = {size}"]
        else:
            lines += [f"eir = {rate}", f"ebs = {size}", f"exact_fit = {str(self.exact).lower()}"]
        return lines


def due(rate, since, until):
    """How many tokens arrive after one time and at or before another: token k arrives at the least t with rate * t >= 1000 * k."""
    return rate * until // 1000 - rate * since // 1000


@dataclass
class Account:
    name: str
    meter: Meter
    keys: list
    other: int = GREEN
    terms: list = field(default_factory=list)  # (start, meter)

    def toml(self):
        colour = ("green", "yellow", "red")[self.other]
        keys = ", ".join(f"[{domain}, {iface}]" for domain, iface in self.keys)
        lines = ["[[account]]", f'name = "{self.name}"', f'other = "{colour}"', f"keys = [{keys}]", *self.meter.toml()]
        for start, meter in self.terms:
            lines += ["[[account.term]]", f"from = {start}", *meter.toml()]
        return lines


@dataclass
class Plan:
    period: int
    accounts: list

    def toml(self):
        lines = [f"period = {self.period}"]
        for account in self.accounts:
            lines += account.toml()
        return ("\n".join(lines) + "\n").encode()


def colours(account, reports):
    """Reports in order, each with its colour."""
    starts = [(0, account.meter)] + account.terms
    meter, last = account.meter, 0
    levels = meter.full()
    out = []
    for report in reports:
        time = report[0]
        for start, later in starts:
            if last < start <= time:
                meter, last = later, start
                levels = meter.full()
        meter.fill(levels, last, time)
        last = time
        out.append((report, meter.judge(levels, report[4], precolour(report[5], account.other))))
    return out


def settled(reports):
    """The reports whose identity no other one has, in order, and how many identities are disputed."""
    contents = {}
    for report in set(reports):
        contents.setdefault(report[1:4], []).append(report)
    alone = sorted(rows[0] for rows in contents.values() if len(rows) == 1)
    return alone, sum(1 for rows in contents.values() if len(rows) > 1)


def sums(pairs):
    numbers = [0] * 6
    for report, colour in pairs:
        numbers[2 * colour] += report[4]
        numbers[2 * colour + 1] += 1
    return " ".join(map(str, numbers))


def statement(plan, reports):
    alone, disputed = settled(reports)
    owners = {tuple(key): n for n, account in enumerate(plan.accounts) for key in account.keys}
    shares = [[] for _ in plan.accounts]
    unassigned = 0
    for report in alone:
        owner = owners.get((report[1], report[6]))
        if owner is None:
            unassigned += 1
        else:
            shares[owner].append(report)
    lines = ["tcacct statement 1", f"period {plan.period}", f"reports {len(set(reports))}", f"disputed {disputed}", f"unassigned {unassigned}"]
    for account, share in zip(plan.accounts, shares):
        pairs = colours(account, share)
        lines += [f"account {account.name}", f"total {sums(pairs)}"]
        for span in sorted({report[0] // plan.period for report, _ in pairs}):
            lines.append(f"span {span} {sums([p for p in pairs if p[0][0] // plan.period == span])}")
    return ("\n".join(lines + ["end"]) + "\n").encode()


def meter_lines(meter, reports):
    alone, _ = settled(reports)
    numbers = sums(colours(Account("", meter, []), alone)).split()
    names = ("green", "yellow", "red")
    return "".join(f"{names[n]} {numbers[2 * n]} {numbers[2 * n + 1]}\n" for n in range(3)).encode()


# Captures made for tests

# observationTimeMilliseconds, ipTotalLength, ipDiffServCodePoint, ingressInterface
TEMPLATE = struct.pack(">HH", 2, 24) + struct.pack(">10H", 256, 4, 323, 8, 224, 8, 195, 1, 10, 4)


def message(domain, sequence, rows, with_template=True, more=b""):
    """One message with the records of rows (time, octets, dscp, iface), and more sets behind them."""
    body = b"".join(struct.pack(">QQBI", *row) for row in rows)
    sets = (TEMPLATE if with_template else b"") + struct.pack(">HH", 256, 4 + len(body)) + body + more
    return struct.pack(">HHIII", 10, 16 + len(sets), 0, sequence % 2**32, domain) + sets


def capture(domain, first, rows, a_message=1000):
    """Messages with all rows, so many of them each, the template in the first."""
    out = []
    for at in range(0, len(rows), a_message):
        out.append(message(domain, first + at, rows[at : at + a_message], with_template=at == 0))
    return b"".join(out)
