"""Each command over real files: status, standard output, standard error, and files afterwards."""
import itertools
import random

from model import Account, Meter, Plan, capture, export, statement
from program import ROOT, TOOL, ProgramTest
from rows import (FIRST, LATE, LINES, ONE, OTHER, PLAN, SECOND, SHORT, STATEMENT, TERMED, THIRD, THREE, THREE_1, THREE_2, TIME, WRITTEN)

SPEC = "rfc2697:1000:2000:1000:blind"

# Of its template set the ID isn't one of a template.
DECODE = ONE[:20] + b"\x00\xff" + ONE[22:]


def noted(n):
    """A capture of one report, with notes: n + 1 records that are none, n skipped sets, and one set of an unknown template."""
    flows = [(TIME, 1500, 64, 1)] * (n + 1)  # a code point above 63: no report
    skipped = bytes.fromhex("00040004") * n
    unknown = bytes.fromhex("012c0004")
    octets = capture(7, 100 * n, flows) + capture(7, 100 * n + 50, [(TIME + n, 60, 0, 1)])
    return octets + bytes.fromhex("000a") + (16 + len(skipped) + 4).to_bytes(2, "big") + bytes(8) + (7).to_bytes(4, "big") + skipped + unknown


class Meters(ProgramTest):
    def test_the_export_beside_the_stored_run(self):
        octets = (ROOT / "crates/tcacct/data/three.tcax").read_bytes()
        self.assertEqual(octets, THREE_1)
        self.write("three.tcax", octets)
        self.assert_done(self.run_program("meter", SPEC, "three.tcax"), LINES)

    def test_exports_of_both_versions(self):
        self.write("old", THREE_1)
        self.write("new", THREE_2)
        self.assert_done(self.run_program("meter", SPEC, "old"), LINES)
        self.assert_done(self.run_program("meter", SPEC, "new"), LINES)
        self.assert_done(self.run_program("meter", SPEC, "old", "new"), LINES)

    def test_each_order_and_repeats(self):
        """The messages of a capture, one for each report, in each order and then once more."""
        for order in itertools.permutations(THREE):
            once = b"".join(capture(7, row[3], [(row[0], *row[4:])]) for row in order)
            self.write("capture", once + once)
            self.assert_done(self.run_program("meter", SPEC, "capture"), LINES)

    def test_a_capture(self):
        self.write("one", ONE)
        self.assert_done(self.run_program("meter", SPEC, "one"), b"green 1500 1\nyellow 0 0\nred 0 0\n")

    def test_prints_no_notes(self):
        self.write("n", noted(2))
        self.assert_done(self.run_program("meter", SPEC, "n"), b"green 60 1\nyellow 0 0\nred 0 0\n")

    def test_an_empty_file(self):
        self.write("none", b"")
        self.assert_done(self.run_program("meter", SPEC, "none"), b"green 0 0\nyellow 0 0\nred 0 0\n")

    def test_other_meters(self):
        self.write("a", export([(TIME, 7, 0, n, 1000, 0, 1) for n in range(3)]))
        exact, below = "rfc4115:1000:1000:1000:1000:exact:blind", "rfc4115:1000:1000:1000:1000:below:blind"
        self.assert_done(self.run_program("meter", exact, "a"), b"green 1000 1\nyellow 1000 1\nred 1000 1\n")
        self.assert_done(self.run_program("meter", below, "a"), b"green 0 0\nyellow 0 0\nred 3000 3\n")

    def test_refusals(self):
        self.write("a", THREE_2)
        self.write("cut", THREE_2[:96])
        self.write("later", THREE_2[:5] + b"\x03" + THREE_2[6:])
        self.write("wire", ONE[:64])
        self.write("decode", DECODE)
        self.assert_refused(self.run_program("meter", "rfc2697:1000:2000:1000", "a"), "rfc2697:1000:2000:1000", "spec", 1)
        self.assert_refused(self.run_program("meter", "rfc2697:1000:0:0:blind", "a"), "rfc2697:1000:0:0:blind", "spec", 2)
        self.assert_refused(self.run_program("meter", SPEC, "cut"), "cut", "export", 4)
        self.assert_refused(self.run_program("meter", SPEC, "a", "3@later"), "3@later", "export", 2)
        self.assert_refused(self.run_program("meter", SPEC, "wire"), "wire", "wire", 1)
        self.assert_refused(self.run_program("meter", SPEC, "decode"), "decode", "decode", 1)
        self.assert_refused(self.run_program("meter", "no spec", "missing"), "missing", "read", 1)
        self.assert_refused(self.run_program("meter", SPEC, "absent", "missing"), "absent", "read", 1)


class Combines(ProgramTest):
    def test_writes_the_union(self):
        self.write("x", export([FIRST, SECOND]))
        self.write("y", export([SECOND, THIRD]))
        self.assert_done(self.run_program("combine", "out", "x", "y"), b"reports 3\n")
        self.assertEqual(self.read("out"), THREE_2)

    def test_writes_an_old_export_anew(self):
        self.write("old", THREE_1)
        self.assert_done(self.run_program("combine", "new", "old"), b"reports 3\n")
        self.assertEqual(self.read("new"), THREE_2)

    def test_none(self):
        self.write("x", export([]))
        self.assert_done(self.run_program("combine", "out", "x"), b"reports 0\n")
        self.assertEqual(self.read("out"), export([]))

    def test_prints_no_notes(self):
        names = [self.write(f"n{n}", noted(n)) for n in range(3)]
        self.assert_done(self.run_program("combine", "out", *names), b"reports 3\n")
        self.assertEqual(self.read("out"), export([(TIME + n, 7, 0, 100 * n + 50, 60, 0, 1) for n in range(3)]))

    def test_the_first_file_that_cannot_be_read(self):
        self.write("x", export([FIRST]))
        self.assert_refused(self.run_program("combine", "out", "x", "absent", "missing"), "absent", "read", 1)
        self.assertFalse(self.has("out"))

    def test_the_first_fault(self):
        self.write("x", export([FIRST]))
        self.write("cut", ONE[:64])
        self.write("decode", DECODE)
        self.assert_refused(self.run_program("combine", "out", "x", "1@cut", "2@decode"), "1@cut", "wire", 1)
        self.assert_refused(self.run_program("combine", "out", "x", "1@decode", "2@cut"), "1@decode", "decode", 1)

    def test_more_words_than_forty(self):
        # More than a bill may have.
        rows = [(TIME + n, 7, 0, n, 100 + n, 0, 1) for n in range(300)]
        names = [self.write(f"n{n}", export([row])) for n, row in enumerate(rows)]
        self.assert_done(self.run_program("combine", "out", *names), b"reports 300\n")
        self.assertEqual(self.read("out"), export(rows))


class Bills(ProgramTest):
    def setUp(self):
        super().setUp()
        self.write("plan", PLAN.toml())

    def test_by_each_number_of_replicas_and_workers(self):
        names = [self.write(f"n{n}", export([row])) for n, row in enumerate(THREE)]
        for replicas in (1, 2, 3, 16):
            for workers in (1, 2, 5):
                options = ("--replicas", replicas, "--workers", workers, "--export", "out")
                self.assert_done(self.run_program("bill", *options, "plan", *names), STATEMENT)
                self.assertEqual(self.read("out"), THREE_2)

    def test_sessions(self):
        self.write("one", ONE)
        self.write("other", OTHER)
        for words, reports, disputed, total in (
            (("1@one", "2@other"), 2, 0, "1500 1 0 0 1501 1"),
            (("2@one", "1@other"), 2, 0, "1501 1 0 0 1500 1"),
            (("1@one", "1@other"), 2, 1, "0 0 0 0 0 0"),
            (("1@one", "1@one"), 1, 0, "1500 1 0 0 0 0"),
            (("one", "0@one"), 1, 0, "1500 1 0 0 0 0"),
        ):
            run = self.run_program("bill", "plan", *words)
            lines = run.out.decode().split("\n")
            self.assertEqual((run.status, run.err), (0, b""), words)
            self.assertEqual(lines[2:4] + lines[6:7], [f"reports {reports}", f"disputed {disputed}", f"total {total}"], words)

    def test_words_of_inputs(self):
        """Which file is opened, and in which session its reports are."""
        for name in ("x", "2@x", "@x", "x@", "a@b", "00000000001@x", "4294967296@x", "-1@x", "+1@x"):
            self.write(name, ONE)
        for word, session in (
            ("x", 0),
            ("1@x", 1),
            ("0@x", 0),
            ("0000000007@x", 7),
            ("4294967295@x", 4294967295),
            ("1@2@x", 1),
            ("@x", 0),
            ("x@", 0),
            ("a@b", 0),
            ("00000000001@x", 0),
            ("4294967296@x", 0),
            ("-1@x", 0),
            ("+1@x", 0),
            ("./2@x", 0),
        ):
            words = ("--", "out", word) if word.startswith("-") else ("out", word)
            self.assert_done(self.run_program("combine", *words), b"reports 1\n")
            self.assertEqual(self.read("out"), export([(TIME, 7, session, 5, 1500, 10, 1)]), word)
        self.assert_refused(self.run_program("combine", "out", "3@"), "3@", "read", 1)
        self.assert_refused(self.run_program("combine", "out", "3@missing"), "3@missing", "read", 1)

    def test_terms(self):
        self.write("termed", TERMED.toml())
        self.write("three", THREE_2)
        for time, octets, total in (
            (None, None, "2500 2 800 1 0 0"),
            (50, 600, "2500 2 1400 2 0 0"),
            (99, 600, "2500 2 1400 2 0 0"),
            (99, 599, "3099 3 800 1 0 0"),
            (100, 600, "2500 2 600 1 800 1"),
        ):
            late = [] if time is None else [(TIME + time, 7, 0, 3, octets, 0, 1)]
            self.write("late", export(late))
            for replicas in (1, 2, 3):
                run = self.run_program("bill", "--replicas", replicas, "--export", "all", "termed", "three", "late")
                self.assertEqual((run.status, run.err), (0, b""))
                self.assertIn(f"\ntotal {total}\n", run.out.decode())
                self.write("statement", run.out)
                self.assert_done(self.run_program("audit", "termed", "all", "statement"), b"agrees\n")

    def test_late_disputed_and_repeated(self):
        other = (TIME + 60, 7, 0, 3, 601, 0, 1)
        for rows, lines in (
            (THREE + [LATE], ["reports 4", "disputed 0", "total 1500 1 600 1 1800 2"]),
            (THREE + [LATE, other], ["reports 5", "disputed 1", "total 1500 1 1000 1 800 1"]),
            ([], ["reports 0", "disputed 0", "total 0 0 0 0 0 0"]),
        ):
            names = [self.write(f"n{n}", export([row])) for n, row in enumerate(rows)] or [self.write("none", b"")]
            run = self.run_program("bill", "plan", *names, names[0])
            self.assertEqual((run.status, run.err), (0, b""))
            found = run.out.decode().split("\n")
            self.assertEqual(found[2:4] + found[6:7], lines)

    def test_windows_of_time_add_up(self):
        """The statements of two windows, where a term fills the buckets as the second begins, and no identity has contents in both."""
        start, numbers = TIME + 100, random.Random(20)
        places = numbers.sample(range(1000), 60)
        rows = [(TIME + numbers.randrange(200), 7, 0, place, numbers.randrange(1, 900), 0, 1) for place in places]
        windows = [[row for row in rows if row[0] < start], [row for row in rows if row[0] >= start]]
        self.write("termed", TERMED.toml())
        for more, adds_up in (([], True), ([(TIME, 7, 0, 1000, 5, 0, 1), (start, 7, 0, 1000, 5, 0, 1)], False)):
            for n in range(2):
                self.write(f"w{n}", export(windows[n] + more[n : n + 1]))
                self.write(f"s{n}", self.run_program("bill", "termed", f"w{n}").out)
            whole = self.run_program("bill", "termed", "w0", "w1").out
            self.assertEqual(whole, statement(TERMED, rows + more))
            run = self.run_program("add", "s0", "s1", program=TOOL)
            self.assertEqual((run.status, run.out == whole), (0, adds_up))

    def test_terms_that_are_past(self):
        """They may be left out where the account's own meter becomes that of the last of them."""
        first, second, third = PLAN.accounts[0].meter, TERMED.accounts[0].terms[0][1], Meter(2697, (500, 700), (0, 300))
        terms = [(TIME + 100, second), (TIME + 200, third)]
        rows = [(TIME + 200 + 30 * n, 7, 0, n, 400, 0, 1) for n in range(9)]
        self.write("a", export(rows))
        texts = []
        for meter, left in ((first, terms), (second, terms[1:]), (third, []), (first, [])):
            self.write("plan", Plan(3_600_000, [Account("alpha", meter, [(7, 1)], terms=left)]).toml())
            texts.append(self.run_program("bill", "plan", "a").out)
        self.assertEqual(texts[:2], [texts[2]] * 2)
        self.assertNotEqual(texts[2], texts[3])

    def test_256_inputs(self):
        rows = [(TIME + n, 7, 0, n, 100 + n, 0, 1) for n in range(256)]
        names = [self.write(f"n{n}", export([row])) for n, row in enumerate(rows)]
        for options in ((), ("--replicas", 16, "--workers", 64), ("--replicas", 1, "--workers", 1)):
            self.assert_done(self.run_program("bill", *options, "plan", *names), statement(PLAN, rows))
        self.assert_wrong_line(self.run_program("bill", "plan", *names, names[0]))

    def test_256_accounts_of_the_longest_names(self):
        """With as many terms, and pairs in all, as there may be."""
        meter = PLAN.accounts[0].meter
        terms = [(start, meter) for start in range(1, 9)]
        accounts = [Account(f"account_{n:024}", meter, [(7 + domain, n) for domain in range(16)], terms=terms) for n in range(256)]
        rows = [(TIME + n, 7, 0, n, 100 + n, 0, n) for n in range(256)]
        self.write("plan", Plan(1000, accounts).toml())
        self.write("a", export(rows))
        self.assert_done(self.run_program("bill", "plan", "a"), statement(Plan(1000, accounts), rows))
        self.write("plan", Plan(1000, [*accounts, Account("more", meter, [(99, 1)])]).toml())
        self.assert_refused(self.run_program("bill", "plan", "a"), "plan", "plan", 7)

    def test_as_many_periods_as_reports(self):
        """Periods of a millisecond, and identities that descend: the bill, and its audit."""
        count = 100_000
        self.write("plan", Plan(1, [Account("alpha", Meter(2697, (0, 10**12), (0, 0)), [(7, 1)])]).toml())
        self.write("a", export([(TIME + n, 7, 0, count - n, 100, 0, 1) for n in range(count)]))
        spans = "".join(f"span {TIME + n} 100 1 0 0 0 0\n" for n in range(count))
        head = f"tcacct statement 1\nperiod 1\nreports {count}\ndisputed 0\nunassigned 0\naccount alpha\ntotal {100 * count} {count} 0 0 0 0\n"
        text = f"{head}{spans}end\n".encode()
        self.assert_done(self.run_program("bill", "plan", "a"), text)
        self.write("statement", text)
        self.assert_done(self.run_program("audit", "plan", "a", "statement"), b"agrees\n")

    def test_long_names_and_letters_beyond_ascii(self):
        """Of PLAN, OUT and an input, as they are opened and as they are told."""
        folder = "/".join(("d" * 200, "é" * 100, "日本"))
        (self.folder / folder).mkdir(parents=True)
        plan, one, out, gone = (f"{folder}/{name}" for name in ("plän", "eins ß", "öut", "weg ü"))
        self.write(plan, PLAN.toml())
        self.write(one, noted(1))
        report = (TIME + 1, 7, 3, 150, 60, 0, 1)
        run = self.run_program("bill", "--export", out, plan, f"3@{one}")
        self.assert_done(run, statement(PLAN, [report]), f"tcacct: 3@{one}: notes 2 1 1\n".encode())
        self.assertEqual(self.read(out), export([report]))
        self.assert_refused(self.run_program("bill", plan, f"3@{gone}"), f"3@{gone}", "read", 1)
        self.assert_refused(self.run_program("bill", gone, one), gone, "read", 1)

    def test_notes_of_each_input(self):
        """Of as many as a bill may have."""
        words, lines = [], []
        for n in range(255):
            words.append(f"{n}@{self.write(f'n{n}', noted(n))}")
            lines.append(f"tcacct: {words[-1]}: notes {n + 1} 1 {n}\n")
        self.write("quiet", THREE_2)
        for options in ((), ("--export", "out"), ("--replicas", 1), ("--replicas", 16, "--workers", 1)):
            run = self.run_program("bill", *options, "plan", *words, "quiet")
            self.assertEqual((run.status, run.err.decode()), (0, "".join(lines)))
        # Where a later input is refused its line is the only one.
        self.write("cut", ONE[:64])
        self.assert_refused(self.run_program("bill", "plan", *words, "cut"), "cut", "wire", 1)

    def test_refusals(self):
        self.write("a", THREE_2)
        self.write("cut", ONE[:64])
        self.write("decode", DECODE)
        self.write("zero", PLAN.toml().replace(b"period = 3600000", b"period = 0"))
        names = [self.write(f"n{n}", export([row])) for n, row in enumerate(THREE)]
        for replicas in (1, 2, 3, 16):
            for workers in (1, 2, 5):
                self.write("out", b"before")
                options = ("--replicas", replicas, "--workers", workers, "--export", "out")
                self.assert_refused(self.run_program("bill", *options, "plan", *names, "4@cut"), "4@cut", "wire", 1)
                self.assertEqual(self.read("out"), b"")
                # The first one's fault, whichever replica has the other one.
                self.assert_refused(self.run_program("bill", *options, "plan", "n0", "1@cut", "2@decode"), "1@cut", "wire", 1)
                self.assert_refused(self.run_program("bill", *options, "plan", "n0", "1@decode", "2@cut"), "1@decode", "decode", 1)
        self.assert_refused(self.run_program("bill", "zero", "a"), "zero", "plan", 3)
        self.assert_refused(self.run_program("bill", "zero", "missing"), "missing", "read", 1)
        self.assert_refused(self.run_program("bill", "missing", "a"), "missing", "read", 1)

    def test_a_plan_as_a_person_writes_it(self):
        self.write("a", THREE_1)
        self.write("plan", WRITTEN)
        self.assert_done(self.run_program("bill", "plan", "a"), STATEMENT)
        for old, new, number in (
            (b"3600000", b"0", 3),
            (b"cbs = 2000\n", b"", 2),
            (b"keys", b"colour = 1\nkeys", 4),
            (b"cbs = 2000\nebs = 1000\n", b"cbs = 0\nebs = 0\n", 5),
            (b"cir = 1000\n", b"cir = 1000000000001\n", 5),
            (b"[[7, 1]]", b"[[7, 1], [7, 1]]", 6),
        ):
            self.write("wrong", WRITTEN.replace(old, new))
            self.assert_refused(self.run_program("bill", "wrong", "a"), "wrong", "plan", number)

    def test_refusals_of_terms(self):
        self.write("a", THREE_2)
        text = TERMED.toml().decode()
        nine = Plan(1, [Account("a", PLAN.accounts[0].meter, [(7, 1)], terms=[(n + 1, PLAN.accounts[0].meter) for n in range(9)])])
        own = text.index("[[account.term]]")
        for name, plan, number in (
            ("none", text.replace(f"from = {TIME + 100}", "from = 0"), 3),
            ("same", text + text[own:], 3),
            ("missing", text[:own] + text[own:].replace("cir = 1000\n", ""), 2),
            ("name", text + 'name = "beta"\n', 4),
            ("nine", nine.toml().decode(), 7),
            ("burst", text[:own] + text[own:].replace("cbs = 1000", "cbs = 0").replace("ebs = 1000", "ebs = 0"), 5),
        ):
            self.write(name, plan.encode())
            self.assert_refused(self.run_program("bill", name, "a"), name, "plan", number)


class Audits(ProgramTest):
    def setUp(self):
        super().setUp()
        self.write("plan", PLAN.toml())
        self.write("reports", THREE_2)
        self.write("old", THREE_1)
        self.write("statement", STATEMENT)

    def test_agrees(self):
        self.assert_done(self.run_program("audit", "plan", "reports", "statement"), b"agrees\n")
        self.assert_done(self.run_program("audit", "plan", "old", "statement"), b"agrees\n")

    def test_differs(self):
        for octets, at in (
            (STATEMENT.replace(b"total 1500", b"total 1501"), 91),
            (STATEMENT[:143], 143),
            (STATEMENT + b"\n", 144),
            (b"", 0),
        ):
            self.write("other", octets)
            run = self.run_program("audit", "plan", "reports", "other")
            self.assertEqual((run.status, run.out, run.err), (1, f"differs at {at}\n".encode(), b""))

    def test_refusals(self):
        self.write("cut", THREE_2[:96])
        self.write("1@cut", THREE_2)
        self.write("zero", PLAN.toml().replace(b"period = 3600000", b"period = 0"))
        self.assert_refused(self.run_program("audit", "plan", "cut", "statement"), "cut", "export", 4)
        self.assert_refused(self.run_program("audit", "zero", "cut", "statement"), "zero", "plan", 3)
        self.assert_refused(self.run_program("audit", "plan", "reports", "missing"), "missing", "read", 1)
        self.assert_refused(self.run_program("audit", "plan", "absent", "missing"), "absent", "read", 1)
        self.assert_refused(self.run_program("audit", "gone", "absent", "missing"), "gone", "read", 1)
        # An audit's EXPORT has no session: this is the file of that very name.
        self.assert_done(self.run_program("audit", "plan", "1@cut", "statement"), b"agrees\n")


class Lines(ProgramTest):
    def test_wrong_command_lines(self):
        self.write("a", THREE_2)
        self.write("plan", PLAN.toml())
        for words in (
            (),
            ("unknown",),
            ("meter",),
            ("meter", SPEC),
            ("meter", SPEC, "a", "a", "a"),
            ("combine", "out"),
            ("bill", "plan"),
            ("bill", "--replicas", "0", "plan", "a"),
            ("bill", "--replicas", "17", "plan", "a"),
            ("bill", "--workers", "0", "plan", "a"),
            ("bill", "--workers", "65", "plan", "a"),
            ("bill", "--workers", "x", "plan", "a"),
            ("bill", "--replicas", "1", "--replicas", "1", "plan", "a"),
            ("audit", "plan", "a"),
            ("audit", "plan", "a", "a", "a"),
        ):
            self.assert_wrong_line(self.run_program(*words))
        self.assertFalse(self.has("out"))
