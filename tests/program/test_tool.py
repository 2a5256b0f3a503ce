"""The second program, over real files: what only one of two inputs has, and which pairs of domain and interface there are."""
import random
import resource
import signal
import subprocess

from model import export
from program import SECONDS, TOOL, ProgramTest
from test_commands import noted
from rows import FIRST, LATE, ONE, SECOND, THIRD, THREE, THREE_1, THREE_2, TIME

PAIRS = b"domain,interface,reports,packets,octets,first,last\n"
HEADER = b"side,time,domain,session,place,octets,dscp,interface\n"


class ToolTest(ProgramTest):
    def run_tool(self, *words):
        return self.run_program(*words, program=TOOL)

    def assert_tool_refused(self, run, word, family, number):
        line = f"tcatool: {word}: {family} {number}\n".encode()
        self.assertEqual((run.status, run.out, run.err), (1, b"", line))


class Differences(ToolTest):
    def assert_differ(self, run, lines, only_a, only_b, both):
        counts = f"tcatool: diff: only A {only_a}, only B {only_b}, both {both}\n".encode()
        status = 1 if only_a or only_b else 0
        self.assertEqual((run.status, run.out, run.err), (status, HEADER + lines, counts))

    def test_reports_of_one_side(self):
        self.write("a", export([FIRST, SECOND]))
        self.write("b", export([SECOND, THIRD]))
        lines = b"A,1700000000000,7,0,0,1500,0,1\nB,1700000000200,7,0,2,800,0,1\n"
        self.assert_differ(self.run_tool("diff", "a", "b"), lines, 1, 1, 1)

    def test_equal_sets(self):
        self.write("a", THREE_1)
        self.write("b", THREE_2)
        self.assert_differ(self.run_tool("diff", "a", "b"), b"", 0, 0, 3)

    def test_contents_of_one_identity(self):
        other = LATE[:4] + (601,) + LATE[5:]
        self.write("a", export([LATE]))
        self.write("b", export([other]))
        lines = b"A,1700000000050,7,0,3,600,0,1\nB,1700000000050,7,0,3,601,0,1\n"
        self.assert_differ(self.run_tool("diff", "a", "b"), lines, 1, 1, 0)

    def test_repeats(self):
        self.write("one", ONE)
        self.write("twice", ONE + ONE)
        self.assert_differ(self.run_tool("diff", "twice", "one"), b"", 0, 0, 1)
        self.assert_differ(self.run_tool("diff", "one", "twice"), b"", 0, 0, 1)

    def test_captures_in_sessions(self):
        self.write("one", ONE)
        lines = b"A,1700000000000,7,1,5,1500,10,1\nB,1700000000000,7,2,5,1500,10,1\n"
        self.assert_differ(self.run_tool("diff", "1@one", "2@one"), lines, 1, 1, 0)

    def test_notes_are_not_told(self):
        self.write("n", noted(2))
        lines = b"A,1700000000002,7,0,250,60,0,1\nB,1700000000002,7,3,250,60,0,1\n"
        self.assert_differ(self.run_tool("diff", "n", "3@n"), lines, 1, 1, 0)
        self.assert_done(self.run_tool("pairs", "n", "3@n"), PAIRS + b"7,1,2,2,120,1700000000002,1700000000002\n")

    def test_any_two_sets(self):
        numbers = random.Random(8)
        for _ in range(100):
            sides = []
            for name in ("a", "b"):
                side = {(TIME + numbers.randrange(4), 7, numbers.randrange(2), numbers.randrange(3), numbers.randrange(1, 3), 0, 1)
                        for _ in range(numbers.randrange(20))}
                self.write(name, export(sorted(side)))
                sides.append(side)
            a, b = sides
            lines = "".join(f"{'A' if report in a else 'B'},{','.join(map(str, report))}\n" for report in sorted(a ^ b))
            self.assert_differ(self.run_tool("diff", "a", "b"), lines.encode(), len(a - b), len(b - a), len(a & b))

    def test_many_lines(self):
        rows = [(TIME + n, 7, 0, n, 1000 + n % 7, 0, 1) for n in range(20_000)]
        self.write("a", export(rows))
        self.write("b", export([]))
        lines = "".join(f"A,{','.join(map(str, row))}\n" for row in rows).encode()
        self.assert_differ(self.run_tool("diff", "a", "b"), lines, 20_000, 0, 0)

    def test_refusals(self):
        self.write("a", export(THREE))
        self.write("cut", THREE_2[:96])
        self.write("wire", ONE[:64])
        self.assert_tool_refused(self.run_tool("diff", "cut", "missing"), "missing", "read", 1)
        self.assert_tool_refused(self.run_tool("diff", "absent", "missing"), "absent", "read", 1)
        self.assert_tool_refused(self.run_tool("diff", "cut", "wire"), "cut", "export", 4)
        self.assert_tool_refused(self.run_tool("diff", "a", "3@wire"), "3@wire", "wire", 1)
        with open("/dev/full", "wb") as full:
            run = self.run_program("diff", "a", "a", program=TOOL, stdout=full)
        self.assertEqual((run.status, run.err), (1, b"tcatool: diff: write 1\n"))

    def test_a_write_that_fails_amid_the_lines(self):
        rows = [(TIME + n, 7, 0, n, 100, 0, 1) for n in range(2000)]
        self.write("a", export(rows))
        self.write("b", export([]))
        whole = HEADER + "".join(f"A,{','.join(map(str, row))}\n" for row in rows).encode()
        for most in (1, 40_000):
            def limit():
                signal.signal(signal.SIGXFSZ, signal.SIG_IGN)
                resource.setrlimit(resource.RLIMIT_FSIZE, (most, most))

            with open(self.folder / "out", "wb") as out:
                run = self.run_program("diff", "a", "b", program=TOOL, stdout=out, preexec_fn=limit)
            self.assertEqual((run.status, run.err), (1, b"tcatool: diff: write 1\n"))
            self.assertEqual(self.read("out"), whole[:most])

    def test_wrong_lines(self):
        for words in (
            (),
            ("bill", "a"),
            ("pairs",),
            ("pairs", "--progress", "a"),
            ("list",),
            ("list", "--plan", "p"),
            ("list", "--plan", "p", "--plan", "p", "a"),
            ("diff",),
            ("diff", "a"),
            ("diff", "a", "b", "c"),
            ("table",),
            ("table", "a", "b"),
            ("json",),
            ("json", "a", "b"),
            ("page", "o"),
            ("page", "o", "a", "b"),
            ("page", "--progress", "--progress", "o", "a"),
            ("add",),
            ("split", "d"),
            ("split", "d", "c", "e"),
            ("split", "--plan", "p", "d", "c"),
        ):
            with self.subTest(words):
                self.assert_wrong_line(self.run_tool(*words))
        self.assertFalse(self.has("o"))
        run = self.run_tool("diff", "--help")
        self.assertEqual((run.status, run.err), (0, b""))
        self.assertIn(b"Example: tcatool diff", run.out)

    def test_a_word_that_is_no_text(self):
        self.write("a", THREE_1)
        done = subprocess.run([str(TOOL), b"pairs", b"a", b"\xff"], cwd=self.folder, capture_output=True, timeout=SECONDS)
        self.assertEqual((done.returncode, done.stdout), (2, b""))
        self.assertIn(b"UTF-8", done.stderr)


class Pairs(ToolTest):
    def test_one_pair(self):
        self.write("a", THREE_1)
        self.assert_done(self.run_tool("pairs", "a"), PAIRS + b"7,1,3,3,3300,1700000000000,1700000000200\n")

    def test_two_interfaces(self):
        two = [FIRST[:6] + (2,), THIRD[:6] + (2,)]
        disputed = [LATE, (TIME + 60, 7, 0, 3, 601, 0, 1)]
        self.write("a", export([*two, SECOND, *disputed]))
        lines = b"7,1,3,1,1000,1700000000050,1700000000100\n7,2,2,2,2300,1700000000000,1700000000200\n"
        self.assert_done(self.run_tool("pairs", "a"), PAIRS + lines)

    def test_the_first_millisecond(self):
        self.write("a", export([(0, 7, 0, 0, 100, 0, 1), (5, 7, 0, 1, 200, 0, 1), (9, 7, 0, 2, 300, 0, 1), (0, 8, 0, 0, 400, 0, 1)]))
        self.assert_done(self.run_tool("pairs", "a"), PAIRS + b"7,1,3,3,600,0,9\n8,1,1,1,400,0,0\n")

    def test_no_reports(self):
        self.write("a", export([]))
        self.assert_done(self.run_tool("pairs", "a"), PAIRS)

    def test_many_inputs(self):
        """Each has a pair of its own."""
        rows = [(TIME + n, 7, 0, n, 100 + n, 0, n) for n in range(300)]
        names = [self.write(f"n{n}", export([row])) for n, row in enumerate(rows)]
        lines = "".join(f"7,{n},1,1,{100 + n},{TIME + n},{TIME + n}\n" for n in range(300))
        self.assert_done(self.run_tool("pairs", *names), PAIRS + lines.encode())
        self.assert_tool_refused(self.run_tool("pairs", *names, "missing"), "missing", "read", 1)

    def test_repeats(self):
        self.write("a", THREE_1)
        self.write("one", ONE + ONE)
        self.assert_done(self.run_tool("pairs", "a", "a"), PAIRS + b"7,1,3,3,3300,1700000000000,1700000000200\n")
        self.assert_done(self.run_tool("pairs", "one", "one"), PAIRS + b"7,1,1,1,1500,1700000000000,1700000000000\n")

    def test_any_sets(self):
        numbers = random.Random(9)
        for _ in range(100):
            union = set()
            for name in ("a", "b"):
                side = {(TIME + numbers.randrange(9), numbers.randrange(3), numbers.randrange(2), numbers.randrange(4), numbers.randrange(1, 9), 0, numbers.randrange(3))
                        for _ in range(numbers.randrange(20))}
                self.write(name, export(side))
                union |= side
            contents = {}
            for report in union:
                contents.setdefault(report[1:4], []).append(report)
            settled = {found[0] for found in contents.values() if len(found) == 1}
            lines = ""
            for domain, interface in sorted({(report[1], report[6]) for report in union}):
                every = [report for report in union if (report[1], report[6]) == (domain, interface)]
                billed = [report[4] for report in every if report in settled]
                times = [report[0] for report in every]
                lines += f"{domain},{interface},{len(every)},{len(billed)},{sum(billed)},{min(times)},{max(times)}\n"
            self.assert_done(self.run_tool("pairs", "a", "b"), PAIRS + lines.encode())

    def test_refusals(self):
        self.write("a", export(THREE))
        self.write("cut", THREE_2[:96])
        self.assert_tool_refused(self.run_tool("pairs", "a", "cut"), "cut", "export", 4)
        self.assert_tool_refused(self.run_tool("pairs", "cut", "missing"), "missing", "read", 1)
        self.assert_tool_refused(self.run_tool("pairs", "absent", "missing"), "absent", "read", 1)
        with open("/dev/full", "wb") as full:
            run = self.run_program("pairs", "a", program=TOOL, stdout=full)
        self.assertEqual((run.status, run.err), (1, b"tcatool: pairs: write 1\n"))
