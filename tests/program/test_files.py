"""Files and devices: large ones, pipes, folders, files without the right to read, full devices, OUT that is an input."""
import filecmp
import os
import resource
import shutil
import struct
import subprocess
import threading
from pathlib import Path

from model import capture, export, statement
from program import PROGRAM, SECONDS, TOOL, ProgramTest
from rows import FIRST, ONE, PLAN, SECOND, STATEMENT, THIRD, THREE_2, TIME


class Files(ProgramTest):
    def setUp(self):
        super().setUp()
        self.write("plan", PLAN.toml())
        self.write("three", THREE_2)

    def test_a_file_of_70_mb(self):
        """Longer than what one read gives, and than a buffer's size."""
        rows = [(TIME + n // 8, 1500, 0, 1) for n in range(1000)]
        message = capture(7, 0, rows)
        count = 70_000_000 // len(message) + 1
        with open(self.folder / "long", "wb") as file:
            for n in range(count):
                file.write(message[:8] + (1000 * n).to_bytes(4, "big") + message[12:])
        run = self.run_program("combine", "out", "long")
        self.assert_done(run, f"reports {1000 * count}\n".encode())
        self.assertEqual(os.path.getsize(self.folder / "out"), 10 + 29 * 1000 * count)

    def test_a_pipe(self):
        os.mkfifo(self.folder / "pipe")

        def feed():
            with open(self.folder / "pipe", "wb") as pipe:
                for at in range(0, len(THREE_2), 7):
                    pipe.write(THREE_2[at : at + 7])
                    pipe.flush()

        # A program that never opens the pipe leaves the feeder waiting.
        feeder = threading.Thread(target=feed, daemon=True)
        feeder.start()
        run = self.run_program("bill", "plan", "pipe")
        self.assert_done(run, STATEMENT)
        feeder.join(SECONDS)
        self.assertFalse(feeder.is_alive())

    def test_a_folder(self):
        (self.folder / "folder").mkdir()
        self.assert_refused(self.run_program("bill", "plan", "folder"), "folder", "read", 1)
        self.assert_refused(self.run_program("combine", "folder", "three"), "combine", "write", 1)
        self.assert_refused(self.run_program("combine", "missing/out", "three"), "combine", "write", 1)

    def test_a_file_without_the_right_to_read(self):
        os.chmod(self.folder / "three", 0)
        if os.geteuid():
            run = self.run_program("bill", "plan", "three")
        else:
            # Another user may not come to the repository, so the program is copied.
            program = shutil.copy(PROGRAM, self.folder / "program")
            run = self.run_program("bill", "plan", "three", program=program, user=65534, group=65534)
        self.assert_refused(run, "three", "read", 1)

    def test_a_full_device(self):
        self.assert_refused(self.run_program("combine", "/dev/full", "three"), "combine", "write", 1)
        self.write("statement", STATEMENT)
        for words in (
            ("meter", "rfc2697:1000:2000:1000:blind", "three"),
            ("combine", "out", "three"),
            ("bill", "plan", "three"),
            ("audit", "plan", "three", "statement"),
        ):
            with open("/dev/full", "wb") as full:
                run = self.run_program(*words, stdout=full)
            self.assertEqual((run.status, run.err), (1, f"tcacct: {words[0]}: write 1\n".encode()))
        self.assertEqual(self.read("out"), THREE_2)
        with open("/dev/full", "wb") as full:
            run = self.run_program("bill", "plan", "missing", stderr=full)
        self.assertEqual((run.status, run.out), (1, b""))
        with open("/dev/full", "wb") as full:
            run = self.run_program("--help", stdout=full)
        self.assertEqual(run.status, 0)

    def test_a_standard_output_that_is_closed(self):
        """OUT doesn't take its place."""
        self.write("statement", STATEMENT)
        for words in (
            ("combine", "out", "three"),
            ("bill", "--export", "out", "plan", "three"),
            ("meter", "rfc2697:1000:2000:1000:blind", "three"),
            ("audit", "plan", "three", "statement"),
        ):
            for closed in ((1,), (0, 1), (0, 1, 2)):
                self.write("out", b"before")
                run = self.run_program(*words, preexec_fn=lambda: [os.close(one) for one in closed])
                told = b"" if 2 in closed else f"tcacct: {words[0]}: write 1\n".encode()
                self.assertEqual((run.status, run.out, run.err), (1, b"", told))
                self.assertEqual(self.read("out"), THREE_2 if "out" in words else b"before")
        run = self.run_program("combine", "out", "three", preexec_fn=lambda: os.close(2))
        self.assert_done(run, b"reports 3\n")
        self.assertEqual(self.read("out"), THREE_2)

    def test_files_that_do_not_end(self):
        """After 4,194,304 reads, of an octet each."""
        library = self.folder / "one.so"
        source = Path(__file__).resolve().parent / "one.c"
        subprocess.run(["cc", "-shared", "-fPIC", "-O1", "-o", library, source, "-ldl"], check=True)
        env = {**os.environ, "LD_PRELOAD": str(library)}
        self.assert_done(self.run_program("bill", "plan", "three", env=env), STATEMENT)
        self.assert_refused(self.run_program("bill", "/dev/zero", "three", env=env), "/dev/zero", "read", 2)
        self.assert_refused(self.run_program("combine", "out", "three", "1@/dev/zero", env=env), "1@/dev/zero", "read", 2)
        self.assertFalse(self.has("out"))

    def test_a_reader_that_leaves(self):
        """Standard output is a pipe that nobody reads."""
        reading, writing = os.pipe()
        os.close(reading)
        with os.fdopen(writing, "wb") as out:
            run = self.run_program("bill", "plan", "three", stdout=out)
        self.assertEqual((run.status, run.err), (1, b"tcacct: bill: write 1\n"))

    def test_out_that_is_an_input(self):
        self.write("x", export([FIRST, SECOND]))
        self.write("y", export([SECOND, THIRD]))
        self.assert_done(self.run_program("combine", "x", "x", "y"), b"reports 3\n")
        self.assertEqual(self.read("x"), THREE_2)
        self.assert_done(self.run_program("bill", "--export", "y", "plan", "y", "x"), STATEMENT)
        self.assertEqual(self.read("y"), THREE_2)
        # What no other input has.
        self.write("x", export([FIRST]))
        self.write("y", export([SECOND, THIRD]))
        self.assert_done(self.run_program("bill", "--export", "y", "plan", "y", "x"), STATEMENT)
        self.assertEqual(self.read("y"), THREE_2)

    def test_a_long_plan_that_is_no_document(self):
        self.write("long", b"x" * 100_000)
        self.assert_refused(self.run_program("bill", "long", "three"), "long", "plan", 1)

    def test_out_that_was_longer(self):
        self.write("out", bytes(10_000))
        self.assert_done(self.run_program("combine", "out", "three"), b"reports 3\n")
        self.assertEqual(self.read("out"), THREE_2)
        self.write("out", bytes(10_000))
        self.assert_done(self.run_program("bill", "--export", "out", "plan", "three"), STATEMENT)
        self.assertEqual(self.read("out"), THREE_2)

    def test_out_where_the_run_is_refused(self):
        """Untouched where a file can't be read, and empty where an input or the plan is refused."""
        self.write("out", b"before")
        self.assert_refused(self.run_program("combine", "out", "three", "missing"), "missing", "read", 1)
        self.assertEqual(self.read("out"), b"before")
        self.write("cut", ONE[:64])
        self.assert_refused(self.run_program("combine", "out", "three", "cut"), "cut", "wire", 1)
        self.assertEqual(self.read("out"), b"")
        self.write("out", b"before")
        self.write("zero", b"period = 0\n")
        self.assert_refused(self.run_program("bill", "--export", "out", "zero", "three"), "zero", "plan", 3)
        self.assertEqual(self.read("out"), b"")
        self.write("out", b"before")
        self.assert_refused(self.run_program("bill", "--export", "out", "plan", "three", "missing"), "missing", "read", 1)
        self.assertEqual(self.read("out"), b"before")
        self.assert_refused(self.run_program("bill", "--export", "none/out", "plan", "three", "missing"), "missing", "read", 1)

    def test_a_word_that_is_no_text(self):
        done = subprocess.run([str(PROGRAM), b"bill", b"plan", b"\xff"], cwd=self.folder, capture_output=True, timeout=SECONDS)
        self.assertEqual((done.returncode, done.stdout), (2, b""))
        self.assertIn(b"UTF-8", done.stderr)

    def test_many_reports_out_of_order(self):
        rows = [(TIME + (n * 7919) % 50000, 7, 0, n, 40 + n % 1460, (0, 10, 12, 14)[n % 4], 1 + n % 2) for n in range(50000)]
        self.write("half", export(rows[:25000]))
        self.write("other", export(rows[20000:]))
        self.assert_done(self.run_program("bill", "plan", "half", "other"), statement(PLAN, rows))


def message_with(sets, domain=7):
    return struct.pack(">HHIII", 10, 16 + len(sets), TIME // 1000, 0, domain) + sets


def template(number):
    """A template set that defines a template of one field."""
    return struct.pack(">HHHHHH", 2, 12, number, 1, 224, 8)


def withdrawal(number):
    return struct.pack(">HHHH", 2, 8, number, 0)


# The withdrawal of all templates of a domain.
ALL = struct.pack(">HHHH", 2, 8, 2, 0)


class Limits(ProgramTest):
    def test_as_many_reports_as_a_log_holds(self):
        """They are read, written, and read again; one more isn't."""
        most, each = 4_194_304, 2_048
        with open(self.folder / "most", "wb") as file:
            for n in range(most // each):
                file.write(capture(7, each * n, [(TIME + n, 1500, 0, 1)] * each))
        told = f"reports {most}\n".encode()
        self.assert_done(self.run_program("combine", "whole", "most"), told)
        self.assertEqual(os.path.getsize(self.folder / "whole"), 10 + 29 * most)
        self.assert_done(self.run_program("combine", "again", "whole"), told)
        self.assertTrue(filecmp.cmp(self.folder / "whole", self.folder / "again", shallow=False))
        self.write("plan", PLAN.toml())
        for replicas in (1, 2):
            (self.folder / "again").unlink()
            run = self.run_program("bill", "--replicas", replicas, "--export", "again", "plan", "whole")
            self.assertEqual((run.status, run.err), (0, b""))
            self.assertIn(f"\nreports {most}\n".encode(), run.out)
            self.assertTrue(filecmp.cmp(self.folder / "whole", self.folder / "again", shallow=False))
        self.write("one", ONE)
        self.assert_refused(self.run_program("combine", "out", "whole", "1@one"), "1@one", "log", 1)
        self.assert_refused(self.run_program("bill", "--replicas", 1, "--workers", 1, "plan", "whole", "1@one"), "1@one", "log", 1)
        self.assert_refused(self.run_program("bill", "--replicas", 2, "plan", "whole", "1@one"), "bill", "absorb", 4)
        with open(self.folder / "most", "ab") as file:
            file.write(capture(7, most, [(TIME, 1500, 0, 1)]))
        self.assert_refused(self.run_program("combine", "out", "most"), "most", "log", 1)
        self.assert_refused(self.run_program("bill", "--replicas", 1, "plan", "most"), "most", "log", 1)

    def test_other_commands_of_as_many_reports_as_a_log_holds(self):
        """Each place stands twice, of two interfaces, and so is disputed, but for the last two."""
        most = 4_194_304
        rows = (struct.pack(">QIIIIBI", TIME + n, 7, 0, n // 2 if n < most - 2 else n, 1500, 0, 1 + n % 2) for n in range(most))
        with open(self.folder / "whole", "wb") as file:
            file.write(b"TCAX\0\2" + struct.pack(">I", most) + b"".join(rows))
        run = self.run_program("meter", "rfc2697:0:1000000000000:0:blind", "whole")
        self.assert_done(run, b"green 3000 2\nyellow 0 0\nred 0 0\n")
        lines = "".join(f"7,{1 + n},{most // 2},1,1500,{TIME + n},{TIME + most - 2 + n}\n" for n in range(2))
        self.assert_done(self.run_program("pairs", "whole", program=TOOL), f"domain,interface,reports,packets,octets,first,last\n{lines}".encode())
        told = f"tcatool: diff: only A 0, only B 0, both {most}\n".encode()
        self.assert_done(self.run_program("diff", "whole", "whole", program=TOOL), b"side,time,domain,session,place,octets,dscp,interface\n", told)
        with open(self.folder / "items", "wb") as items:
            run = self.run_program("list", "whole", program=TOOL, stdout=items)
        self.assert_done(run, b"")
        with open(self.folder / "items", "rb") as items:
            self.assertEqual(sum(piece.count(b"\n") for piece in iter(lambda: items.read(1 << 20), b"")), most + 1)

    def test_an_audit_of_as_many_reports_as_a_log_holds(self):
        """The identity of the last one is below the others'."""
        most, each = 4_194_304, 2_048
        with open(self.folder / "most", "wb") as file:
            for n in range(most // each):
                file.write(capture(7, each * n, [(TIME + n, 1500, 0, 1)] * (each if n else each - 1)))
            file.write(capture(6, 0, [(TIME + each, 1500, 0, 1)]))
        self.write("plan", PLAN.toml())
        run = self.run_program("bill", "--export", "whole", "plan", "most")
        self.assertEqual((run.status, run.err), (0, b""))
        self.assertIn(f"\nreports {most}\n".encode(), run.out)
        self.write("statement", run.out)
        self.assert_done(self.run_program("audit", "plan", "whole", "statement"), b"agrees\n")

    def test_more_repeats_than_a_log_holds(self):
        """An input may have more reports than a log where few of them differ."""
        self.write("repeats", capture(7, 0, [(TIME + n, 1500, 0, 1) for n in range(2_048)]) * 2_049)
        self.assert_done(self.run_program("combine", "out", "repeats"), b"reports 2048\n")
        self.write("plan", PLAN.toml())
        run = self.run_program("bill", "plan", "repeats")
        self.assertEqual((run.status, run.err), (0, b""))
        self.assertIn(b"\nreports 2048\n", run.out)

    def test_a_long_export_without_sessions(self):
        rows = [(TIME + n, 7, 0, n, 100, 0, 1) for n in range(300_000)]
        self.write("old", export(rows, 1))
        self.assert_done(self.run_program("combine", "out", "old"), b"reports 300000\n")
        self.assertEqual(self.read("out"), export(rows))

    def test_as_many_templates_as_a_session_holds(self):
        """Of two domains, each told four times; one withdrawn and another one in its place; and one more."""
        told = b"".join(message_with(b"".join(template(256 + n) for n in range(2_048)), domain) for domain in (7, 8)) * 4
        told += message_with(withdrawal(300) + template(3_000))
        self.write("capture", told + ONE)
        self.assert_done(self.run_program("combine", "out", "capture"), b"reports 1\n")
        self.write("more", told + message_with(template(9_000)))
        self.assert_refused(self.run_program("combine", "out", "more"), "more", "decode", 5)

    def test_as_many_sets_as_a_message_holds(self):
        self.write("capture", message_with(struct.pack(">HH", 4, 4) * 16_379) + ONE)
        self.write("plan", PLAN.toml())
        run = self.run_program("bill", "plan", "capture")
        self.assertEqual((run.status, run.err), (0, b"tcacct: capture: notes 0 0 16379\n"))
        self.assertIn(b"\nreports 1\n", run.out)


class Time(ProgramTest):
    def seconds(self, capture):
        """The processor time of a run over a capture that has no reports."""
        self.write("capture", capture)
        before = resource.getrusage(resource.RUSAGE_CHILDREN)
        self.assert_done(self.run_program("combine", "out", "capture"), b"reports 0\n")
        after = resource.getrusage(resource.RUSAGE_CHILDREN)
        return after.ru_utime + after.ru_stime - before.ru_utime - before.ru_stime

    def test_withdrawals_of_all_beside_many_templates(self):
        """A withdrawal of all templates of a domain goes over those that were defined since the last one, however many were before."""
        stay = [message_with(b"".join(template(256 + n) for n in range(3_000)), domain=8)]
        gone = [message_with(b"".join(template(256 + n) for n in range(900)) + ALL)] * 3
        withdrawals = message_with(struct.pack(">HH", 2, 4 + 4 * 16_000) + ALL[4:] * 16_000) * 400
        alone = self.seconds(withdrawals)
        self.assertLess(self.seconds(b"".join(stay + gone) + withdrawals), 5 * alone + 1)

    def test_records_with_many_fields_without_octets(self):
        """A record of one octet isn't gone over by each of 511 fields that have none."""
        one, none = struct.pack(">HH", 12, 65_535), struct.pack(">HH", 8, 0)
        records = message_with(struct.pack(">HH", 256, 4 + 65_000) + bytes(65_000)) * 64
        alone, beside = (
            self.seconds(message_with(struct.pack(">HHHH", 2, 8 + 4 * count, 256, count) + one + none * (count - 1)) + records)
            for count in (1, 512)
        )
        self.assertLess(beside, 5 * alone + 1)


class Memory(ProgramTest):
    """What a run holds: its input, in a list whose room doubles from 64 KiB on, 28 octets a report, and little else."""

    LITTLE = 4 << 20

    def run_within(self, octets, *words):
        """The program, which gets no more memory than this."""
        return self.run_program(*words, preexec_fn=lambda: resource.setrlimit(resource.RLIMIT_DATA, (octets, octets)))

    def test_templates_that_come_and_go(self):
        """A template that was withdrawn leaves nothing behind."""
        pairs = [template(256 + n % 65_000) + withdrawal(256 + n % 65_000) for n in range(600_000)]
        self.write("capture", b"".join(message_with(b"".join(pairs[at : at + 3_000])) for at in range(0, len(pairs), 3_000)))
        self.assert_done(self.run_within((16 << 20) + self.LITTLE, "combine", "out", "capture"), b"reports 0\n")

    def test_templates_that_come_and_go_beside_others(self):
        """In a domain of their own too."""
        stay = message_with(b"".join(template(number) for number in range(65_000, 65_005)))
        pairs = [template(256 + n % 64_000) + withdrawal(256 + n % 64_000) for n in range(600_000)]
        texts = [message_with(b"".join(pairs[at : at + 3_000]), n % 100) for n, at in enumerate(range(0, len(pairs), 3_000))]
        self.write("capture", stay + b"".join(texts))
        self.assert_done(self.run_within((16 << 20) + self.LITTLE, "combine", "out", "capture"), b"reports 0\n")

    def test_a_template_that_is_defined_again(self):
        many = struct.pack(">HH", 2, 4 + 8 * 8_000) + struct.pack(">HHHH", 300, 1, 224, 8) * 8_000
        stay = message_with(b"".join(template(number) for number in range(65_000, 65_005)))
        self.write("capture", stay + message_with(many) * 500)
        self.assert_done(self.run_within((32 << 20) + self.LITTLE, "combine", "out", "capture"), b"reports 0\n")

    def test_each_report_is_held_once(self):
        count = 289_000
        self.write("reports", export([(TIME + n // 8, 7, 0, n, 100, 0, 1) for n in range(count)]))
        run = self.run_within((8 << 20) + 28 * count + self.LITTLE, "combine", "out", "reports")
        self.assert_done(run, f"reports {count}\n".encode())
        self.assertEqual(self.read("out"), self.read("reports"))
