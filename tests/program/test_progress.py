"""How far a long command is, by `--progress`: a small library before the C library is the clock."""
import os
import random
import resource
import shutil
import signal
import subprocess
import tempfile
from pathlib import Path

from program import TOOL, ProgramTest
from test_page import ROW, any_sums, statement
from test_split import message

MEBIBYTE = 1_048_576
# So many octets are read at a time.
PIECE = 65_536


class Progress(ProgramTest):
    @classmethod
    def setUpClass(cls):
        cls.tools = Path(tempfile.mkdtemp(prefix="clock-"))
        cls.addClassCleanup(shutil.rmtree, cls.tools, ignore_errors=True)
        cls.library = cls.tools / "clock.so"
        source = Path(__file__).resolve().parent / "clock.c"
        subprocess.run(["cc", "-shared", "-fPIC", "-O1", "-o", cls.library, source], check=True)

    def run_by_clock(self, step, *words, **options):
        """A run whose clock goes on by so many milliseconds each time it is asked: at the start, and then at each piece."""
        settings = {**os.environ, "LD_PRELOAD": str(self.library), "STEP": str(step)}
        return self.run_program(*words, program=TOOL, env=settings, **options)

    def split(self, step, *options):
        """What is told of a split of 8 MiB and a half, by a link to it, whose files are there as without a clock."""
        parts = self.folder / "parts"
        shutil.rmtree(parts, ignore_errors=True)
        parts.mkdir()
        messages = [message(n % 3, n.to_bytes(4, "big") * 250) for n in range(8772)]
        self.write("behind", b"".join(messages))
        (self.folder / "capture").unlink(missing_ok=True)
        (self.folder / "capture").symlink_to("behind")
        run = self.run_by_clock(step, "split", *options, "parts", "capture")
        self.assertEqual((run.status, run.out), (0, b"domains 3\nmessages 8772\n"))
        for domain in range(3):
            self.assertEqual(self.read(f"parts/{domain}.ipfix"), b"".join(messages[domain::3]))
        return run.err.decode()

    def lines(self, every):
        """A line at each so many-th piece of that capture; at its end it is asked once more, and no octet comes."""
        whole = 8772 * 1016
        done = [*range(PIECE, whole, PIECE), whole, whole]
        return "".join(f"tcatool: split: {octets // MEBIBYTE} of 8 MiB\n" for octets in done[every - 1::every])

    def test_a_split_once_a_second(self):
        self.assertEqual(self.split(1000, "--progress"), self.lines(1))
        self.assertEqual(self.split(999, "--progress"), self.lines(2))
        self.assertEqual(self.split(250, "--progress"), self.lines(4))
        self.assertEqual(self.split(60, "--progress"), self.lines(17))

    def test_a_split_within_a_second(self):
        self.assertEqual(self.split(7, "--progress"), "")
        self.write("small", message(7))
        shutil.rmtree(self.folder / "parts")
        (self.folder / "parts").mkdir()
        self.assert_done(self.run_by_clock(1, "split", "--progress", "parts", "small"), b"domains 1\nmessages 1\n")

    def test_a_split_that_is_not_asked(self):
        self.assertEqual(self.split(1000), "")

    def test_the_first_reading_is_not_told(self):
        """A capture that is refused by its first reading has no second one."""
        (self.folder / "parts").mkdir()
        self.write("capture", message(7) + message(7, version=9))
        run = self.run_by_clock(1000, "split", "--progress", "parts", "capture")
        self.assertEqual((run.status, run.out, run.err), (1, b"", b"tcatool: capture: wire 2\n"))

    def test_a_page_that_is_refused(self):
        """OUT is made once the statement is read, before it is judged."""
        self.write("wrong", statement(3_600_000, ROW)[:-1])
        self.write("right", statement(3_600_000, ROW))
        for out, word, line in (
            ("none", "missing", b"missing: read 1"),
            ("none/out", "wrong", b"page: write 1"),
            ("out", "wrong", b"wrong: statement 1"),
            ("/dev/full", "right", b"page: write 1"),
        ):
            run = self.run_by_clock(1, "page", "--progress", out, word)
            self.assertEqual((run.status, run.out, run.err), (1, b"", b"tcatool: " + line + b"\n"))
        self.assertFalse(self.has("none"))
        self.assertEqual(self.read("out"), b"")

    def test_a_standard_error_that_is_closed(self):
        """OUT doesn't take its place."""
        self.write("statement", statement(3_600_000, ROW))
        run = self.run_by_clock(1000, "page", "--progress", "out", "statement", preexec_fn=lambda: os.close(2))
        self.assert_done(run, b"")
        self.assertEqual(self.read("out"), (Path(__file__).resolve().parent / "page.html").read_bytes())

    def test_a_page_that_is_cut_off(self):
        """Of a write that takes less than it is given what it took is told; the next one fails."""
        numbers, most = random.Random(22), MEBIBYTE * 3 // 2
        self.write("statement", statement(3_600_000, [(f"account_{n}", [(span, any_sums(numbers)) for span in range(4500)]) for n in range(3)]))
        self.run_program("page", "out", "statement", program=TOOL)
        whole = self.read("out")

        def limit():
            signal.signal(signal.SIGXFSZ, signal.SIG_IGN)
            resource.setrlimit(resource.RLIMIT_FSIZE, (most, most))

        run = self.run_by_clock(1000, "page", "--progress", "out", "statement", preexec_fn=limit)
        told = f"tcatool: page: 1 of {len(whole) // MEBIBYTE} MiB\n" * 2 + "tcatool: page: write 1\n"
        self.assertEqual((run.status, run.out, run.err.decode()), (1, b"", told))
        self.assertEqual(self.read("out"), whole[:most])

    def test_a_page(self):
        """A line at each so many-th piece of it, of which each has a mebibyte but the last."""
        numbers = random.Random(22)
        large = [(f"account_{n}", [(span, any_sums(numbers)) for span in range(4500)]) for n in range(3)]
        for accounts in (ROW, large):
            self.write("statement", statement(3_600_000, accounts))
            self.run_program("page", "out", "statement", program=TOOL)
            whole = self.read("out")
            done = [*range(MEBIBYTE, len(whole), MEBIBYTE), len(whole)]
            lines = [f"tcatool: page: {octets // MEBIBYTE} of {len(whole) // MEBIBYTE} MiB\n" for octets in done]
            for step, options, told in ((1000, ["--progress"], lines), (999, ["--progress"], lines[1::2]), (1000, [], [])):
                (self.folder / "out").unlink()
                self.assert_done(self.run_by_clock(step, "page", *options, "out", "statement"), b"", "".join(told).encode())
                self.assertEqual(self.read("out"), whole)
        self.assertGreater(len(whole), 3 * MEBIBYTE)
