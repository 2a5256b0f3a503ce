"""Each growth of memory refused in turn: the tests that are made for it, and the program itself.

A small library before the C library refuses the n-th growth, n = 1, 2, 3 and so on, until a run meets no refusal.
"""
import os
import shutil
import subprocess
import tempfile
from pathlib import Path

from model import capture
from program import PROGRAM, SECONDS, TESTS, TOOL, ProgramTest
from rows import EMPTY, OBJECT, ONE, PLAN, SHORT, STATEMENT, THREE, THREE_2, TIME

HERE = Path(__file__).resolve().parent
MOST_GROWTHS = 2000
FAMILIES = (b"memory 1", b"plan 8", b"log 2", b"share 3", b"work 5", b"work 3", b"read 3", b"absorb 4", b"statement 5")

# Tests that hold whether one growth is refused or not.
HOLDS = {
    "tca_core_tests": (
        "tests::gossip::memory::a_take_that_was_refused_is_completed",
        "tests::gossip::memory::an_absorb_that_was_refused_is_completed",
        "tests::gossip::memory::a_merge_that_was_refused_is_completed",
        "tests::gossip::world::a_run_that_was_refused_is_completed",
    ),
    "tca_ingest_tests": (
        "tests::memory::a_take_that_was_refused_is_completed",
        "tests::memory::a_statement_lacks_memory_only_beside_a_book",
        "tests::memory::a_call_that_is_refused_a_growth_says_so",
        "tests::jobs_memory::workers_that_were_refused_close",
        "tests::jobs_memory::workers_that_were_refused_close_at_once",
        "tests::jobs_memory::a_worker_that_was_refused_its_thread_does_nothing",
    ),
    "tcacct": ("tests::replicated::writes_nothing_where_it_is_refused", "tests::statements::issues_what_has_changed"),
}


# With these words a test says that what it tries went wrong.
VERDICTS = ('"a close"', '"a take"', '"workers"', '"neither time')


class Growths(ProgramTest):
    @classmethod
    def setUpClass(cls):
        cls.tools = Path(tempfile.mkdtemp(prefix="refuse-"))
        cls.addClassCleanup(shutil.rmtree, cls.tools, ignore_errors=True)
        cls.library = cls.tools / "refuse.so"
        source = HERE / "refuse.c"
        subprocess.run(["cc", "-shared", "-fPIC", "-O1", "-o", cls.library, source], check=True)

    def run_refused(self, number, words, all_after=False):
        """What came of a run, and whether a growth was refused in it."""
        mark = self.folder / "refused"
        mark.unlink(missing_ok=True)
        settings = {**os.environ, "LD_PRELOAD": str(self.library), "REFUSE": str(number), "REFUSED": str(mark)}
        if all_after:
            settings["REFUSE_ALL"] = "1"
        done = subprocess.run(words, cwd=self.folder, env=settings, capture_output=True, stdin=subprocess.DEVNULL, timeout=SECONDS)
        return done, mark.exists()

    def test_of_the_crates(self):
        """A growth of the test's own preparation ends it with an error; where the call's own is refused it holds."""
        for crate, names in HOLDS.items():
            for name in names:
                with self.subTest(name):
                    held = 0
                    for number in range(1, MOST_GROWTHS):
                        done, refused = self.run_refused(number, [TESTS[crate], name])
                        if not refused:
                            break
                        if done.returncode == 0:
                            held += 1
                        else:
                            # An assertion that fails ends the test by a signal.
                            said = (done.stdout + done.stderr).decode(errors="replace")
                            self.assertEqual((done.returncode, said[:7]), (101, "error: "), f"growth {number}: {said}")
                            # What the call's own refusal leaves is no error of the preparation.
                            for word in VERDICTS:
                                self.assertNotIn(word, said, f"growth {number}")
                    else:
                        self.fail("each run met a refusal")
                    self.assertEqual(done.returncode, 0, done)
                    self.assertGreater(held, 0)

    def check_words(self, told, reads):
        """Of lines told one after the other: those of a file that is read name it, in the order of the arguments, and those of what it holds name such a file."""
        lines = [line.decode().removesuffix("\n").split(": ")[1:] for line in told if line]
        self.assertEqual(list(dict.fromkeys(word for word, fault in lines if fault == "read 3")), reads)
        for word, fault in lines:
            if fault.startswith("plan"):
                self.assertEqual(word, "plan")
            if fault.startswith(("log", "wire", "decode", "statement")):
                self.assertIn(word, reads)

    def check_run(self, words, out, files, all_after, reads, program=PROGRAM, err=b""):
        """Each growth of this run refused: it writes what it writes, or says in its own name that it lacks memory and has written nothing. Gives what it said."""
        name_of_it, told = b"tcatool: " if program == TOOL else b"tcacct: ", []
        for number in range(1, MOST_GROWTHS):
            for name in files:
                (self.folder / name).unlink(missing_ok=True)
            done, refused = self.run_refused(number, [str(program), *words], all_after)
            if not refused:
                self.assertEqual((done.returncode, done.stdout, done.stderr), (0, out, err))
                break
            self.assertIn(done.returncode, (0, 1), (number, done))
            if done.returncode == 0:
                self.assertEqual((done.stdout, done.stderr), (out, err))
                self.assertEqual({name: self.read(name) for name in files}, files)
            else:
                self.assertEqual(done.stdout, b"", number)
                self.assertTrue(not done.stderr or done.stderr.rstrip().endswith(FAMILIES), done.stderr)
                self.assertTrue(not done.stderr or done.stderr.startswith(name_of_it), done.stderr)
                for name in files:
                    self.assertEqual(self.read(name) if self.has(name) else b"", b"", number)
                told.append(done.stderr)
            # Where one growth alone is refused there is memory for the line.
            self.assertTrue(all_after or done.returncode == 0 or done.stderr, number)
        else:
            self.fail("each run met a refusal")
        self.assertGreater(number, 10)
        if not all_after:
            self.assertIn(name_of_it + name_of_it + b"memory 1\n", told)
            self.check_words(told, reads)
        return told

    def test_of_a_bill_by_one_worker(self):
        """A thread that isn't started and what the workers need are told of the command, and what a job needs of its input. By one worker each run asks for the same."""
        self.write("plan", PLAN.toml())
        self.write("reports", THREE_2)
        told = self.check_run(["bill", "--replicas", "1", "--workers", "1", "plan", "reports"], STATEMENT, {}, False, ["plan", "reports"])
        lines = ["bill: memory 1", "bill: work 3", "bill: work 5", "plan: plan 8", "plan: read 3", "tcacct: memory 1"]
        lines += [f"reports: {fault}" for fault in ("log 2", "memory 1", "read 3", "share 3")]
        self.assertEqual(set(told), {f"tcacct: {line}\n".encode() for line in lines})

    def test_of_the_program(self):
        self.write("plan", PLAN.toml())
        for n, row in enumerate(THREE):
            self.write(f"n{n}", capture(7, n, [(row[0], row[4], row[5], row[6])]))
        self.write("statement", STATEMENT)
        self.write("reports", THREE_2)
        names = ["n0", "n1", "n2"]
        for all_after in (False, True):
            for words, out, files, reads in (
                (["bill", "plan", *names], STATEMENT, {}, ["plan", *names]),
                (["bill", "--replicas", "3", "--export", "out", "plan", *names], STATEMENT, {"out": THREE_2}, ["plan", *names]),
                (["combine", "out", *names], b"reports 3\n", {"out": THREE_2}, names),
                (["meter", "rfc2697:1000:2000:1000:blind", "n0", "n1"], b"green 1500 1\nyellow 1000 1\nred 0 0\n", {}, ["n0", "n1"]),
                (["audit", "plan", "reports", "statement"], b"agrees\n", {}, ["plan", "reports", "statement"]),
            ):
                with self.subTest(words=words, all_after=all_after):
                    self.check_run(words, out, files, all_after, reads)

    def test_of_the_tool(self):
        self.write("plan", PLAN.toml())
        self.write("reports", THREE_2)
        self.write("statement", STATEMENT)
        self.write("none", EMPTY)
        header = b"time,domain,session,place,octets,dscp,interface,state,account,colour\n"
        items = (
            b"1700000000000,7,0,0,1500,0,1,settled,alpha,green\n"
            b"1700000000100,7,0,1,1000,0,1,settled,alpha,yellow\n"
            b"1700000000200,7,0,2,800,0,1,settled,alpha,red\n"
        )
        table = (
            b"account,span,start,green_octets,green_packets,yellow_octets,yellow_packets,red_octets,red_packets\n"
            b"alpha,,,1500,1,1000,1,800,1\nalpha,472222,2023-11-14T22:00:00Z,1500,1,1000,1,800,1\n"
        )
        pairs = b"domain,interface,reports,packets,octets,first,last\n7,1,3,3,3300,1700000000000,1700000000200\n"
        sides = b"side,time,domain,session,place,octets,dscp,interface\n"
        same = b"tcatool: diff: only A 0, only B 0, both 3\n"
        page = (HERE / "page.html").read_bytes()
        of_a_statement = ("read 3", "statement 5")
        wants = {"plan": ("read 3", "plan 8"), "reports": ("read 3", "memory 1", "log 2"), "statement": of_a_statement, "none": of_a_statement}
        for all_after in (False, True):
            for words, out, files, err, reads in (
                (["pairs", "reports"], pairs, {}, b"", ["reports"]),
                (["list", "--plan", "plan", "reports"], header + items, {}, b"", ["plan", "reports"]),
                (["diff", "reports", "reports"], sides, {}, same, ["reports"]),
                (["table", "statement"], table, {}, b"", ["statement"]),
                (["json", "statement"], OBJECT, {}, b"", ["statement"]),
                (["page", "out", "statement"], b"", {"out": page}, b"", ["statement"]),
                (["add", "statement"], STATEMENT, {}, b"", ["statement"]),
                (["add", "statement", "none"], STATEMENT, {}, b"", ["statement", "none"]),
            ):
                with self.subTest(words=words, all_after=all_after):
                    told = self.check_run(words, out, files, all_after, reads, TOOL, err)
                    if not all_after:
                        # What each file lacks memory for, and what the command and the program do.
                        lines = ["tcatool: memory 1", f"{words[0]}: memory 1", *(f"{name}: {fault}" for name in reads for fault in wants[name])]
                        self.assertEqual(set(told), {f"tcatool: {line}\n".encode() for line in lines})

    def test_of_a_split(self):
        """Want of memory leaves no file. Where the folder lacked it for a file's path, that is a failed write, and may leave files that were begun."""
        (self.folder / "parts").mkdir()
        short = SHORT[:12] + b"\0\0\0\t" + SHORT[16:]
        # The longest message there is, which lies across pieces.
        long = b"\0\x0a\xff\xff" + bytes(8) + b"\0\0\0\t" + bytes(65_519)
        self.write("capture", ONE + short + long + long)
        whole = {"7.ipfix": ONE, "9.ipfix": short + long + long}
        told = set()
        for number in range(1, MOST_GROWTHS):
            done, refused = self.run_refused(number, [str(TOOL), "split", "parts", "capture"])
            files = {path.name: path.read_bytes() for path in (self.folder / "parts").iterdir()}
            if done.returncode == 0:
                self.assertEqual((done.stdout, files), (b"domains 2\nmessages 4\n", whole))
            else:
                self.assertEqual((done.returncode, done.stdout), (1, b""), number)
                told.add(done.stderr)
                for name, octets in files.items():
                    self.assertTrue(whole[name].startswith(octets), number)
                if b"write 1" not in done.stderr:
                    self.assertEqual(files, {}, number)
            if not refused:
                self.assertEqual(done.returncode, 0)
                break
            for path in (self.folder / "parts").iterdir():
                path.unlink()
        else:
            self.fail("each run met a refusal")
        self.assertGreater(number, 10)
        self.assertIn(b"tcatool: split: memory 1\n", told)
        lines = ("tcatool: memory 1", "split: memory 1", "split: write 1", "capture: read 1")
        self.assertLessEqual(told, {f"tcatool: {line}\n".encode() for line in lines})
