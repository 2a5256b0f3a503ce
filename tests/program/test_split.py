"""The command `split`, over real files: a capture for each observation domain."""
import os
import random
import resource
import signal
import struct
import subprocess
from pathlib import Path

from model import capture
from program import TOOL, ProgramTest
from rows import ONE, SHORT

# The same record as in SHORT, of domain 9.
OTHER_DOMAIN = SHORT[:12] + struct.pack(">I", 9) + SHORT[16:]


def message(domain, body=b"", version=10, length=None):
    """A message by its framing alone: a header of RFC 7011, and octets of any value."""
    length = 16 + len(body) if length is None else length
    return struct.pack(">HHIII", version, length, 0, 0, domain) + body


class Splitting(ProgramTest):
    def setUp(self):
        super().setUp()
        (self.folder / "parts").mkdir()

    def split(self, *words, **options):
        return self.run_program("split", *words, program=TOOL, **options)

    def parts(self):
        return {path.name: path.read_bytes() for path in (self.folder / "parts").iterdir()}

    def assert_split(self, messages, run):
        domains = {}
        for octets in messages:
            domains.setdefault(struct.unpack(">I", octets[12:16])[0], []).append(octets)
        text = f"domains {len(domains)}\nmessages {len(messages)}\n".encode()
        self.assertEqual((run.status, run.out, run.err), (0, text, b""))
        self.assertEqual(self.parts(), {f"{domain}.ipfix": b"".join(own) for domain, own in domains.items()})

    def assert_refused_by(self, run, word, family, number, left=None):
        line = f"tcatool: {word}: {family} {number}\n".encode()
        self.assertEqual((run.status, run.out, run.err), (1, b"", line))
        self.assertEqual(self.parts(), left or {})

    def test_two_domains(self):
        self.write("capture", ONE + OTHER_DOMAIN)
        self.assert_split([ONE, OTHER_DOMAIN], self.split("parts", "capture"))
        self.assertEqual(self.parts(), {"7.ipfix": ONE, "9.ipfix": OTHER_DOMAIN})

    def test_no_message(self):
        self.write("capture", b"")
        self.assert_split([], self.split("parts", "capture"))
        self.assert_split([], self.split("nowhere", "capture"))

    def test_a_file_that_is_there(self):
        self.write("capture", message(5) + ONE + OTHER_DOMAIN)
        self.write("parts/7.ipfix", b"mine")
        self.assert_refused_by(self.split("parts", "capture"), "split", "write", 1, {"7.ipfix": b"mine"})

    def test_the_capture_itself(self):
        self.write("parts/7.ipfix", ONE)
        self.assert_refused_by(self.split("parts", "parts/7.ipfix"), "split", "write", 1, {"7.ipfix": ONE})

    def test_a_link_that_leads_nowhere(self):
        self.write("capture", message(5) + ONE)
        (self.folder / "parts/7.ipfix").symlink_to("nowhere")
        run = self.split("parts", "capture")
        self.assertEqual((run.status, run.out, run.err), (1, b"", b"tcatool: split: write 1\n"))
        self.assertEqual(os.listdir(self.folder / "parts"), ["7.ipfix"])

    def test_a_folder_of_a_parts_name(self):
        self.write("capture", message(5) + ONE)
        (self.folder / "parts/7.ipfix").mkdir()
        run = self.split("parts", "capture")
        self.assertEqual((run.status, run.out, run.err), (1, b"", b"tcatool: split: write 1\n"))
        self.assertEqual(os.listdir(self.folder / "parts"), ["7.ipfix"])

    def test_names_that_are_not_ascii(self):
        (self.folder / "parts").rename(self.folder / "Stücke β")
        self.write("fänge", ONE)
        self.assert_done(self.split("Stücke β", "fänge"), b"domains 1\nmessages 1\n")
        self.assertEqual(self.read("Stücke β/7.ipfix"), ONE)
        run = self.split("Stücke β", "ü")
        self.assertEqual((run.status, run.out, run.err), (1, b"", "tcatool: ü: read 1\n".encode()))

    def split_beside(self, preexec_fn=None, **settings):
        """A split beside another program, which a small library before the C library is."""
        library = self.folder / "between.so"
        source = Path(__file__).resolve().parent / "between.c"
        subprocess.run(["cc", "-shared", "-fPIC", "-O1", "-o", library, source], check=True)
        return self.split("parts", "capture", env={**os.environ, "LD_PRELOAD": str(library), **settings}, preexec_fn=preexec_fn)

    def test_a_file_that_is_made_in_between(self):
        self.write("capture", ONE + OTHER_DOMAIN)
        self.assert_refused_by(self.split_beside(), "split", "write", 1, {"7.ipfix": b"mine"})

    def test_a_part_that_goes_in_between(self):
        """It isn't made anew without what was written to it."""
        self.write("capture", b"".join(message(domain) for domain in range(40)))
        run = self.split_beside(GONE="1", preexec_fn=lambda: resource.setrlimit(resource.RLIMIT_NOFILE, (12, 12)))
        self.assertEqual((run.status, run.out, run.err), (1, b"", b"tcatool: split: write 1\n"))

    def test_a_capture_that_changes_in_between(self):
        """Its second reading has a domain that the first had none of."""
        self.write("capture", ONE)
        self.write("later", OTHER_DOMAIN)
        self.assert_refused_by(self.split_beside(CHANGED="capture"), "capture", "read", 1, {"7.ipfix": b""})

    def test_a_capture_that_goes_on_in_between(self):
        """Its second reading ends within a message, or has a faulty header; or it has one more message of the domain."""
        for more, number in ((ONE[:20], 1), (message(7, version=9), 2), (message(7, length=15), 3)):
            self.write("capture", ONE)
            self.write("later", ONE + more)
            self.assert_refused_by(self.split_beside(CHANGED="capture"), "capture", "wire", number, {"7.ipfix": b""})
            (self.folder / "parts/7.ipfix").unlink()
        self.write("capture", ONE)
        self.write("later", ONE + message(7))
        self.assert_done(self.split_beside(CHANGED="capture"), b"domains 1\nmessages 1\n")
        self.assertEqual(self.parts(), {"7.ipfix": ONE + message(7)})

    def test_the_word_of_a_capture_is_a_path(self):
        self.write("1@capture", ONE)
        self.assert_split([ONE], self.split("parts", "1@capture"))
        (self.folder / "parts/7.ipfix").unlink()
        self.write("capture", ONE)
        self.assert_refused_by(self.split("parts", "2@capture"), "2@capture", "read", 1)
        self.assert_refused_by(self.split("2@parts", "capture"), "split", "write", 1)

    def test_a_folder_that_is_not_there(self):
        """Nor is one without a name, which isn't the root."""
        self.write("capture", message(4_294_967_295))
        for folder in ("nowhere", ""):
            self.assert_refused_by(self.split(folder, "capture"), "split", "write", 1)
        self.assertFalse(os.path.exists("/4294967295.ipfix"))

    def test_a_folder_of_a_long_path(self):
        """Its path leaves room for one of the files, but not for the other one, which so can't be looked for: neither is made."""
        folder = os.open(self.folder, os.O_RDONLY)
        names = ["d" * 200] * 20 + ["d" * 64]
        for name in names:
            os.mkdir(name, dir_fd=folder)
            above, folder = folder, os.open(name, os.O_RDONLY, dir_fd=folder)
            os.close(above)
        self.addCleanup(os.close, folder)
        self.write("capture", message(5) + message(2**32 - 1))
        self.assertTrue(len("/".join([*names, "5.ipfix"])) < 4096 <= len("/".join([*names, "4294967295.ipfix"])))
        self.assert_refused_by(self.split("/".join(names), "capture"), "split", "write", 1)
        self.assertEqual(os.listdir(folder), [])

    def test_a_capture_that_is_not_there(self):
        for options in ((), ("--progress",)):
            self.assert_refused_by(self.split(*options, "parts", "capture"), "capture", "read", 1)

    def test_a_capture_that_cannot_be_read_twice(self):
        """A folder, and a pipe that would give its octets once: the parts would be empty."""
        (self.folder / "folder").mkdir()
        reading, writing = os.pipe()
        os.write(writing, ONE)
        os.close(writing)
        self.addCleanup(os.close, reading)
        for options in ((), ("--progress",)):
            self.assert_refused_by(self.split(*options, "parts", "folder"), "folder", "read", 1)
            pipe = f"/dev/fd/{reading}"
            self.assert_refused_by(self.split(*options, "parts", pipe, pass_fds=(reading,)), pipe, "read", 1)

    def test_the_capture_is_judged_before_the_folder(self):
        self.write("parts/7.ipfix", b"mine")
        left = {"7.ipfix": b"mine"}
        self.write("capture", ONE + OTHER_DOMAIN[:-1])
        for folder in ("parts", "nowhere"):
            self.assert_refused_by(self.split(folder, "capture"), "capture", "wire", 1, left)
            self.assert_refused_by(self.split(folder, "absent"), "absent", "read", 1, left)
        self.write("capture", ONE + b"".join(message(domain) for domain in range(4097)))
        self.assert_refused_by(self.split("parts", "capture"), "capture", "limits", 1, left)

    def test_framing(self):
        for octets, number in (
            (ONE[:-1], 1),
            (ONE + OTHER_DOMAIN[:15], 1),
            (ONE + message(9, version=9), 2),
            (ONE + message(9, length=15), 3),
            (b"TCAX" + bytes(20), 2),
        ):
            self.write("capture", octets)
            self.assert_refused_by(self.split("parts", "capture"), "capture", "wire", number)

    def test_sets_are_not_judged(self):
        odd = message(7, b"\x00\x02\x00\x01odd")
        self.write("capture", odd)
        self.assert_split([odd], self.split("parts", "capture"))

    def test_most_domains(self):
        most = [message(domain * 7, bytes(domain % 90)) for domain in range(4096)]
        self.write("capture", b"".join(most))
        # 32 MiB of buffers, and little else.
        run = self.split("parts", "capture", preexec_fn=lambda: resource.setrlimit(resource.RLIMIT_DATA, (40 << 20, 40 << 20)))
        self.assert_split(most, run)

    def test_one_domain_more(self):
        more = b"".join(message(domain) for domain in range(4097))
        self.write("capture", more)
        self.assert_refused_by(self.split("parts", "capture"), "capture", "limits", 1)
        self.write("capture", more + message(1, version=9))
        self.assert_refused_by(self.split("parts", "capture"), "capture", "limits", 1)
        self.write("capture", more[:-16] + message(1, version=9) + message(4097))
        self.assert_refused_by(self.split("parts", "capture"), "capture", "wire", 2)
        self.write("capture", more[:-1])
        self.assert_refused_by(self.split("parts", "capture"), "capture", "wire", 1)

    def test_messages_that_end_in_the_next_piece(self):
        """Of the longest message all that a piece of 65,536 octets can have, or all but its last octet, is in the first one."""
        longest = message(7, bytes(65_519))
        for before in ([], [message(8)], [message(8, b"x")]):
            messages = [*before, longest, longest]
            self.write("capture", b"".join(messages))
            self.assert_split(messages, self.split("parts", "capture"))
            for name in self.parts():
                (self.folder / "parts" / name).unlink()

    def any_messages(self, numbers, domains, count, longest):
        return [message(numbers.choice(domains), numbers.randbytes(numbers.randrange(longest))) for _ in range(count)]

    def test_any_messages(self):
        numbers = random.Random(3)
        for longest in (1, 100, 3000, 65520):
            domains = [numbers.randrange(2**32) for _ in range(numbers.randrange(1, 60))]
            messages = self.any_messages(numbers, domains, 400, longest)
            self.write("capture", b"".join(messages))
            self.assert_split(messages, self.split("parts", "capture"))
            for name in self.parts():
                (self.folder / "parts" / name).unlink()

    def test_domains_that_are_alike_in_part(self):
        """In their low octets, or in their high ones."""
        domains = [7, 7 + (1 << 8), 7 + (1 << 16), 7 + (1 << 24), 7 + (1 << 31), 0, 1 << 16, 2**32 - 1]
        messages = [message(domain, bytes([n])) for n in range(3) for domain in domains]
        self.write("capture", b"".join(messages))
        self.assert_split(messages, self.split("parts", "capture"))

    def test_a_capture_that_is_cut_far_within_a_message(self):
        """One that began in the same piece of 65,536 octets, and one that began in the piece before."""
        long = message(7, bytes(40_000))
        for whole in (ONE + message(7, bytes(1_000)), long + long):
            self.write("capture", whole[:-1])
            self.assert_refused_by(self.split("parts", "capture"), "capture", "wire", 1)

    def test_many_messages(self):
        messages = [message(n % 3, n.to_bytes(4, "big")) for n in range(70_000)]
        self.write("capture", b"".join(messages))
        self.assert_split(messages, self.split("parts", "capture"))

    def test_one_open_part_at_a_time(self):
        """Beside the three standard files and the two readings of the capture."""
        messages = [message(domain, bytes([n])) for n in range(3) for domain in range(5)]
        self.write("capture", b"".join(messages))
        self.assert_split(messages, self.split("parts", "capture", preexec_fn=lambda: resource.setrlimit(resource.RLIMIT_NOFILE, (6, 6))))

    def test_few_open_files(self):
        """Files that aren't open any more are opened again, also amid a domain, and each at most so often as its buffer is full."""
        library = self.folder / "openings.so"
        source = Path(__file__).resolve().parent / "openings.c"
        subprocess.run(["cc", "-shared", "-fPIC", "-O1", "-o", library, source, "-ldl"], check=True)
        messages = self.any_messages(random.Random(4), range(700), 9000, 4000)
        # Of three domains more than one buffer holds.
        messages += self.any_messages(random.Random(6), [1, 350, 699], 150, 6000)
        self.write("capture", b"".join(messages))
        settings = {**os.environ, "LD_PRELOAD": str(library), "OPENINGS": str(self.folder / "openings")}
        run = self.split("parts", "capture", env=settings, preexec_fn=lambda: resource.setrlimit(resource.RLIMIT_NOFILE, (12, 12)))
        self.assert_split(messages, run)
        # Each file is made once and, as its buffer is full, opened again; the capture is opened twice.
        openings = len(self.read("openings"))
        self.assertGreater(openings, 700 + 2)
        self.assertLess(openings, 3 * 700)

    def test_a_capture_longer_than_its_memory(self):
        parts = [message(domain, bytes([domain]) * 65_519) for domain in range(3)]
        with open(self.folder / "capture", "wb") as capture:
            for n in range(768):
                capture.write(parts[n % 3])
        most = 12 << 20
        run = self.split("parts", "capture", preexec_fn=lambda: resource.setrlimit(resource.RLIMIT_DATA, (most, most)))
        self.assert_done(run, b"domains 3\nmessages 768\n")
        self.assertEqual(self.parts(), {f"{domain}.ipfix": parts[domain] * 256 for domain in range(3)})

    def test_a_capture_of_more_than_4_gib(self):
        """Its second message is none, so that only its first piece is read."""
        with open(self.folder / "capture", "wb") as capture:
            capture.write(ONE)
            capture.truncate((4 << 30) + 1)
        self.assert_refused_by(self.split("parts", "capture"), "capture", "wire", 2)

    def test_output_that_fails(self):
        """The files are whole then."""
        self.write("capture", ONE + OTHER_DOMAIN)
        with open("/dev/full", "wb") as full:
            run = self.split("parts", "capture", stdout=full)
        self.assertEqual((run.status, run.err), (1, b"tcatool: split: write 1\n"))
        self.assertEqual(self.parts(), {"7.ipfix": ONE, "9.ipfix": OTHER_DOMAIN})

    def test_a_standard_output_that_is_closed(self):
        """No part takes its place."""
        self.write("capture", ONE + OTHER_DOMAIN)
        for closed in ((1,), (0, 1)):
            run = self.split("parts", "capture", preexec_fn=lambda: [os.close(one) for one in closed])
            self.assert_refused_by(run, "split", "write", 1, {"7.ipfix": ONE, "9.ipfix": OTHER_DOMAIN})
            for name in self.parts():
                (self.folder / "parts" / name).unlink()

    def test_a_late_write_that_fails(self):
        def limit():
            signal.signal(signal.SIGXFSZ, signal.SIG_IGN)
            resource.setrlimit(resource.RLIMIT_FSIZE, (100_000, 100_000))

        messages = self.any_messages(random.Random(5), [1, 2], 3000, 3000)
        self.write("capture", b"".join(messages))
        run = self.split("parts", "capture", preexec_fn=limit)
        self.assertEqual((run.status, run.out, run.err), (1, b"", b"tcatool: split: write 1\n"))
        for domain in (1, 2):
            own = b"".join(octets for octets in messages if octets[12:16] == struct.pack(">I", domain))
            front = self.read(f"parts/{domain}.ipfix")
            self.assertLess(len(front), len(own))
            self.assertTrue(own.startswith(front))

    def test_parts_are_billed_as_the_whole(self):
        start = 1_700_000_000_000
        whole = capture(7, 0, [(start + 40 * n, 700, 0, 1) for n in range(50)]) + capture(8, 0, [(start + 30 * n, 900, 0, 1) for n in range(50)])
        accounts = "".join(f'[[account]]\nname = "d{n}"\nmeter = "rfc2697"\ncir = 9000\ncbs = 2000\nebs = 1000\nkeys = [[{n}, 1]]\n' for n in (7, 8))
        self.write("plan", f"period = 1000\n{accounts}".encode())
        self.write("capture", whole)
        self.assertEqual(self.split("parts", "capture").status, 0)
        for n in (7, 8):
            self.write(f"s{n}", self.run_program("bill", "plan", f"parts/{n}.ipfix").out)
        bill = self.run_program("bill", "plan", "capture").out
        self.assertNotEqual(self.read("s7"), self.read("s8"))
        self.assert_done(self.run_program("add", "s8", "s7", program=TOOL), bill)
