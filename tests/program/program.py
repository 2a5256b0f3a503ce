"""Running the built program over real files."""
import os
import shutil
import subprocess
import tempfile
import unittest
from dataclasses import dataclass
from pathlib import Path

ROOT = Path(__file__).resolve().parents[2]
PROGRAM = Path(os.environ.get("TCACCT", ROOT / "crates/tcacct/out/tcacct"))
TOOL = Path(os.environ.get("TCATOOL", ROOT / "crates/tcatool/out/tcatool"))
# Executables with the tests of the crates, of which some are run with growths refused.
TESTS = {
    name: Path(os.environ.get(f"{name.upper()}_TESTS", ROOT / f"crates/{name}/out/{name}_tests"))
    for name in ("tca_core_tests", "tca_ingest_tests", "tcacct")
}
SECONDS = 120


@dataclass
class Run:
    status: int
    out: bytes
    err: bytes


class ProgramTest(unittest.TestCase):
    """A test in a folder of its own."""

    def setUp(self):
        self.folder = Path(tempfile.mkdtemp(prefix="tcacct-"))
        os.chmod(self.folder, 0o755)
        self.addCleanup(shutil.rmtree, self.folder, ignore_errors=True)

    def write(self, name, octets):
        path = self.folder / name
        path.write_bytes(octets)
        return name

    def read(self, name):
        return (self.folder / name).read_bytes()

    def has(self, name):
        return (self.folder / name).exists()

    def run_program(self, *words, **options):
        """The program with these words, in the test's folder."""
        done = subprocess.run(
            [str(options.pop("program", PROGRAM)), *map(str, words)],
            cwd=self.folder,
            stdin=subprocess.DEVNULL,
            stdout=options.pop("stdout", subprocess.PIPE),
            stderr=options.pop("stderr", subprocess.PIPE),
            timeout=SECONDS,
            **options,
        )
        return Run(done.returncode, done.stdout or b"", done.stderr or b"")

    def assert_done(self, run, out, err=b""):
        self.assertEqual((run.status, run.err, run.out), (0, err, out))

    def assert_refused(self, run, word, family, number):
        line = f"tcacct: {word}: {family} {number}\n".encode()
        self.assertEqual((run.status, run.out, run.err), (1, b"", line))

    def assert_wrong_line(self, run):
        self.assertEqual((run.status, run.out), (2, b""))
        self.assertNotEqual(run.err, b"")
