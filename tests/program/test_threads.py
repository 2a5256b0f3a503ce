"""How many threads there are: as many as `--replicas` and `--workers` ask for."""
import os
import subprocess
from pathlib import Path

from model import capture
from program import ProgramTest
from rows import PLAN, TIME


class Threads(ProgramTest):
    def setUp(self):
        super().setUp()
        self.library = self.folder / "threads.so"
        source = Path(__file__).resolve().parent / "threads.c"
        subprocess.run(["cc", "-shared", "-fPIC", "-O1", "-o", self.library, source, "-ldl", "-lpthread"], check=True)
        self.write("plan", PLAN.toml())
        rows = [(TIME + n // 8, 1500, 0, 1) for n in range(1000)]
        message = capture(7, 0, rows)
        for n in range(16):
            with open(self.folder / f"n{n}", "wb") as file:
                for k in range(100):
                    file.write(message[:8] + (1000 * (100 * n + k)).to_bytes(4, "big") + message[12:])

    def count(self, names, *options):
        """How many workers a run starts, in all and at once."""
        files = {setting: self.folder / f"counted-{setting}" for setting in ("THREADS", "MOST")}
        for file in files.values():
            file.write_bytes(b"")
        settings = {**os.environ, "LD_PRELOAD": str(self.library), **{setting: str(file) for setting, file in files.items()}}
        run = self.run_program("bill", *options, "plan", *names, env=settings)
        self.assertEqual((run.status, run.err), (0, b""))
        self.assertIn(f"\nreports {100_000 * len(names)}\n".encode(), run.out)
        return tuple(file.stat().st_size for file in files.values())

    def test_as_many_are_started(self):
        """In all, so that replicas count too: each starts its own workers."""
        names = [f"n{n}" for n in range(4)]
        for replicas, workers in ((1, 1), (1, 8), (1, 64), (2, 3), (3, 2), (16, 1)):
            started, _ = self.count(names, "--replicas", replicas, "--workers", workers)
            self.assertEqual(started, replicas * workers, (replicas, workers))

    def test_as_many_are_there_at_once(self):
        """Those of one replica: the next one's start behind them."""
        names = [f"n{n}" for n in range(16)]
        for options, most in (
            (("--replicas", 1, "--workers", 8), 8),
            (("--replicas", 2, "--workers", 3), 3),
            (("--replicas", 4, "--workers", 1), 1),
            ((), 2),
        ):
            self.assertEqual(self.count(names, *options)[1], most, options)
