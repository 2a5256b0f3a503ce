"""The examples, each of which has a `run` that ends by itself and compares."""
import os
import shutil
import socket
import subprocess
import unittest

from program import PROGRAM, ROOT, SECONDS, TOOL, ProgramTest


class Examples(ProgramTest):
    def check(self, name, **more):
        settings = {**os.environ, "TCACCT": str(PROGRAM), "TCATOOL": str(TOOL), **more}
        done = subprocess.run([ROOT / "examples" / name / "run"], env=settings, capture_output=True, timeout=SECONDS)
        self.assertEqual((done.returncode, done.stdout.decode()), (0, f"{name}: as it should be\n"), done.stderr)

    def test_own_traffic(self):
        self.check("own-traffic")

    @unittest.skipUnless(shutil.which("socat"), "needs socat")
    def test_collector(self):
        # A port that nobody has, and time enough for the exporter to start on a busy machine.
        with socket.socket(socket.AF_INET, socket.SOCK_DGRAM) as free:
            free.bind(("127.0.0.1", 0))
            port = free.getsockname()[1]
        self.check("collector", PORT=str(port), QUIET="8")

    @unittest.skipUnless(shutil.which("make"), "needs make")
    def test_cluster(self):
        # The engines that need no other host and no service.
        self.check("cluster", ENGINES="make again", REPORTS="200")
