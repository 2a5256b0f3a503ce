"""Help word for word, as it stands in the files beside this one."""
from pathlib import Path

from program import TOOL, ProgramTest

TEXTS = Path(__file__).resolve().parent / "help"


class Help(ProgramTest):
    def test_each_command(self):
        for name in ("", "meter", "combine", "bill", "audit"):
            text = (TEXTS / f"{name or 'tcacct'}.txt").read_bytes()
            words = (name,) if name else ()
            self.assert_done(self.run_program(*words, "--help"), text)
            self.assert_done(self.run_program("help", *words), text)

    def test_each_command_of_the_tool(self):
        for name in ("", "pairs", "list", "diff", "table", "json", "page", "split", "add"):
            text = (TEXTS / "tool" / f"{name or 'tcatool'}.txt").read_bytes()
            words = (name,) if name else ()
            self.assert_done(self.run_program(*words, "--help", program=TOOL), text)
            self.assert_done(self.run_program("help", *words, program=TOOL), text)

    def test_lines_are_short(self):
        texts = sorted(TEXTS.glob("**/*.txt"))
        self.assertEqual(len(texts), 14)
        for path in texts:
            for line in path.read_text().split("\n"):
                self.assertLess(len(line), 100, line)
