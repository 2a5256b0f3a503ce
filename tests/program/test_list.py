"""The itemised bill, over real files."""
import random

from model import capture, colours, export, settled
from program import TOOL
from test_commands import noted
from rows import FIRST, LATE, PLAN, SECOND, TERMED, THIRD, THREE, THREE_1, THREE_2, TIME
from test_random import some_inputs, some_plan
from test_tool import ToolTest

HEADER = b"time,domain,session,place,octets,dscp,interface,state,account,colour\n"
COLOURS = ("green", "yellow", "red")


def line(report, state, account="", colour=""):
    return ",".join(map(str, (*report, state, account, colour))) + "\n"


def lines_of(plan, reports):
    """The lines of a set, by the model."""
    alone, _ = settled(reports)
    shares = {}
    for account in plan.accounts if plan else ():
        own = [report for report in alone if (report[1], report[6]) in account.keys]
        for report, colour in colours(account, own):
            shares[report] = (account.name, COLOURS[colour])
    alone = set(alone)
    return "".join(line(r, "settled" if r in alone else "disputed", *shares.get(r, ())) for r in sorted(set(reports))).encode()


class Lists(ToolTest):
    def test_three_reports(self):
        self.write("plan", PLAN.toml())
        self.write("a", THREE_2)
        lines = (
            b"1700000000000,7,0,0,1500,0,1,settled,alpha,green\n"
            b"1700000000100,7,0,1,1000,0,1,settled,alpha,yellow\n"
            b"1700000000200,7,0,2,800,0,1,settled,alpha,red\n"
        )
        self.write("old", THREE_1)
        for name in ("a", "old"):
            self.assert_done(self.run_tool("list", "--plan", "plan", name), HEADER + lines)
        without = lines.replace(b"alpha,green", b",").replace(b"alpha,yellow", b",").replace(b"alpha,red", b",")
        self.assert_done(self.run_tool("list", "a"), HEADER + without)

    def test_disputed_reports(self):
        self.write("plan", PLAN.toml())
        self.write("a", THREE_2)
        other = (TIME + 60, 7, 0, 3, 601, 0, 1)
        self.write("b", export([LATE, other]))
        lines = (
            b"1700000000000,7,0,0,1500,0,1,settled,alpha,green\n"
            b"1700000000050,7,0,3,600,0,1,disputed,,\n"
            b"1700000000060,7,0,3,601,0,1,disputed,,\n"
            b"1700000000100,7,0,1,1000,0,1,settled,alpha,yellow\n"
            b"1700000000200,7,0,2,800,0,1,settled,alpha,red\n"
        )
        self.assert_done(self.run_tool("list", "b", "a", "--plan=plan"), HEADER + lines)

    def test_reports_of_no_account(self):
        self.write("plan", PLAN.toml())
        other = (TIME, 7, 0, 9, 100, 0, 2)
        self.write("a", export([FIRST, other]))
        lines = line(FIRST, "settled", "alpha", "green") + line(other, "settled")
        self.assert_done(self.run_tool("list", "--plan", "plan", "a"), HEADER + lines.encode())

    def test_no_reports(self):
        self.write("a", export([]))
        self.assert_done(self.run_tool("list", "a"), HEADER)

    def test_any_sets(self):
        numbers = random.Random(10)
        coloured = 0
        for turn in range(60):
            plan = (PLAN, TERMED, None)[turn % 3]
            if plan:
                self.write("plan", plan.toml())
            union = set()
            for name in ("a", "b"):
                side = {(TIME + numbers.randrange(300), 7, numbers.randrange(2), numbers.randrange(9), numbers.randrange(1, 1200), 0, numbers.choice((1, 1, 1, 2)))
                        for _ in range(numbers.randrange(20))}
                self.write(name, export(side))
                union |= side
            lines = lines_of(plan, union)
            coloured += lines.count(b"yellow") + lines.count(b"red")
            words = ("--plan", "plan") if plan else ()
            self.assert_done(self.run_tool("list", *words, "a", "b"), HEADER + lines)
        self.assertGreater(coloured, 50)

    def test_any_plans(self):
        """Several accounts and all meters, code points, sessions, and inputs that come twice."""
        accounts, marked = set(), 0
        for case in range(100):
            with self.subTest(case=case):
                draw = random.Random(2000 + case)
                words, reports = some_inputs(self, draw)
                plan = some_plan(draw, [report[0] for report in reports] or [TIME])
                self.write("plan", plan.toml())
                lines = lines_of(plan, reports)
                self.assert_done(self.run_tool("list", "--plan", "plan", *words), HEADER + lines)
                accounts |= {text.split(b",")[8] for text in lines.splitlines()}
                marked += sum(report[5] > 0 for report in reports)
        self.assertEqual(accounts, {b"", b"account-0", b"account-1", b"account-2"})
        self.assertGreater(marked, 1000)

    def test_items_add_up_to_the_statement(self):
        numbers = random.Random(11)
        self.write("plan", TERMED.toml())
        rows = {(TIME + numbers.randrange(4000), 7, 0, numbers.randrange(300), numbers.randrange(1, 900), 0, 1) for _ in range(300)}
        self.write("a", export(rows))
        run = self.run_tool("list", "--plan", "plan", "a")
        self.assertEqual(run.status, 0)
        sums = dict.fromkeys(COLOURS, (0, 0))
        for fields in (text.split(",") for text in run.out.decode().splitlines()[1:]):
            if fields[9]:
                octets, packets = sums[fields[9]]
                sums[fields[9]] = (octets + int(fields[4]), packets + 1)
        total = " ".join(f"{octets} {packets}" for octets, packets in sums.values())
        statement = self.run_program("bill", "plan", "a").out.decode()
        self.assertIn(f"\ntotal {total}\n", statement)
        self.assertNotIn("total 0 0", statement)

    def test_many_lines(self):
        rows = [(TIME + n, 7, 0, n, 1000 + n % 7, 0, 2) for n in range(20_000)]
        self.write("a", export(rows))
        self.assert_done(self.run_tool("list", "a"), HEADER + "".join(line(row, "settled") for row in rows).encode())

    def test_a_plan_is_a_path(self):
        self.write("1@plan", PLAN.toml())
        self.write("x", PLAN.toml())
        self.write("a", export([FIRST]))
        self.assert_done(self.run_tool("list", "--plan", "1@plan", "a"), HEADER + line(FIRST, "settled", "alpha", "green").encode())
        self.assert_tool_refused(self.run_tool("list", "--plan", "1@x", "a"), "1@x", "read", 1)

    def test_a_capture_in_a_session(self):
        """What a capture holds beside reports isn't told."""
        self.write("n", noted(2))
        report = (TIME + 2, 7, 3, 250, 60, 0, 1)
        self.assert_done(self.run_tool("list", "3@n"), HEADER + line(report, "settled").encode())

    def test_many_inputs(self):
        rows = [(TIME + n, 7, 0, n, 100 + n, 0, n) for n in range(300)]
        names = [self.write(f"n{n}", export([row])) for n, row in enumerate(rows)]
        self.write("plan", PLAN.toml())
        self.assert_done(self.run_tool("list", *names), HEADER + lines_of(None, rows))
        self.assert_done(self.run_tool("list", "--plan", "plan", *names), HEADER + lines_of(PLAN, rows))

    def test_refusals(self):
        self.write("plan", PLAN.toml())
        self.write("wrong", b"period = 0\n")
        self.write("a", export(THREE))
        self.write("cut", THREE_2[:96])
        self.assert_tool_refused(self.run_tool("list", "--plan", "wrong", "cut"), "wrong", "plan", 3)
        self.assert_tool_refused(self.run_tool("list", "--plan", "wrong", "missing"), "missing", "read", 1)
        self.assert_tool_refused(self.run_tool("list", "--plan", "absent", "missing"), "absent", "read", 1)
        self.assert_tool_refused(self.run_tool("list", "--plan", "plan", "a", "missing"), "missing", "read", 1)
        self.assert_tool_refused(self.run_tool("list", "--plan", "plan", "a", "cut"), "cut", "export", 4)
        self.assert_tool_refused(self.run_tool("list", "cut"), "cut", "export", 4)
        with open("/dev/full", "wb") as full:
            run = self.run_program("list", "a", program=TOOL, stdout=full)
        self.assertEqual((run.status, run.err), (1, b"tcatool: list: write 1\n"))
