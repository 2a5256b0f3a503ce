"""What the second program makes of statements, over real files: tables, JSON, pages and sums."""
import datetime
import json
import xml.dom.minidom
from pathlib import Path

from program import TOOL
from rows import EMPTY, OBJECT, STATEMENT
from test_tool import ToolTest

HERE = Path(__file__).resolve().parent
HEADER = b"account,span,start,green_octets,green_packets,yellow_octets,yellow_packets,red_octets,red_packets\n"

# Two accounts, one without packets, and periods of a quarter of a second, the last one behind the year 9999.
WIDE = b"""tcacct statement 1
period 250
reports 4
disputed 0
unassigned 0
account a-1_Z
total 0 0 0 0 0 0
account beta
total 30 1 20 1 100 2
span 0 30 1 0 0 0 0
span 6800000003 0 0 20 1 0 0
span 1013609203200 0 0 0 0 100 2
end
"""


def start_of(index, period):
    """The first moment of a period, after Python's calendar; None behind its last year, 9999."""
    try:
        moment = datetime.datetime(1970, 1, 1) + datetime.timedelta(milliseconds=index * period)
    except OverflowError:
        return None
    fraction = f".{moment.microsecond:06}".rstrip("0") if moment.microsecond else ""
    return f"{moment:%Y-%m-%dT%H:%M:%S}{fraction}Z"


def read(statement):
    """A statement as Python's values."""
    lines = statement.decode().splitlines()
    counts = {word: int(number) for word, number in (text.split() for text in lines[1:5])}
    accounts = []
    for word, *fields in (text.split() for text in lines[5:-1]):
        if word == "account":
            accounts.append({"name": fields[0], "spans": []})
            continue
        numbers = [int(field) for field in fields]
        g, y, r = (dict(octets=numbers[n], packets=numbers[n + 1]) for n in (len(numbers) - 6, len(numbers) - 4, len(numbers) - 2))
        sums = {"green": g, "red": r, "yellow": y}
        if word == "total":
            accounts[-1]["total"] = sums
        else:
            accounts[-1]["spans"].append({**sums, "index": numbers[0], "start": start_of(numbers[0], counts["period"])})
    return {**counts, "format": 1, "accounts": accounts}


def table_of(statement):
    lines = [HEADER.decode()]
    for account in read(statement)["accounts"]:
        for sums in ({"index": "", "start": "", **account["total"]}, *account["spans"]):
            numbers = [sums[colour][what] for colour in ("green", "yellow", "red") for what in ("octets", "packets")]
            lines.append(",".join(map(str, (account["name"], sums["index"], sums["start"] or "", *numbers))) + "\n")
    return "".join(lines).encode()


class Tables(ToolTest):
    def test_one_account(self):
        self.write("s", STATEMENT)
        lines = b"alpha,,,1500,1,1000,1,800,1\nalpha,472222,2023-11-14T22:00:00Z,1500,1,1000,1,800,1\n"
        self.assert_done(self.run_tool("table", "s"), HEADER + lines)

    def test_moments(self):
        self.write("s", WIDE)
        self.assertEqual(start_of(6_800_000_003, 250), "2023-11-14T22:13:20.75Z")
        self.assert_done(self.run_tool("table", "s"), table_of(WIDE))


class Objects(ToolTest):
    def test_one_account(self):
        self.write("s", STATEMENT)
        run = self.run_tool("json", "s")
        self.assertEqual((run.status, run.err), (0, b""))
        self.assertEqual(json.loads(run.out), read(STATEMENT))
        self.assertEqual(run.out, OBJECT)

    def test_moments(self):
        self.write("s", WIDE)
        run = self.run_tool("json", "s")
        self.assertEqual(json.loads(run.out), read(WIDE))
        self.assertIn(b'"start":null', run.out)
        self.assertEqual(run.out, json.dumps(read(WIDE), separators=(",", ":"), sort_keys=True).encode() + b"\n")


class Sums(ToolTest):
    def test_with_one_of_no_reports(self):
        self.write("s", STATEMENT)
        self.write("none", EMPTY)
        self.assert_done(self.run_tool("add", "s", "none"), STATEMENT)
        self.assert_done(self.run_tool("add", "none", "s", "none"), STATEMENT)
        self.assert_done(self.run_tool("add", "s"), STATEMENT)

    def test_sums_and_periods(self):
        later = STATEMENT.replace(b"span 472222", b"span 472221")
        self.write("s", STATEMENT)
        self.write("later", later)
        total = b"total 4500 3 3000 3 2400 3\nspan 472221 1500 1 1000 1 800 1\nspan 472222 3000 2 2000 2 1600 2\n"
        both = STATEMENT.replace(b"reports 3", b"reports 9").replace(b"total 1500 1 1000 1 800 1\nspan 472222 1500 1 1000 1 800 1\n", total)
        self.assert_done(self.run_tool("add", "s", "later", "s"), both)

    def test_many_statements(self):
        """Faults name those far behind."""
        names = [self.write(f"s{n}", STATEMENT) for n in range(300)]
        whole = STATEMENT.replace(b"reports 3", b"reports 900").replace(b"1500 1 1000 1 800 1", b"450000 300 300000 300 240000 300")
        self.assert_done(self.run_tool("add", *names), whole)
        self.write("cut", STATEMENT[:-1])
        self.assert_tool_refused(self.run_tool("add", *names, "cut"), "cut", "statement", 1)
        self.assert_tool_refused(self.run_tool("add", *names, "missing"), "missing", "read", 1)

    def test_refusals(self):
        self.write("s", STATEMENT)
        self.write("period", STATEMENT.replace(b"period 3600000", b"period 3600001"))
        self.write("name", STATEMENT.replace(b"account alpha", b"account beta"))
        self.write("behind", STATEMENT.replace(b"end\n", b"account beta\ntotal 0 0 0 0 0 0\nend\n"))
        self.write("cut", STATEMENT[:-1])
        most = str(2**64 - 1).encode()
        self.write("most", STATEMENT.replace(b"1500 1", most + b" 1"))
        self.assert_tool_refused(self.run_tool("add", "s", "period", "cut"), "period", "statement", 3)
        self.assert_tool_refused(self.run_tool("add", "s", "name"), "name", "statement", 3)
        self.assert_tool_refused(self.run_tool("add", "s", "behind"), "behind", "statement", 3)
        self.assert_tool_refused(self.run_tool("add", "behind", "s"), "s", "statement", 3)
        self.assert_tool_refused(self.run_tool("add", "s", "cut", "period"), "cut", "statement", 1)
        self.assert_tool_refused(self.run_tool("add", "s", "most", "cut"), "most", "statement", 4)
        self.assert_tool_refused(self.run_tool("add", "s", "missing"), "missing", "read", 1)
        self.assert_tool_refused(self.run_tool("add", "absent", "missing"), "absent", "read", 1)
        self.assert_tool_refused(self.run_tool("add", "cut", "missing"), "missing", "read", 1)
        self.assert_done(self.run_tool("add", "most"), STATEMENT.replace(b"1500 1", most + b" 1"))


class Statements(ToolTest):
    """What each command that reads one statement refuses."""

    def test_wrong_statements(self):
        rows = (
            (STATEMENT.replace(b"total 1500", b"total 1501"), 2),
            (STATEMENT[:-1], 1),
            (b"", 1),
            (STATEMENT + b"\n", 1),
            (STATEMENT.replace(b"1500", b"01500"), 1),
            (STATEMENT.replace(b"period 3600000", b"period 0"), 1),
            (STATEMENT.replace(b"800 1", b"800 0"), 1),
            (WIDE.replace(b"span 6800000003", b"span 0"), 1),
            (EMPTY.replace(b"alpha", b"a" * 33), 1),
            (EMPTY.replace(b"alpha", b""), 1),
            (STATEMENT.replace(b"end\n", b""), 1),
            (STATEMENT.replace(b"end\n", b"end \n"), 1),
            # A line that may not stand there is told before the wrong total of the account in front of it.
            (STATEMENT.replace(b"total 1500", b"total 1501").replace(b"end\n", b"account alpha\ntotal 0 0 0 0 0 0\nend\n"), 1),
        )
        for text, number in rows:
            self.write("s", text)
            for command in ("table", "json"):
                self.assert_tool_refused(self.run_tool(command, "s"), "s", "statement", number)
            self.assert_tool_refused(self.run_tool("page", "out", "s"), "s", "statement", number)
            self.assertEqual(self.read("out"), b"")

    def test_words_are_paths(self):
        """No word of these commands has a session."""
        self.write("1@s", STATEMENT)
        self.write("x", STATEMENT)
        self.assert_done(self.run_tool("add", "1@s"), STATEMENT)
        for command in ("table", "json"):
            self.assertEqual(self.run_tool(command, "1@s").status, 0)
            self.assert_tool_refused(self.run_tool(command, "1@x"), "1@x", "read", 1)
        self.assert_tool_refused(self.run_tool("add", "x", "1@x"), "1@x", "read", 1)
        self.assert_done(self.run_tool("page", "2@out", "1@s"), b"")
        self.assertTrue(self.has("2@out"))
        self.assertFalse(self.has("out"))
        self.assert_tool_refused(self.run_tool("page", "out", "1@x"), "1@x", "read", 1)

    def test_files(self):
        self.write("s", STATEMENT)
        for words in (("table", "missing"), ("json", "missing"), ("page", "out", "missing")):
            self.assert_tool_refused(self.run_tool(*words), "missing", "read", 1)
        self.assertFalse(self.has("out"))
        self.assert_tool_refused(self.run_tool("page", "missing/out", "s"), "page", "write", 1)
        for command in ("table", "json", "add"):
            with open("/dev/full", "wb") as full:
                run = self.run_program(command, "s", program=TOOL, stdout=full)
            self.assertEqual((run.status, run.err), (1, f"tcatool: {command}: write 1\n".encode()))
        self.assert_tool_refused(self.run_tool("page", "/dev/full", "s"), "page", "write", 1)

    def test_out_that_is_the_statement(self):
        self.write("s", STATEMENT)
        self.assert_done(self.run_tool("page", "s", "s"), b"")
        self.assertEqual(self.read("s"), (HERE / "page.html").read_bytes())


class Pages(ToolTest):
    def page(self, statement):
        self.write("s", statement)
        self.assert_done(self.run_tool("page", "out.html", "s"), b"")
        return self.read("out.html").decode()

    def test_needs_nothing_else(self):
        for statement in (STATEMENT, EMPTY, WIDE):
            text = self.page(statement)
            for word in ("<script", "http:", "https:", "url(h", "@import", "<link", "<img", "src="):
                self.assertNotIn(word, text.replace("http://www.w3.org/2000/svg", ""))

    def test_is_well_formed(self):
        for statement in (STATEMENT, EMPTY, WIDE):
            text = self.page(statement)
            self.assertTrue(text.lower().startswith("<!doctype html>"))
            body = text[text.index("<html"):]
            document = xml.dom.minidom.parseString(body)
            names = [element.getAttribute("name") for element in document.getElementsByTagName("meta")]
            self.assertIn("viewport", names)

    def test_has_each_account(self):
        text = self.page(WIDE)
        for word in ("a-1_Z", "beta"):
            self.assertIn(word, text)
        self.assertIn("<svg", text)
        # Of the account without packets.
        self.assertEqual(text.count("<p>No period has a packet.</p>"), 1)
