"""What the second program makes of any statement, after Python's own CSV, JSON and calendar, and each octet of a page."""
import csv
import io
import json
import random
import re
from datetime import datetime, timedelta, timezone
from decimal import Decimal
from pathlib import Path
from xml.etree import ElementTree

from test_tool import ToolTest

HERE = Path(__file__).resolve().parent
COLOURS = ("green", "yellow", "red")
HEADER = "account,span,start,green_octets,green_packets,yellow_octets,yellow_packets,red_octets,red_packets".split(",")
ROW = [("alpha", [(472222, (1500, 1, 1000, 1, 800, 1))])]
ONE = ROW[0][1][0][1]
UNITS = {unit: 1024**n for n, unit in enumerate(("octets", "KiB", "MiB", "GiB", "TiB", "PiB", "EiB"))}
# The last second for which a moment is shown.
LAST = 253_402_207_200


def total(spans):
    return tuple(sum(sums[k] for _, sums in spans) for k in range(6))


def statement(period, accounts, reports=3, disputed=0, unassigned=0):
    lines = ["tcacct statement 1", f"period {period}", f"reports {reports}", f"disputed {disputed}", f"unassigned {unassigned}"]
    for name, spans in accounts:
        lines += [f"account {name}", "total " + " ".join(map(str, total(spans)))]
        lines += [f"span {index} " + " ".join(map(str, sums)) for index, sums in spans]
    return "\n".join(lines + ["end", ""]).encode()


def moment(milliseconds):
    """The moment as RFC 3339 has it, by Python's calendar; none past the last second that is shown."""
    if milliseconds // 1000 > LAST:
        return None
    when = datetime(1970, 1, 1, tzinfo=timezone.utc) + timedelta(milliseconds=milliseconds)
    fraction = f".{milliseconds % 1000:03}".rstrip("0") if milliseconds % 1000 else ""
    return when.strftime("%Y-%m-%dT%H:%M:%S") + fraction + "Z"


def table(period, accounts):
    rows = [HEADER]
    for name, spans in accounts:
        rows.append([name, "", "", *total(spans)])
        rows += [[name, index, moment(index * period) or "", *sums] for index, sums in spans]
    text = io.StringIO()
    csv.writer(text, lineterminator="\n").writerows(rows)
    return text.getvalue().encode()


def colours(sums):
    return {colour: {"octets": sums[2 * k], "packets": sums[2 * k + 1]} for k, colour in enumerate(COLOURS)}


def as_json(period, accounts, reports=3, disputed=0, unassigned=0):
    listed = [{"name": name, "total": colours(total(spans)),
               "spans": [{"index": index, "start": moment(index * period), **colours(sums)} for index, sums in spans]}
              for name, spans in accounts]
    whole = {"format": 1, "period": period, "reports": reports, "disputed": disputed, "unassigned": unassigned, "accounts": listed}
    return json.dumps(whole, sort_keys=True, separators=(",", ":")).encode() + b"\n"


def grouped(number):
    """Digits in threes, a narrow space between."""
    return f"{number:,}".replace(",", "\u202f")


def any_accounts(numbers, most):
    accounts = []
    for place in range(numbers.randrange(1, 5)):
        indexes = sorted(numbers.sample(range(most + 1), min(numbers.randrange(6), most + 1)))
        accounts.append((f"account_{place}", [(index, any_sums(numbers)) for index in indexes]))
    return accounts


def any_sums(numbers):
    sums = []
    for colour in range(3):
        packets = numbers.choice([0, numbers.randrange(1, 10 ** numbers.randrange(1, 13))]) if colour else numbers.randrange(1, 9)
        sums += [packets * numbers.randrange(1, 65_576), packets]
    return tuple(sums)


class AnyStatements(ToolTest):
    def assert_tells(self, octets, command, expected):
        self.write("statement", octets)
        run = self.run_tool(command, "statement")
        self.assertEqual((run.status, run.out, run.err), (0, expected, b""))

    def test_any_statement(self):
        numbers = random.Random(11)
        for _ in range(60):
            period = numbers.choice([1, 7, 250, 1000, 3_600_000, 86_400_000, numbers.randrange(1, 2**48)])
            accounts = any_accounts(numbers, (2**48 - 1) // period)
            octets = statement(period, accounts, 2**64 - 1, 5, 6)
            self.assert_tells(octets, "table", table(period, accounts))
            self.assert_tells(octets, "json", as_json(period, accounts, 2**64 - 1, 5, 6))

    def test_moments(self):
        starts = [0, 1, 10, 100, 999, 1000, 951_782_399_999, 951_782_400_000, 1_709_164_800_000, 4_107_542_400_000,
                  LAST * 1000 + 999, (LAST + 1) * 1000, 2**48 - 1]
        accounts = [("alpha", [(start, ONE) for start in starts])]
        octets = statement(1, accounts)
        self.assert_tells(octets, "table", table(1, accounts))
        self.assert_tells(octets, "json", as_json(1, accounts))

    def test_most_accounts_of_the_longest_names(self):
        accounts = [(f"account_{n:024}", [(n, ONE)]) for n in range(256)]
        octets = statement(3_600_000, accounts)
        self.assert_tells(octets, "table", table(3_600_000, accounts))
        self.assert_tells(octets, "json", as_json(3_600_000, accounts))
        self.assert_tells(octets, "add", octets)
        twice = [(name, [(index, tuple(2 * number for number in sums)) for index, sums in spans]) for name, spans in accounts]
        run = self.run_tool("add", "statement", "statement")
        self.assert_done(run, statement(3_600_000, twice, reports=6))
        self.write("more", statement(3_600_000, accounts + [("more", [])]))
        self.assert_tool_refused(self.run_tool("add", "more"), "more", "statement", 1)

    def test_a_month_of_hours(self):
        numbers = random.Random(23)
        accounts = [(f"account_{n}", [(index, any_sums(numbers)) for index in range(744)]) for n in range(3)]
        octets = statement(3_600_000, accounts)
        self.assert_tells(octets, "table", table(3_600_000, accounts))
        self.assert_tells(octets, "json", as_json(3_600_000, accounts))
        twice = [(name, [(index, tuple(2 * number for number in sums)) for index, sums in spans]) for name, spans in accounts]
        self.assert_done(self.run_tool("add", "statement", "statement"), statement(3_600_000, twice, reports=6))

    def test_the_longest_period(self):
        accounts = [("alpha", [(0, ONE), (1, ONE)])]
        octets = statement(2**48 - 1, accounts)
        self.assert_tells(octets, "table", table(2**48 - 1, accounts))
        self.assert_tells(octets, "add", octets)
        for period, index in ((2**48, 0), (2**48 - 1, 2), (3_600_000, 2**64 - 1)):
            self.write("statement", statement(period, [("alpha", [(index, ONE)])]))
            self.assert_tool_refused(self.run_tool("table", "statement"), "statement", "statement", 1)


class WholePages(ToolTest):
    def page_of(self, octets):
        self.write("statement", octets)
        run = self.run_tool("page", "out.html", "statement")
        self.assertEqual((run.status, run.out, run.err), (0, b"", b""))
        return self.read("out.html")

    def tree_of(self, octets):
        text = self.page_of(octets).decode()
        for word in ("<script", "http:", "https:", "@import", "@font-face", "src=", "href="):
            self.assertNotIn(word, text)
        return ElementTree.fromstring(text)

    def test_one_row(self):
        self.assertEqual(self.page_of(statement(3_600_000, ROW)), (HERE / "page.html").read_bytes())

    def test_counts(self):
        most = 2**64 - 1
        for counts in ((250, most, 5, 6), (2**48 - 1, most, most - 1, most - 2)):
            period, *others = counts
            rows = self.tree_of(statement(period, [("alpha", [(0, ONE)])], *others)).findall(".//div[@class='counts wide']/table/tbody/tr")
            told = [(row.find("th").text, row.find("td").text.replace("\u00a0", " ").replace("\u202f", " ")) for row in rows]
            texts = [f"{number:,}".replace(",", " ") for number in counts]
            names = ("Length of a period", "Reports", "Disputed identities", "Reports of no account")
            self.assertEqual(told, list(zip(names, [texts[0] + " ms", *texts[1:]], strict=True)))

    def test_most_accounts_of_the_longest_names(self):
        """The last one has no packets."""
        accounts = [(f"account_{n:024}", [(n, ONE)] if n < 255 else []) for n in range(256)]
        sections = self.tree_of(statement(3_600_000, accounts)).findall(".//section")
        for section, (name, spans) in zip(sections, accounts, strict=True):
            whole = total(spans)
            cells = [re.sub(r"\D", "", cell.text) for cell in section.findall(".//tbody/tr/td")]
            self.assertEqual((section.find("h2").text, cells), (name, [str(number) for number in (*whole, sum(whole[::2]), sum(whole[1::2]))]))
            labels = [picture.get("aria-label") for picture in section.findall("figure/svg")]
            self.assertEqual(labels, [f"Octets of {name} in each period"] if spans else [])

    def test_moments_below_the_bars(self):
        """The first period's, the middle one's and the last one's."""
        for count, shown in ((1, [0]), (2, [0, 1]), (3, [0, 1, 2]), (9, [0, 4, 8])):
            section = self.tree_of(statement(86_400_000, [("alpha", [(7 * n, ONE) for n in range(count)])])).find(".//section")
            texts = [text.text for text in section.findall("figure/svg/text") if text.get("class") != "end"]
            days = ["T".join(texts[n : n + 2]) for n in range(0, len(texts), 2)]
            self.assertEqual(days, [moment(7 * n * 86_400_000) for n in shown])

    def test_a_bar_for_each_period(self):
        numbers = random.Random(12)
        accounts = any_accounts(numbers, 1000)
        sections = self.tree_of(statement(86_400_000, accounts)).findall(".//section")
        self.assertEqual([section.find("h2").text for section in sections], [name for name, _ in accounts])
        for section, (_, spans) in zip(sections, accounts):
            cells = [re.sub(r"\D", "", cell.text) for cell in section.findall(".//tbody/tr/td")]
            whole = total(spans)
            self.assertEqual(cells[:8], [str(number) for number in (*whole, sum(whole[::2]), sum(whole[1::2]))])
            titles = [bar.find("title").text for bar in section.findall(".//figure/svg/g")]
            self.assertEqual(len(titles), len(spans))
            for title, (index, sums) in zip(titles, spans):
                start, *lines = title.split("\n")
                self.assertEqual(start, moment(index * 86_400_000))
                self.assertEqual([int(n) for line in lines for n in re.findall(r"\d+", line.replace("\u202f", ""))], list(sums))

    def test_moments_within_a_second(self):
        """Of four quarters of a second and of the last three, by the title and below the bar."""
        quarters = ["22:13:20Z", "22:13:20.25Z", "22:13:20.5Z", "22:13:20.75Z"]
        accounts = [("four", [(6_800_000_000 + n, ONE) for n in range(4)]), ("three", [(6_800_000_001 + n, ONE) for n in range(3)])]
        sections = self.tree_of(statement(250, accounts)).findall(".//section")
        for section, times in zip(sections, (quarters, quarters[1:]), strict=True):
            titles = [title.text.split("\n")[0] for title in section.findall("figure/svg/g/title")]
            self.assertEqual(titles, ["2023-11-14T" + time for time in times])
            texts = [text.text for text in section.findall("figure/svg/text") if text.get("class") == "middle"]
            self.assertEqual(texts[::2], ["2023-11-14"] * 3)
            self.assertEqual(texts[1::2], [times[0], times[len(times) // 2], times[-1]])

    def test_bars_stand_one_above_the_other(self):
        """And side by side, more of them than the picture has units too."""
        for count in (700, 8760):
            accounts = [("alpha", [(n, any_sums(random.Random(n))) for n in range(count)])]
            bars = self.tree_of(statement(3_600_000, accounts)).findall(".//figure/svg/g")
            self.assertEqual(len(bars), count)
            right = 640
            for bar in bars:
                right = self.assert_stacked(bar, right)
            self.assertEqual(right, 3540)

    def assert_stacked(self, bar, begin):
        """The bar's pieces stand in its column, which has room from `begin` on, one above the other. Gives where the column ends."""
        (left, right, top, floor), *pieces = [self.edges(piece) for piece in bar.findall("rect")]
        self.assertGreaterEqual(left, begin)
        self.assertGreater(right, left)
        for begins, ends, high, low in pieces:
            self.assertTrue(left <= begins < ends <= right)
            self.assertEqual(low, floor)
            floor = high
        self.assertGreaterEqual(floor, top)
        return right

    def edges(self, piece):
        """Where a rectangle begins and ends, from left to right and from above."""
        x, y, width, height = (Decimal(piece.get(key)) for key in ("x", "y", "width", "height"))
        return x, x + width, y, y + height

    def test_bars_share_one_axis(self):
        """Each bar stands in its own column, its pieces as high as their octets by the axis, and moments below the bars that they are of."""
        numbers = random.Random(13)
        spans = [(n, [number for _ in COLOURS for number in numbers.choice([(0, 0), (numbers.randrange(1, 10**6), 1)])]) for n in range(90)]
        spans = [span for span in spans if any(span[1])]
        picture = self.tree_of(statement(3_600_000, [("alpha", spans)])).find(".//figure/svg")
        number, unit = [text.text.split() for text in picture.findall("text") if text.get("class") == "end"][-1]
        full = int(number) * UNITS[unit]
        bars = [bar.findall("rect") for bar in picture.findall("g")]
        for (column, *pieces), (_, sums) in zip(bars, spans, strict=True):
            left, right, top, floor = self.edges(column)
            height = int(floor - top)
            tops = [sum(sums[: 2 * n : 2]) * height // full for n in range(4)]
            wanted = [(colour, top - low) for colour, low, top in zip(COLOURS, tops, tops[1:]) if top > low]
            self.assertEqual([(piece.get("class"), int(piece.get("height"))) for piece in pieces], wanted)
            for begins, ends, _, _ in map(self.edges, pieces):
                self.assertTrue(left <= begins < ends <= right)
        marks = [re.match(r"M([\d.]+) \d+V", path.get("d")) for path in picture.findall("path")]
        middles = [Decimal(mark[1]) for mark in marks if mark]
        for middle, place in zip(middles, (0, len(bars) // 2, len(bars) - 1), strict=True):
            left, right, _, _ = self.edges(bars[place][0])
            self.assertAlmostEqual(middle, (left + right) / 2, delta=0.01)
        # A label has 340 of the picture's 3600 units on either side of its middle.
        for text in picture.findall("text"):
            if text.get("class") == "middle":
                self.assertTrue(340 <= Decimal(text.get("x")) <= 3260)

    def test_gaps_and_times(self):
        """A bar has five sixths of its room, at most 400 units, and a time stands below the middle of its bar, where the picture has room."""
        for count in (1, 2, 3, 7, 9, 90):
            picture = self.tree_of(statement(3_600_000, [("alpha", [(n, ONE) for n in range(count)])])).find(".//figure/svg")
            for column, *pieces in (bar.findall("rect") for bar in picture.findall("g")):
                left, right, _, _ = self.edges(column)
                for begins, ends, _, _ in map(self.edges, pieces):
                    self.assertAlmostEqual(ends - begins, min((right - left) * 5 / 6, 400), delta=Decimal("0.00001"))
            marks = [re.match(r"M([\d.]+) \d+V", path.get("d")) for path in picture.findall("path")]
            middles = [Decimal(mark[1]) for mark in marks if mark]
            self.assertEqual(len(middles), min(count, 3))
            # A time is two lines of text: the day, and the time of the day.
            times = [Decimal(text.get("x")) for text in picture.findall("text") if text.get("class") == "middle"]
            self.assertEqual(times, [min(middle, 3260) for middle in middles for _ in range(2)])

    def test_highest_bars(self):
        """The axis reaches the highest bar, and at most 2.1 times as far; the picture says whose it is."""
        numbers = random.Random(19)
        accounts = [(f"account_{n}", [(0, (int(2 ** numbers.uniform(3, 62)), 1, 0, 0, 0, 0))]) for n in range(200)]
        sections = self.tree_of(statement(3_600_000, accounts)).findall(".//section")
        for section, (name, [(_, (octets, *_))]) in zip(sections, accounts, strict=True):
            picture = section.find("figure/svg")
            number, unit = [text.text.split() for text in picture.findall("text") if text.get("class") == "end"][-1]
            self.assertTrue(octets <= int(number) * UNITS[unit] <= 2.1 * octets, (name, octets))
            self.assertEqual(picture.get("aria-label"), f"Octets of {name} in each period")

    def test_units(self):
        """Of each unit one, one and a half, and three quarters, which are told in the unit below; of the least one these are octets."""
        wholes = list(UNITS.items())
        accounts = [(unit, [(0, (octets, 1, octets * 3 // 2, 1, octets * 3 // 4, 1))]) for unit, octets in wholes[1:]]
        sections = self.tree_of(statement(3_600_000, accounts)).findall(".//section")
        for n, (section, (_, [(_, sums)])) in enumerate(zip(sections, accounts, strict=True)):
            unit, below = wholes[n + 1][0], wholes[n][0]
            texts = ["1.00 " + unit, "1.50 " + unit, "768.00 " + below, "3.25 " + unit]
            found = [small.text.replace("\u00a0", " ") for small in section.findall(".//tbody/tr/td/small")]
            self.assertEqual(found, texts if n else texts[:2] + texts[3:])
            self.assert_scaled(section, sums)

    def test_axes(self):
        """Of few octets, and where four steps are just as high as the bar."""
        for sums, last in (((600, 1, 700, 1, 500, 1), "2000 octets"), ((4096, 1), "4 KiB"), ((4097, 1), "8 KiB")):
            sums = (*sums, 0, 0, 0, 0)[:6]
            section = self.tree_of(statement(3_600_000, [("alpha", [(0, sums)])])).find(".//section")
            self.assert_scaled(section, sums)
            texts = [text.text for text in section.findall("figure/svg/text") if text.get("class") == "end"]
            self.assertEqual(texts[-1], last)

    def test_sizes_are_cut_off(self):
        sums = (1535, 1, 1_043_400, 1, 2**60 - 1, 1)
        section = self.tree_of(statement(3_600_000, [("alpha", [(0, sums)])])).find(".//section")
        found = [small.text.replace("\u00a0", " ") for small in section.findall(".//tbody/tr/td/small")]
        self.assertEqual(found, ["1.49 KiB", "1018.94 KiB", "1023.99 PiB", "1.00 EiB"])

    def test_borders_of_numbers(self):
        """Digits stand in groups of three from 1,000 on, and octets in a larger unit from 1,024 on."""
        numbers = [1023, 1024, *(10**n - less for n in range(1, 20) for less in (1, 0))]
        accounts = [(f"account_{n}", [(0, (number, 1, 0, 0, 0, 0))]) for n, number in enumerate(numbers)]
        sections = self.tree_of(statement(3_600_000, accounts)).findall(".//section")
        for section, number in zip(sections, numbers, strict=True):
            cell = section.find(".//tbody/tr/td")
            self.assertEqual((cell.text, cell.find("small") is None), (grouped(number), number < 1024))

    def test_the_greatest_sums(self):
        """Each sum may have 64 bits, so what several colours have together may have more."""
        most = 2**64 - 1
        for sums, sizes in (((most, most, most, most, 0, 0), ["15.99", "15.99", "31.99"]), ((most,) * 6, ["15.99", "15.99", "15.99", "47.99"])):
            section = self.tree_of(statement(3_600_000, [("alpha", [(0, sums)])])).find(".//section")
            cells = [cell.text for cell in section.findall(".//tbody/tr/td")]
            self.assertEqual(cells, [grouped(number) for number in (*sums, sum(sums[::2]), sum(sums[1::2]))])
            found = [small.text for small in section.findall(".//tbody/tr/td/small")]
            self.assertEqual(found, [size + "\u00a0EiB" for size in sizes])
            lines = section.find("figure/svg/g/title").text.split("\n")[1:]
            wanted = zip(COLOURS, sums[::2], sums[1::2])
            self.assertEqual(lines, [f"{colour} {grouped(octets)} octets, {grouped(packets)} packets" for colour, octets, packets in wanted])
            self.assert_scaled(section, sums)

    def test_a_period_behind_the_last_moment(self):
        """It has its index in a moment's place."""
        picture = self.tree_of(statement(1, [("alpha", [(2**48 - 1, ONE)])])).find(".//figure/svg")
        self.assertEqual(picture.find("g/title").text.split("\n")[0], "period 281474976710655")
        texts = [text.text for text in picture.findall("text") if text.get("class") != "end"]
        self.assertEqual(texts, ["period", "281474976710655"])

    def assert_scaled(self, section, sums):
        """The words of the axis ascend in equal steps, reach all octets of the one bar, and fit the heights of its pieces."""
        picture = section.find("figure/svg")
        words = [text.text.split() for text in picture.findall("text") if text.get("class") == "end"]
        steps = [int(number) * UNITS[unit] for number, unit in words]
        self.assertEqual(steps, [n * steps[1] for n in range(len(steps))])
        self.assertGreaterEqual(steps[-1], sums[0] + sums[2] + sums[4])
        column, *pieces = picture.findall("g/rect")
        for piece, octets in zip(pieces, filter(None, sums[::2]), strict=True):
            self.assertAlmostEqual(int(piece.get("height")), octets * int(column.get("height")) / steps[-1], delta=1)
