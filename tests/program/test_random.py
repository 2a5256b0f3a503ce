"""Random inputs and plans: the program beside the plain model, in sessions, with terms, late, repeated and disputed."""
import random

from model import GREEN, RED, YELLOW, Account, Meter, Plan, capture, export, meter_lines, statement
from program import ProgramTest
from rows import TIME

CASES = 150


def some_meter(draw):
    kind = draw.choice((2697, 2698, 4115))
    # Rates that don't divide a second, so that fractions of tokens tell.
    rate, more = draw.choice((3, 7, 333, 999, 1000, 12345)), draw.choice((0, 11, 997, 5000))
    sizes = (draw.choice((1, 60, 1500, 4000)), draw.choice((1, 60, 1500, 4000)))
    other = {2697: (0, sizes[1]), 2698: (rate + more, sizes[1]), 4115: (more, sizes[1])}[kind]
    return Meter(kind, (rate, sizes[0]), other, draw.random() < 0.5, draw.random() < 0.5)


def some_terms(draw, times):
    starts = {max(1, draw.choice(times) + draw.choice((-1, 0, 1))) for _ in range(draw.choice((0, 0, 1, 2, 8)))}
    return [(start, some_meter(draw)) for start in sorted(starts)]


def some_plan(draw, times):
    accounts = []
    for n in range(draw.randint(1, 3)):
        colour = draw.choice((GREEN, YELLOW, RED))
        accounts.append(Account(f"account-{n}", some_meter(draw), [(7, n + 1)] + [(8, n + 1)] * (n % 2), colour, some_terms(draw, times)))
    return Plan(draw.choice((7, 50, 1000, 3_600_000)), accounts)


def some_rows(draw):
    """Rows of one domain and session: some milliseconds apart, of all colours."""
    time, rows = TIME + draw.randint(0, 100), []
    for _ in range(draw.randint(0, 40)):
        time += draw.choice((0, 0, 1, 2, 5, 40))
        rows.append((time, draw.choice((1, 40, 60, 200, 1500)), draw.choice((0, 10, 12, 14, 46)), draw.randint(1, 4)))
    return rows


def some_inputs(test, draw):
    """Words of inputs, which are written into the test's folder, and the reports that these hold."""
    words, reports = [], set()
    for n in range(draw.randint(1, 5)):
        domain, session, first, rows = draw.choice((7, 7, 8)), draw.choice((0, 1, 2)), draw.choice((0, 0, 5, 2**32 - 3)), some_rows(draw)
        held = {(row[0], domain, session, (first + k) % 2**32) + row[1:] for k, row in enumerate(rows)}
        reports |= held
        if draw.random() < 0.5:
            test.write(f"n{n}", export(held))
            words.append(f"{draw.randint(0, 9)}@n{n}")
        else:
            test.write(f"n{n}", capture(domain, first, rows, draw.choice((1, 3, 1000))))
            words.append(f"{session}@n{n}" if session or draw.random() < 0.5 else f"n{n}")
    return words + draw.sample(words, draw.randint(0, 1)), reports


class RandomBills(ProgramTest):
    def test_as_the_model_says(self):
        for case in range(CASES):
            with self.subTest(case=case):
                draw = random.Random(case)
                words, reports = some_inputs(self, draw)
                times = [report[0] for report in reports] or [TIME]
                plan = some_plan(draw, times)
                self.write("plan", plan.toml())
                text = statement(plan, reports)
                replicas, workers = draw.choice((1, 2, 3)), draw.choice((1, 2))
                options = ("--replicas", replicas, "--workers", workers, "--export", "all")
                self.assert_done(self.run_program("bill", *options, "plan", *words), text)
                self.assertEqual(self.read("all"), export(reports))
                self.write("statement", text)
                self.assert_done(self.run_program("audit", "plan", "all", "statement"), b"agrees\n")

    def test_meters_as_the_model_says(self):
        for case in range(CASES):
            with self.subTest(case=case):
                draw = random.Random(1000 + case)
                words, reports = some_inputs(self, draw)
                meter = some_meter(draw)
                rate, size = meter.other
                mode = "aware" if meter.aware else "blind"
                fit = "exact" if meter.exact else "below"
                spec = {
                    2697: f"rfc2697:{meter.committed[0]}:{meter.committed[1]}:{size}:{mode}",
                    2698: f"rfc2698:{rate}:{size}:{meter.committed[0]}:{meter.committed[1]}:{mode}",
                    4115: f"rfc4115:{meter.committed[0]}:{meter.committed[1]}:{rate}:{size}:{fit}:{mode}",
                }[meter.kind]
                self.assert_done(self.run_program("combine", "all", *words), f"reports {len(reports)}\n".encode())
                self.assert_done(self.run_program("meter", spec, "all"), meter_lines(meter, reports))
