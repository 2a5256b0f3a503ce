"""How the wrong bodies are tried: which go into one check, and what the prover's words about them come to."""
import re
import sys
import unittest

from program import ROOT

sys.path.append(str(ROOT / "tests/edits"))
from edits import BadEdit, Edit, batches_of, function_at, taken_by_contract
from prover import Verdict, proved_by

TEXTS = {
    "specs/Sums.antt": "total = 1\n",
    "src/sums.rt": """\
const MOST: u32 = 3;

// The sum of two.
fn sum(a: u32, b: u32) -> u32
    ensures { result ≡ a + b }
{
    a + b
}

impl<A: Copy> Iterator for Sums<A> {
    fn next(&mut self) -> Option<u32> {
        self.left.checked_sub(MOST)
    }
}

impl<T: Drop> From<AllocFailed<T>> for Fault {
    fn from(_: AllocFailed<T>) -> Fault {
        Fault::Memory
    }
}

impl<A: Copy> Sums<A> {
    pub fn len(&self) -> u32 { self.left }

    pub fn new(
        left: u32,
    ) -> Sums<A> {
        Sums { left }
    }
}

pub(crate) trait Sum {
    fn start(&self) -> u32
        ensures { result ≡ 0 };

    fn step(&self) -> u32 {
        self.start()
    }
}
""",
}
END = "only=2 proved=0"


def edit(name, old, new, file="src/sums.rt"):
    return Edit(name, [(file, old, new)])


def found(edits):
    return [[(it.name, {f.path for f in those}) for it, those in batch.edits] for batch in batches_of(edits, TEXTS)]


class Batches(unittest.TestCase):
    def test_functions_apart_go_together(self):
        edits = [edit("a", "a + b\n", "a - b\n"), edit("b", "checked_sub(MOST)", "checked_add(MOST)"), edit("c", "{ self.left }", "{ 0 }"), edit("d", "Sums { left }", "Sums { left: 0 }")]
        self.assertEqual(found(edits), [[("a", {"sums::sum"}), ("b", {"SumsIterator::next"}), ("c", {"Sums::len"}), ("d", {"Sums::new"})]])
        text = batches_of(edits, TEXTS)[0].texts["src/sums.rt"]
        for one in ("a - b\n", "checked_add(MOST)", "{ 0 }", "Sums { left: 0 }"):
            self.assertIn(one, text)

    def test_a_trait_of_a_type(self):
        self.assertEqual(found([edit("a", "Fault::Memory", "Fault::Full")]), [[("a", {"FaultFromAllocFailed::from"})]])
        for block, owner in (
            ("impl Row<Option<plans::Plan>> for Item", "ItemRowOptionPlan"),
            ("impl Row<()> for Pair", "PairRowUnit"),
            ("impl<'a, T: Drop, D> Row<&'a D> for Pair<'a, T>", "PairRow"),
        ):
            text = f"{block} {{\n    fn add(&self) {{}}\n}}\n"
            self.assertEqual(function_at("src/rows.rt", text, text.index("fn")).path, f"{owner}::add")

    def test_methods_of_a_trait(self):
        self.assertEqual(found([edit("a", "≡ 0 }", "≡ 1 }"), edit("b", "self.start()", "0")]), [[("a", {"Sum::start"}), ("b", {"Sum::step"})]])

    def test_one_function_is_changed_once(self):
        edits = [edit("a", "self.left.checked_sub", "0.checked_sub"), edit("b", "checked_sub(MOST)", "checked_add(MOST)")]
        self.assertEqual(found(edits), [[("a", {"SumsIterator::next"})], [("b", {"SumsIterator::next"})]])

    def test_a_constant_stands_for_who_names_it(self):
        self.assertEqual(found([edit("a", "const MOST: u32 = 3;", "const MOST: u32 = 4;")]), [[("a", {"SumsIterator::next"})]])

    def test_a_definition_stands_alone(self):
        edits = [edit("a", "total = 1", "total = 2", "specs/Sums.antt"), edit("b", "{ self.left }", "{ 0 }"), edit("c", "total = 1", "total = 3", "specs/Sums.antt")]
        self.assertEqual(found(edits), [[("a", set())], [("b", {"Sums::len"})], [("c", set())]])

    def test_a_text_that_is_not_there_once(self):
        for old in ("not there", "u32"):
            with self.assertRaises(BadEdit):
                edit("a", old, "other").made(TEXTS)


class Contracts(unittest.TestCase):
    PATHS = ("sums::sum", "sums::Sums::new", "sums::SumsIterator::next", "laws::sum_laws")

    def setUp(self):
        self.texts = {**TEXTS, "proofs/sums/sum/Answers.antt": "a = b\n", "proofs/sums/Sums/new/Answers.antt": "c = d\n"}

    def of(self, old):
        """The texts where the function with this text alone is judged."""
        code = self.texts["src/sums.rt"]
        return taken_by_contract("sums", self.texts, self.PATHS, [function_at("src/sums.rt", code, code.index(old))])

    def test_the_function_itself_is_as_it_was(self):
        after = self.of("a + b\n")
        self.assertIn("    ensures { result ≡ a + b }\n{\n    a + b\n}", after["src/sums.rt"])
        self.assertEqual(after["proofs/sums/sum/Answers.antt"], "a = b\n")
        self.assertNotIn("proofs/sums/sum/Proof.antt", after)

    def test_others_have_an_open_proof(self):
        after = self.of("a + b\n")
        self.assertNotIn("proofs/sums/Sums/new/Answers.antt", after)
        self.assertEqual(
            after["proofs/sums/Sums/new/Proof.antt"],
            "use Rattle.sums.proofs.sums.Sums.new.Statement.{statement}\n\npub new_spec : {M : Type 1} → statement M\nnew_spec = ?\n",
        )
        self.assertIn("proofs/laws/sum_laws/Proof.antt", after)

    def test_others_do_nothing(self):
        after = self.of("Sums { left }")["src/sums.rt"].split("\n")
        before = self.texts["src/sums.rt"].split("\n")
        changed = {line: after[at] for at, line in enumerate(before) if after[at] != line}
        self.assertEqual(changed, {"    a + b": "    loop {}", "        self.left.checked_sub(MOST)": "        loop {}"})
        self.assertEqual(len(after), len(before))

    def test_no_proof_rests_on_the_body_of_another_function(self):
        of_a_body = re.compile(r"Rattle\.(\w+)\.proofs\.([\w.+]+)\.(?:Answers|Code|Goals|Invariants|Lts|Named|Reads|Tie)\b")
        own, others = 0, []
        for path in ROOT.glob("crates/*/proofs/**/*.antt"):
            crate, _, *folders, _ = path.relative_to(ROOT / "crates").parts
            cited = [it for it in of_a_body.findall(path.read_text(encoding="utf-8")) if it[0] == crate]
            own += sum(it[1] == ".".join(folders) for it in cited)
            others += [(path, it) for it in cited if it[1] != ".".join(folders)]
        self.assertEqual(others, [])
        self.assertGreater(own, 500)

    def test_what_is_said_to_be_proved(self):
        self.assertEqual(proved_by("fn sums::sums::Sums::new: proved\n"), ("sums", "sums::Sums::new"))
        for line in ("fn sums::sums::sum: not proved", "fn sums::fn::sum::step: proved", "fn sums::tests::sum: proved", "fn sums::Destruct++none::drop: proved", "sums: proved"):
            self.assertIsNone(proved_by(line), line)


class Verdicts(unittest.TestCase):
    def of(self, *lines):
        edits = [edit("a", "a + b\n", "a - b\n"), edit("b", "{ self.left }", "{ 0 }")]
        [batch] = batches_of(edits, TEXTS)
        self.sum, self.length = (next(iter(those)) for _, those in batch.edits)
        return Verdict("sums", "\n".join([*lines, END]))

    def test_a_goal_that_search_left(self):
        said = self.of("fn sums::sums::sum: no proof: expected answers in ./proofs/sums/sum/Answers.antt; `search` did not prove `returns`; it calls `sums::f`, which is not proved")
        self.assertEqual(said.refusal(self.sum), "`returns`")
        self.assertEqual(list(said.others([self.sum])), [])
        self.assertEqual(list(said.others([self.length])), ["sums::sum"])

    def test_an_answer_that_no_longer_holds(self):
        said = self.of("./proofs/sums/sum/Answers.antt:3:4: error: `returns`: the two types differ", "fn sums::sums::sum: not proved", "fn sums::sums::Sums::len: proved")
        self.assertEqual(said.refusal(self.sum), "error: `returns`: the two types differ")
        self.assertIsNone(said.refusal(self.length))

    def test_a_contract_that_is_not_met(self):
        said = self.of("src/sums.rt:7:5: error: `returns` does not hold", "fn sums::sums::sum: not proved")
        self.assertEqual(said.refusal(self.sum), "error: `returns` does not hold")

    def test_a_function_that_is_as_it_should_be(self):
        for word in ("proved", "no holes", "depends on a hole in `Rattle.sums.proofs.f.Proof.f_spec`"):
            said = self.of(f"fn sums::sums::sum: {word}")
            self.assertIsNone(said.refusal(self.sum))
            self.assertEqual(list(said.others([])), [])

    def test_who_calls_a_refused_function(self):
        said = self.of("fn sums::sums::sum: no proof: it calls `sums::f`, which is not proved", "fn sums::sums::Sums::len: could not tell")
        self.assertIsNone(said.refusal(self.sum))
        self.assertIsNone(said.refusal(self.length))
        self.assertEqual(list(said.others([])), ["sums::Sums::len"])

    def test_a_place_in_the_code(self):
        said = self.of("note: src/sums.rt:7:5: it is not proved that this is so (`returns`)", "fn sums::sums::sum: not proved")
        self.assertEqual(said.refusal(self.sum), "it is not proved that this is so (`returns`)")

    def test_a_name_that_went(self):
        said = self.of(
            "note: ./proofs/sums/sum/Answers.antt:3:4: large solution",
            "./proofs/sums/sum/Answers.antt:3:4: error: `c.left` is not in scope",
            "./proofs/sums/sum/Answers.antt:5:4: error: `returns`: record `Rattle.sums.proofs.sums.sum.Lts.After-f` (nearest: .is_none)",
            "fn sums::sums::sum: not proved",
        )
        with self.assertRaises(BadEdit):
            said.refusal(self.sum)

    def test_a_check_that_came_to_no_end(self):
        self.assertTrue(self.of().has_ended())
        self.assertFalse(Verdict("sums", "rattle: error: no function").has_ended())

    def test_a_definition(self):
        self.assertIsNone(Verdict("sums", "logic=proved functions=2").refusal_of_all())
        said = "proofs/Sums.antt:3:4: error: `added`: the two types differ\nlogic=not-proved"
        self.assertEqual(Verdict("sums", said).refusal_of_all(), "error: `added`: the two types differ")
        with self.assertRaises(BadEdit):
            Verdict("sums", "proofs/Sums.antt:3:4: error: `total` is not in scope\nlogic=not-proved").refusal_of_all()

    def test_a_text_that_cannot_be_read(self):
        self.assertIsNone(self.of("src/sums.rt:7:5: error: `returns` does not hold").unread())
        self.assertIsNotNone(self.of("specs/Sums.antt:1:1: error: `totals` is not in scope").unread())
