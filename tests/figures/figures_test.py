#!/usr/bin/env python3
"""Tests of tools/figures on a made-up crate and made-up logs; closes with 'N passed, M failed'."""
import sys
import tempfile
import unittest
from importlib.machinery import SourceFileLoader
from importlib.util import module_from_spec, spec_from_loader
from pathlib import Path

sys.dont_write_bytecode = True
TOOLS = Path(__file__).resolve().parent.parent.parent / "tools"
loader = SourceFileLoader("figures", str(TOOLS / "figures"))
figures = module_from_spec(spec_from_loader("figures", loader))
loader.exec_module(figures)

TEST_LOG = """kept: commit abc1234, 2026-11-16, on 2 cores
rt: low proved (4 s)
rt: high proved (11 s)
rt: high ran as nobody, and wrote what its file 'stdout' has (1 s)
rt: must-fail low/one: refused, as it must be (first at proofs/one/Proof.antt:3:5; 7 s)
rt: must-fail low/other: refused, as it must be (2 s)
rt: must-fail low/bad: NOT REFUSED: the crate is still proved with this edit (9 s)
test result: ok. 12 passed; 0 failed; 0 ignored
18 passed, 1 failed
kept: 125 s
"""

TODAY_LOG = """kept: commit abc1234, 2026-11-16, on 2 cores
== low
fn low::a: proved
logic=proved functions=2 sum=dac8208d650f15bf native=nat,char,string logic-built=trusted libraries-built=trusted
rt: low proved (after 4 s)
rt: low: trying its must-fail edits (3)
rt: kept is kept: an earlier run on this machine proved the same files over the same libraries
== high
fn high::main: proved
logic=proved functions=1 axioms=3 target=x86_64-unknown-linux-gnu cpu=x86-64-v2 sum=dac8208d650f15bf
rt: high proved (after 11 s)
rt: must-fail low/one.edit: refused, as it must be: note: src/lib.rt:7:1: it is not proved that what it ensures holds
rt: must-fail low/other.edit: refused, as it must be (only by a limit of the prover, which gave no verdict)
rt: must-fail low/bad.edit: NOT REFUSED: the crate is still proved with this edit
rt: must-fail kept/one.edit: refused, as it must be: note: src/lib.rt:1:1: it is not proved that what it ensures holds
rt: high ran, and wrote what its file stdout has
rt: ok; handles allowed: none; must-fail edits: 3 refused; done in this run: 2 of the 3 proofs
test result: ok. 12 passed; 0 failed; 0 ignored
18 passed, 1 failed
kept: 125 s
"""

BENCH_LOG = """kept: commit abc1234, 2026-11-16, on 2 cores
rt: sheet proved (12 s)
median time of one call, engine and plain implementation interleaved
    engine      plain engine/plain  what
verdict: small calls
   1.14 us     285 ns         4.00  joint, case A: value 1
    290 ns    1.16 us         0.25  joint, case A ahead: value 1
sheets: best time of a program
   2.00 ms    4.00 ms         0.50  1. one back: 32 lines
                              0.50  geometric mean of these 1
kept: 9 s
"""


def made_up_repository(root):
    """Two crates, the lower one with all kinds of lines."""
    files = {
        "crates.txt": "# lines\nlow:\nhigh: low io\n",
        "crates/low/src/lib.rt": "pub fn a() {}\nfn b() {}\n    pub extern \"C\" fn c() {}\n",
        "crates/low/specs/A.antt": "λ" * 121 + "\n" + "λ" * 120 + "\n",
        "crates/low/proofs/Laws.antt": "x" * 201 + "\n",
        "crates/low/proofs/a/Proof.antt": "one\ntwo\n",
        "crates/low/must-fail/one.edit": "file: src/lib.rt\n",
        "crates/high/src/main.rt": "fn main() {}\n",
    }
    for name, text in files.items():
        path = root / name
        path.parent.mkdir(parents=True, exist_ok=True)
        path.write_text(text)


class Figures(unittest.TestCase):
    """Each table from what it is made of, and the page from its tables."""

    def setUp(self):
        folder = tempfile.TemporaryDirectory()
        self.addCleanup(folder.cleanup)
        self.root = Path(folder.name)
        made_up_repository(self.root)

    def page(self, standing):
        return figures.page_of(self.root, self.root / "logs", figures.sections_of(standing))

    def test_lines(self):
        text = figures.lines_section(self.root)
        self.assertIn("| low | 3 | 2 | 1 | 2 | 1 | 2 | 2 | 1 |", text)
        self.assertIn("| high | 1 | 0 | 0 | 0 | 0 | 0 | 0 | 0 |", text)
        self.assertIn("| **all** | 4 | 2 | 1 | 2 | 1 | 2 | 2 | 1 |", text)

    def test_times(self):
        text = figures.times_section(TEST_LOG, ["low", "high"])
        self.assertIn("commit abc1234, 2026-11-16, on 2 cores: 2 minutes 5 seconds, `18 passed, 1 failed`", text)
        self.assertIn("| low | 4 | 2 | 9 | 7 |", text)
        self.assertIn("| high | 11 | 0 | 0 | 0 |", text)
        self.assertIn("| **all** | 15 | 2 | 9 | 7 |", text)

    def test_times_today(self):
        text = figures.times_section(TODAY_LOG, ["low", "kept", "high"])
        self.assertIn("commit abc1234, 2026-11-16, on 2 cores: 2 minutes 5 seconds, `18 passed, 1 failed`", text)
        self.assertIn("| low | 4 | 2 | 2 |", text)
        self.assertIn("| kept |  |  | 1 |", text)
        self.assertIn("| high | 11 | 1 | 0 |", text)
        self.assertIn("| **all** | 11 | 3 | 3 |", text)

    def test_static_library(self):
        with tempfile.TemporaryDirectory() as folder:
            root = Path(folder)
            (root / "crates.txt").write_text("# lines\nlow:\nhigh staticlib: low\n")
            self.assertEqual(figures.crates_of(root), ["low", "high"])

    def test_ratios(self):
        text = figures.ratios_section(BENCH_LOG)
        self.assertIn("| verdict: small calls | 2 | 1.00 | 0.25 | 4.00 |", text)
        self.assertIn("| sheets: best time of a program | 1 | 0.50 | 0.50 | 0.50 |", text)
        self.assertIn("| 4.00 | 1.14 us | 285 ns | verdict: joint, case A: value 1 |", text)
        self.assertNotIn("ahead", text)

    def test_page_without_logs(self):
        first = self.page("")
        self.assertEqual(list(figures.sections_of(first)), ["Lines"])
        kept = self.page(first + "\n## Times\n\nOf commit before.\n")
        self.assertIn("## Times\n\nOf commit before.\n", kept)

    def test_page_with_logs(self):
        (self.root / "logs").mkdir()
        (self.root / "logs/test.log").write_text(TEST_LOG)
        (self.root / "logs/bench.txt").write_text(BENCH_LOG)
        page = self.page("## Times\n\nOf commit before.\n")
        self.assertEqual(list(figures.sections_of(page)), ["Lines", "Times", "Ratios"])
        self.assertNotIn("before", page)
        self.assertLessEqual(max(map(len, page.splitlines())), 120)


if __name__ == "__main__":
    result = unittest.main(exit=False, buffer=True).result
    wrong = len(result.failures) + len(result.errors)
    print(f"{result.testsRun - wrong} passed, {wrong} failed")
    sys.exit(wrong > 0)
