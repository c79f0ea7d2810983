"""The tools of tools/dev on a small repository that is made up here. usage: python3 tools/dev/test/test_tools.py"""
import os
import shutil
import subprocess
import sys
import tempfile
import unittest
from pathlib import Path

TOOLS = Path(__file__).resolve().parents[1]

LAW = "plus-zero : (n : ℕ) → n + 0 ≡ n\nplus-zero n = refl\n"
RULES = """-- Rules.
use Rattle.std.specs.Prelude.{ℕ}

unfoldable pub half : ℕ → ℕ
half n = n / 2

pub record Worked : Type 0 where
  pub four : half 4 ≡ 2
  pub T1 : half 5 ≡ 2

module _ {A : Type 0} where
  abbrev pub same : A → A
  same a = a
"""
CODE = """// Half of n.
pub fn half(n: u32) -> u32
    ensures { result ≡ half n }
{
    n / 2
}

fn one() -> u32 {
    1
}
"""
WORKED = "use Rattle.low.specs.Rules.{Worked}\n\nworked : Worked\nworked = record { four = refl; T1 = refl }\n\nunused : ℕ\nunused = 3\n"
LONG = """first-law : (n m : ℕ) → n + (m + 7) ≡ (n + m) + 7
first-law n m =
    let z : n + m ≡ m + n = omega (arith, first n m) in
    let y : n + m + 0 ≡ m + n = omega arith in ap (◌+◌ 7) (sym z)
"""
FILES = {
    "crates.txt": "# the rules\nlow:\nspare:\nhigh: low spare\ntop staticlib: high low\n",
    "crates/low/src/lib.rt": CODE,
    "crates/low/specs/Rules.antt": RULES,
    "crates/low/proofs/Laws.antt": LAW,
    "crates/low/proofs/Worked.antt": WORKED,
    "crates/low/must-fail/third.edit": "rule: half\nfile: src/lib.rt\nold: n / 2\nnew: n / 3\n",
    "crates/low/must-fail/whole.edit": "rule: half\nfile: src/lib.rt\nold: n / 2\nnew: n\n",
    "crates/spare/src/lib.rt": "\n",
    "crates/high/src/lib.rt": "pub fn quarter(n: u32) -> u32 {\n    low::half(low::half(n))\n}\n",
    "crates/top/src/lib.rt": "fn eighth(n: u32) -> u32 {\n    high::quarter(n / 2)\n}\n",
    "crates/high/proofs/Laws.antt": LAW + "\nquarter-law : ℕ\nquarter-law = plus-zero 3\n",
}
# what a check prints of goals that no answer proves, and of an answer with a hole
ASKED = """fn low::half: no proof: expected answers in ./proofs/half/Answers.antt; `search` did not prove `overflow_add-i`
note: `overflow_add-i` of proofs/half/Answers.antt must prove: Fits w32 (c.args.n + 1)
  names you can use, by step:
  | c: .lifetimes, .requires
  | c.args: .n
note: `returns` of proofs/half/Answers.antt must prove: c.args.n ≡ 2
  names you can use: as in `overflow_add-i` above
  the goal has names of Rattle's own, which may change: c.blocks: leave it to a tactic
note: `returns-2` of proofs/half/Answers.antt must prove: c.args.n ≡ 4
  names you can use, by step:
  | as in `returns` above, as far as c
  | c.one: .result, .ensures
note: `returns` of proofs/one/Answers.antt must prove: 1 ≡ 2
  names you can use, by step:
  | c: .other
./proofs/half/Answers.antt:6:22: goal ? in `then-small`
    c : goal.then-small
  ⊢ c.args.n ≡ 3
  names you can use, by step:
    c: .lifetimes
    c.if-n-lt4: .true
  the newest fields, with their types:
    c.args.n : ℕ
logic=not-proved
"""


class Tools(unittest.TestCase):
    def setUp(self):
        made = tempfile.TemporaryDirectory()
        self.addCleanup(made.cleanup)
        self.root = Path(made.name)
        shutil.copytree(TOOLS, self.root / "tools" / "dev", ignore=shutil.ignore_patterns("test", "__pycache__"))
        for name, text in FILES.items():
            self.write(name, text)

    def write(self, name, text):
        file = self.root / name
        file.parent.mkdir(parents=True, exist_ok=True)
        file.write_text(text, encoding="utf-8")
        return file

    def tool(self, name, *words, status=0):
        """What a tool prints, called from a folder deep in the repository."""
        command = [sys.executable, "-B", str(self.root / "tools" / "dev" / name), *map(str, words)]
        env = {**os.environ, "PYTHONUTF8": "1"}
        done = subprocess.run(command, cwd=self.root / "crates" / "low", capture_output=True, encoding="utf-8", env=env)
        self.assertEqual(done.returncode, status, done.stdout + done.stderr)
        return done.stdout + done.stderr

    def git(self, *words):
        who = ["-c", "user.name=test", "-c", "user.email=test@example.org", "-c", "commit.gpgsign=false"]
        subprocess.run(["git", "-C", str(self.root), *who, *words], check=True, capture_output=True)

    def commit(self):
        self.git("add", "-A")
        self.git("commit", "-q", "-m", "commit")

    def test_help_and_wrong_words(self):
        for name in ("moved", "repeats", "layers", "places", "skeleton", "costs"):
            self.assertIn(f"usage: {name}", self.tool(name, "--help"))
            self.assertIn("usage:", self.tool(name, "--no-such-word", status=2))

    def test_moved(self):
        self.git("init", "-q")
        self.commit()
        self.assertEqual(self.tool("moved", "nothing", status=2), "moved: nothing names no commit here\n")
        # a file goes to another crate, a rule and a contract change, a definition and a proof come, a proof goes
        self.write("crates.txt", "low:\nrules:\nhigh: low\n")
        (self.root / "crates/rules/specs").mkdir(parents=True)
        self.git("mv", "crates/low/specs/Rules.antt", "crates/rules/specs/Half.antt")
        self.write("crates/rules/specs/Half.antt", RULES.replace("n / 2", "(n + 0) / 2") + "\npub double : ℕ → ℕ\ndouble n = n + n\n")
        self.write("crates/low/src/lib.rt", CODE.replace("result ≡ half n", "half n ≡ result"))
        self.write("crates/high/proofs/New.antt", "new : ℕ\nnew = 1\n")
        (self.root / "crates/low/proofs/Worked.antt").unlink()
        self.commit()
        printed = self.tool("moved", "HEAD~1")
        self.assertIn("Definitions: 0 stayed, 2 moved to another crate, 1 changed, 1 new\n", printed)
        self.assertIn("  moved: low -> rules 2\n  changed: low.half -> rules.half\n  new: rules.double\n", printed)
        self.assertIn("Promises: 3 stayed, 1 changed\n  changed: low.half\n", printed)
        self.assertIn("Proofs, files: 2 stayed, 1 new (+2 -0 lines), 1 gone (+0 -7 lines)\n", printed)

    def test_repeats(self):
        self.write("crates/low/proofs/Long.antt", LONG)
        self.write("crates/high/proofs/Long.antt", "use a\n\n" + LONG.replace("first", "last"))
        printed = self.tool("repeats", 3)
        self.assertIn("1 pairs of 3", printed)
        self.assertIn("4 lines, 1 the same: crates/low/proofs/Long.antt:1 and crates/high/proofs/Long.antt:3", printed)
        # what a module says of its own parameters is no statement by itself
        for crate in ("low", "high"):
            self.write(f"crates/{crate}/proofs/Inner.antt", "module _ (n : ℕ) where\n  m : ℕ\n  m = n\n")
        printed = self.tool("repeats", "--names")
        self.assertIn("1 declarations", printed)
        self.assertIn("crates/low/proofs/Laws.antt:1, crates/high/proofs/Laws.antt:1", printed)

    def test_layers(self):
        printed = self.tool("layers", status=1)
        self.assertRegex(printed, r"2 high +3 +0 +5  low 2; not cited: spare")
        # top does not cite low, but high does
        self.assertRegex(printed, r"3 top +3 +0 +0  high 1; not cited: low\nhigh lists spare in vain\n$")
        # an answer is cited by the prover
        answers = "use Rattle.high.proofs.quarter.Goals as goal\n\npub returns : goal.returns\nreturns c = search rules\n"
        self.write("crates/high/proofs/quarter/Answers.antt", answers)
        printed = self.tool("layers", "--dead")
        self.assertIn("crates/low/proofs/Worked.antt:3: worked shows Worked\n", printed)
        others = printed.partition("others:\n")[2].split("\n")
        self.assertIn("  crates/low/proofs/Worked.antt:6: unused", others)
        self.assertIn("  crates/high/proofs/Laws.antt:4: quarter-law", others)
        self.assertNotIn("plus-zero", printed)
        self.assertNotIn("returns", printed)

    def test_places(self):
        kept = ("--output", self.write("said", ASKED))
        known = "    c: .lifetimes, .requires\n    c.args: .n\n"
        second = "returns-2\n    c: .lifetimes, .requires\n    c.one: .result, .ensures\n"
        small = "then-small\n    c: .lifetimes\n    c.if-n-lt4: .true\n"
        self.assertEqual(self.tool("places", "low", "half", *kept), f"overflow_add-i\n{known}returns\n{known}{second}{small}")
        self.assertEqual(self.tool("places", "low", "half", "then-small", *kept), small)
        self.assertIn("there are overflow_add-i, returns, returns-2, then-small", self.tool("places", "low", "half", "loop", *kept, status=1))
        self.assertIn("no goal of third is open", self.tool("places", "low", "third", *kept, status=1))
        self.assertIn("no crate", self.tool("places", "lowest", "half", *kept, status=2))

    def test_skeleton(self):
        said = "help: write ./proofs/one/Answers.antt with these lines, and check again: ..\n"
        said += "    use a\n    \n    pub returns : b\n    returns c = ?\nlogic=not-proved\n"
        kept = self.write("said", said)
        self.assertIn("proofs/one/Answers.antt: 1 holes", self.tool("skeleton", "low", "one", "--output", kept))
        answers = self.root / "crates/low/proofs/one/Answers.antt"
        self.assertEqual(answers.read_text(), "use a\n\npub returns : b\nreturns c = ?\n")
        # an invariant that is asked for later has a file of its own
        later = self.write("later", said.replace("Answers", "Invariants").replace("returns", "invariant-loop"))
        self.assertIn("proofs/one/Invariants.antt: 1 holes", self.tool("skeleton", "low", "one", "--output", later))
        self.assertIn("stands already", self.tool("skeleton", "low", "one", "--output", kept, status=1))
        self.assertIn("asks for no answer", self.tool("skeleton", "low", "half", "--output", kept, status=1))

    def test_costs(self):
        times = "crate low 8\ncrate high 2\nedit low/third 5\nedit low/whole 4\nedits: 2, 9 seconds in all\n"
        steps = "step unit 7\nstep scripts 30\ngrading compiled 20 35\ngrading run 9 \n"
        file = self.write("target/gate-times", "seconds: 9 in all\n" + steps + times)
        printed = self.tool("costs", status=1)
        for said in ("crates: 2, 10 s in all", "edits: 2, 9 s in all", "low 2 (9 s)"):
            self.assertIn(said, printed)
        self.assertIn("steps of tests/run: 2, 37 s in all\n    30 s scripts\n     7 s unit\n", printed)
        self.assertIn("wrong implementations compiled: 20 s, 35 s of processor time\nwrong implementations run: 9 s\n", printed)
        self.assertIn("  low: 8 s, edits of code: 2\n  low: edits at one place: third, whole\n", printed)
        self.write("crates/low/must-fail/one.edit", "file: src/lib.rt\nold: 1\nnew: 2\n")
        log = "== low\nstatements x: modules loaded=900 checked=0\nstatements y: modules loaded=101 checked=0\nrt: low proved\n"
        log += "rt: must-fail low/one.edit: refused, as it must be: note: src/lib.rt:1:1: it is not proved\n"
        printed = self.tool("costs", self.write("log", log), status=1)
        self.assertIn("edits a crate: low 3\n", printed)
        self.assertIn("low: 1001 modules, edits: 3", printed)
        self.assertNotIn("edits of code:", printed)
        # as the gate writes it, and as an older kit told seconds
        self.assertIn("low: 1002 modules, edits: 3", self.tool("costs", self.write("log", "modules low 1002\n"), status=1))
        log = "library x: modules loaded=1001 checked=0\nrt: low proved (6 s)\n"
        log += "rt: must-fail low/one: refused, as it must be (first at a:1:1; 5 s)\n"
        printed = self.tool("costs", self.write("log", log), status=1)
        self.assertIn("low: 1001 modules, edits: 3", printed)
        self.assertIn("   5 s low/one", printed)
        file.unlink()
        self.assertIn("is not there", self.tool("costs", status=2))


if __name__ == "__main__":
    unittest.main()
