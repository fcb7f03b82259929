"""A small crate with wrong bodies of every kind, and what has to be said of each, for tools/test_try_edits."""
import os
import re
import subprocess
import sys

import functions
import refused_lines
import wrong_bodies

HERE = os.path.dirname(os.path.abspath(__file__))

SOURCE = """\
//! Small functions, to show what is said of wrong bodies.
#![tactic(auto)]

ghost use Rattle.std.specs.Prelude.{◌≡◌, ◌+◌, ◌≤◌, length, true};
ghost use Rattle.sample.specs.Numbers.{limit, twice};

const LIMIT: u8 = 100;

/// One more.
pub fn next(n: u8) -> u8
    requires { n ≤ 100 }
    ensures { result ≡ n + 1 }
{
    n + 1
}

/// Two more.
pub fn second(n: u8) -> u8
    requires { n ≤ 98 }
    ensures { result ≡ n + 2 }
{
    next(next(n))
}

/// Three more.
pub fn third(n: u8) -> u8
    requires { n ≤ 97 }
    ensures { result ≡ n + 2 + 1 }
{
    let before = second(n);
    next(before)
}

/// Twice a number.
pub fn doubled(n: u8) -> u8
    requires { n ≤ 50 }
    ensures value { result ≡ twice n }
    ensures fits { result ≤ 100 }
{
    n + n
}

/// The number behind twice a number.
pub fn behind(n: u8) -> u8
    requires { n ≤ 50 }
    ensures { result ≡ twice n + 1 }
{
    let two = doubled(n);
    next(two)
}

/// A number, of which nothing is said.
pub fn any() -> u8 {
    7
}

/// The greatest number that is allowed.
pub fn greatest() -> u8
    ensures { result ≡ limit }
{
    LIMIT
}

/// How many numbers there are.
pub fn count(numbers: &[u8]) -> usize
    ensures { result ≡ length numbers.now }
{
    numbers.len()
}

/// Whether a number is allowed. That one is refused is said by no clause.
pub fn is_allowed(n: u8) -> bool
    ensures { result ≡ true → n ≤ 100 }
{
    n <= LIMIT
}

/// Two numbers.
#[derive(Clone, Copy, Drop, PartialEq, Eq)]
pub struct Pair {
    pub left: u8,
    pub right: u8,
}

impl Pair {
    /// The number on the left.
    pub fn first(&self) -> u8
        ensures { result ≡ self.now.left }
    {
        self.left
    }

    /// The pair the other way round.
    pub fn turned(self) -> Pair
        ensures left { result.left ≡ self.right }
        ensures right { result.right ≡ self.left }
    {
        Pair {
            left: self.right,
            right: self.left,
        }
    }
}
"""

SPECS = """\
-- The numbers that are allowed.
use Rattle.std.specs.Prelude.{ℕ, zero, suc}

abbrev pub limit : ℕ
limit = 100

abbrev pub twice : ℕ → ℕ
twice zero = zero
twice (suc n) = suc (suc (twice n))
"""

# The proofs: one names what `second` gave, one is by induction, and one names what `doubled` gave.
PROOFS = {
    "Lib": "mod Twice\n",
    "Twice": """\
use Rattle.std.proofs.Common.{◌≡◌, ℕ, zero, suc, ◌+◌, refl, ap, arith}
use Rattle.sample.specs.Numbers.{twice}

pub sum_is_twice : (n : ℕ) → n + n ≡ twice n
sum_is_twice zero = refl
sum_is_twice (suc n) = let e : suc n + suc n ≡ suc (suc (n + n)) = omega arith in rw e (ap (λ k. suc (suc k)) (sum_is_twice n))
""",
    "third/Answers": """\
use Rattle.std.proofs.Common.{◌≡◌, ◌+◌, ap, ◌∙◌}
use Rattle.sample.proofs.third.Goals as goal

pub returns : goal.returns
returns c = c.next.ensures ∙ ap (λ k. k + 1) c.second-before.ensures
""",
    "doubled/Answers": """\
use Rattle.sample.proofs.Twice.{sum_is_twice}
use Rattle.sample.proofs.doubled.Goals as goal

pub returns-clause-value : goal.returns-clause-value
returns-clause-value c = sum_is_twice c.args.n
""",
    "behind/Answers": """\
use Rattle.std.proofs.Common.{arith}
use Rattle.sample.proofs.behind.Goals as goal

pub next-requires : goal.next-requires
next-requires c = omega (arith, c.doubled-two.ensures.fits)
""",
}

# Each wrong body: its name, the file, the old and the new text, and what has to be said of it.
EDITS = [
    ("adds_two", "src/lib.rt", "    n + 1", "    n + 2", "refused"),
    ("adds_one_more_in_another_way", "src/lib.rt", "next(next(n))", "next(n) + 1", "NOT REFUSED"),
    ("begins_one_later", "src/lib.rt", "    next(before)", "    next(next(before))", "refused"),
    # (no line may rest on a cycle of calls, since other bodies decide whether it ends)
    ("calls_itself_through_another", "src/lib.rt", "    n + 1", "    second(n) - 1", "NOT TRIED"),
    ("names_what_is_gone", "src/lib.rt", "let before = second(n);", "let before = n + 2;", "BAD"),
    ("doubles_in_two_ways", "src/lib.rt", "    n + n", "    if n > 7 { n + n } else { n + n }", "BAD"),
    ("doubles_the_small_ones_alone", "src/lib.rt", "    n + n", "    if n > 7 { return n; } n + n", "refused"),
    ("adds_where_it_doubled", "src/lib.rt", "doubled(n)", "n + n", "refused"),
    ("any_other_number", "src/lib.rt", "    7", "    8", "NOT REFUSED"),
    ("nothing_is_counted", "src/lib.rt", "numbers.len()", "numbers.len() - numbers.len()", "refused"),
    ("nobody_is_allowed", "src/lib.rt", "n <= LIMIT", "false && n <= LIMIT", "NOT REFUSED"),
    ("everybody_is_allowed", "src/lib.rt", "n <= LIMIT", "n <= LIMIT || true", "refused"),
    ("the_number_on_the_right", "src/lib.rt", "        self.left", "        self.right", "refused"),
    ("turns_nothing", "src/lib.rt", "            left: self.right,", "            left: self.left,", "refused"),
    ("turns_the_left_alone", "src/lib.rt", "right: self.left,", "right: self.right,", "refused"),
    ("a_defined_limit_of_99", "specs/Numbers.antt", "limit = 100", "limit = 99", "refused"),
    ("pairs_of_words", "src/lib.rt", "    pub right: u8,", "    pub right: u16,", "BAD"),
    ("no_such_name", "src/lib.rt", "    LIMIT", "    LIMITS", "BAD"),
    ("no_such_syntax", "src/lib.rt", "    LIMIT", "    LIMIT +", "BAD"),
    ("stands_nowhere", "src/lib.rt", "no such text", "another", "BAD"),
    ("stands_twice", "src/lib.rt", "ensures", "ensures", "BAD"),
    ("stands_in_no_file", "src/none.rt", "n", "m", "BAD"),
]
WANTED = {name: wanted for name, *_, wanted in EDITS}
CODE = [it for it in EDITS if it[0] == "adds_two"]
FORGED = [it for it in EDITS if it[0] in ("any_other_number", "names_what_is_gone", "adds_where_it_doubled", "no_such_name", "stands_nowhere")]
# What `rt ci` may say of `adds_where_it_doubled`: a lost name, though a goal is open too.
LOST_NAME = (
    "refused, as it must be: ./proofs/behind/Answers.antt:5:39: error: `next-requires`: "
    "record `Rattle.sample.proofs.behind.Lts.After` has no field `doubled-two`"
)


class Sample:
    """A checkout with the small crate and some of its wrong bodies."""

    def __init__(self, folder, edits, source=SOURCE):
        self.root, self.home, self.crate = f"{folder}/repo", f"{folder}/home", f"{folder}/repo/crates/sample"
        for path, text in (
            ("crates.txt", "sample:\n"),
            ("HANDLES", "Handles allowed: none.\n"),
            ("crates/sample/src/lib.rt", source),
            ("crates/sample/specs/Lib.antt", "pub mod Numbers\n"),
            ("crates/sample/specs/Numbers.antt", SPECS),
            *[(f"crates/sample/proofs/{file}.antt", proof) for file, proof in PROOFS.items()],
        ):
            write(f"{self.root}/{path}", text)
        os.mkdir(f"{self.root}/.git")
        for name, file, old, new, _ in edits:
            write(f"{self.crate}/wrong/{name}.edit", f"file: {file}\nold: {old}\nnew: {new}\n")

    def try_edits(self, *words, path=""):
        """What the tool says of each wrong body, its last line, its status, and all that it printed."""
        env = {**os.environ, "XDG_CACHE_HOME": self.home, "TMPDIR": os.path.dirname(self.root), "PATH": path + os.environ["PATH"]}
        told = [sys.executable, f"{HERE}/try_edits", "--root", self.root, "--lanes", "1", "--jobs", "1", *words]
        ran = subprocess.run(told, stdout=subprocess.PIPE, stderr=subprocess.STDOUT, text=True, env=env, check=False)
        lines = re.findall(r"(?m)^(refused|NOT REFUSED|BAD|NOT TRIED) +sample/wrong/(\w+): (.*)$", ran.stdout)
        return {name: (kind, why) for kind, name, why in lines}, ran.stdout.rstrip("\n").rpartition("\n")[2], ran.returncode, ran.stdout

    def lines(self):
        """The edits of which the file says that they were refused."""
        return {it.rpartition("/")[2] for it in refused_lines.read(self.root)}

    def forge(self, name):
        """Writes a line for an edit that nobody saw refused."""
        found = wrong_bodies.edits_in("sample", self.crate, ["wrong"], functions.of_crate(self.crate))
        edit = next(it for it in found if it.label == f"sample/wrong/{name}")
        lines = {**refused_lines.read(self.root), edit.label: refused_lines.Sums(self.root).of_edit("sample", edit)}
        refused_lines.write(self.root, lines)


def write(path, text):
    os.makedirs(os.path.dirname(path), exist_ok=True)
    with open(path, "w", encoding="utf-8") as it:
        it.write(text)
