"""The self-test of .ci/rests.py: which verdicts of a small repository a change leaves without their sums.

Three crates stand on one another. Each row of CHANGES has a file, what is replaced in it, and the edits that have to be
tried again after that: these and no other.
"""
import os
import tempfile

FILES = {
    "bottom/specs/Sum.antt": """-- Sums.
use Rattle.std.specs.Prelude.{ℕ, List}

-- the sum of a list
abbrev pub total : List ℕ → ℕ
total [] = 0
total (x ∷ xs) = x + total xs

abbrev pub doubled : ℕ → ℕ
doubled n = n + n

pub record IsBelow (n : ℕ) : Type 0 where
  pub below : n ≤ most

abbrev pub most : ℕ
most = 9

pub data Size : Type 0 where
  small : Size
  large : ℕ → Size

abbrev pub weight : ℕ → ℕ
weight n = elim (large n) [ | small ↦ 0 | large m ↦ m ]
""",
    "bottom/proofs/SumLemmas.antt": """-- What sums are.
use Rattle.bottom.specs.Sum.{total, doubled}

pub total_one : (x : ℕ) → total (x ∷ []) ≡ x
total_one x = refl

module _ (x : ℕ) where
  pub doubled_again : doubled x ≡ x + x
  unfolding doubled
  doubled_again = refl
""",
    "bottom/src/lib.rt": """#![tactic(auto)]

mod purse;
mod sum;

pub use purse::{Price, Purse};
pub use sum::{sum_of, twice};
""",
    "bottom/src/purse.rt": """//! Purses.

ghost use Rattle.std.specs.Prelude.{List, ℕ};
ghost use Rattle.bottom.specs.Sum.{IsBelow};

/// Coins.
#[derive(Drop)]
pub struct Purse {
    coins: Vec<u32>,
}

impl Model for Purse {
    ghost Value = { List ℕ };
    ghost view = { λ p. p.coins.items };
}

pub trait Price {
    fn price(&self) -> u32
        ensures { IsBelow result };
}

impl Price for Purse {
    fn price(&self) -> u32 {
        self.coins.len() as u32
    }
}
""",
    "bottom/src/sum.rt": """//! Sums.

ghost use Rattle.bottom.specs.Sum.{total, doubled};

/// The sum.
pub fn sum_of(list: &[u32]) -> u32
    ensures { result ≡ total list.now }
{
    let mark = "a // b";
    added(list, 0)
}

fn added(list: &[u32], start: u32) -> u32
    ensures { result ≡ start + total list.now }
{
    list.len() as u32 + start
}

pub fn twice(n: u32) -> u32
    ensures { result ≡ doubled n }
{
    n + n
}
""",
    "bottom/proofs/sum/twice/Answers.antt": """use Rattle.bottom.proofs.SumLemmas.{doubled_again as again}
use Rattle.bottom.proofs.sum.twice.Goals as goal

pub returns : goal.returns
returns c = again c.args.n
""",
    "middle/src/lib.rt": """#![tactic(auto)]

ghost use Rattle.bottom.specs.Sum.{total, weight};

use bottom::{sum_of as whole_sum, Price, Purse};

const MOST: u32 = 7;

pub fn purse_sum(purse: &Purse, list: &[u32]) -> u32
    ensures { result ≡ total list.now }
{
    whole_sum(list)
}

const PLACE: &str = "http://a";
// The limit.
#[tactic(
    auto,
)]
pub fn limit() -> u32
    ensures { result ≡ weight 7 }
{
    let place = PLACE;
    MOST
}

pub fn priced<P: Price>(thing: &P) -> u32
    ensures { result ≡ 0 }
{
    thing.price()
}
""",
    "middle/proofs/purse_sum/Answers.antt": """use Rattle.bottom.proofs.SumLemmas.{total_one}
use Rattle.middle.proofs.purse_sum.Goals as goal

pub returns : goal.returns
returns c = total_one c.args.list
""",
    "top/src/main.rt": """use bottom::twice;
use middle::purse_sum;

fn report(list: &[u32]) -> u32
    ensures { result ≡ 0 }
{
    purse_sum(list)
}

fn plain(n: u32) -> u32
    ensures { result ≡ n }
{
    let twice = n;
    n
}
""",
}
# Each edit: its file, and the line that it changes.
EDITS = {
    "bottom/sum": ("src/sum.rt", "    added(list, 0)", "    added(list, 1)"),
    "bottom/added": ("src/sum.rt", "    list.len() as u32 + start", "    start"),
    "bottom/twice": ("src/sum.rt", "    n + n", "    n"),
    "bottom/price": ("src/purse.rt", "        self.coins.len() as u32", "        10"),
    "middle/purse": ("src/lib.rt", "    whole_sum(list)", "    0"),
    "middle/limit": ("src/lib.rt", "    MOST", "    8"),
    "middle/priced": ("src/lib.rt", "    thing.price()", "    1"),
    "top/report": ("src/main.rt", "    purse_sum(list)", "    1"),
    "top/plain": ("src/main.rt", "    let twice = n;", "    let twice = 0;"),
}
BELOW = {"bottom": [], "middle": ["bottom"], "top": ["bottom", "middle"]}
OF_TOTAL = "bottom/sum bottom/added middle/purse top/report"
OF_BOTTOM = "bottom/sum bottom/added bottom/twice bottom/price"
# (a type leads to what its traits promise, and the name of a method to each of that name)
OF_PURSE = "bottom/price middle/priced middle/purse top/report"
CHANGES = (
    # bodies
    ("bottom/src/sum.rt", "    added(list, 0)\n", "    added(list, 0 + 0)\n", "bottom/sum"),
    ("bottom/src/sum.rt", "+ start\n}", "+ start + 0\n}", "bottom/added"),
    ("bottom/src/sum.rt", '"a // b"', '"a // c"', "bottom/sum"),
    ("top/src/main.rt", "    n\n", "    n + 0\n", "top/plain"),
    # contracts: of a helper, of a function that is called under another name, of one above, of a trait
    ("bottom/src/sum.rt", "≡ start + total", "≡ 0 + start + total", "bottom/sum bottom/added"),
    ("bottom/src/sum.rt", "result ≡ total", "0 + result ≡ total", "bottom/sum middle/purse"),
    ("bottom/src/sum.rt", "result ≡ doubled", "0 + result ≡ doubled", "bottom/twice top/plain"),
    ("middle/src/lib.rt", "result ≡ total", "0 + result ≡ total", "middle/purse top/report"),
    ("bottom/src/purse.rt", "IsBelow result", "IsBelow (0 + result)", OF_PURSE),
    # definitions: one at the bottom, one that another leads to, one that a proof leads to
    ("bottom/specs/Sum.antt", "total [] = 0", "total [] = 0 + 0", OF_TOTAL),
    ("bottom/specs/Sum.antt", "most = 9", "most = 8", OF_PURSE),
    ("bottom/specs/Sum.antt", "doubled n = n + n", "doubled n = n + n + 0", "bottom/twice top/plain"),
    # lemmas, and the proof of a function
    ("bottom/proofs/SumLemmas.antt", "total_one x = refl", "total_one x = cc", "middle/purse"),
    ("bottom/proofs/SumLemmas.antt", "doubled_again = refl", "doubled_again = cc", "bottom/twice"),
    ("bottom/proofs/SumLemmas.antt", "module _ (x : ℕ)", "module _ (x y : ℕ)", "bottom/twice"),
    ("middle/proofs/purse_sum/Answers.antt", "c.args.list", "_", "middle/purse"),
    # types, what they are seen as, constants, what is brought in, and what a crate says of itself
    ("bottom/src/purse.rt", "coins: Vec<u32>", "coins: Vec<u16>", OF_PURSE),
    ("bottom/src/purse.rt", "λ p. p.coins.items", "λ p. []", OF_PURSE),
    ("middle/src/lib.rt", "u32 = 7", "u32 = 8", "middle/limit"),
    ("middle/src/lib.rt", "http://a", "http://b", "middle/limit"),
    ("middle/src/lib.rt", "    auto,", "    auto, using(x),", "middle/limit"),
    ("bottom/specs/Sum.antt", "large : ℕ", "large : ℤ", "middle/limit"),
    ("bottom/src/lib.rt", "use sum::{sum_of, twice}", "use sum::twice;\npub use purse::sum_of", "middle/purse"),
    ("middle/src/lib.rt", "sum_of as whole_sum", "added as whole_sum", "middle/purse"),
    ("bottom/src/lib.rt", "#![tactic(auto)]", "#![tactic(auto, none)]", OF_BOTTOM),
    # a further text of a name that is called
    ("top/src/main.rt", "fn plain", "fn purse_sum() {\n}\n\nfn plain", "top/report"),
    # comments and white space
    ("bottom/specs/Sum.antt", "-- the sum of a list", "-- a sum", ""),
    ("bottom/specs/Sum.antt", "total [] = 0", "total []  =\n    0 -- nothing", ""),
    ("bottom/proofs/SumLemmas.antt", "-- What sums are.", "", ""),
    ("bottom/src/sum.rt", "/// The sum.", "/// All.", ""),
    ("bottom/src/sum.rt", "    n + n", "    // Twice.\n    n\n        + n", "bottom/twice"),
    ("bottom/src/purse.rt", "/// Coins.", "/* Money. */", ""),
    # texts that nothing leads to
    ("top/src/main.rt", "fn plain", "const LEAST: u32 = 0;\n\nfn plain", ""),
)


class Crate:
    """A crate of the small repository."""

    def __init__(self, name, top, known):
        self.name, self.folder, self.known = name, f"{top}/{name}", known

    def below(self):
        return [self.known[it] for it in BELOW[self.name]]


def laid_out(top, files):
    """Writes files into a folder, and the edits."""
    edits = {
        f"{label.split('/')[0]}/wrong-bodies/{label.split('/')[1]}.edit": f"file: {file}\nold: {old}\nnew: {new}\n"
        for label, (file, old, new) in EDITS.items()
    }
    for file, text in {**files, **edits}.items():
        os.makedirs(os.path.dirname(f"{top}/{file}"), exist_ok=True)
        with open(f"{top}/{file}", "w", encoding="utf-8") as it:
            it.write(text)


def sums_of(files, reckon):
    """Returns the sum of each edit of the small repository with these files."""
    with tempfile.TemporaryDirectory(prefix="rests-") as top:
        laid_out(top, files)
        known = {}
        known.update((name, Crate(name, top, known)) for name in BELOW)
        return reckon(known.values())


def test(reckon):
    """Returns what is wrong with the sums that `reckon` gives the edits of some crates."""
    before, wrong = sums_of(FILES, reckon), []
    if before.keys() != EDITS.keys():
        return [f"self-test: sums of {sorted(before)}, and not of {sorted(EDITS)}"]
    for file, old, new, expected in CHANGES:
        text = FILES[file]
        after = sums_of({**FILES, file: text.replace(old, new)}, reckon)
        changed = {it for it in before if before[it] != after.get(it)}
        if text.count(old) != 1 or changed != {*expected.split()}:
            wrong.append(f"self-test: {file}: {new!r} in place of {old!r} changes the sums of {sorted(changed)}")
    return wrong
