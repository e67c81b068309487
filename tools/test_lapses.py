"""Whose verdicts lapse at which change, as tools/test_wrong_bodies tries it: of two crates, `lower`, and `sample` above it."""
import os
import tempfile

import wrong_verdicts
from wrong_checks import Repository

LIBRARY = """//! Sizes.
#![tactic(auto)]

ghost use Rattle.std.specs.Prelude.{◌≡◌, ◌<◌, ◌+◌, IsTrue};
ghost use Rattle.lower.specs.Sizes.{size_of, width_at, SizesAdd};

use std::fmt;

/// The largest number.
pub const MOST: u32 = 7;
pub const HELP: &str = "sizes // of places";

/// How large a place is.
#[derive(Clone, Copy)]
pub enum Size {
    /// Up to the largest number.
    Small,
    Large,
}

#[derive(Clone)]
pub struct Place {
    pub at: u32,
}

impl Model for Place {
    ghost invariant = { λ place. place.at < 1000 };
}

impl Place {
    /// The place behind it.
    #[tactic(auto, using(crate::proofs::Sizes::same_size))]
    pub fn behind(self, step: u32) -> u32
        requires { step < 1000 }
        ensures { result ≡ self.at + step }
    {
        // One after the other.
        sum(self.at, step)
    }

    pub fn ahead(self) -> u32
        ensures { result ≡ self.at }
    {
        self.at.min(7)
    }
}

impl fmt::Sized for Place {
    fn size(&self) -> u32
        ensures { result ≡ size_of self.at }
    {
        self.at
    }
}

/// How wide a place is.
#[derive(Copy)]
pub struct Width {
    pub of: u32,
}

pub fn width_of(place: &Place) -> Width
    ensures { result.of ≡ width_at place.at }
{
    Width { of: place.at }
}

impl fmt::Sized for Width {
    fn size(&self) -> u32
        ensures { result ≡ self.of }
    {
        self.of
    }
}

/// How deep it is.
pub struct Depth {
    pub down: u32,
}

impl Depth {
    pub fn behind(self) -> u32
        ensures { result ≡ self.down }
    {
        self.down
    }
}

impl fmt::Sized for Depth {
    fn size(&self) -> u32
        ensures { result ≡ self.down + 0 }
    {
        self.down
    }
}

/// What is counted.
pub trait Counted {
    fn count(&self) -> u32 {
        1
    }
}

fn sum(number: u32, other: u32) -> u32
    ensures { result ≡ number + other }
{
    number + other
}

pub fn both(
    number: u32,
    other: u32,
) -> u32 {
    number * other
}

pub fn sizes_add()
    ensures { SizesAdd }
{}

impl Size
where
    Size: Copy,
{
    pub const FIRST: Size = Size::Small;
}

#[test]
fn a_place_has_a_size() {
    assert!(both(2, 3) == 6);
}
"""
LEMMAS = """-- Lemmas on sizes.
use Rattle.std.proofs.Common.{◌≡◌, ℕ, refl}
use Rattle.lower.specs.Sizes.{size_of}

abbrev pub doubled : ℕ → ℕ
doubled n = n + n

step : (n : ℕ) → n ≡ n
step n = refl

-- A size is itself.
pub same_size : (n : ℕ) → size_of (doubled n) ≡ size_of (doubled n)
unfolding size_of
same_size n =
    step (size_of (doubled n))

ruled : 3 ≡ 3
ruled = refl

pub ruleset sizes = (ruled, same_size)

module _ (n : ℕ)
    (same : n ≡ n) where
  pub size_is : size_of n ≡ size_of n
  size_is = same
"""
DEFINITIONS = """-- Sizes.
abbrev pub size_of : ℕ → ℕ
size_of n = n

pub SizesAdd : Type 0
SizesAdd = Unit {0}

abbrev half_of : ℕ → ℕ
half_of n = n

abbrev pub width_at : ℕ → ℕ
width_at n = half_of (size_of n)

abbrev pub depth-at : ℕ → ℕ
depth-at n = size_of n
"""
# It names what is tried, but no depth, and a width only through the function that gives it.
NAMING = """//! Above.
use lower::{Counted, HELP, MOST, Place, Size, both, sizes_add, width_of};

pub fn six() -> u32 {
    6
}

pub fn last(place: Place) -> u32 {
    place.behind(MOST)
}

const FIRST: Size = Size::FIRST;
"""
LIB, SIZES, CITED, OTHERS, ANSWERS = (f"crates/lower/{it}" for it in ("src/lib.rt", "specs/Sizes.antt", "proofs/Sizes.antt", "proofs/Others.antt", "proofs/sum/Answers.antt"))
ABOVE = "crates/sample/src/lib.rt"
FILES = {
    "crates.txt": "lower:\nsample: lower std\n",
    LIB: LIBRARY,
    SIZES: DEFINITIONS,
    CITED: LEMMAS,
    OTHERS: "pub other_size : 1 ≡ 1\nother_size = refl\n",
    ANSWERS: "pub returns : goal.returns\nreturns c = refl\n",
    ABOVE: NAMING,
    "crates/sample/proofs/six/Answers.antt": "use Rattle.lower.proofs.Sizes.{same_size, size_is, sizes}\n",
}
# What only the crate itself sees of itself: a file, what it has, and what it gets.
OF_ITS_OWN = {
    "a body": (LIB, "sum(self.at, step)", "sum(step, self.at)"),
    "a body behind a head of several lines": (LIB, "number * other", "other * number"),
    "a body of a trait's method": (LIB, "        self.at\n", "        self.at + 0\n"),
    "a comment": (LIB, "/// How large", "// How large"),
    "a comment in a body": (LIB, "// One after", "// Each after"),
    "a hint to tactics": (LIB, "#[tactic(auto, using(crate::proofs::Sizes::same_size))]", "#[tactic(none)]"),
    "a private function": (LIB, "{ result ≡ number + other }", "{ result ≡ other + number }"),
    "an import that only bodies have": (LIB, "◌+◌, IsTrue}", "◌+◌, IsSome}"),
    "a test": (LIB, "both(2, 3) == 6", "both(3, 3) == 9"),
    "a proof": (ANSWERS, "refl", "search rules"),
    "a lemma's proof": (CITED, "step (size_of", "refl (size_of"),
    "a proof in a module": (CITED, "size_is = same", "size_is = refl"),
    "a private lemma": (CITED, "step : (n : ℕ) → n ≡ n", "step : (m : ℕ) → m ≡ m"),
    "an import that only proofs have": (CITED, "ℕ, refl}", "ℕ, refl, sym}"),
    "a comment on a lemma": (CITED, "-- A size", "-- Each size"),
    "a comment on a definition": (SIZES, "-- Sizes.", "-- Sizes of places."),
    "a lemma that nobody cites": (OTHERS, "1 ≡ 1", "2 ≡ 2"),
    "a type that nobody names": (LIB, "pub down: u32", "pub down: u64"),
    "a function of a type that nobody names": (LIB, "{ result ≡ self.down }", "{ self.down ≡ result }"),
    "a trait's function for a type that nobody names": (LIB, "self.down + 0 }", "0 + self.down }"),
    "a function that nobody names": (LIB, "{ result ≡ self.at }", "{ self.at ≡ result }"),
    "a definition that nobody names": (SIZES, "depth-at n = size_of n", "depth-at n = n"),
    "a new type": (LIB, "/// What is counted.", "pub struct Height;\n\n/// What is counted."),
    "a new function": (LIB, "    pub fn ahead(self)", "    pub fn afore(self) {}\n\n    pub fn ahead(self)"),
    "a new definition": (SIZES, "abbrev half_of", "abbrev pub third_of : ℕ → ℕ\nthird_of n = n\n\nabbrev half_of"),
    "a new module": (LIB, "use std::fmt;", "mod others;\n\nuse std::fmt;"),
}
# What proofs above see as well.
SEEN_ABOVE = {
    "a clause": (LIB, "result ≡ self.at + step", "result ≡ step + self.at"),
    "a condition": (LIB, "step < 1000", "step < 900"),
    "a signature": (LIB, "behind(self, step: u32)", "behind(&self, step: u32)"),
    "a signature of several lines": (LIB, "other: u32,\n) -> u32", "other: u8,\n) -> u32"),
    "a clause of a trait's method": (LIB, "size_of self.at }", "size_of 7 }"),
    "a body that is a trait's own": (LIB, "        1\n", "        2\n"),
    "a field": (LIB, "pub at: u32", "pub at: u64"),
    "a variant": (LIB, "    Large,", "    Huge,"),
    "a constant's value": (LIB, "u32 = 7", "u32 = 8"),
    "a text that looks like a comment": (LIB, "// of places", "// of all places"),
    "a derive": (LIB, "#[derive(Clone)]", "#[derive(Clone, Debug)]"),
    "an invariant": (LIB, "place.at < 1000", "place.at < 900"),
    "a law": (LIB, "ensures { SizesAdd }", "ensures { SizesAdd × SizesAdd }"),
    "what stands behind a law": (LIB, "FIRST: Size = Size::Small", "FIRST: Size = Size::Large"),
    "where a name of a clause comes from": (LIB, "lower.specs.Sizes.{size_of, ", "lower.specs.Others.{size_of, "),
    "a definition": (SIZES, "size_of n = n", "size_of n = n + 0"),
    "a lemma's statement": (CITED, "size_of (doubled n) ≡ size_of (doubled n)", "size_of n ≡ size_of n"),
    "a lemma in a module": (CITED, "size_is : size_of n ≡ size_of n", "size_is : n ≡ n"),
    "what a module takes": (CITED, "(same : n ≡ n)", "(same : n + 0 ≡ n)"),
    "a lemma in a set of rules": (CITED, "3 ≡ 3", "4 ≡ 4"),
    "a set of rules": (CITED, "(ruled, same_size)", "(ruled)"),
    "what a lemma's statement unfolds": (CITED, "doubled n = n + n", "doubled n = 2 * n"),
    "a type that what is named gives": (LIB, "#[derive(Copy)]", "#[derive(Copy, Clone)]"),
    "a trait's function for such a type": (LIB, "{ result ≡ self.of }", "{ self.of ≡ result }"),
    "a definition that what is named names": (SIZES, "half_of n = n", "half_of n = 0"),
    "a function that is named now": (LIB, "    pub fn ahead(self)", "    pub fn six(self)"),
    "a new trait's function for a type": (LIB, "/// How deep", "impl fmt::Deep for Place {\n}\n\n/// How deep"),
    "the line of crates.txt": ("crates.txt", "lower:", "lower: bytes"),
}
OF_SAMPLE = {
    "a body above": (ABOVE, "    6", "    2 * 3"),
    "a comment above": (ABOVE, "//! Above.", "//! Right above."),
    "what a crate uses": ("crates.txt", "lower std", "lower"),
    "what it names": (ABOVE, "width_of}", "width_of, Depth}"),
    "a lemma of which it takes the file": ("crates/sample/proofs/six/Answers.antt", "Sizes.{same_size, ", "Sizes.{other_size, "),
}
KIT = "rattle-kit-1 logic 0a"
# What `rt version` says, and whose verdicts lapse.
KITS = {"another kit of the logic": ("rattle-kit-2 logic 0a", set()), "another logic": ("rattle-kit-1 logic 0b", {"lower", "sample"}), "a kit that names no logic": ("kit 1", {"lower", "sample"})}


def failures_of_lapses():
    """What lapses, or doesn't, otherwise than it has to; and how much was tried."""

    def sums(line=KIT):
        wrong_verdicts.kit_line = lambda: f"{line}\n".encode()
        repository = Repository(top)
        found = wrong_verdicts.Sums(repository)
        return {name: found.of(it) for name, it in repository.crates.items()}

    def write(path, text):
        os.makedirs(os.path.dirname(f"{top}/{path}"), exist_ok=True)
        with open(f"{top}/{path}", "w", encoding="utf-8") as it:
            it.write(text)

    def expect(what, now, wanted):
        lapsed = {name for name, sum in now.items() if sum != before[name]}
        if lapsed != wanted:
            found.append(f"{what}: what lapses: wanted {sorted(wanted)}, and got {sorted(lapsed)}")

    found = []
    tables = ((OF_ITS_OWN, {"lower"}), (SEEN_ABOVE, {"lower", "sample"}), (OF_SAMPLE, {"sample"}))
    with tempfile.TemporaryDirectory(prefix="test-wrong-bodies-") as top:
        for path, text in FILES.items():
            write(path, text)
        before = sums()
        for table, wanted in tables:
            for what, (path, old, new) in table.items():
                assert FILES[path].count(old) == 1, f"{what}: {path} has not one {old}"
                write(path, FILES[path].replace(old, new))
                expect(what, sums(), wanted)
                write(path, FILES[path])
        for what, (line, wanted) in KITS.items():
            expect(what, sums(line), wanted)
    return found, sum(len(table) for table, _ in tables) + len(KITS)
