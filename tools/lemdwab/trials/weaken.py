"""Tries suite/weaken, as suite/tools does, in a tree of its own with an rt that only pretends, and
which plants it finds in the crates of laws: each function takes its Trial."""

from __future__ import annotations

import signal
from typing import TYPE_CHECKING

from lemdwab import pretended, using, weakening
from lemdwab.running import TOP
from lemdwab.weakening import ABOVE, BELOW

if TYPE_CHECKING:
    from lemdwab.commands.tools import Trial

FILES = ("suite/weaken", "tools/lemdwab/commands/weaken.py", *(
    f"tools/lemdwab/{name}.py" for name in ("weakening", "using", "keeping")))
LAWS = """//! Laws.

ghost use Rattle.low.specs.Words.{Seen, Owned, Missed, is_low};

/// A law.
pub fn a_law()
    ensures first { (n : ℕ) → Seen n → Owned n → is_low n ≡ true → Missed n }
    ensures second { (n : ℕ) → Owned n → Seen n }
{}

/// Another one.
pub fn a_bare_law()
    ensures { (n : ℕ) → Owned n → Missed n }
{}
"""
WORDS = """-- Words.
use Rattle.std.specs.Prelude.{◌≡◌, ℕ, Bool}

-- A record.
pub record Seen (n : ℕ) : Type 0 where
  pub which : ℕ
  pub is : n ≡ which

abbrev pub Owned : ℕ → Type 0
Owned n = n ≡ 1

abbrev pub Missed : ℕ → Type 0
Missed n = n ≡ 2

unfoldable pub is_low : ℕ → Bool
is_low zero = at_first
is_low n =
    later n
"""
USE = """//! Uses.

ghost use Rattle.low.specs.Words.{Seen};

use low::laws::{a_bare_law, a_law};

/// A use.
pub fn a_use()
    ensures { (n : ℕ) → Seen n }
{
    a_law();
    a_bare_law();
}
"""
ANSWERS = """use Rattle.low_uses.proofs.Facts.{fact}
use Rattle.low_uses.proofs.using_it.a_use.Goals as goal

-- c.a_law.ensures.second is cited nowhere
pub returns : goal.returns
returns c = λ n. c.a_law.ensures.first n fact
"""
# It says of what is planted what the definition's name asks for, and notes in `noted` what it was
# given, and whether the uses stand in the crate.
RT = """#!/bin/sh
[ "$1 $(basename "$PWD")" = 'check low' ] || exit 9
[ -f proofs/use_using_it/a_use/Answers.antt ] && [ -f proofs/UseFacts.antt ] || exit 8
grep -q '^low: base$' ../../crates.txt || exit 7
planted=$(grep -hE '⊥|Unit|false$|true$' specs/Words.antt)
echo "${planted:-none}" >> "@FOLDER@/noted"
proof='proofs/laws/a_law/Answers.antt:3:4: error: `returns`: types differ'
case $planted in
'') [ ! -f "@FOLDER@/broken" ] || { echo 'logic=not-proved'; exit 1; } ;;
*never*) echo "./proofs/use_using_it/a_use/Answers.antt:3:4: error: missing field"
  echo "./$proof"; echo 'logic=not-proved'; exit 1 ;;
*'is : Unit'*) echo "./proofs/UseFacts.antt:1:2: error: types differ"
  echo './proofs/use_using_it/a_use/Answers.antt:1:2: error: it uses `fact`, which was not admitted'
  echo 'logic=not-proved'; exit 1 ;;
*Owned*) echo "./$proof"; echo 'fn low::laws::a_law: not proved'
  echo 'fn low::use_using_it::a_use: not proved; it calls `low::laws::a_law`, which is not proved'
  echo 'logic=not-proved'; exit 1 ;;
*zero*) grep -q '^use Rattle.std.specs.Prelude.{false}$' specs/Words.antt || exit 6
  echo './specs/Words.antt:1:2: error: `at` is not in scope'; exit 1 ;;
*'    false'*) [ ! -f "@FOLDER@/slow" ] || { echo $$ > "@FOLDER@/pid"; exec sleep 60; }
  echo 'fn low::use_using_it::a_use: no proof: expected answers in ./proofs'
  echo 'logic=not-proved'; exit 1 ;;
esac
echo 'logic=proved functions=2 sum=1'
"""
NAMES = ("narrower Words: Seen, never : ⊥", "wider Words: Seen, is : Unit {0}",
         "narrower Words: Owned n = ⊥", "wider Words: Missed n = Unit {0}",
         "narrower Words: is_low zero = false", "narrower Words: is_low n = false")


class Tree(pretended.Tree):
    """A tree with a crate of laws, `low`, one of uses, one below both, and an rt."""

    TOOL, FILES, RT = "weaken", FILES, RT

    def __init__(self, trial: Trial, name: str) -> None:
        super().__init__(trial, name)
        self.write("crates.txt", "# Crates\nbase:\nlow:\nlow_uses: low base\n")
        for file, text in (("base/src/lib.rt", "pub fn one() -> u32 {\n    1\n}\n"),
                           ("low/src/lib.rt", "pub mod laws;\n"), ("low/src/laws.rt", LAWS),
                           ("low/specs/Lib.antt", "pub mod Words\n"),
                           ("low/specs/Words.antt", WORDS),
                           ("low_uses/src/lib.rt", "pub mod using_it;\n"),
                           ("low_uses/src/using_it.rt", USE),
                           ("low_uses/proofs/Lib.antt", "mod Facts\n"),
                           ("low_uses/proofs/Facts.antt", "pub fact : Unit {0}\nfact = tt\n"),
                           ("low_uses/proofs/using_it/a_use/Answers.antt", ANSWERS)):
            self.write(f"crates/{file}", text)


def weaken_tells(trial: Trial) -> None:
    """Clauses, which are noticed by who cites them, and definitions, by what the check names; what
    was tried is not tried again, but what was not read is; and a change of a use changes all."""
    tree = Tree(trial, "told")
    clauses = ["low premise laws::a_law.first: noticed: low_uses::using_it::a_use\n",
               "low dropped laws::a_law.first: noticed: low_uses::using_it::a_use\n",
               "low premise laws::a_law.second: UNNOTICED\n",
               "low premise laws::a_bare_law.ensures: UNNOTICED\n"]
    tree.sees(1, [*clauses, "low premise: 1 noticed, 0 OWN PROOF ALONE, 2 UNNOTICED, 0 not tried\n",
                  "2 noticed, 0 OWN PROOF ALONE, 4 UNNOTICED, 0 not tried\n"], "--kind",
              "premise,dropped")
    trial.sees(not tree.given(), "weaken has rt check clauses")
    said = [f"low {NAMES[0]}: noticed: using_it::a_use\n", f"low {NAMES[1]}: noticed: UseFacts\n",
            f"low {NAMES[2]}: OWN PROOF ALONE: laws::a_law\n", f"low {NAMES[3]}: UNNOTICED\n"]
    missed = f"low {NAMES[4]}: not tried: it is not read: specs/Words.antt: `at` is not in scope\n"
    seen = f"low {NAMES[5]}: noticed: using_it::a_use\n"
    counts = "3 noticed, 1 OWN PROOF ALONE, 1 UNNOTICED, 1 not tried\n"
    tree.sees(1, [*said, missed, seen, counts], "--kind", "narrower,wider", "low")
    trial.sees(len(tree.given()) == 7, "weaken has rt check another number")
    tree.sees(1, [*said, seen, missed, counts], "--kind", "narrower,wider", "crates/low/")
    trial.sees(tree.given() == ["none", "is_low zero = false"], "weaken tries again what it tried")
    tree.sees(0, [f"low {NAMES[0]}: noticed: using_it::a_use\n", f"low {NAMES[4]}\n", "12 plants"],
              "--list")
    tree.write("crates/low_uses/proofs/Facts.antt", "pub fact : Unit {0}\nfact = other\n")
    # Two side by side are told as they end.
    beside = tree.sees(1, [], "--kind", "narrower,wider", "--at-once", "2", "low", "Seen", "Owned",
                       "Missed")
    trial.sees(all(line in beside for line in said), f"weaken, two at once, tells of {beside}")
    trial.sees(len(tree.given()) == 6, "weaken does not try anew what changed")
    stands = (tree.folder / "crates/low/specs/Words.antt").read_text(encoding="utf-8") == WORDS
    trial.sees(stands and not (tree.folder / "crates/low/src/use_using_it.rt").exists(),
               "weaken changes the repository")


def weaken_takes_words(trial: Trial) -> None:
    """Laws and definitions by their names; and where a use notices each, or none can be tried."""
    tree = Tree(trial, "names")
    for status, words, number in ((0, ["low", "Seen"], 2), (1, ["low", "a_bare_law", "Seen"], 4),
                                  (2, ["low", "is_low"], 2), (1, ["./crates/low", "Owned"], 1)):
        said = tree.sees(status, [" noticed, "], "--anew", *words)
        lines = [line for line in said.split("\n") if line.startswith("low ") and
                 ", 0 not tried" not in line and ", 1 not tried" not in line]
        trial.sees(len(lines) == number, f"weaken {words} tells of {lines}")
    tree.given()
    for words, said in ((["nosuch"], "there is no crate 'nosuch'"),
                        (["base"], "crate base has no law"),
                        (["low", "nosuch"], "there is no crate 'nosuch', and no law or definition"),
                        (["Seen"], "there is no crate 'Seen'"), (["--kind", "x"], "no kind 'x'"),
                        (["--kind", ""], "no kind ''"), (["--x"], "--x"),
                        (["--at-once", "0"], "--at-once"), (["--minutes", "-1"], "--minutes"),
                        (["--seconds", "x"], "--seconds"), (["--kept", ""], "a FOLDER")):
        tree.refuses(said, *words)
    tree.refuses_without_rt()


def weaken_is_bounded(trial: Trial) -> None:
    """A crate that is not proved as it is; a check that takes too long; no minutes; and the tool
    stopped by a signal."""
    tree = Tree(trial, "bounded")
    tree.write("broken", "")
    ran = tree.run("low", "Seen")
    trial.sees(ran.status == 2 and "nothing planted" in ran.errors and not ran.output,
               f"weaken of a broken crate ends with {ran.status}: {ran.errors}")
    (tree.folder / "broken").unlink()
    tree.write("slow", "")
    tree.sees(2, [f"low {NAMES[5]}: not tried: it took too long"], "--seconds", "2", "low",
              "is_low")
    tree.sees_no_rt()
    tree.given()
    tree.sees(2, ["0 UNNOTICED, 0 not tried, 2 left for another run"], "--minutes", "0", "low",
              "Seen")
    trial.sees(not tree.given(), "weaken begins a check though the minutes are over")
    ran = tree.run("low", "is_low", before=("timeout", "--preserve-status", "-s", "TERM", "6"))
    trial.sees(ran.status == 128 + signal.SIGTERM and NAMES[5].encode() not in ran.output,
               f"weaken, stopped by a signal, ends with {ran.status}: {ran.output!r}")
    tree.sees_no_rt()


def places_in_laws(trial: Trial) -> None:
    """In which ways names stand in what laws say."""
    for text, name, wanted in (
            ("(n : Kind) → A n → B n", "A", {BELOW}), ("(n : Kind) → A n → B n", "B", {ABOVE}),
            ("(n : Kind) → A n → B n", "Kind", {BELOW}), ("¬ A n", "A", {BELOW}),
            ("((m : ℕ) → A m → B m) → C", "A", {ABOVE}), ("A (f n) → C", "f", {BELOW, ABOVE}),
            ("(m : ℕ) × A m × (n ≡ f m)", "A", {ABOVE}), ("n ≡ f m", "f", {BELOW, ABOVE}),
            ("f n ≡ true → C", "f", {BELOW}), ("f n ≡ false → C", "f", {ABOVE}),
            ("(f n && not (g n)) ≡ true", "g", {BELOW}), ("true ≡ f n", "f", {ABOVE}),
            ("(if f n then g n else if h n then not (k n) else l n) ≡ true", "k", {BELOW}),
            ("(if f n then g n else if h n then k n else l n) ≡ true", "l", {ABOVE}),
            ("(if f n then g n else h n) ≡ true", "f", {BELOW, ABOVE}),
            ("list_any (λ m. f m && g n) xs ≡ true → C", "f", {BELOW}),
            ("(h n).pending (f n) ≡ true", "f", {BELOW, ABOVE})):
        found = {way for one, way in weakening.in_type(weakening.tokens(text), ABOVE)
                 if one == name}
        trial.sees(found == wanted, f"{name} is said to stand {found} in {text!r}")


def plants_of_the_tree(trial: Trial) -> None:
    """What is found in the crates of laws: each clause, and plants that can be made, no two the
    same, of definitions that laws name; and the uses, which are moved with all that they need."""
    for crate in ("aia_laws", "aia_isolation", "plans_rules"):
        modules = {clause.module for clause in weakening.clauses(crate)}
        number = sum(weakening.text_of(path).count("\n    ensures ") for path in
                     weakening.sources(crate, "src", "rt")
                     if weakening.module_of(crate, path) in modules)
        trial.sees(len(weakening.clauses(crate)) == number,
                   f"{crate} has {number} clauses, and {len(weakening.clauses(crate))} are found")
        plants = weakening.plants(crate, weakening.KINDS)
        trial.sees(len({(plant.kind, plant.name) for plant in plants}) == len(plants),
                   f"two plants of {crate} are the same")
        for plant in plants:
            if plant.file:
                text = weakening.text_of(TOP / "crates" / crate / plant.file)
                trial.sees(text.startswith(plant.old, plant.at)
                           and weakening.planted(text, plant) != text,
                           f"{crate} {plant.name} can't be made")
    for laws in ("aia_laws", "aia_isolation"):
        uses = {use for clause in weakening.clauses(laws) for use in using.uses_of(clause)}
        modules = {use.split("::")[1] for use in uses if use.startswith("aia_uses::")}
        moved = set(using.movable("aia_uses", laws)[0])
        trial.sees(modules <= moved, f"of the uses of {laws} only {moved} are moved")
    text = using.renamed("ghost use Rattle.some_uses.specs.Words.{one};\nuse crate::told::TOLD;\n"
                         "use low::laws::a_law;\n", "some_uses", "low")
    trial.sees(text == "ghost use Rattle.low.specs.UseWords.{one};\nuse crate::use_told::TOLD;\n"
               "use crate::laws::a_law;\n", f"a use is moved as {text!r}")


PARTS = (weaken_tells, weaken_takes_words, weaken_is_bounded, places_in_laws, plants_of_the_tree)
