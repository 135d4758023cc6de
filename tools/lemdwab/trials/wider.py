"""Tries suite/wider, as suite/tools does, in a tree of its own with an rt that only pretends, and
what lemdwab.documents.strength tells of edits: each function takes its Trial."""

from __future__ import annotations

import signal
from typing import TYPE_CHECKING

from lemdwab import pretended
from lemdwab.documents import strength

if TYPE_CHECKING:
    from lemdwab.commands.tools import Trial

# What the tool needs of a tree, and an edit of its crates.
FILES = ("suite/wider", "tools/lemdwab/commands/wider.py", *(
    f"tools/lemdwab/{name}.py" for name in ("keeping", "documents/__init__",
                                            "documents/strength", "documents/antt")))
SOURCE = "pub fn least() -> u32 {\n    1\n}\n\npub fn other() -> u32 {\n    2\n}\n"
EDIT = "file: src/lib.rt\nold: {old}\nnew: {new}\n"
# It says of each edit what its name asks for, and notes in `noted` which edits were given to it.
RT = """#!/bin/sh
[ "$1" = must-fail ] || exit 9
for edit in "crates/$2/must-fail"/*.edit; do
  name=$(basename "$edit" .edit)
  echo "$2/$name ${RT_JOBS-}" >> "@FOLDER@/noted"
  case $name in
  *_proved) said='NOT REFUSED: the crate is still proved with this edit' ;;
  *_bad) said='BAD EDIT: the prover cannot read the edited text' ;;
  *_killed) said='NOT TRIED: its check was killed' ;;
  *_long) echo $$ > "@FOLDER@/pid"; exec sleep 1000 ;;
  *_silent) continue ;;
  *_gone) said='refused, as it must be (only because a proof file names it): proofs/x' ;;
  *) said='refused, as it must be: note: src/lib.rt:2:5: it is not proved (`returns`); ..' ;;
  esac
  echo "rt: must-fail $2/$name.edit: $said"
done
echo 'rt: the end' >&2
exit 1
"""


class Tree(pretended.Tree):
    """A tree with two crates, `low` and `high`, a wider set and an rt."""

    TOOL, FILES, RT = "wider", FILES, RT

    def __init__(self, trial: Trial, name: str) -> None:
        super().__init__(trial, name)
        self.write("crates.txt", "# Crates\nlow:\nhigh: low\n")
        for crate in ("low", "high"):
            self.write(f"crates/{crate}/src/lib.rt", SOURCE)
            self.write(f"crates/{crate}/must-fail/tried_by_the_gate.edit",
                       EDIT.format(old="1", new="3"))

    def plant(self, *names: str, crate: str = "low", old: str = "1") -> None:
        """Writes edits of the wider set, each another one."""
        for at, name in enumerate(names):
            self.write(f"crates/{crate}/more-fail/{name}.edit",
                       EDIT.format(old=old, new=f"{at + 7}"))

    def edits(self) -> list[str]:
        """Gives the edits that rt was given since the last time."""
        return [line.split()[0] for line in self.given()]


def wider_goes_on(trial: Trial) -> None:
    """All refused; a second run, which tries nothing; and after a change of the crate, or of an
    edit, or where all is wanted anew, which tries what changed."""
    tree = Tree(trial, "refused")
    tree.plant("one", "two")
    tree.plant("three", crate="high")
    said = tree.sees(0, ["low/one: refused: src/lib.rt:2:5 (`returns`)\n", "low/two: refused",
                         "high/three: refused", "3 refused, 0 LET THROUGH, 0 not tried\n"])
    trial.sees(said.count("\n") == 4, f"wider prints {said}")
    trial.sees(tree.edits() == ["low/one", "low/two", "high/three"], "wider gives rt other edits")
    tree.sees(0, ["low: 2 edits refused before\nhigh: 1 edit refused before\n3 refused"])
    trial.sees(not tree.edits(), "wider tries again what was refused")
    tree.sees(0, ["low/one: can be made, refused before\n", "3 edits, of which 0 can't"], "--list")
    tree.write("crates/high/src/lib.rt", SOURCE + "\n")
    tree.sees(0, ["low: 2 edits refused before\nhigh/three: refused: "])
    trial.sees(tree.edits() == ["high/three"], "wider tries other crates than what changed")
    tree.plant("two")
    tree.sees(0, ["low: 1 edit refused before\nlow/two: refused: "], "low")
    trial.sees(tree.edits() == ["low/two"], "wider tries other edits than what changed")
    tree.sees(0, ["low/one: ", "low/two: ", "2 refused"], "--anew", "--jobs", "3", "--at-once", "1",
              "low")
    trial.sees(tree.edits() == ["low/one", "low/two"], "wider --anew tries others")
    gate = (tree.folder / "crates/low/must-fail/tried_by_the_gate.edit").is_file()
    trial.sees(gate and not (tree.folder / "crates/low/must-fail/one.edit").exists(),
               "wider changes must-fail/ of the repository")


def wider_takes_words(trial: Trial) -> None:
    """A crate by its folder; some edits of it alone; and wrong names, of which each is told what
    is wrong with it, before anything is tried."""
    tree = Tree(trial, "names")
    tree.plant("one", "two", "three")
    tree.plant("four", crate="high")
    tree.write("crates.txt", "low:\nhigh: low\nbare: low\n")
    for words, given in ((["low/", "two"], ["low/two"]),
                         (["crates/low", "three", "one", "high"],
                          ["low/one", "low/three", "high/four"]),
                         (["./crates/high/"], ["high/four"]),
                         (["low", "crates/low/more-fail/two.edit"], ["low/two"])):
        tree.sees(0, [f"{len(given)} refused, 0 LET"], "--anew", *words)
        got = tree.edits()
        trial.sees(got == given, f"wider {words} gives rt {got}")
    for words, said in ((["nosuch"], "there is no crate 'nosuch'"),
                        (["bare"], "crate bare has no edit in crates/bare/more-fail"),
                        (["low", "nosuch"], "there is no crate 'nosuch', and no edit of that name"
                                            " in crates/low/more-fail"),
                        (["low", "one", "four"], "there is no crate 'four', and no edit"),
                        (["one"], "there is no crate 'one'")):
        ran = tree.run(*words)
        trial.sees(ran.status == 2 and not ran.output and said in ran.errors,
                   f"wider {words} ends with {ran.status}: {ran.errors!r}")
    trial.sees(not tree.edits(), "wider with a wrong name runs rt")


def wider_tells(trial: Trial) -> None:
    """One let through, and those that can't be tried, which are tried again."""
    tree = Tree(trial, "told")
    tree.plant("fine", "is_proved")
    tree.sees(1, ["low/fine: refused: ", "low/is_proved: LET THROUGH: ",
                  "1 refused, 1 LET THROUGH, 0 not tried"])
    tree.edits()
    tree.sees(1, ["low/is_proved: LET THROUGH: ", "low: 1 edit refused before\n"])
    trial.sees(not tree.edits(), "wider tries again what was let through")
    tree = Tree(trial, "untried")
    tree.plant("fine", "is_bad", "is_gone", "is_killed", "is_silent")
    tree.plant("has_no_place", crate="high", old="nosuch")
    gones: list[list[str]] = [
        ["low/is_gone: refused: (only because a proof file names it): proofs/x\n"], []]
    for gone in gones:
        tree.sees(2, ["low/is_bad: not tried: BAD EDIT: the prover cannot read", *gone,
                      "low/is_killed: not tried: NOT TRIED: its check was killed",
                      "low/is_silent: not tried: rt ended with status 1 and said nothing of it:"
                      " rt: the end\n",
                      "high/has_no_place: not tried: its old text stands 0 times",
                      "2 refused, 0 LET THROUGH, 4 not tried\n"])
    trial.sees(tree.edits() == ["low/fine", "low/is_bad", "low/is_gone", "low/is_killed",
                                "low/is_silent", "low/is_bad", "low/is_killed", "low/is_silent"],
               "wider tries others than what is left")
    tree.sees(2, ["high/has_no_place: can't be made: its old text", "of which 1 can't"], "--list",
              "high")


def wider_is_bounded(trial: Trial) -> None:
    """A call that takes too long, which is stopped with all that it has started; no minutes; and
    the tool stopped by a signal."""
    tree = Tree(trial, "bounded")
    tree.plant("fine", "takes_long")
    tree.sees(2, ["low/fine: refused: ", "low/takes_long: not tried: it took too long",
                  "1 refused, 0 LET THROUGH, 1 not tried\n"], "--seconds", "2", "--at-once", "1")
    tree.sees_no_rt()
    tree.edits()
    tree.sees(2, ["0 LET THROUGH, 0 not tried, 1 left for another run"], "--minutes", "0")
    trial.sees(not tree.edits(), "wider begins a call though the minutes are over")
    ran = tree.run(before=("timeout", "--preserve-status", "-s", "TERM", "5"))
    trial.sees(ran.status == 128 + signal.SIGTERM and b"takes_long" not in ran.output,
               f"wider, stopped by a signal, ends with {ran.status}: {ran.output!r}")
    tree.sees_no_rt()


def wider_refuses_words(trial: Trial) -> None:
    """Wrong words, and no rt: status 2 and a message."""
    tree = Tree(trial, "words")
    tree.plant("one")
    for words in (["nosuch"], ["high"], ["--x"], ["--jobs", "0"], ["--jobs", ""],
                  ["--at-once", "x"], ["--seconds", "0"], ["--minutes", "-1"], ["--kept", ""],
                  ["low", "nosuch"], ["--list", "nosuch"]):
        tree.refuses("", *words)
    tree.refuses_without_rt()


def planted_bugs(trial: Trial) -> None:
    """Edits that can be made, and that can't, as suite/documents tells them apart."""
    once, twice = ("pub fn least_one", "pub fn other"), ("None", "Some")
    cases: list[tuple[bool, str, list[tuple[str, str]]]] = [
        (True, "src/bits.rt", [once]), (True, "src/bits.rt", [once, ("pub fn other", "")]),
        (False, "src/bits.rt", []), (False, "src/bits.rt", [twice]),
        (False, "src/bits.rt", [("nosuch text", "x")]), (False, "src/bits.rt", [once, once]),
        (False, "src", [once]), (False, "data/bits.rt", [once]), (False, "src/nosuch.rt", [once]),
        (False, "src/bits.rt", [(once[0], once[0])]), (False, "", [once])]
    for is_made, file, pairs in cases:
        why = strength.misfit("aia_word", [(file, old, new) for old, new in pairs])
        trial.sees(bool(why) != is_made, f"of an edit of {file!r}, {pairs}, is said {why!r}")
    read = strength.changes("file: a\nold: b\nnew: c\nold:  d\nnew:\nfile: e\nold: f\nnew:  g\n")
    trial.sees(read == (("a", "b", "c"), ("a", " d", ""), ("e", "f", " g")),
               f"an edit of three changes is read as {read}")
    one = strength.Edit("aia_word", strength.WIDER, "one", (("src/bits.rt", *once),))
    for other, number in ((one._replace(name="two"), 1), (one._replace(folder=strength.TRIED), 1),
                          (one._replace(changes=(("src/bits.rt", once[0], "pub fn two"),)), 1),
                          (strength.Edit("aia_word", strength.TRIED, "two",
                                         (("src/bits.rt", once[0], "pub fn two"),)), 0)):
        found = list(strength.told_apart([one, other]))
        trial.sees(len(found) == number, f"of {other} beside another is said {found}")


def wrong_bodies(trial: Trial) -> None:
    """Wrong bodies that edits plant, and that none plants, and a line that names no edit."""
    stood = strength.WRONG_BODIES
    there = next(f"{edit.crate}/{edit.name}" for edit in strength.edits(strength.WIDER))
    for line, number in ((f"a bug: {there}", 0), (f"# none\n\na bug: of two: {there}, {there}", 0),
                         (f"a bug: {there}, aia_pool/nosuch", 1), ("a bug: nosuch/nosuch", 1),
                         ("a bug", None), (f"{there}", None), ("a bug: aia_pool", None)):
        strength.WRONG_BODIES = trial.file("wrong-bodies", f"{line}\n")
        try:
            found = len(list(strength.unplanted()))
        except SystemExit:
            found = None
        trial.sees(found == number, f"of the wrong bodies {line!r} is said {found}")
    strength.WRONG_BODIES = stood


def rows_of_refusals(trial: Trial) -> None:
    """Rows in order that name functions of their crates, and others."""
    one, two = ("aia_word", "a"), ("aia_word", "b")
    for told, number in (({one: "`refreshed`", two: "`refreshed`: `shows`"}, 0),
                         ({two: "`refreshed`", one: "`refreshed`"}, 1),
                         ({one: "`nosuch_function`"}, 1), ({one: "`Type::nosuch_function`"}, 1),
                         ({one: "no name"}, 1), ({("nosuch", "a"): "`refreshed`"}, 1)):
        found = list(strength.misplaced(told))
        trial.sees(len(found) == number, f"of the refusals {told} is said {found}")


def written_proofs(trial: Trial) -> None:
    """In which function a line stands, and whether that has a proof written by hand."""
    text = ("const A: u32 = 1;\n\nimpl<T: Kind<u8>> Iterator for Some<'_, T> {\n"
            "    fn next(&mut self) {\n        two\n    }\n\n    const B: u32 = 3;\n}\n\n"
            "unsafe impl One {\n    pub(crate) fn four() {\n        if five {\n        }\n"
            "        six\n    }\n}\n\npub extern \"C\" fn seven() {\n    eight\n}\n")
    for old, wanted in (("A: u32", None), ("two", ("SomeIterator", "next")), ("B: u32", None),
                        ("        six", ("One", "four")), ("eight", ("", "seven"))):
        found = strength.function_at(text, old)
        trial.sees(found == wanted, f"{old!r} is said to stand in {found}")
    for place, is_there in ((("aia_hyp", "Core", "relay", "forwards"), True),
                            (("aia_hyp", "Core", "nosuch", "forwards"), False),
                            (("aia_domain", "ReadyIterator", "next", "ready"), True),
                            (("aia_domain", "Ready", "next", "ready"), False),
                            (("aia_hyp", "", "is_vm_size", "hypervisor_core"), True),
                            (("aia_hyp", "", "is_vm_size", "moves"), False)):
        trial.sees(strength.has_written_proof(*place) == is_there, f"a proof of {place}")
    trial.sees(strength.function_refused("`Core::send`: `takes`, `aims`") == ("Core", "send")
               and strength.function_refused("law `a_law`, at its lemma `b`") == ("", "a_law"),
               "what a refusal names first")


PARTS = (wider_goes_on, wider_takes_words, wider_tells, wider_is_bounded, wider_refuses_words,
         planted_bugs, wrong_bodies, rows_of_refusals, written_proofs)
