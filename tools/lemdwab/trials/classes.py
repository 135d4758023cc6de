"""Tries the classes of scripts, suite/compare --only-standard, and the machine of fixed sizes of
examples, as suite/tools does: each function takes its Trial."""

from __future__ import annotations

import re
import sys
from collections import Counter
from typing import TYPE_CHECKING

from lemdwab import answers, classes
from lemdwab.apart import choices, model
from lemdwab.running import TOP, sure

if TYPE_CHECKING:
    from lemdwab.classes import Needs
    from lemdwab.commands.tools import Trial, Word

FIXED = TOP / "examples/fixed-machine.py"
COMPARE = TOP / "suite/compare"
SIZES = (2, 7, 255, 96)
FORMS = {"machine", "st", "ld", "wire", "m", "h", "pins"}
# Choices that go with no other of their kind, and what the machine has then.
APART = {
    "priorities_of_three_bits": classes.Needs(SIZES, "", 3),
    "priorities_of_one_bit": classes.Needs(SIZES, "", 1),
    "deliveries_by_msis_alone": classes.Needs(SIZES, "msis", 4),
    "deliveries_to_harts_alone": classes.Needs(SIZES, "direct", 4),
    "identities_to_2047": classes.Needs((2, 7, 2047, 96), "", 4)}
ALIKE = classes.Needs(SIZES, "", 4)


def by_class() -> dict[str, set[str]]:
    """Gives the names of the scripts of each class."""
    found: dict[str, set[str]] = {kind: set() for kind in classes.CLASSES}
    for name, kind, _ in classes.rows(classes.TABLE.read_text(encoding="ascii")):
        found[kind].add(name)
    return found


def classes_of_scripts(trial: Trial) -> None:
    """Each script has one class, and suite/README.md agrees: its table of choices has the scripts
    of the class profile, and it says how many scripts each class has."""
    for wrong in classes.drifts():
        trial.sees(False, wrong)
    found = by_class()
    text = (TOP / "suite/README.md").read_text(encoding="utf-8")
    for kind, names in found.items():
        trial.sees(f"| `{kind}` | {len(names)} |" in text,
                   f"suite/README.md does not say that {len(names)} scripts are {kind}")
    trial.sees(f"`{len(asked_of(ALIKE))} scripts same, 0 differ`" in " ".join(text.split()),
               "suite/README.md says another count of scripts for the machine of fixed sizes")
    table = text.partition("\n## What rests on a choice\n")[2].partition("\n## ")[0]
    named = set(re.findall("`([^`]+)`", " ".join(re.findall(r"(?m)^\| (`[^|]*) \|", table))))
    for name in sorted(named ^ found["profile"]):
        trial.sees(False, f"{name} is of the class profile or in the table of suite/README.md, and "
                   "not both")


def wrong_tables(trial: Trial) -> None:
    """What is wrong in a table of classes is told."""
    text = classes.TABLE.read_text(encoding="ascii")
    row = next(line for line in text.splitlines() if line.startswith("store-is-claimed "))
    for new, said in (("", "has no row"), (f"{row}\n{row}", "twice"),
                      (f"{row}\nno-such text x", "no script no-such"),
                      ("store-is-claimed right x", "no class"),
                      ("store-is-claimed profile", "not why"),
                      ("store-is-claimed standard 1 0 63", "not what it needs")):
        found = list(classes.drifts(text.replace(row, new)))
        trial.sees(len(found) == 1 and said in found[0], f"of {new!r} the table says {found}")


def standard_scripts(trial: Trial) -> None:
    """A standard script has lines of a few forms, and no answer that is a refusal, on its own
    machine and on the least that it needs, which is no larger than its own."""
    for path, needs in classes.standard().items():
        script = path.read_bytes()
        forms = {answers.form(line.text) for line in answers.lines(script)}
        trial.sees(forms <= FORMS, f"{path.stem} has the forms {forms}")
        least = answers.with_sizes(script, needs.sizes)
        own = sure(re.search(rb"(?m)^machine (.*)$", script))[1].split()
        trial.sees(all(need <= int(size) for need, size in zip(needs.sizes, own)),
                   f"{path.stem} needs more than its machine has")
        for one in (script, least):
            said = answers.answers(model.answers(one))
            trial.sees(not answers.REFUSALS & set(said), f"a line of {path.stem} is refused")


def asked_of(has: Needs) -> list[bytes]:
    """Lists the standard scripts that a machine can be asked, with its sizes."""
    return [answers.with_sizes(path.read_bytes(), has.sizes)
            for path, needs in classes.standard().items() if not needs.lacks(has)]


def is_alike(trial: Trial, has: Needs, *words: Word) -> None:
    """Sees that the machine of fixed sizes, with choices, answers all scripts that it can be asked
    as the model does; they come one after the other, and each begins with a machine."""
    scripts = asked_of(has)
    ran = trial.run(sys.executable, "-B", FIXED, *words, text=b"\n".join(scripts) + b"\n")
    wanted = b"".join(map(model.answers, scripts))
    trial.sees(scripts and ran.output == wanted and not ran.status,
               f"fixed-machine.py {words} answers a standard script otherwise: {ran.errors}")


def fixed_machines(trial: Trial) -> None:
    """A right machine of fixed sizes answers the standard scripts as the model does, with each
    other choice alone and with all together."""
    is_alike(trial, ALIKE)
    is_alike(trial, ALIKE, "all")
    trial.sees(set(APART) == set(choices.APART), "a choice that stands apart is not tried")
    for name in choices.CHOICES:
        is_alike(trial, APART.get(name, ALIKE), name)
        if name in APART:
            is_alike(trial, APART[name], "all", name)
    for words in (["nosuch"], ["all", "nosuch"]):
        ran = trial.run(FIXED, *words)
        trial.sees(ran.status == 2 and "no choice 'nosuch'" in ran.errors, f"fixed-machine {words}")
    ran = trial.run(FIXED, text=b"machine 1 0 63 1\nvm 1 0x8 0\n")
    trial.sees(ran.status == 2 and "nothing of this line: vm" in ran.errors, "fixed-machine vm")


def left_out(has: Needs) -> str:
    """Says how many scripts are left out of those that a machine can be asked, as compare does."""
    lacks = Counter(filter(None, (needs.lacks(has) for needs in classes.standard().values())))
    count = sum(lacks.values())
    return (f"{count} script{'s' * (count > 1)} left out, which need{'s' * (count == 1)} "
            + ", ".join(f"{what} ({number})" for what, number in lacks.items()))


def only_standard(trial: Trial) -> None:
    """suite/compare --only-standard, with machines of several sizes and deliveries."""
    for sizes, delivery, bits in ((SIZES, "", 8), ((1, 7, 255, 96), "", 8),
                                  ((1, 7, 255, 96), "direct", 8), (SIZES, "", 3)):
        has = classes.Needs(sizes, delivery, bits)
        options = [*["--delivery", delivery] * bool(delivery),
                   *["--priority-bits", f"{bits}"] * (bits < 8)]
        trial.prints(0, [left_out(has) + "\n", f"{len(asked_of(has))} scripts same, 0 differ\n"],
                     COMPARE, "--only-standard", "--machine", " ".join(map(str, sizes)), *options,
                     "--", sys.executable, "-B", FIXED)
    trial.prints(0, ["2 scripts same, 0 differ\n", "little of an IMSIC was looked at; of these"
                     " scripts: sireg in 1, no mireg, stopei in 1, no mtopei, no csrrs, no csrrc,"
                     " no guest file\n"],
                 COMPARE, "--only-standard", "-k", "claim", "--", trial.program, "replay")
    trial.prints(0, [f"{len(classes.standard())} scripts same, 0 differ\n"], COMPARE,
                 "--only-standard", "--", trial.program, "replay")
    trial.prints(1, ["ties-and-thresholds.script differs", " 1 differ\n"], COMPARE,
                 "--only-standard", "-k", "ties", "--", TOP / "peers/apart/plants.py",
                 "ithreshold_lets_itself_through")
    trial.prints(0, ["1 script left out, which needs a machine of other sizes (1)\n",
                     "2 scripts same, 0 differ"], COMPARE, "--machine", "1 0 63 8", "-k",
                 "domains", "--", trial.program, "replay")
    for words in (["--only-standard", "x", "--", "cat"], ["--delivery", "direct", "--", "cat"],
                  ["--priority-bits", "3", "--", "cat"],
                  ["--only-standard", "--delivery", "x", "--", "cat"],
                  ["--only-standard", "--priority-bits", "9", "--", "cat"],
                  ["--only-standard", "-k", "spelling", "--", "cat"]):
        ran = trial.run(COMPARE, *words)
        trial.sees(ran.status == 2 and ran.errors, f"compare {words} ends with {ran.status}")


PARTS = (classes_of_scripts, wrong_tables, standard_scripts, fixed_machines, only_standard)
