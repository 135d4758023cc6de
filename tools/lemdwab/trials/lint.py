"""What suite/tools tries of suite/lint; and random lines of each language, good ones and broken
ones, on which lint and the program have to agree."""

from __future__ import annotations

import os
import random
import re
from collections.abc import Callable
from typing import TYPE_CHECKING

from lemdwab import answers, linting, linting_plans, running
from lemdwab.apart import plans, reading
from lemdwab.running import TOP

if TYPE_CHECKING:
    from lemdwab.commands.tools import Trial, Word
    from lemdwab.linting import Fault
    from lemdwab.running import Workers

LINT = TOP / "suite/lint"
# How many lines are compared by one run of the program, at most, and how long that may take.
PIECE, LONGEST = 100_000, 300
# How many differences are printed.
MOST = 10
AUDIT_WIDTH = 4
# The statuses with which `judge` has read its plans: all accepted, one refused, bad, none at all.
JUDGED = (0, 1, 7, 8)
NUMBERS = (0, 1, 2, 3, 5, 8, 63, 64, 255, 1023, 4096, 0x28000000, 0x28000004, 0x2800C000,
           (1 << 32) - 1, 1 << 32, (1 << 63) + 10, (1 << 64) - 1)
ODD_NUMBERS = (b"18446744073709551616", b"18446744073709551620", b"0x10000000000000000",
               b"0x00000000000000000", b"99999999999999999999", b"00", b"01", b"007", b"0x", b"0X1",
               b"0xAB", b"-1", b"+1", b"1.0", b"1_0", b"c0", b"1h", b"0xg", b"0b1", b"2", b"31",
               b"32", b"33", b"99", b"100", b"0x0", b"0x1f", b"0x20")
IMAGE_PARTS = ("image", "majors", "prio", "word")


# ---- good lines

def spelled(draw: random.Random, value: int) -> bytes:
    """Spells a number in one of its ways."""
    way = draw.randrange(8)
    if way < 4:
        return b"%d" % value
    return b"0x%0*x" % (draw.choice((1, 1, 1, 2, 8, 16)), value)


def numbers(draw: random.Random, kinds: str) -> list[bytes]:
    """Gives numbers of these kinds."""
    found = []
    for kind in kinds:
        value = draw.choice(NUMBERS) if draw.random() < 0.5 else draw.randrange(40)
        found.append(spelled(draw, value % reading.LIMITS[kind]))
    return found


def instruction(draw: random.Random, names: dict[bytes, str]) -> list[bytes]:
    """Gives the words of a CSR instruction."""
    csr = draw.choice(list(names))
    if draw.random() < 0.3:
        return [b"csrr", csr]
    return [draw.choice(list(reading.WRITING)), csr, *numbers(draw, "n")]


def script_line(draw: random.Random) -> bytes:
    """Gives a good line of a script."""
    form = draw.choice([*reading.FORMS, "m", "h", "h", "g", "g", "load", "load"])
    if form in reading.FORMS:
        return b" ".join([form.encode(), *numbers(draw, reading.FORMS[form])])
    if form == "load":
        part = draw.choice(list(reading.PARTS))
        rest = [part, *numbers(draw, reading.PARTS[part])]
    elif form == "h" and draw.random() < 0.2:
        rest = [b"hgeip"]
    elif form == "g" and draw.random() < 0.2:
        rest = [b"ipi", *numbers(draw, "nw")]
    else:
        rest = instruction(draw, linting.CSRS[form])
    return b" ".join([form.encode(), *numbers(draw, "n" if form in "mh" else "nn"), *rest])


def audit_line(draw: random.Random) -> bytes:
    """Gives a good step of a plan for `audit`."""
    if draw.random() < 0.4:
        return draw.choice(plans.PLAIN).encode()
    return draw.choice(plans.OF_A_WORD).encode() + b" " + spelled(draw, draw.randrange(AUDIT_WIDTH))


def judge_line(draw: random.Random, names: dict[str, tuple[str, ...]]) -> bytes:
    """Gives a line of a plan for `judge` that spells something, whatever is declared."""
    name = draw.choice(list(names))
    words = [name]
    wanted = [*names[name]]
    for what in wanted:
        if what in linting_plans.NAMES:
            count = draw.choice((0, 0, 1, 1, 2, 3)) + (what == "count")
            words.append(draw.choice((f"{count}", f"{count}", f"0{count}")))
        else:
            words.append(draw.choice(linting_plans.CHOICES[what]))
            if words[-1] in linting_plans.SETS:
                wanted.append("word")
    text = " ".join(words) if draw.random() < 0.7 else "  ".join(["", *words, ""])
    return (text + draw.choice(("", "", "", "# so", " # a store\r", "#\tso"))).encode()


# ---- broken ones

def broken(draw: random.Random, text: bytes) -> bytes:
    """Gives a line with one thing that is other."""
    words, at = text.split(b" "), draw.randrange(len(text) + 1)
    one = draw.randrange(len(words))
    front, rest = text[:at], text[at:]
    other: dict[str, Callable[[], bytes]] = {
        "capitals": lambda: front + rest.upper(),
        "a capital": lambda: front + rest[:1].upper() + rest[1:],
        "tab": lambda: text.replace(b" ", b"\t", 1),
        "CR": lambda: text + b"\r",
        "a byte": lambda: front + bytes([draw.randrange(256)]) + rest,
        "another byte": lambda: front + bytes([draw.randrange(256)]) + rest[1:],
        "a known byte": lambda: front + draw.choice(b"0123456789abcdefx #-\t\r").to_bytes(1, "big")
        + rest,
        "without a byte": lambda: front + rest[1:],
        "two swapped": lambda: front[:-1] + rest[:1] + front[-1:] + rest[1:],
        "truncated": lambda: front,
        "two spaces": lambda: text.replace(b" ", b"  ", 1),
        "space before": lambda: b" " + text,
        "space behind": lambda: text + b" " * draw.randrange(1, 3),
        "comment behind": lambda: text + draw.choice((b" # x", b"#", b" #\xc3\xa9")),
        "a zero": lambda: b" ".join([*words[:one], b"0" + words[one], *words[one + 1:]]),
        "a number": lambda: b" ".join([*words[:one], draw.choice(ODD_NUMBERS), *words[one + 1:]]),
        "a word more": lambda: text + b" " + draw.choice(words),
        "a word less": lambda: b" ".join([*words[:one], *words[one + 1:]]),
        "words swapped": lambda: b" ".join([*words[one:], *words[:one]]),
        "long": lambda: (text + draw.choice((b" ", b"0", b"#")) * 130)[:draw.randrange(126, 131)],
        "a comment": lambda: (b"#" + text * 40)[:draw.choice((5, 127, 128, 129, 140))],
        "nothing": lambda: b"",
        "a CSR": lambda: re.sub(rb"[ms]?(iselect|ireg|topei|topi|ip|ie)", draw.choice(
            (b"siselect", b"mtopei", b"sip", b"stopi", b"mireg", b"vstopei")), text),
    }
    return draw.choice(list(other.values()))().replace(b"\n", b" ")


def some_line(draw: random.Random, line: Callable[[random.Random], bytes], share: float) -> bytes:
    """Gives a line that is good or, of a share, broken once or twice."""
    text = line(draw)
    for _ in range((draw.random() < share) + (draw.random() < share / 4)):
        text = broken(draw, text)
    return text


# ---- lint against the program

class Tally:
    """What was compared, and what differs."""

    def __init__(self, language: str) -> None:
        self.language, self.lines, self.bad, self.differ = language, 0, 0, 0

    def see(self, text: bytes, mine: object, its: object) -> None:
        """Sees whether lint and the program say the same of a text."""
        if mine != its:
            self.differ += 1
            if self.differ <= MOST:
                print(f"{answers.printable(answers.shown(text))!r}: lint says {mine}, the program"
                      f" {its}", flush=True)

    def summary(self) -> str:
        """Says what was compared."""
        return (f"{self.language}: {self.lines} lines, {self.bad} bad, on {self.differ} of them"
                " lint and the program differ")


def ran(workers: running.Workers, command: list[str], text: bytes, most: int,
        statuses: tuple[int, ...] = (0,)) -> list[str]:
    """Gives what a command answers; ends the tool where it ends with another status than these."""
    one = workers.submit(running.run, command, text, LONGEST, most).result()
    running.check_started(one, command)
    if one.stopped or one.status not in statuses:
        running.fail(f"{' '.join(command)}: {one.fault()}")
    return answers.answers(one.output)


def compare_scripts(workers: Workers, program: str, draw: random.Random, count: int,
                    tally: Tally) -> None:
    """Compares lines of scripts, each by its answer."""
    while tally.lines < count:
        texts = [some_line(draw, script_line, 0.6) for _ in range(min(PIECE, count - tally.lines))]
        said = iter(ran(workers, [program, "replay"], b"\n".join(texts) + b"\n", 40 * PIECE))
        for text in texts:
            fault = linting.script_fault(text)
            answer = "skipped" if reading.is_skipped(text) else next(said, "missing")
            tally.see(text, fault and "bad", "bad" if answer in ("bad", "missing") else None)
            tally.bad += fault is not None
        tally.see(b"(the end)", None, next(said, None))
        tally.lines += len(texts)


def compare_audits(workers: Workers, program: str, draw: random.Random, count: int,
                   tally: Tally) -> None:
    """Compares plans for `audit`, each by its first line that is bad, if it has one."""
    while tally.lines < count:
        texts = [some_line(draw, audit_line, 0.04) for _ in range(draw.choice((5, 20, 40, 40)))]
        if draw.random() < 0.02:
            texts = [audit_line(draw) for _ in range(draw.choice((511, 512, 513, 514, 520)))]
        reader, counted, bad = linting.Audit(AUDIT_WIDTH), 0, None
        for text in texts:
            counted += not reading.is_skipped(text)
            if reader.fault(text) and bad is None:
                bad = f"bad {counted}"
        said = ran(workers, [program, "audit", "leave", str(AUDIT_WIDTH)],
                   b"\n".join(texts) + b"\n", 1 << 10)
        tally.see(b" | ".join(texts), bad, said[0] if said[0].startswith("bad") else None)
        tally.lines, tally.bad = tally.lines + len(texts), tally.bad + (bad is not None)


def a_plan(draw: random.Random) -> list[bytes]:
    """Gives the lines of a plan for `judge`, most of them good, in an order that mostly may be."""
    declared = {name: what for name, what in linting_plans.DECLARATIONS.items() if name != "plan"}
    texts = [b"plan"] if draw.random() < 0.97 else [b" plan # next"]
    texts += [judge_line(draw, declared) for _ in range(draw.randrange(6))]
    texts += [judge_line(draw, linting_plans.STEPS) for _ in range(draw.randrange(8))]
    if draw.random() < 0.02:
        texts[1:1] = [b"producer routed"] * draw.choice((15, 16, 17))
    if draw.random() < 0.001:
        texts += [b"post"] * draw.choice((4096, 4097))
    return [texts[0], *(broken(draw, text) if draw.random() < 0.06 else text for text in texts[1:])]


def compare_judged(workers: Workers, program: str, draw: random.Random, count: int,
                   tally: Tally) -> None:
    """Compares plans for `judge`, each by its first line that is bad, if it has one."""
    while tally.lines < count:
        texts: list[bytes] = []
        while len(texts) < min(PIECE // 5, count - tally.lines):
            texts += a_plan(draw)
        reader = linting_plans.Judged()
        wanted: list[tuple[int, str | None]] = []
        for number, text in enumerate(texts, 1):
            was_bad, fault = reader.is_bad, reader.fault(text)
            line = linting_plans.said_of(text)
            if isinstance(line, linting_plans.Said) and line.name == "plan":
                wanted.append((number, None))
            elif fault and not was_bad:
                wanted[-1] = (number, f"bad line {number}")
        said = [one for one in ran(workers, [program, "judge"], b"\n".join(texts) + b"\n",
                                   1 << 24, JUDGED) if not one.startswith("  run: ")]
        tally.see(b"(plans)", len(wanted), len(said))
        for (number, mine), its in zip(wanted, said):
            tally.see(texts[number - 1], mine, its if its.startswith("bad ") else None)
            tally.bad += mine is not None
        tally.lines += len(texts)


COMPARED = {"script": compare_scripts, "audit": compare_audits, "judge": compare_judged}


def program_of(workers: running.Workers, language: str) -> str:
    """Gives the program that reads a language, which is built first where it has to be."""
    if language != "judge":
        return running.model_command(workers)[0]
    if os.environ.get("PLANS"):
        return os.environ["PLANS"]
    words = [str(TOP / "plans"), "judge"]
    built = workers.submit(running.run, words, b"", running.BUILDING, 1 << 20, True).result()
    if built.stopped or built.status not in JUDGED:
        running.fail(f"./plans can't be built: {built.fault()}")
    return str(TOP / "crates/plans/out/plans")


def compares(words: list[str]) -> int:
    """Compares lint with the program over random lines: LINES SEED [LANGUAGE]."""
    if len(words) not in (2, 3):
        running.usage("LINES and SEED are wanted behind `try`")
    if words[2:] and words[2] not in COMPARED:
        running.usage(f"there is no language {words[2]!r}; there are {', '.join(COMPARED)}")
    count = running.number(words[0], "LINES", 1, 100_000_000)
    seed = running.number(words[1], "SEED", 0, (1 << 64) - 1)
    tally = Tally((*words[2:], "script")[0])
    with running.Workers(1) as workers:
        COMPARED[tally.language](workers, program_of(workers, tally.language),
                                 random.Random(f"{tally.language} {seed}"), count, tally)
    print(tally.summary())
    return 1 if tally.differ else 0


# ---- what suite/tools tries

# Lines that are bad, each with the column and the beginning of the reason that is given.
CASES = (
    ("st 0x2800000C 5", 4, "capital digits in a hexadecimal number: 0x2800000C"),
    ("st 0X28000000 5", 4, "a capital X in a hexadecimal number"),
    ("ld 28000000c", 4, "hexadecimal digits without 0x"),
    ("ld 0x", 4, "no digit behind 0x"),
    ("ld 0x00000000000000001", 4, "more than 16 digits behind 0x"),
    ("ld 18446744073709551616", 4, "a number at or above 2^64"),
    ("wire 01 1", 6, "a leading zero: 01"),
    ("store 0x28000000 5", 1, "unknown word store; st?"),
    ("Read 0x28000000", 1, "unknown word Read; ld, or h, m or g with csrr?"),
    ("move 0 0", 1, "unknown word move; arrive, leave, shift?"),
    ("wire 1 2", 8, "L of `wire S L` is 0 or 1: 2"),
    ("st 0x28000000 4294967296", 15, "V of `st A V` is below 2^32: 4294967296"),
    ("ld -4", 4, "a sign before a number: -4"),
    ("pins one", 6, "H of `pins H` is a number: one"),
    ("wire\t1 1", 5, "a tab"),
    ("wire 1 1\r", 9, "a CR at the end"),
    ("wire  1 1", 6, "two spaces"),
    (" wire 1 1", 1, "a space before the first word"),
    ("wire 1 1 ", 9, "a space at the end"),
    ("  ", 1, "spaces alone"),
    ("wire 1 1 # up", 10, "a comment behind a line"),
    ("wire 1 1#up", 9, "a # within a word"),
    (" # up", 2, "a comment that does not begin with the line"),
    ("#" + "x" * 128, 129, "a comment of 129 bytes; it has 128 at most"),
    ("ld " + "0" * 126, 129, "a line of 129 bytes; it has 128 at most"),
    ("wire 1", 7, "too few words: `wire S L`"),
    ("wire 1 1 1", 10, "too many words: `wire S L`"),
    ("arive 0 0 0", 1, "unknown word arive; arrive?"),
    ("MSI 0 0x28000000 3", 1, "capital letters: MSI; msi?"),
    ("begin leve 0 0", 7, "unknown move leve; leave?"),
    ("begin leave 0", 14, "too few words: `begin leave VM C`"),
    ("h 0 csrr mtopei", 10, "mtopei is no CSR of `h H`, which has siselect, sireg, stopei"),
    ("h 0 csrr stopi", 10, "stopi is no CSR of `h H`"),
    ("g 0 0 csrrw vstopei 0", 13, "unknown CSR vstopei; stopei?"),
    ("m 0 csrrwi mireg 0", 5, "unknown word csrrwi; csrrw?"),
    ("m 0 hgeip", 5, "unknown word hgeip"),
    ("h 0 csrrw stopei", 17, "too few words: `h H csrrw CSR V`"),
    ("h 0 csrr stopei 0", 17, "too many words: `h H csrr CSR`"),
    ("g 0 0 ipi 1", 12, "too few words: `g VM C ipi C2 D`"),
    ("load 0 0 imge 1 63 1 0 0", 10, "unknown part imge; image?"),
    ("load 0 0 image 1 63 2 0 0", 21, "D of `load VM C image 1 N D T S` is 0 or 1: 2"),
    ("load 0 0 word 0 1", 18, "too few words: `load VM C word w P E`"),
    ("\x00", 1, "a byte that is no text here: 0x00"),
    ("\xef\xbb\xbf# so", 1, "a byte order mark"),
)
STEP_CASES = (
    ("takep 4", 7, "w of `takep w` is below 4: 4"), ("takep", 6, "too few words: `takep w`"),
    ("fence 0", 7, "too many words: `fence`"), ("Fence", 1, "capital letters: Fence; fence?"),
    ("gfense", 1, "unknown step gfense; gfence?"), ("look 00", 6, "a leading zero: 00"),
    ("map # so", 5, "a comment behind a line"), ("map ", 4, "a space at the end"),
)
# Plans for `judge`: the lines of each, of which the last is bad.
PLAN_CASES = (
    ("route 0", 7, "producer 0 is not declared; none is"),
    ("producer routed\nfence 1", 7, "producer 1 is not declared; 0 alone is"),
    ("look 1", 6, "word 1 is not declared; 0 alone is"),
    ("words 2\nwords 3\ntake pending 3", 14, "word 3 is not declared; 0 to 2 are"),
    ("post\nwords 2", 1, "words stands behind a step"),
    ("tell\nproducer routed", 1, "producer stands behind a step"),
    ("words 0", 7, "N of `words N` is 1 to 32: 0"), ("words 33", 7, "N of `words N` is 1 to 32"),
    ("words 0x2", 7, "N of `words N` is a number of one or two decimal digits: 0x2"),
    ("look 000", 6, "W of `look W` is a number of one or two decimal digits: 000"),
    ("producer routed\n" * 16 + "producer routed", 1, "one producer too many"),
    ("post\n" * 4096 + "post", 1, "one step too many; a plan has 4096 at most"),
    ("producer roted", 10, "unknown word roted; routed?"),
    ("numbers old", 12, "too few words: `numbers FROM TO`"),
    ("numbers old new new", 17, "too many words: `numbers FROM TO`"),
    ("zero hand pending 0", 6, "unknown word hand (here stands old or new)"),
    ("join threshold", 6, "threshold is not joined, but put: `join SET W`"),
    ("notices", 8, "too few words: `notices unset`"),
    ("notices set", 9, "unknown word set; unset?"),
    ("post\nnotices unset", 1, "notices stands behind a step"),
    ("write", 6, "too few words: `write notice`"),
    ("write notices", 7, "unknown word notices; notice?"),
    ("write notice 0", 14, "too many words: `write notice`"),
    ("take pending", 13, "too few words: `take SET W` or `take N`"),
    ("  free  now", 9, "too many words: `free`"), ("fre", 1, "unknown word fre; free?"),
    ("post\t", 5, "a tab"), ("post\r", 5, "a CR at the end"),
    ("post #" + "x" * 123, 129, "a line of 129 bytes"), ("tak pending 0", 1, "unknown word tak"),
)
# What has to be so where a reason is given, of the text from the column on and of its first word.
HOLDS: dict[str, Callable[[bytes, bytes], object]] = {
    "a tab": lambda rest, word: rest[:1] == b"\t",
    "a CR": lambda rest, word: rest[:1] == b"\r",
    "a byte that": lambda rest, word: not 32 <= rest[0] < 127,
    "two spaces": lambda rest, word: rest[:1] == b" " and rest.strip(b" "),
    "spaces alone": lambda rest, word: not rest.strip(b" "),
    "a space before": lambda rest, word: rest[:1] == b" ",
    "a space at the end": lambda rest, word: rest and not rest.strip(b" "),
    "a comment behind": lambda rest, word: rest[:1] == b"#",
    "a comment that": lambda rest, word: rest[:1] == b"#",
    "a # within": lambda rest, word: rest[:1] == b"#",
    "capital digits": lambda rest, word: re.fullmatch(rb"0x(?=.*[A-F])[0-9a-fA-F]+", word),
    "a capital X": lambda rest, word: re.fullmatch(rb"0X[0-9a-fA-F]+", word),
    "more than 16": lambda rest, word: re.fullmatch(rb"0x[0-9a-f]{17,}", word),
    "no digit": lambda rest, word: word.lower() == b"0x",
    "a leading zero": lambda rest, word: re.fullmatch(rb"0[0-9]+", word),
    "a number at or above": lambda rest, word: re.fullmatch(rb"[1-9][0-9]*", word)
    and int(word) >= 1 << 64,
    "hexadecimal digits": lambda rest, word: re.fullmatch(rb"[0-9a-fA-F]*[a-fA-F][0-9a-fA-F]*",
                                                          word),
    "a sign": lambda rest, word: re.fullmatch(rb"[+-][0-9]+", word),
    "too few": lambda rest, word: not rest,
    "too many": lambda rest, word: word,
    "unknown": lambda rest, word: word,
    "capital letters": lambda rest, word: word != word.lower(),
}


def holds(text: bytes, fault: Fault) -> bool:
    """Says whether the reason that is given of a line of a script is true of it."""
    rest = text[fault.column - 1:]
    word = rest.split(b" ")[0]
    if len(text) > 128 or fault.column > 128:
        return len(text) > 128 and bool(re.match(r"a (comment|line) of \d+ bytes", fault.reason))
    if "is below 2^32" in fault.reason:
        return (reading.number(word) or 0) >= 1 << 32
    if "is 0 or 1" in fault.reason:
        return (reading.number(word) or 0) > 1
    if "is a number" in fault.reason:
        return not re.fullmatch(rb"[0-9]+|0x[0-9a-f]+", word)
    if "is no CSR of" in fault.reason:
        return word.decode() in linting.ALL_CSRS
    if fault.column == 1 and fault.reason.startswith("unknown"):
        return answers.shown(word) not in answers.FORMS
    return any(holds_of(rest, word) for begin, holds_of in HOLDS.items()
               if fault.reason.startswith(begin))


def lints_by_reasons(trial: Trial) -> None:
    """What is said of lines that are bad: of some by heart, and of random ones that it is true."""
    for text, column, reason in CASES:
        fault = linting.script_fault(text.encode("latin-1"))
        trial.sees(fault and fault.column == column and fault.reason.startswith(reason),
                   f"of {text!r} lint says {fault}")
    for text, column, reason in STEP_CASES:
        fault = linting.step_fault(text.encode(), AUDIT_WIDTH)
        trial.sees(fault and fault.column == column and fault.reason.startswith(reason),
                   f"of the step {text!r} lint says {fault}")
    for text, column, reason in PLAN_CASES:
        reader = linting_plans.Judged()
        *before, fault = [reader.fault(one) for one in text.encode().split(b"\n")]
        trial.sees(not any(before) and fault and fault.column == column
                   and fault.reason.startswith(reason), f"of {text[-40:]!r} lint says {fault}")
    draw = random.Random("reasons")
    for _ in range(20000):
        line = some_line(draw, script_line, 0.8)
        fault = linting.script_fault(line)
        if fault and not holds(line, fault):
            trial.sees(False, f"of {line!r} lint says {fault}")
    plan = linting.Audit(1)
    trial.sees([number for number in range(1, 516) if plan.fault(b"fence")] == [513],
               "the steps of a plan for audit that are too many")
    plans = linting_plans.Judged()
    said = [plans.fault(one) for one in (b"fre", b"route 0", b"pst", b"plan", b"route 0", b"plan")]
    trial.sees([fault and fault.column for fault in said] == [1, None, 1, None, 7, None],
               f"of two plans in a file lint says {said}")


def lints_as_documents(trial: Trial) -> None:
    """The forms as the documents have them, and the lines of the suite that are answered `bad`."""
    reference = (TOP / "docs/REFERENCE.md").read_text(encoding="utf-8")

    def told(text: str, title: str) -> set[str]:
        table = text.partition(f"\n## {title}\n")[2].partition("\n## ")[0]
        return {form for cell in re.findall(r"(?m)^\| ([^|]*) \|", table)
                for form in re.findall("`([^`]+)`", cell)}

    forms = {f"{keywords} {linting.NAMES[keywords]}" for keywords in reading.FORMS}
    forms |= {"load VM C PART", "g VM C INS", "g VM C ipi C2 D", "m H INS", "h H INS", "h H hgeip"}
    trial.sees(told(reference, "Lines") == forms, "the forms of lines that lint prints")
    images = set(re.findall(r"(?m)^\| [^|]* \| `([^`]+)", reference.partition("\n## Images\n")[2]))
    trial.sees(images >= {f"{part} {linting.NAMES[part]}" for part in IMAGE_PARTS},
               "the parts of images")
    steps = {*plans.PLAIN, *(f"{name} w" for name in plans.OF_A_WORD)}
    of_plans = (TOP / "docs/PLANS.md").read_text(encoding="utf-8")
    trial.sees(told(of_plans, "Plans of our own shape: audit") >= steps, "the steps of audit")
    forms = {form for name in linting_plans.STEPS
             for form in linting_plans.FORMS.get(name, f"`{name}`").replace("`", "").split(" or ")}
    trial.sees(told(of_plans, "What to write") >= forms, "the steps of judge")
    wrong = []
    for path in sorted((TOP / "crates/aia_script_tests/data").glob("*/*.script")):
        said = answers.answers(path.with_suffix(".out").read_bytes())
        texts = [text for text in reading.texts(path.read_bytes()) if not reading.is_skipped(text)]
        wrong += [(path.name, text) for text, answer in zip(texts, said, strict=True)
                  if bool(linting.script_fault(text)) != (answer == "bad")]
    trial.sees(not wrong, f"lines of the suite on which lint and the answers differ: {wrong[:3]}")


def lints_files(trial: Trial) -> None:
    """suite/lint over files: which language they are in, the ends of lines, and statuses."""
    bad = trial.file("my.script", "machine 1 0 63 1\n# so\nst 0x2800000C 5\nwire 1 1\n")
    trial.prints(1, [f"{bad}:3:4: capital digits in a hexadecimal number: 0x2800000C\n",
                     f"{bad}: a script, 4 lines, 1 bad\n"], LINT, bad)
    for path, what in ((TOP / "examples/claim.script", "a script"),
                       (TOP / "examples/plans/leave.plan", "a plan for ./aia audit"),
                       (TOP / "examples/hypervisors/kvm-shift.plan", "a plan for ./plans judge")):
        said = trial.prints(0, [f"{path}: {what}, ", " 0 bad\n"], LINT, path)
        trial.sees(said.count("\n") == 1, f"lint {path.name} prints {said}")
        language = "audit" if "judge" in what or "script" in what else "judge"
        trial.prints(1, [f"{path}: this is {what}, not "], LINT, "--language", language, path)
    ends = trial.file("ends.script", "# so\r\nmachine 1 0 63 1\r\n\r\nWIRE 1 1\r\n")
    said = trial.prints(1, [f"{ends}:2:17: each line ends with CR LF",
                            f"{ends}:4:1: capital letters: WIRE; wire?", "4 lines, 3 bad\n"],
                        LINT, ends)
    trial.sees(said.count("\n") == 3, f"of CR LF is printed {said}")
    plan = trial.file("my.plan", "# audit leave 2\ntakep 1\ntakep 2\n")
    trial.prints(1, [f"{plan}:3:7: w of `takep w` is below 2: 2\n"], LINT, plan)
    trial.prints(0, ["0 bad"], LINT, "--words", 4, plan)
    ran_ = trial.run(LINT, "-", text=b"wire 1 1\nwire 1 2\n")
    trial.sees(ran_.status == 1 and ran_.output.startswith(b"-:2:8: L of"), f"lint - says {ran_}")
    cases: list[tuple[int, list[Word]]] = [
        (2, []), (2, ["/nosuch"]), (2, ["--language", "x", bad]), (2, ["try"]),
        (2, ["--words", 3, bad]), (2, [bad, "--words", 4]), (2, ["try", 1, 1, "x"]),
        (2, ["--x"]), (0, ["--help"])]
    for status, words in cases:
        ended = trial.run(LINT, *words)
        trial.sees(ended.status == status and bool(ended.errors) == (status == 2),
                   f"lint {words} ends with {ended.status}: {ended.errors}")


def lints_much(trial: Trial) -> None:
    """A file of no language, and one with more bad lines than are told: one verdict, at the end."""
    readme = TOP / "README.md"
    verdict = f"{readme}: in none of the three languages"
    said = trial.prints(1, [" more lines that are bad\n", verdict], LINT, readme).splitlines()
    trial.sees(len(said) == 22 and sum("none of the three" in line for line in said) == 1
               and not any(": a script, " in line for line in said),
               f"lint README.md prints {said[-3:]}")
    many = trial.file("many.script", "machine 1 0 63 1\n" * 30 + "wire 1 2\n" * 25)
    told = trial.prints(1, [f"{many}: and 5 more lines that are bad\n",
                            f"{many}: a script, 55 lines, 25 bad\n"], LINT, many)
    trial.sees(told.count("\n") == 22, f"lint of 25 bad lines prints {told.count(chr(10))}")
    for tool in (f"{LINT} {many} {many} {many}", f"{TOP}/suite/compare --only-standard -k claim --"
                 " true", f"{TOP}/suite/gen-script 50000 1"):
        ran = trial.run("bash", "-c", f"{tool} | (exec <&-; sleep 1); echo ${{PIPESTATUS[0]}}")
        trial.sees(ran.output == b"2\n" and not ran.errors, f"{tool} | nobody: {ran}")


def lints_machines(trial: Trial) -> None:
    """A script whose first line that is read makes no machine, which is no error of its text."""
    for text, said in (("# so\nbad\npins 0\nwire 1 1\n", ":3:1: warning: no machine stands before"),
                       ("machine 1 0 64 1\npins 0\n", ":1:1: warning: no machine has these sizes")):
        script = trial.file("machines.script", text)
        shown = trial.prints(int("bad" in text), [f"{script}{said}"], LINT, script)
        trial.sees(shown.count("warning") == 1, f"lint of no machine prints {shown}")
    shown = trial.prints(0, ["0 bad"], LINT, trial.file("machines.script", "machine 1 0 63 1\n"))
    trial.sees("warning" not in shown, f"lint warns of a machine: {shown}")


def lints_declarations(trial: Trial) -> None:
    """What plans for `judge` do not declare, as docs/PLANS.md has it: no plan at all, which is
    an error, and of a plan no producer and no memory, which is none."""
    for text, status, said in (("", 1, ["there is no plan"]), ("# x\n\n", 1, ["there is no plan"]),
                               ("fresh\nlook 0\n", 0, [":1:1: warning: ", "no `producer`",
                                                       "no `memory`"]),
                               ("producer routed\nplan\nfresh\n", 0, [":2:1: warning: ",
                                                                      "no `producer`"])):
        path = trial.file("declares.plan", text)
        trial.prints(status, said, LINT, path)
        trial.prints(status, said, LINT, "--language", "judge", path)
    path = trial.file("declares.plan", "producer routed\nmemory\nlook 0\nplan\n")
    shown = trial.prints(0, ["0 bad"], LINT, "--language", "judge", path)
    trial.sees("warning" not in shown, f"lint warns of what is declared: {shown}")


def lints_with_the_program(trial: Trial) -> None:
    """lint and the program agree on random lines."""
    trial.prints(0, ["script: 20000 lines, "], LINT, "try", 20000, 1)
    trial.prints(0, ["audit: "], LINT, "try", 2000, 1, "audit")
    if os.environ.get("PLANS") or (TOP / "crates/plans/out/plans").exists():
        trial.prints(0, ["judge: "], LINT, "try", 5000, 1, "judge")


def lints_documented(trial: Trial) -> None:
    """What suite/TOOLS.md says that lint prints."""
    text = (TOP / "suite/TOOLS.md").read_text(encoding="utf-8").partition("\n## Lint\n")[2]
    script = text.partition("cat > my.script <<'END'\n")[2].partition("END\n")[0]
    wanted = text.partition("what the file is:\n\n```\n")[2].partition("```\n")[0]
    trial.file("my.script", script)
    said = trial.prints(1, [], "env", "-C", trial.folder, LINT, "my.script")
    trial.sees(said == wanted and script, f"lint does not print what suite/TOOLS.md says: {said}")


PARTS = (lints_by_reasons, lints_as_documents, lints_documented, lints_files, lints_much,
         lints_machines, lints_declarations, lints_with_the_program)
