"""Numbers of steps of moves in definitions, contracts, lemmas and comments: what suite/step-numbers
looks for, and lines in which it has to find one, or none."""

import re
from collections.abc import Iterator
from pathlib import Path

COUNTED = "one two three four five six seven eight nine ten".split()
ORDINALS = "first second third fourth fifth sixth seventh eighth".split()
# Files whose bodies are the plans: there only contracts and comments are looked at.
PLANS = re.compile(r"(aia_vcpu/src/access|aia_move/src/phase)\.rt$")
# Those that follow two sets from the first take on, wherever it stands.
SETS = re.compile(r"aia_vcpu_places/proofs/(SetSteps|FileLemmas|MoveEnds)\.antt$")
# What is not looked through: the plans and their tables, tests and rows, crates that know of no
# move and count the steps of a search, and those that judge plans as any list of steps.
LEFT_OUT = re.compile(
    r"crates/(?:aia_vcpu/(?:specs/Plans|proofs/PlanLemmas)\.antt$|"
    r"aia_move/proofs/(?:leave|arrive|shift|moves)/|aia_move_values/proofs/PhaseSteps\.antt$|"
    r"aia_(?:vectors|guest_vectors|[a-z_]*tests)/|"
    r"(?:aia_(?:file|source|candidates|domain|direct|aplic|plan|audit)|plans_[a-z_]+)/)")
COMMENT = re.compile(r" *(--|//[/!]?) *")
# Imports have no numbers.
IMPORT = re.compile(r" *(pub )?(ghost )?use ")
CODE = re.compile(r"[\t -~]*")
SAID = [re.compile(text) for text in (
    r"(^|[^a-z0-9])steps? [0-9]",
    rf"(^|[^a-z0-9])([0-9]+|{'|'.join(COUNTED[1:])}) (more )?steps",
    rf"(^|[^a-z0-9])([0-9]+|{'|'.join(COUNTED[2:])}) of (its|the) steps",
    rf"(^|[^a-z])({'|'.join(ORDINALS)}) (of its )?steps?([^a-z]|$)",
    r"steps are done,? (up to|at most|at least) [0-9]")]
WRITTEN = [re.compile(text) for text in (
    # A number of steps by the words of a file: 6 + 4 * words.
    r"(^|\(|[^+ ] +)[1-9][0-9]* \+ ([0-9]+ \+ )?[0-9]+ \* (words|\(?width|c\.words)",
    # The progress of a move beside a number; with 0 no step is done.
    r"(at|self)\.(steps|done) (\+ 1 )?(<|≤|≡|≢|==|!=|<=) [1-9]",
    r"(^|[^a-z0-9_.])[1-9][0-9]* (<|≤|≡|≢) [a-z.]*\.steps",
    r"nat_(lt|le|eq) \(?(at\.steps|\(?steps_done [a-z.]+)( \+ 1\))?\)? \(?[1-9]",
    r"nat_(lt|le|eq) \(?[1-9][0-9]*( \+ [^()]*)?\)? \(?(at\.steps|steps_done)",
    r"steps_done [a-z.]+ (<|≤|≡|≢) [1-9]",
    r"(^|[^a-z0-9_.])[1-9][0-9]* (<|≤|≡|≢) \(?steps_done",
    # How many steps a move has, and how many notices it can send.
    r"steps_of [^→]*(<|≤|≡|≢) [1-9]", r"notices_sent [a-z]+ \+ 1[0-9]+", r"[^a-z]steps = [1-9]",
    r"IsBetween \(?[0-9]", r"steps_(taken|of_another) [1-9]")]
# The same counted from the first take on; the lemmas of the two sets know no other number.
FROM_FIRST = re.compile(r"(^|[^a-z])first \+ [0-9]+ \* (words|\(?width)")

FOUND = """\
-- Writes the G-stage record, and puts it in force: steps 4 and 5.
    /// in force: steps 0 to 3.
-- The leave, with seven steps done: it carries eidelivery.
-- step 6 takes the first word
-- until its first step is done
devices_reach (OnWay (Outward from) at) = if nat_lt at.steps 4 then Some from else None
is_watched words (OnWay (Outward from) at) w = nat_le (8 + 2 * words + 2 * w) at.steps
leaving-routes : (from : GuestPlace) (at : Progress) → 6 ≤ at.steps → RoutesStay
unseen-before : (words : ℕ) (at : Progress) → at.steps < 6 + 4 * words → Unseen
    let e : at.steps ≡ 2 = step.step in
  pub late : steps_done there ≡ 7
IsInPhase words (LeaveClosing m) = IsBetween 4 6 m
        requires phase { IsBetween (6 + 2 * width fabric.old) (6 + 4 * width fabric.old) self }
  home = OnWay (Outward leaver_file) (record { steps = 7 });
leaving_history = steps_taken 7 leaver (Began (Leaves leaver) ∷ before_leaving)
few_steps : (words : ℕ) (move : WantedMove) → words ≤ 32 → steps_of words move ≤ 168
deed-sends : (h : History) (line : Line) → notices_sent (line_taken h line) ≤ notices_sent h + 169
fenced : (there : Home) → 3 < steps_done there → is_closed there ≡ true
-- where four of its steps are done, the entry is in force
pending_next : (words first : ℕ) (there : Home) → steps_done there < first + 2 * words
after_looks : (words first : ℕ) (m : Moving) → first + 4 * words ≤ steps_done m.home
    /// How many steps are done, up to 167.
        if self.done + 1 < 6 {
"""
PASSES = """\
-- One step more is done, and so much is carried then.
-- Whether the next step of its move is the last one.
step 0 0
at_first = record { steps = 0 }
  pub fresh : steps_done there ≡ 0
is_made words there access = nat_lt (step_of words there access) (steps_done there)
leaving-routes : (from : GuestPlace) (at : Progress) → leave_step 0 GFence < at.steps → RoutesStay
abbrev pub pending_place : ℕ → ℕ → ℕ
pending_place q k = 64 * q + 2 * k
"""
# In the code of a plan the body may count, and its contracts and comments may not.
A_PLAN = "crates/aia_move/src/phase.rt"
A_BODY = "        first + 6 + 2 * words\n        if self.done + 1 < 6 {\n"
A_CONTRACT = "        requires phase { IsBetween 4 6 self }\n"


def is_said(text: str) -> bool:
    """Says whether a comment has a number of a step."""
    return any(pattern.search(text.lower()) for pattern in SAID)


def is_written(name: str, line: str) -> bool:
    """Says whether a line of code or of a definition has one."""
    if PLANS.search(name) and CODE.fullmatch(line) and not re.search("requires|ensures", line):
        return False
    return (any(pattern.search(line) for pattern in WRITTEN)
            or not SETS.search(name) and bool(FROM_FIRST.search(line)))


def found(name: str, text: str) -> Iterator[tuple[int, str]]:
    """Lists the lines of a file that have one, each with its number. A comment is also read on from
    the last two words of the one above it."""
    tail = ""
    for number, line in enumerate(text.splitlines(), 1):
        if IMPORT.match(line):
            continue
        comment = COMMENT.match(line)
        if not comment:
            tail = ""
            if is_written(name, line):
                yield number, line
            continue
        said = line[comment.end():]
        if is_said(tail + said):
            yield number, line
        tail = "".join(f"{word} " for word in said.split()[-2:])


def files(top: Path) -> Iterator[Path]:
    """Lists the files that are looked through."""
    for path in sorted((top / "crates").glob("*/**/*")):
        name = str(path.relative_to(top))
        parts = path.relative_to(top).parts
        if (path.suffix in (".antt", ".rt") and path.is_file() and not {"out", "data"} & set(parts)
                and not LEFT_OUT.match(name)):
            yield path


def faults() -> Iterator[str]:
    """Says which of the lines that stand here are not found, or are and should not be."""
    for text, is_wanted in ((FOUND, True), (PASSES, False)):
        for line in text.splitlines():
            if bool(list(found("planted.antt", line))) != is_wanted:
                yield f"{'not ' if is_wanted else ''}found: {line}"
    if list(found(A_PLAN, A_BODY)):
        yield "found in a body"
    if not list(found(A_PLAN, A_CONTRACT)):
        yield "not found in a contract of a plan"
