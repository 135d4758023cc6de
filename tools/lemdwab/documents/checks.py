"""Sees whether the documents' tables, examples, figures and links are in step with the tree."""

from __future__ import annotations

import re
import subprocess
from collections.abc import Callable, Iterable, Iterator
from functools import cache
from pathlib import Path

from lemdwab.documents.antt import clauses
from lemdwab.documents.claims import pages, sections
from lemdwab.documents.constants import limit
from lemdwab.documents.markdown import (anchors, documents, read, rows, section, sentences, spoken,
                                        words)
from lemdwab.documents.pictures import address
from lemdwab.documents.plans import KINDS, Move, Reader
from lemdwab.running import TOP, sure

REFERENCE = "docs/REFERENCE.md"
# Where the table of crates stands, and that of what stands where in a move.
CRATES = PROOF = "docs/maintaining/ARCHITECTURE.md"
# The most words of a document; REFERENCE, DEFINITIONS and EDITS have no limit of their own.
LIMITS = {"README.md": 850, "docs/PLANS.md": 4600, REFERENCE: None, "docs/DEFINITIONS.md": None,
          "docs/maintaining/EDITS.md": None}
MOST_WORDS = 4000
# The most words of all documents of a folder, but for what is generated whole.
TOGETHER = {"docs": 30000, "docs/maintaining": 15000}
GENERATED = ("docs/DEFINITIONS.md", "docs/maintaining/EDITS.md")
# The parts of a machine, with the limits that say how many there may be.
SIZES = {
    "harts": ["HARTS"],
    "guest files of each hart": ["GUEST_FILES"],
    "identities": ["IDENTITIES"],
    "wired sources": ["SOURCES"],
    "VMs": ["VMS"],
    "virtual harts of a VM": ["VM_VCPUS", "VCPUS"],
    "stores of a VM's devices in flight": ["STORES_IN_FLIGHT"],
    "passes of wired sources": ["PASSES"],
}
PLACES = [
    "root_region",
    "child_region",
    "machine_page",
    "supervisor_page",
    "slot_address",
    "table_address",
]
CALLED = {"leave": "a leave", "arrive": "an arrival", "shift": "a shift"}
ALONE = ["README.md", REFERENCE, "docs/PROMISES.md"]


def ticked(cell: str) -> list[str]:
    """Lists what stands in a cell as code."""
    return re.findall(r"`([^`]+)`", cell)


def differ(where: str, stands: Iterable[str], wanted: Iterable[str]) -> Iterator[str]:
    """Says what a table lacks, and what it has too much."""
    for name in sorted(set(wanted) - set(stands)):
        yield f"{where} lacks {name}"
    for name in sorted(set(stands) - set(wanted)):
        yield f"{where} has {name}, which the tree does not have"


# What shapes say that stands for more than a word, and words that stand for no plain number.
NAMED = {"instruction": "INS", "part_shape": "PART"}
CALLED_BY_KIND = {"Name": "CSR", "VmNumber": "VM"}


def shape_of(tokens: list[str]) -> list[str]:
    """Reads a shape of the table of forms off the front of tokens: the texts that it has, `#` for a
    number, VM for that of a VM, CSR for a name of a CSR, INS for a CSR instruction, PART for a part
    of an image."""
    first = tokens.pop(0)
    if first == "(":
        inner = shape_of(tokens)
        tokens.pop(0)
        return inner
    if first in ("Either", "Only"):
        word = sure(re.search(r'"(\w+)"', tokens.pop(0))).group(1)
        rest = [f"{word} {text}".strip() for text in shape_of(tokens)]
        return rest + (shape_of(tokens) if first == "Either" else [])
    if first == "End":
        return [""]
    if first in NAMED:
        if first == "instruction":
            tokens.pop(0)
        return [NAMED[first]]
    if first == "move_shape":
        return shapes("move_shape")
    if first == "Name":
        tokens.pop(0)
    tokens.pop(0)  # the sign between a word and what follows it
    word = CALLED_BY_KIND.get(first, "#")
    return [f"{word} {text}".strip() for text in shape_of(tokens)]


def tokens_of(text: str) -> list[str]:
    """Cuts a text of the table into what it is made of."""
    return re.findall(r'\(codes "\w+"\)|[()&]|[\w.]+', text)


def shapes(name: str) -> list[str]:
    """Lists the texts of a shape that has a name in the table."""
    return shape_of(tokens_of(clauses("aia_model", "Forms", name)[0][1]))


def forms_in(name: str) -> Iterator[tuple[str, str]]:
    """Lists what the forms of a list of the table are, those of a list that ends it too."""
    for member in re.findall(r"\w+", clauses("aia_model", "Forms", name)[0][1]):
        right = clauses("aia_model", "Forms", member)[0][1]
        form = re.match(r'\s*form \(codes "(\w+)"\)\s*(.*)', right, re.S)
        yield from [(form[1], form[2])] if form else forms_in(member)


def all_forms() -> Iterator[str]:
    """Lists the texts of all forms, in the order of the table."""
    for keyword, rest in forms_in("forms"):
        table = tokens_of(rest)
        table = ["("] + table + [")"] if table[0] != "(" else table
        for text in shape_of(table):
            yield f"{keyword} {text}".strip()


def number_or(word: str) -> str:
    """Gives a word of a form as it stands, but `#` for one that is a number or in capitals, which
    stands for one; that of a VM stays, so that the table of forms has to call it so."""
    is_number = re.fullmatch(r"\d+|[A-Zw][A-Z0-9]*", word) and word not in ("INS", "PART", "VM")
    return "#" if is_number else word


def lines() -> Iterator[str]:
    """Compares the forms of lines with the table of them, and the CSRs of each level."""
    stands, told = [], {}
    for cells in rows(section(REFERENCE, "Lines")):
        for text in ticked(cells[0]):
            stands.append(" ".join(number_or(word) for word in text.split()))
            told[text] = ticked(cells[1])
    yield from differ(f"{REFERENCE}, Lines,", stands, list(all_forms()))
    levels = {"levels.Machine": "m H INS", "levels.Host": "h H INS", "levels.Guest": "g VM C INS"}
    for level, right in clauses("aia_model", "Grammar", "csr_names"):
        names = re.findall(r'codes "(\w+)"', right)
        row = levels[level.strip()]
        yield from differ(f"{REFERENCE}, Lines, {row},", told.get(row, []), names)
    said = re.search(r"(?s)^INS is (.*?)\. ", section(REFERENCE, "Lines"), re.M)
    got = [text.replace(" V", " #") for text in ticked(said.group(1) if said else "")]
    yield from differ(f"{REFERENCE}, INS,", got, shapes("instruction"))
    shown_ = [ticked(cells[1])[0] for cells in rows(section(REFERENCE, "Images"))]
    got = [" ".join(number_or(word) for word in text.split()) for text in shown_]
    yield from differ(f"{REFERENCE}, Images, the parts,", got, shapes("part_shape"))


def answers() -> Iterator[str]:
    """Compares the answers with their spellings, and the refusals with their order."""
    first = {}
    for text in shapes("part_shape"):
        first[("part_shape", text)] = text.split()[0]
    stand_in = {"answer_word": "Answer", "refusal_word": "AnswerText", "entry_text": "AnswerText"}
    for name, module in stand_in.items():
        for pattern, right in clauses("aia_model", module, name):
            if match := re.match(r'codes "(\w+)', right):
                key = pattern.strip("()").split()[0].split(".")[-1]
                first[(name, key)] = match.group(1)
    table = rows(section(REFERENCE, "Answers"))
    stands = [text.split()[0] for cells in table for text in ticked(cells[0])]
    yield from differ(f"{REFERENCE}, Answers,", stands, first.values())
    order = []
    looked_for = clauses("aia_model", "Refusal", "refusals")[0][1]
    for refused, key in re.findall(r"\((Refused )?([\w.]+), \w+\)", looked_for):
        kind = "refusal_word" if refused else "answer_word"
        order.append(first[(kind, key.split(".")[-1])])
    got = [ticked(c[0])[0] for c in table if c[1].startswith("refused:") and c[0] != "`bad`"]
    if got != order:
        yield f"{REFERENCE}, Answers: the refusals stand as {got}, and are looked for as {order}"


def statuses() -> Iterator[str]:
    """Compares the exit statuses with the numbers that the contracts of `command` have, those of
    launchers that could not build a program left out."""
    tables = (("aia_replay", REFERENCE, "Exit statuses", "1"),
              ("plans_text", "docs/PLANS.md", "Exit statuses", "126"))
    for crate, document, heading, unbuilt in tables:
        wanted = re.findall(r"\d+", clauses(crate, "Command", "exit_numbers")[0][1])
        stands = [cells[0] for cells in rows(section(document, heading))]
        yield from differ(f"{document}, {heading},", [s for s in stands if s != unbuilt], wanted)


def places() -> Iterator[str]:
    """Compares the map with the address map, and the sizes of a machine with its limits."""
    wanted = [address(name) for name in PLACES]
    stands = [text for cells in rows(section(REFERENCE, "The map")) for text in ticked(cells[0])]
    yield from differ(f"{REFERENCE}, The map,", stands, wanted)
    sizes = {cells[0].split(",")[0]: cells[1] for cells in rows(section(REFERENCE, "The machine"))}
    for part, names in SIZES.items():
        limits = [limit(name) for name in names]
        if re.findall(r"\d+", sizes.get(part, "").replace(",", ""))[-len(limits):] != limits:
            yield f"{REFERENCE}, The machine: of {part} the most are {' and '.join(limits)}"


def formula(text: str, move: Move, number: int) -> int:
    """Computes a formula of docs/MOVES.md in W, R and the number of a word, w, or of a pass, r."""
    plain = re.sub(r"(\d)(W|w)", r"\1 * \2", text)
    names = {"W": move.words, "R": move.passes, "w": number, "r": number}
    return int(Reader(plain, names).value())


def plans() -> Iterator[str]:
    """Compares the tables of docs/MOVES.md with the plans."""
    table = {cells[0]: cells[1:] for cells in rows(section("docs/MOVES.md", "The three plans"))}
    steps = table.pop("how many steps there are", [""] * 4)
    for at, kind in enumerate(KINDS, 1):
        for move in (Move(kind, size, passes) for size in (1, 2, 5) for passes in (1, 3)):
            turns = move.turns()
            if not steps[at] or formula(steps[at], move, 0) != len(turns):
                yield f"docs/MOVES.md: {CALLED[kind]} has not '{steps[at]}' steps"
            wanted = set()
            for step, (name, number) in enumerate(turns, 1):
                of = "r" if name == "aim" else "w"
                row = f"`{name}`" if number is None else f"`{name} {of}`"
                wanted.add(row)
                cell = table.get(row, [""] * 4)[at]
                if not cell or formula(cell, move, number or 0) != step:
                    yield f"docs/MOVES.md: {name} of {CALLED[kind]} is not at step '{cell}'"
            for name, cells in table.items():
                if cells[at] and name not in wanted:
                    yield f"docs/MOVES.md: {CALLED[kind]} has no {name}"
    yield from stands_where()


def step_line(step: str, word: int | None) -> str:
    """Gives the line of a plan file that says a step of anybody's plan, w its word."""
    names = re.findall(r"[A-Z][a-z]*|\w+", step.replace("Number", ""))
    return " ".join(str(word) if name == "w" else name.lower() for name in names)


def told_plan(move: Move) -> list[str]:
    """Lists the lines of a plan of homes, told as anybody's plan as `told_plan` has it."""
    told = {pattern.strip("()").split(" ")[0].removeprefix("accesses."): right
            for pattern, right in clauses("plans_of_aia", "Told", "told")}
    lines_ = [step_line(told[name], word) for name, word in move.accesses()]
    end = "Memory" if KINDS[move.kind][1] == "memory" else "File"
    back = dict(clauses("plans_of_aia", "Told", "given_back"))[end]
    return lines_ + [step_line(step, None) for step in back.split(" ∷ ") if step != "[]"]


def told_plans() -> Iterator[str]:
    """Compares the core's plans in examples/hypervisors with the plans of homes, told so."""
    for kind in KINDS:
        name = f"examples/hypervisors/core-{kind}.plan"
        text = re.sub(r"(?m) *#.*$", "", (TOP / name).read_text(encoding="utf-8"))
        size = int(sure(re.search(r"(?m)^words (\d+)$", text))[1])
        steps = [line for line in text.strip().rpartition("\n\n")[2].split("\n") if line]
        if steps != told_plan(Move(kind, size)):
            yield f"{name} is not the plan of {CALLED[kind]}, as plans_of_aia tells it"


# What the table of what stands where has, by the word of its last column: whether it is so of a
# move, of word w after k steps.
STANDS: dict[str, Callable[[Move, int, int], bool]] = {
    "entry_names": lambda move, w, k: move.place("entry_names", k) == "old",
    "in_force_of": lambda move, w, k: move.in_force("reach_stepped", k) == "old",
    "stage_names": lambda move, w, k: move.place("stage_names", k) == "old",
    "stage_in_force_of": lambda move, w, k: move.in_force("stage_stepped", k) == "old",
    "is_drained": lambda move, w, k: not move.of_word("is_drained", w, k),
    "is_enable_taken": lambda move, w, k: not move.of_word("is_enable_taken", w, k),
    "is_enable_put": lambda move, w, k: move.of_word("is_enable_put", w, k),
    "is_watched": lambda move, w, k: move.of_word("is_watched", w, k),
    "delivery_in_own": lambda move, w, k: move.number_at("delivery", k) == "old",
    "threshold_in_own": lambda move, w, k: move.number_at("threshold", k) == "old",
    "threshold_in_next": lambda move, w, k: move.number_at("threshold", k) == "new",
}


def stands_where() -> Iterator[str]:
    """Compares the table of what stands where with the definitions that its last column names."""
    text = section(PROOF, "Why the plans of moves are right")
    table = {ticked(cells[4])[0]: cells for cells in rows(text) if len(cells) == 5}
    yield from differ(f"{PROOF}, where things are,", table, STANDS)
    for of in [of for of in STANDS if of in table]:
        name, *cells = table[of][:4]
        for kind, cell in zip(KINDS, cells):
            for size in (1, 3):
                move = Move(kind, size)
                states = [(w, k) for w in range(size) for k in range(move.length() + 1)]
                if any(says(cell, move, w, k) != STANDS[of](move, w, k) for w, k in states):
                    yield f"{PROOF}: {name}, of {CALLED[kind]}: '{cell}' is not {of}"


def says(cell: str, move: Move, w: int, k: int) -> bool | None:
    """Computes whether a cell of that table says that something is so of word w after k steps."""
    if cell == "never":
        return False
    match = re.fullmatch(r"(until|from) `(\w+)( w)?`( on)?", cell)
    if not match or (match[1] == "from") != bool(match[4]):
        return None
    of_word = w if match[3] else None
    if not move.has(match[2], of_word):
        return None
    return move.is_made(match[2], of_word, k) == (match[1] == "from")


@cache
def libraries() -> dict[str, list[str]]:
    """Gives each crate of crates.txt with the libraries that it uses."""
    found = {}
    for line in (TOP / "crates.txt").read_text(encoding="utf-8").split("\n"):
        if match := re.match(r"(\w+)[^:#]*:([^#]*)", line):
            found[match.group(1)] = match.group(2).split()
    return found


def crates() -> Iterator[str]:
    """Compares the table of crates, and PROMISES, with crates.txt."""
    wanted = list(libraries())
    table = rows(section(CRATES, "The crates"))
    stands = [name for cells in table for name in ticked(cells[0])]
    yield from differ(f"{CRATES}, The crates,", stands, wanted)
    promises = " ".join(read(name) for name in ["docs/PROMISES.md", *pages()])
    for crate in wanted:
        if not re.search(rf"\b{crate}\b", promises):
            yield f"docs/PROMISES.md says nothing of {crate}"
    told = " ".join(section(CRATES, "The crates").split())
    under = len(below("aia")) - 1
    for part in (
        f"These are {len(wanted)} crates: `aia` and the {under} that it stands on",
        f"and {len(wanted) - 1 - under} that only look at them",
        f"The longest chain of crates has {max(map(depth, wanted))}.",
    ):
        if part not in told:
            yield f"{CRATES}, The crates, does not say: {part}"


def promised() -> Iterator[str]:
    """Sees that docs/promises names functions and clauses that are there, and each law."""
    for name in pages():
        for heading, body in sections(name):
            text = source(heading)
            if text is None:
                yield f"{name} speaks of {heading}, which is no crate"
                continue
            yield from named_there(name, heading, body, text)


def source(crate: str) -> str | None:
    """Gives the code of a crate, or None."""
    files = sorted((TOP / "crates" / crate / "src").glob("**/*.rt"))
    return "\n".join(f.read_text(encoding="utf-8") for f in files) if files else None


def contracts(text: str) -> dict[str, set[str]]:
    """Gives the names of the clauses of each function of some code, by its name."""
    found: dict[str, set[str]] = {}
    for piece in re.split(r"\bfn (?=\w)", text)[1:]:
        of = found.setdefault(re.split(r"\W", piece)[0], set())
        of |= set(re.findall(r"\bensures\*? (\w+) \{", piece))
    return found


def named_there(name: str, crate: str, body: str, text: str) -> Iterator[str]:
    """Says which functions, clauses and laws of one crate a page has wrong or leaves out."""
    of_each = contracts(text)
    anywhere = set().union(*of_each.values()) if of_each else set()
    now = anywhere
    for first, second, *_ in (c if len(c) > 2 else ["", c[0]] for c in rows(body)):
        words_ = [re.sub(r"\(.*", "", word).split("::")[-1] for word in ticked(first)]
        words_ = [word for word in words_ if re.fullmatch(r"[a-z_0-9]+", word)]
        for word in words_:
            if word not in of_each and word not in anywhere:
                yield f"{name}: {crate} has no function {word}"
        if words_:
            now = set().union(*(of_each.get(word, anywhere) for word in words_))
        for clause in ticked(second):
            if re.fullmatch(r"[a-z_0-9]+", clause) and clause not in now | set(of_each):
                if not in_specs(crate, clause):
                    yield f"{name}: {crate}, {words_ or 'there'}, has no clause {clause}"
    # A law is a function that does nothing.
    for law in re.findall(r"(?m)^pub fn (\w+)\([^)]*\)\n(?:    .*\n)*\{\}$", text):
        if law not in body:
            yield f"{name} does not name the law {law} of {crate}"


def in_specs(crate: str, clause: str) -> bool:
    """Says whether a record of definitions, or a trait, of the crate or a library has the name."""
    for of in [crate, *libraries().get(crate, [])]:
        for path in (TOP / "crates" / of / "specs").glob("*.antt"):
            if re.search(rf"(?m)^  pub {clause} :", path.read_text(encoding="utf-8")):
                return True
        traits = re.findall(r"(?ms)^pub trait .*?^}", source(of) or "")
        if re.search(rf"\bensures\*? {clause} \{{", "\n".join(traits)):
            return True
    return False


def replayed(name: str) -> Iterator[tuple[str, str]]:
    """Gives a script's lines beside their answers."""
    answers_ = iter((TOP / f"{name}.out").read_text(encoding="utf-8").splitlines())
    for line in (TOP / f"{name}.script").read_text(encoding="utf-8").splitlines():
        if line and not line.startswith("#"):
            yield line, next(answers_)


def shown() -> Iterator[str]:
    """Compares the example of README with the script that it is from, gaps and all."""
    text = section("README.md", "An example")
    block = re.search(r"(?ms)^```\n(.*?)^```", text)
    of = re.search(r"\(examples/([\w-]+)\.script\)", text)
    if not block or not of:
        yield "README.md shows no example, or does not say of which script it is"
        return
    script = list(replayed(f"examples/{of.group(1)}"))
    # The lines of the script at which the part that is read so far may end; None: nothing is read.
    ends, is_gap = None, False
    for line in block.group(1).rstrip("\n").split("\n"):
        if line == "..":
            is_gap = True
            continue
        want = tuple(re.split(r"  +", line)[:2])
        after = {k for k in range(len(script)) if script[k] == want}
        if ends and is_gap:
            after = {k for k in after if k > min(ends) + 1}
        elif ends:
            after = {k for k in after if k - 1 in ends}
        if not after:
            yield f"README.md shows {want}, which examples/{of.group(1)} does not have there"
            return
        ends, is_gap = after, False


def ran(command: list[str], text: str) -> subprocess.CompletedProcess[str]:
    """Runs a command, given a text."""
    return subprocess.run(command, input=text, capture_output=True, text=True, timeout=60)


def tried() -> Iterator[str]:
    """Runs what TRACES, MOVES and REFERENCE say to run, where the program is built."""
    program = TOP / "crates/aia/out/aia"
    if not program.exists():
        return
    text = section("docs/TRACES.md", "A first comparison")
    here = dict(re.findall(r"(?ms)^cat > (\S+) <<'END'\n(.*?)^END\n", text))
    run = ran([str(program), "replay"], here["mine.script"])
    texts = [line for line in here["mine.script"].splitlines() if not line.startswith("#")]
    mine, model = here["mine.out"].splitlines(), run.stdout.splitlines()
    off = [(t, m, a) for t, m, a in zip(texts, model, mine) if a not in ("-", m)]
    said = sure(re.search(r"(?m)^line \d+: (.*)\n  model: (.*)\n  mine:  (.*)$",
                          read("docs/TRACES.md")))
    if off != [said.group(1, 2, 3)] or len(texts) != len(mine):
        yield f"docs/TRACES.md: its first comparison gives {off}"
    yield from printed(str(program))
    count, seed = sure(re.search(r"`gen (\d+) (\d+)` prints", spoken(read(REFERENCE)))).groups()
    run = ran([str(program), "gen", count, seed], "")
    told = " ".join(spoken(read(REFERENCE)).split())
    for line in run.stdout.splitlines():
        if f"`{line}`" not in told:
            yield f"{REFERENCE}: gen {count} {seed} prints {line}"


def printed(program: str) -> Iterator[str]:
    """Runs what TRACES says of lockstep, and the script of MOVES."""
    code = sure(re.search(r"(?ms)^```sh\n(.*?)^```", section("docs/MOVES.md", "Try it"))).group(1)
    lockstep = ["python3", "-B", str(TOP / "examples/lockstep.py"), program]
    for name, heading, command, wanted in (
        ("docs/TRACES.md", "In lockstep", lockstep, r"(?s)Each ends with `([^`]*)`"),
        ("docs/MOVES.md", "Try it", ["bash", "-c", code.replace("./aia", program)],
         r"(?ms)^It prints .*?^```\n(.*?)^```"),
    ):
        run = ran(command, "")
        want = " ".join(sure(re.search(wanted, section(name, heading))).group(1).split())
        got = {" ".join(line.split()) for line in (run.stdout + run.stderr).splitlines()}
        if got != {want}:
            yield f"{name}, {heading}, prints {sorted(got)}"


def below(crate: str) -> set[str]:
    """Gives the crates that a crate stands on, itself among them."""
    found, open_ = set(), [crate]
    while open_:
        if (of := open_.pop()) not in found:
            found.add(of)
            open_ += [lib for lib in libraries().get(of, []) if lib in libraries()]
    return found


@cache
def depth(crate: str) -> int:
    """Gives how many crates the longest chain below a crate has, itself among them."""
    return 1 + max((depth(lib) for lib in libraries()[crate] if lib in libraries()), default=0)


def newest(paths: list[str]) -> tuple[str, str]:
    """Gives the day and the name of the newest commit that touches paths."""
    found = subprocess.run(
        ["git", "-C", str(TOP), "log", "-1", "--format=%cs %h", "--", *paths],
        capture_output=True, text=True, check=True,
    ).stdout.split()
    return (found[0], found[1]) if found else ("", "")


def aged() -> Iterator[str]:
    """Compares the days of figures with the day on which what they measure last changed. The
    figures say of which day they are, so that an older one is no drift."""
    code = [f"crates/{crate}/src" for crate in sorted(below("aia"))]
    where = "docs/PERFORMANCE.md, What was measured,"
    days = re.findall(r"\d{4}-\d\d-\d\d", section("docs/PERFORMANCE.md", "What was measured"))
    day, commit = newest(code)
    if max(days, default="") < day:
        yield (f"{where} is of {max(days, default='no day')}, and what it measures changed on"
               f" {day} ({commit})")


def linked() -> Iterator[str]:
    """Sees that links between documents lead somewhere."""
    for name in documents():
        folder = (TOP / name).parent
        for link in re.findall(r"\]\(([^)\s]+)\)", spoken(read(name))):
            if re.match(r"[a-z]+:", link):
                continue
            path, _, anchor = link.partition("#")
            target = (folder / path).resolve() if path else TOP / name
            if not target.exists():
                yield f"{name} links to {link}, which is not there"
            elif anchor and anchor not in anchors(str(target.relative_to(TOP))):
                yield f"{name} links to {link}, and there is no such heading"


def patient() -> Iterator[str]:
    """Sees that no document is longer than its reader's patience."""
    for name in documents():
        limit = LIMITS.get(name, MOST_WORDS)
        if limit and (count := words(name)) > limit:
            yield f"{name} has {count} words, and may have {limit}"
    for folder, limit in TOGETHER.items():
        count = sum(words(name) for name in documents()
                    if str(Path(name).parent) == folder and name not in GENERATED)
        if count > limit:
            yield f"the documents of {folder} have {count} words, and may have {limit}"


def shaped() -> Iterator[str]:
    """Sees that no row of a table is torn, and that no line of prose is wider than 100 columns."""
    for name in documents():
        in_code = False
        for at, line in enumerate(read(name).splitlines(), 1):
            in_code ^= line.startswith("```")
            if in_code or name == "docs/DEFINITIONS.md" or "/statements-" in name:
                continue
            if line.startswith("|") and not line.endswith("|"):
                yield f"{name}:{at}: this row of a table has no end"
            elif not line.startswith("|") and len(line) > 100 and " " in line[:100].strip():
                yield f"{name}:{at}: this line has {len(line)} columns, and may have 100"


def alone() -> Iterator[str]:
    """Sees that README, REFERENCE and PROMISES share no sentence."""
    seen: dict[str, str] = {}
    for name in ALONE + [n for n in documents() if n.startswith("docs/promises/")]:
        for sentence in set(sentences(name)):
            pages = "docs/promises"
            of = seen.get(sentence)
            if of and not (of.lower().startswith(pages) and name.lower().startswith(pages)):
                yield f"{of} and {name} share: {sentence[:90]}"
            seen.setdefault(sentence, name)


def drifts() -> Iterator[str]:
    """Says each place where a document is not in step."""
    for check in (lines, answers, statuses, places, plans, told_plans, crates, promised, shown,
                  tried, linked, patient, shaped, alone):
        yield from check()
