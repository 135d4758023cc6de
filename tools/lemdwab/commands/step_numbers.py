"""step-numbers: sees that no number of a step of a move stands outside the plans.

    step-numbers [try]

In no other definition, contract, lemma or comment of the crates is there one. Prints each line that
has one, at most 100, and ends with status 1 where there is any, else says that there is none. With
`try` it first sees that it finds each line of a list of such lines, and none of a list of others.

The plans are their list and tables with the lemmas that these agree (specs/Plans and
proofs/PlanLemmas of aia_vcpu), which tie what a move has made to its number of steps; and the code
that walks it (src/access of aia_vcpu, and src/phase of aia_move, which says where a phase ends)
with its proofs, among them proofs/PhaseSteps, which ties the phases to numbers; its contracts and
comments have none either. That no step is done, 0, is no such number. Tests and rows have lines of
scripts; some crates that know of no move count the steps of a search, and the crates that judge
plans as any list of steps name them by their places in a list. The lemmas of aia_vcpu_places that
follow two sets count from the first take on, wherever a plan has it.

It reads files of the repository alone, and ends within ten seconds. Ends with status 2 where the
words are wrong, or there are no crates. Needs Python 3.10 or later.
"""

from lemdwab import running, step_numbers
from lemdwab.running import TOP

MOST = 100


def main() -> int:
    _, rest, _ = running.words("")
    if rest not in ([], ["try"]):
        running.usage(f"there is no command {rest[0]!r}: there is try" if len(rest) == 1
                      else "one command at most is wanted")
    wrong = list(step_numbers.faults()) if rest else []
    for line in wrong:
        print(f"step-numbers: {line}")
    paths = list(step_numbers.files(TOP))
    if not paths:
        running.fail("there are no crates")
    if wrong:
        return 1
    told = [f"{path.relative_to(TOP)}:{number}: {line}" for path in paths
            for number, line in step_numbers.found(str(path), path.read_text(encoding="utf-8"))]
    print("\n".join(told[:MOST]) or "no number of a step stands outside the plans")
    return 1 if told else 0
