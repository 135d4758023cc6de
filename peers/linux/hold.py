#!/usr/bin/env python3
"""hold.py FOLDER.. -- COMMAND..: the answers of a program to the scripts that convert.py wrote into
each FOLDER, held against what the trace has.

An answer is the same; or *explained*: it differs, the model written apart answers as the program
does, QEMU's or KVM's rules foresee just what the trace has, and a row of known.txt here or of
peers/qemu/known.txt names the reason; or it differs. Prints the counts of each script, each reason
with its count, and the first answers that differ. Ends with status 1 where one does, and 2 where it
can't look.
"""

import sys
from collections import Counter
from pathlib import Path

sys.path.insert(0, str(Path(__file__).resolve().parents[2] / "tools"))
from telling import NOT_SHOWN, fits

from lemdwab import held
from lemdwab.answers import Known

HERE = Path(__file__).resolve().parent

held.TIME_LIMIT, held.OUTPUT_LIMIT = 900, 64 << 20
MOST = 20
WORDS = ("lines", "same", "same in the bits that are shown", "not shown", "explained", "differ")


class Reasons:
    """The rows of what is known."""

    def __init__(self):
        self.known = [Known(HERE / "known.txt"), Known(HERE.parent / "qemu/known.txt")]
        self.met = Counter()

    def of(self, line, ours, theirs):
        for known in self.known:
            reason = known.reason(line, ours, theirs)
            if reason:
                return reason
        return None


def lines_of(path):
    return path.read_text(encoding="ascii").splitlines()


def script(base, command, reasons):
    """Holds the answers to one script; gives the counts."""
    counts, path = Counter(), base.with_suffix(".script")
    lines, wanted = lines_of(path), lines_of(base.with_suffix(".out"))
    known = {int(at): told for at, *told in (
        text.split("|") for text in lines_of(base.with_suffix(".known")))}
    masks = {int(at): int(mask, 16) for at, mask in map(
        str.split, lines_of(base.with_suffix(".masks")))}
    got = held.answers_of(command, path.read_bytes())
    if not len(lines) == len(wanted) == len(got):
        raise held.Stopped(f"{path}: {len(got)} answers to {len(lines)} lines")
    for at, (line, theirs, ours) in enumerate(zip(lines, wanted, got)):
        mask, reason, told = masks.get(at), None, known.get(at)
        counts["lines"] += 1
        if theirs == NOT_SHOWN:
            counts["not shown"] += 1
        elif theirs == ours:
            counts["same"] += 1
            counts["answers"] += ours.startswith(("0x", "pins"))
        elif fits(theirs, ours, mask):
            counts["same in the bits that are shown"] += 1
            counts["answers"] += 1
        else:
            if told and told[0] == ours and fits(theirs, told[1], mask):
                reason = reasons.of(line, ours, theirs)
            counts["explained" if reason else "differ"] += 1
            counts["answers"] += 1
            if reason:
                reasons.met[reason] += 1
            elif counts["differ"] <= MOST:
                print(f"{path}:{at + 1}: {line}: the program {ours}, the trace {theirs}"
                      + (f", foreseen {told[1]}" if told else ""))
    return counts


def counted(counts):
    return "; ".join(f"{counts[word]} {word}" for word in WORDS if counts[word])


def main():
    words = sys.argv[1:]
    if words[:1] in (["-h"], ["--help"]):
        print(__doc__.strip())
        return 0
    if "--" not in words or not words[:words.index("--")] or not words[words.index("--") + 1:]:
        print("hold.py: FOLDER.. and COMMAND.. are wanted\nhold.py -h says more", file=sys.stderr)
        return 2
    at = words.index("--")
    reasons, host, files = Reasons(), Counter(), Counter()
    try:
        for folder in map(Path, words[:at]):
            for path in sorted(folder.glob("*.script")):
                (host if path.stem.startswith("host") else files).update(
                    script(path.with_suffix(""), words[at + 1:], reasons))
        if not host:
            raise OSError("there is no script in " + " ".join(words[:at]))
    except (OSError, ValueError, held.Stopped) as wrong:
        print(f"hold.py: could not look: {wrong}", file=sys.stderr)
        return 2
    for what, counts in (("the whole machine", host), ("single guest files", files)):
        print(f"{what}: {counted(counts)}; {counts['answers']} answers compared")
    for reason, count in reasons.met.most_common():
        print(f"{count:9} explained: {reason}")
    return 1 if host["differ"] + files["differ"] else 0


if __name__ == "__main__":
    sys.exit(main())
