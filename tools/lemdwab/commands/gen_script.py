"""gen-script: prints the script that `aia gen COUNT SEED` runs.

    gen-script COUNT SEED

So others can run it, and hold what they count against the four numbers of `gen`: docs/REFERENCE.md.
COUNT is at most 100,000, SEED a number below 2^64. Ends with status 2 where its words are wrong. It
runs nothing. Needs Python 3.10 or later.
"""

from __future__ import annotations

from lemdwab import running, scripts
from lemdwab.apart import generated


def main() -> int:
    given, rest, _ = running.words("")
    if len(rest) != 2:
        running.usage(f"COUNT and SEED are wanted, and not {running.counted(len(rest), 'word')}")
    count = running.number(rest[0], "COUNT", 0, scripts.MOST_LINES)
    seed = running.number(rest[1], "SEED", 0, scripts.SEEDS)
    for line in (*generated.head(), *generated.body(count, seed)):
        print(line)
    return 0
