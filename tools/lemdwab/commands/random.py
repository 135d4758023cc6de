"""random: prints a random script.

    random [OPTIONS] SEED COUNT

SEED is a number below 2^64, COUNT how many lines the script has, up to 100,000. The lines are of
all forms, mostly sensible: machines of all sizes, VMs, whole moves and steps, stores in flight and
in both byte orders, wires in all modes, passes, thresholds, claims, majors, images, lines from
memory. What a script is mostly about, its mood, is drawn by SEED too. Some lines are comments or
empty. The same words give the same script wherever Python is 3.10 or later.

    --mood MOOD       moves, passes, running (from memory), majors, aplic, images or everything
    --only FORMS      lines of these forms alone, as st,ld,h, and `machine`
    --without LINES   without lines that fit one of these patterns, as a shell has them, with commas
                      between: 'st 0xc*,h * hgeip'; a line fits as it stands, or with its numbers
                      in decimal below 65,536, and in hexadecimal from there on
    --machine SIZES   a machine of these sizes, as '1 7 255 96': harts, guest files, identities,
                      sources
    --refused PERCENT how many of a hundred lines are refused, 0 to 80; else about an eighth
    --begin FILE      the lines of a file behind the machine, as they stand, beside the others

Ends with status 2 where its words are wrong, or SEED gives no so long a script. It runs nothing.
"""

from __future__ import annotations

import sys

from lemdwab import running, scripts


def main() -> int:
    given, rest, _ = running.words("", *scripts.LINES)
    if len(rest) != 2:
        running.usage(f"SEED and COUNT are wanted, and not {running.counted(len(rest), 'word')}")
    seed = running.number(rest[0], "SEED", 0, scripts.SEEDS)
    count = running.number(rest[1], "COUNT", 1, scripts.MOST_LINES)
    draw = scripts.draw_of(given)
    script = scripts.script_of(seed, count, draw)
    found = script.rstrip(b"\n").count(b"\n") + 1
    if found < count - 1:
        running.fail(f"by the number {seed} there are no more than {found} such lines")
    sys.stdout.buffer.write(scripts.begun(script, draw.begin)[0])
    return 0
