#!/usr/bin/env python3
"""Ten errors of one rule each, which a recording of Linux has to tell.

    planted.py ERROR < script > answers    what the model written apart answers with that error
    planted.py told FOLDER..    holds the scripts of each FOLDER, which convert.py wrote, against
                                the model with each error, up to the first that tells it

The second ends with status 1 where an error is told by no answer, and 2 where it can't look. `-h`
lists the errors.
"""

import subprocess
import sys
from pathlib import Path

sys.path.insert(0, str(Path(__file__).resolve().parents[2] / "tools"))
from lemdwab.apart import model, plants
from lemdwab.apart.aplic import Aplic
from lemdwab.apart.interrupt_file import InterruptFile
from lemdwab.apart.majors import Majors
from lemdwab.apart.model import Machine
from lemdwab.apart.plants import around
from lemdwab.apart.words import fail, main

HERE = Path(__file__).resolve().parent
ERRORS = {}


def planted(change):
    ERRORS[change.__name__] = change
    return change


@planted
def the_greatest_identity_is_none():
    plants.PLANTS["the_greatest_identity_is_none"]()


@planted
def a_claim_leaves_the_identity_pending():
    """Where it is 1, as of an interrupt between harts."""
    around(InterruptFile, "access", lambda old, file, csr, operation, operand, missing: (
        old(file, csr, "read" if csr == "topei" and file.top() == 1 else operation, operand,
            missing)))


@planted
def a_threshold_lets_itself_through():
    plants.PLANTS["a_threshold_lets_itself_through"]()


@planted
def a_select_number_is_kept_in_seven_bits():
    def access(old, file, csr, operation, operand, missing):
        answer = old(file, csr, operation, operand, missing)
        if csr == "select" and operation != "read" and file.select >= 0xc0:
            file.select &= 0x7f
        return answer
    around(InterruptFile, "access", access)


@planted
def eidelivery_reads_0():
    around(InterruptFile, "access_delivery", lambda old, *given: 0 * old(*given))


@planted
def hgeip_shows_the_next_file():
    around(Machine, "hgeip", lambda old, machine, hart: "0x%016x" % (
        int(old(machine, hart), 16) << 1))


@planted
def stopi_puts_a_timer_before_all_others():
    def stopi(old, majors, top, signal):
        if majors.sip(signal) & majors.enabled & 1 << 5:
            return 5 << 16 | 1
        return old(majors, top, signal)
    around(Majors, "stopi", stopi)


@planted
def a_move_clears_the_delivery():
    plants.PLANTS["a_move_clears_the_delivery"]()


@planted
def all_targets_are_hart_0s():
    around(Aplic, "msi_address", lambda old, aplic, domain, target: old(aplic, domain,
                                                                        target & 0x3ffff))


@planted
def a_rise_asks_for_no_level_source():
    def drive(old, aplic, source, level):
        old(aplic, source, level)
        if level:
            for domain in (aplic.root, aplic.child):
                domain.pending &= ~(1 << source)
    around(Aplic, "drive", drive)


def told(folders):
    """Whether each error is told."""
    missed = 0
    for error in ERRORS:
        said = "not told"
        for folder in folders:
            ran = subprocess.run([sys.executable, "-B", HERE / "hold.py", folder, "--",
                                  HERE / "planted.py", error], capture_output=True, text=True,
                                 timeout=1800, check=False)
            if ran.returncode not in (0, 1):
                fail(ran.stderr.strip())
            if ran.returncode:
                said = ran.stdout.splitlines()[0]
                break
        print(f"{error}: {said}", flush=True)
        missed += said == "not told"
    print(f"{len(ERRORS)} errors, {missed} not told")
    return 1 if missed else 0


def tool():
    words = sys.argv[1:]
    if words[:1] in (["-h"], ["--help"]):
        print(__doc__.strip() + "\n\n" + "\n".join(f"    {error}" for error in ERRORS))
        return 0
    if len(words) > 1 and words[0] == "told":
        return told(words[1:])
    if len(words) != 1 or words[0] not in ERRORS:
        fail("an ERROR is wanted, or `told` and FOLDER..: planted.py -h says more")
    ERRORS[words[0]]()
    model.METHODS.update({name: getattr(Machine, "pass_" if name == "pass" else name)
                          for name in model.METHODS})
    return model.replay()


if __name__ == "__main__":
    main(tool)
