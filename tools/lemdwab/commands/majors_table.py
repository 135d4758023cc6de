"""majors-table: writes what a guest reads of its majors, found by the rule in words.

    majors-table [FOLDER]

Writes crates/aia_tests/src/majors_table.rt below FOLDER, else in this repository. The tests of
aia_tests hold the model's calls to it, in all combinations.

The rule. A priority number is 0 to 2047, and a lower one comes first. Each major stands at one
number or at none:
- the external interrupt, 9, where it is pending and enabled: at the identity that stopei shows,
  and at 256 where it shows none;
- 1, 5 and 13, where VTI of hvictl is 0 and they are pending and enabled: at their byte of
  hviprio1, and at 256 where that is 0;
- the one that IID names, where VTI is 1 and it is not 9: at IPRIO; but an IPRIO of 0 is 256 where
  DPR is 1.
So go through the numbers from 0 up, and at each ask for the majors in the order of a tie: where
VTI is 0, 9, 1, 5, 13; where it is 1, the named one before 9, and after it where DPR is 1. The
first that stands there is on top. stopi shows it in bits 27:16, and in bits 7:0 its number, of
which all above 255 are 255; or 1, where IPRIOM is 0. Where none stands at any, stopi is 0.

Ends with status 2 where the words are wrong, or the file can't be written. Needs Python 3.10 or
later.
"""

from lemdwab import majors_table, running

FILE = "crates/aia_tests/src/majors_table.rt"


def main() -> int:
    running.write_below(running.folder_given(), {FILE: majors_table.text()})
    return 0
