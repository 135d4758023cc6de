"""make: writes all that is made of the rows in suite/rows.

    make [FOLDER]

Writes below FOLDER, else in this repository: the scripts suite/NAME.script and
examples/NAME.script, each with NAME.out beside it, in crates/aia_script_tests/data, where the gate
replays them; those of examples/ once more at the top; and the theorems
crates/CRATE/src/rows/SUBJECT.rt, where the CRATE of suite/rows/guests is aia_guest_vectors, and
that of the others aia_vectors. suite/README.md says how a row is written. Takes a second.

Ends with status 2 where the words or a row are wrong, or a file can't be written. Needs Python 3.10
or later.
"""

from lemdwab import rows, running


def main() -> int:
    running.write_below(running.folder_given(), rows.files())
    return 0
