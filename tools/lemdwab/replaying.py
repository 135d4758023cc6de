"""Runs of the program over scripts that a tool draws, of which something has to come: what
suite/isolation, from-memory, migrations and no-sense share."""

from lemdwab import running
from lemdwab.answers import ANSWER_BYTES, NOT_SHOWN, answers

# How long the program may take over one script, in seconds.
LONGEST = 60


class Program:
    """The program that is looked at: that of the variable PROGRAM, else ./aia of this repository,
    which is built first where it has to be."""

    def __init__(self, workers: running.Workers) -> None:
        self.workers = workers
        self.command: list[str] = running.model_command(workers)
        running.tried(workers, self.command, LONGEST)

    def ran(self, script: bytes) -> running.Ran:
        """Has it answer a script; gives how it ended."""
        most = ANSWER_BYTES * (script.count(b"\n") + 2)
        return self.workers.submit(running.run, self.command, script, LONGEST, most).result()

    def answers(self, lines: list[str]) -> list[str]:
        """Gives the answers to lines that each have one. Ends the tool with status 2 where it could
        not look: the program fails, does not answer each line, or shows nothing of any."""
        ran = self.ran("".join(f"{line}\n" for line in lines).encode(errors="surrogateescape"))
        if ran.fault():
            running.fail(f"the program: {ran.fault()}")
        found: list[str] = answers(ran.output)
        if len(found) != len(lines):
            running.fail(f"the program gives {running.counted(len(found), 'answer')} to"
                         f" {running.counted(len(lines), 'line')}")
        if all(answer == NOT_SHOWN for answer in found):
            running.fail(f"the program answers {NOT_SHOWN} to every line")
        return found


def pieces(count: int, most: int) -> list[tuple[int, int]]:
    """Divides a count into pieces of so many at most: of each its place and how many it has."""
    return [(at, min(most, count - at * most)) for at in range((count + most - 1) // most)]
