"""What the tools beside the program share: how they read their words, how they run a command within
bounds, and that they leave no process behind where they are stopped.

A command is run by a worker thread alone. So a signal, which comes to the main thread, never cuts
the start of a process in two: it waits for that start, ends all that runs, and ends the tool.
"""

from __future__ import annotations

import getopt
import os
import selectors
import signal
import subprocess
import sys
import tempfile
import threading
import time
from collections.abc import Callable
from concurrent.futures import ThreadPoolExecutor
from pathlib import Path
from types import FrameType
from typing import NamedTuple, NoReturn, TypeVar

if sys.version_info < (3, 10):
    print(f"{Path(sys.argv[0]).name}: Python 3.10 or later is wanted", file=sys.stderr)
    sys.exit(2)

TOP = Path(__file__).resolve().parents[2]
# How long the program may take to be proved and built, in seconds.
BUILDING = 7200
# How much of what a command says to standard error is kept, in bytes.
KEPT_ERRORS = 4096
NOT_STARTED = (126, 127)
STOPPING = (signal.SIGINT, signal.SIGTERM, signal.SIGHUP)
# How long a command has to end once it is told to, in seconds.
GRACE = 3
T = TypeVar("T")


class Ran(NamedTuple):
    """How a command ended: its answers, its status, why it was stopped if it was, what it said."""

    output: bytes
    status: int
    stopped: str
    errors: str

    def fault(self) -> str:
        """Says in words what is wrong with the end, with the line of the command's own that says
        why; nothing where it ended with status 0."""
        if not (self.stopped or self.status):
            return ""
        said = self.errors.splitlines()
        # Python says why in the last line, and most others in the first.
        why = said[-1:] if said and said[0].startswith("Traceback") else said[:1]
        return ": ".join([self.stopped or f"the command {ending(self.status)}", *why])


class Pace:
    """Says on standard error how far a tool is: each ten seconds on a terminal, else a minute."""

    def __init__(self) -> None:
        self.every: float = 10 if sys.stderr.isatty() else 60
        self.began = self.last = time.monotonic()

    def left(self) -> float:
        """Gives in how many seconds it is time to say something."""
        return max(0, self.last + self.every - time.monotonic())

    def tell(self, how_far: str) -> None:
        """Says how far the tool is, if it is time to."""
        if not self.left():
            self.last = time.monotonic()
            print(f"{Path(sys.argv[0]).name}: {how_far}, {self.last - self.began:.0f} seconds",
                  file=sys.stderr, flush=True)


class State:
    """The tool's head comment, what runs, whether the tool is being stopped, and how long a command
    has to end then."""

    manual = ""
    lock = threading.Lock()
    running: set[subprocess.Popen[bytes]] = set()
    is_stopping = False
    stopped_by = ""
    grace: float = GRACE


def ending(status: int) -> str:
    """Says how a command ended: with a status, or by which signal."""
    if status >= 0:
        return f"ended with status {status}"
    try:
        name = f" ({signal.Signals(-status).name})"
    except ValueError:
        name = ""
    return f"was killed by signal {-status}{name}"


def fail(message: str) -> NoReturn:
    """Ends the tool with status 2 and a message."""
    print(f"{Path(sys.argv[0]).name}: {message}", file=sys.stderr)
    sys.exit(2)


def usage(reason: str) -> NoReturn:
    """Ends the tool with status 2, and says what is wrong with the words."""
    name = Path(sys.argv[0]).name
    print(f"{name}: {reason}\n{name} -h says more", file=sys.stderr)
    sys.exit(2)


def tell_help() -> NoReturn:
    """Prints the tool's head comment, and ends it with status 0."""
    print(State.manual, flush=True)
    sys.exit(0)


def words(short: str, *long: str) -> tuple[dict[str, str], list[str], bool]:
    """Reads the words of the command line: gives the options by their names, with the values of
    those that have one, the other words, and whether `--` stands before these. Where help is asked
    for it is given, and nothing else is done."""
    given = sys.argv[1:]
    try:
        options, rest = getopt.getopt(given, short + "h", [*long, "help"])
    except getopt.GetoptError as wrong:
        usage(str(wrong))
    if {"-h", "--help"} & dict(options).keys():
        tell_help()
    read = len(given) - len(rest)
    is_divided = read > 0 and given[read - 1] == "--" and ("--" not in dict(options).values())
    return {name.lstrip("-"): value for name, value in options}, rest, is_divided


def number(text: str, what: str, least: int, most: int) -> int:
    """Gives the number that a word spells in decimal, within bounds."""
    if not (text.isascii() and text.isdigit() and len(text) <= 20
            and least <= int(text) <= most):
        fail(f"{what} is a number from {least} to {most}, and not {text!r}")
    return int(text)


def folder_given() -> Path:
    """Gives the one folder that the words may name, else the top of this repository."""
    _, rest, _ = words("")
    if len(rest) > 1:
        usage(f"one FOLDER at most is wanted, and not {counted(len(rest), 'word')}")
    folder = Path(rest[0]) if rest else TOP
    if not folder.is_dir():
        fail(f"there is no folder {folder}")
    return folder


def write_below(folder: Path, files: dict[str, str]) -> None:
    """Writes files, by their names below a folder, with their texts."""
    for name, text in files.items():
        path = folder / name
        path.parent.mkdir(parents=True, exist_ok=True)
        path.write_text(text, encoding="utf-8")


def numbers_given(*kinds: tuple[str, int, int, int]) -> list[int]:
    """Gives the numbers that the words are, each with its name, what it is where it is not given,
    and its least and its greatest value."""
    _, rest, _ = words("")
    if len(rest) > len(kinds):
        usage(f"{' and '.join(kind[0] for kind in kinds)} at most are wanted")
    return [number(rest[at], name, least, most) if at < len(rest) else usual
            for at, (name, usual, least, most) in enumerate(kinds)]


def command_given(*known: str) -> str:
    """Gives the one word that was given, of those that are known, or nothing."""
    _, rest, _ = words("")
    if rest not in ([], *([one] for one in known)):
        usage("no word is wanted" + "".join(f", or `{one}`" for one in known))
    return rest[0] if rest else ""


def sure(value: T | None) -> T:
    """Gives a value that is there; it would be a mistake of the tool's own if it were not."""
    if value is None:
        raise ValueError("there is nothing where something has to be")
    return value


def counted(number_: int, word: str) -> str:
    """Says how many there are of something, as 1 line, 2 lines."""
    return f"{number_} {word}" + ("" if number_ == 1 else "s")


def contents(path: Path | str) -> bytes:
    """Gives the bytes of a file."""
    try:
        return Path(path).read_bytes()
    except OSError as wrong:
        fail(f"{path} can't be read: {wrong.strerror}")


def tell(process: subprocess.Popen[bytes], signal_number: int) -> None:
    """Sends a signal to a command and to all that it has started in its group."""
    try:
        os.killpg(process.pid, signal_number)
    except ProcessLookupError:
        pass


def kill(processes: list[subprocess.Popen[bytes]] | set[subprocess.Popen[bytes]]) -> None:
    """Ends commands and their groups: they are told first, so that they may end what they have
    started, and have one grace together."""
    for process in processes:
        tell(process, signal.SIGTERM)
    deadline = time.monotonic() + State.grace
    for process in processes:
        try:
            process.wait(max(0, deadline - time.monotonic()))
        except subprocess.TimeoutExpired:
            pass
        tell(process, signal.SIGKILL)


def stop(signal_number: int, _frame: FrameType | None) -> NoReturn:
    """Ends all that runs, and the tool with the status that the signal has in a shell."""
    for each in STOPPING:
        signal.signal(each, signal.SIG_IGN)
    with State.lock:
        State.is_stopping, State.stopped_by = True, signal.Signals(signal_number).name
        kill(State.running)
    sys.exit(128 + signal_number)


def end_running() -> None:
    """Ends all that runs now; the tool goes on."""
    with State.lock:
        kill(State.running)


def main(tool: Callable[[], int]) -> None:
    """Runs a tool, a function that gives its exit status, and ends with that. The head comment of
    its module is its help."""
    State.manual = (sys.modules[tool.__module__].__doc__ or "").strip()
    for each in STOPPING:
        signal.signal(each, stop)
    try:
        try:
            status = tool()
        finally:
            # An end before its time may leave what nobody reads.
            sys.stdout.flush()
    except OSError as wrong:
        # The null device takes what Python would write at its end; where nobody reads on, no more
        # is said.
        os.dup2(os.open(os.devnull, os.O_WRONLY), sys.stdout.fileno())
        if not isinstance(wrong, BrokenPipeError):
            print(f"{Path(sys.argv[0]).name}: {wrong}", file=sys.stderr)
        status = 2
    sys.exit(status)


class Workers(ThreadPoolExecutor):
    """Threads that run commands, so many at a time; what has not begun by its end is left out."""

    def __exit__(self, *_: object) -> None:
        self.shutdown(wait=True, cancel_futures=True)


def start(command: list[str], text: bytes, errors: int | None) -> subprocess.Popen[bytes]:
    """Starts a command with a text on its standard input, in a group of its own."""
    with State.lock, tempfile.TemporaryFile() as source:
        source.write(text)
        source.seek(0)
        if State.is_stopping:
            sys.exit(2)
        process = subprocess.Popen(command, stdin=source, stdout=subprocess.PIPE, stderr=errors,
                                   start_new_session=True)
        State.running.add(process)
        return process


def gather(process: subprocess.Popen[bytes], deadline: float,
           most: int) -> tuple[bytearray, bytearray, str]:
    """Reads what a command writes until it ends; gives its answers, what it said, and why it has
    to be stopped."""
    found, said = bytearray(), bytearray()
    with selectors.DefaultSelector() as waits:
        for pipe, kept in ((process.stdout, found), (process.stderr, said)):
            if pipe:
                waits.register(pipe, selectors.EVENT_READ, kept)
        while waits.get_map():
            ready = waits.select(max(0, deadline - time.monotonic()))
            if not ready:
                return found, said, "it took too long, and was stopped"
            for key, _ in ready:
                piece = os.read(key.fd, 65536)
                if not piece:
                    waits.unregister(key.fileobj)
                elif key.data is found or len(said) < KEPT_ERRORS:
                    key.data.extend(piece)
            if len(found) > most:
                return found, said, "it wrote more than answers have, and was stopped"
    return found, said, ""


def run(command: list[str], text: bytes, seconds: int, most: int,
        are_errors_shown: bool = False) -> Ran:
    """Runs a command with a text on its standard input, for so many seconds and bytes of answers at
    most; called by a worker. Errors that are shown go to the tool's own standard error."""
    deadline = time.monotonic() + seconds
    try:
        process = start(command, text, None if are_errors_shown else subprocess.PIPE)
    except OSError as wrong:
        return Ran(b"", 127, "", wrong.strerror or str(wrong))
    try:
        found, said, stopped = gather(process, deadline, most)
        if stopped:
            kill([process])
        status = process.wait(max(0, deadline - time.monotonic()) if not stopped else None)
    except subprocess.TimeoutExpired:
        kill([process])
        status, stopped = process.wait(), "it took too long, and was stopped"
    finally:
        # What it left behind, though it ended by itself.
        tell(process, signal.SIGKILL)
        with State.lock:
            State.running.discard(process)
        for pipe in (process.stdout, process.stderr):
            if pipe:
                pipe.close()
    if State.is_stopping:
        # It was ended with the tool, so how it ended says nothing of it.
        sys.exit(2)
    return Ran(bytes(found), status, stopped,
               said[:KEPT_ERRORS].decode(errors="backslashreplace").strip())


def check_started(ran: Ran, command: list[str]) -> None:
    """Ends the tool where a command could not be started."""
    if ran.status in NOT_STARTED and not ran.stopped:
        why = ran.errors.splitlines()[:1]
        if "/" not in str(command[0]) and os.path.isfile(command[0]):
            why = [f"it is not on the path; the file here is ./{command[0]}"]
        fail(f"{command[0]} can't be started (status {ran.status})"
             + (f": {why[0]}" if why else ""))


def tried(workers: Workers, command: list[str], seconds: int) -> Ran:
    """Starts a command over an empty script, for so many seconds at most; gives how it ended. Ends
    the tool where it could not be started."""
    ran = workers.submit(run, command, b"", seconds, 1 << 16).result()
    check_started(ran, command)
    return ran


def model_command(workers: Workers) -> list[str]:
    """Gives the command of the model: that of the variable PROGRAM, or the program of this
    repository, which is built first where it has to be."""
    program = os.environ.get("PROGRAM")
    if program:
        # One of this repository may be named from its top, wherever the tool is called.
        is_ours = not os.path.exists(program) and (TOP / program).is_file()
        return [str(TOP / program) if is_ours else program, "replay"]
    built = workers.submit(run, [str(TOP / "aia"), "replay"], b"", BUILDING, 1 << 20, True).result()
    if built.fault():
        fail(f"PROGRAM is not set, and ./aia can't be built: {built.fault()}; with"
             " PROGRAM=peers/apart/model.py an independent model answers in its place, in Python,"
             " not proved")
    return [str(TOP / "crates/aia/out/aia"), "replay"]
