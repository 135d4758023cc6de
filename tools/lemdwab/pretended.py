"""A tree of crates with an rt that only pretends, in which a tool that runs rt is tried."""

from __future__ import annotations

import os
import shutil
import sys
from pathlib import Path
from typing import TYPE_CHECKING

from lemdwab import answers
from lemdwab.running import TOP

if TYPE_CHECKING:
    from lemdwab.commands.tools import Trial
    from lemdwab.running import Ran

# What each tool needs.
SHARED = tuple(f"tools/lemdwab/{name}.py" for name in ("__init__", "running", "commands/__init__"))


class Tree:
    """A tree in which the tool `suite/TOOL` stands with the files that it needs, and an rt that
    notes in `noted` what it was given. A subclass gives TOOL, FILES and RT, the text of that rt, in
    which `@FOLDER@` is the tree's folder."""

    TOOL = ""
    FILES: tuple[str, ...] = ()
    RT = ""

    def __init__(self, trial: Trial, name: str) -> None:
        self.trial, self.folder = trial, trial.folder / f"{self.TOOL}-{name}"
        self.kept, self.noted = self.folder / "kept", self.folder / "noted"
        for file in (*SHARED, *self.FILES):
            self.write(file, (TOP / file).read_text(encoding="utf-8"))
        self.write("bin/rt", self.RT.replace("@FOLDER@", str(self.folder)))
        for file in (f"suite/{self.TOOL}", "bin/rt"):
            (self.folder / file).chmod(0o755)

    def write(self, file: str, text: str) -> None:
        """Writes a file of the tree."""
        path = self.folder / file
        path.parent.mkdir(parents=True, exist_ok=True)
        path.write_text(text, encoding="utf-8")

    def given(self) -> list[str]:
        """Gives what rt was given since the last time, a line each."""
        lines = self.noted.read_text(encoding="utf-8").split("\n") if self.noted.exists() else []
        self.noted.unlink(missing_ok=True)
        return [line.strip() for line in lines if line]

    def run(self, *words: str, path: str | None = None, before: tuple[str, ...] = ()) -> Ran:
        """Runs the tool with words, by a command before it; gives how it ended."""
        temporary = self.folder / "tmp"
        temporary.mkdir(exist_ok=True)
        path = path or f"{self.folder}/bin:{os.environ['PATH']}"
        ran = self.trial.run("env", f"PATH={path}", f"TMPDIR={temporary}", *before, self.folder
                             / "suite" / self.TOOL, "--kept", self.kept, *words, seconds=40)
        self.trial.sees(not any(temporary.iterdir()), f"{self.TOOL} {words} leaves a folder")
        return ran

    def sees(self, status: int, texts: list[str], *words: str) -> str:
        """Sees that it ends with a status, and that it prints these texts, in this order."""
        ran = self.run(*words)
        said, at = answers.shown(ran.output), 0
        for text in texts:
            found = said.find(text, at)
            self.trial.sees(found >= 0, f"{self.TOOL} {words} prints no {text!r} there: {said}")
            at = max(at, found)
        self.trial.sees(ran.status == status,
                        f"{self.TOOL} {words} ends with {ran.status}: {ran.errors}")
        return said

    def refuses(self, said: str, *words: str) -> None:
        """Sees that words are refused with status 2, and a message that says this."""
        ran = self.run(*words)
        self.trial.sees(ran.status == 2 and not ran.output and ran.errors and said in ran.errors,
                        f"{self.TOOL} {words} ends with {ran.status}: {ran.errors!r}")

    def refuses_without_rt(self) -> None:
        """Sees that it says so where there is no rt, and that no refused words ran one."""
        path = f"{Path(sys.executable).parent}:/usr/bin:/bin"
        if not shutil.which("rt", path=path):
            ran = self.run(path=path)
            self.trial.sees(ran.status == 2 and "there is no rt" in ran.errors,
                            f"{self.TOOL} without rt ends with {ran.status}: {ran.errors}")
        self.trial.sees(not self.given(), f"{self.TOOL} with wrong words runs rt")

    def sees_no_rt(self) -> None:
        """Sees that an rt that takes long, whose number stands in `pid`, was ended."""
        path = self.folder / "pid"
        if path.exists():
            pid = path.read_text(encoding="ascii").strip()
            self.trial.sees(not Path(f"/proc/{pid}").exists(), f"{self.TOOL} leaves rt behind")
            path.unlink()
