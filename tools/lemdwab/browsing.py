"""A browser without a window, told what to do over a pipe, as lemdwab.clicking looks at pages with
it."""

from __future__ import annotations

import base64
import contextlib
import fcntl
import json
import os
import selectors
import shutil
import subprocess
import time
from collections.abc import Callable
from pathlib import Path
from typing import Any

from lemdwab import running

NAMES = ("chromium", "chromium-browser", "google-chrome")
# How long one answer may take, in seconds, and how many bytes it may have.
LONGEST, MOST = 30, 1 << 26
ENDED = "the browser ended before its time"
# Numbers of the pipe's ends in the browser: it reads 3 and writes 4.
OPTIONS = ("--headless=new", "--remote-debugging-pipe", "--disable-gpu", "--no-first-run",
           "--disable-extensions", "--disable-dev-shm-usage", "--hide-scrollbars",
           "--disable-background-networking", "--disable-component-update",
           "--disable-breakpad", "--disable-crash-reporter")
# What says where programs keep what they leave behind.
PLACES = ("HOME", "TMPDIR", "XDG_CONFIG_HOME", "XDG_CACHE_HOME", "XDG_DATA_HOME",
          "XDG_RUNTIME_DIR")
FAR = 20
# How long it may take to end, in seconds.
CLOSING = 5


def installed() -> str | None:
    """Gives the browser's program; None where there is none."""
    return next(filter(None, map(shutil.which, NAMES)), None)


class Browser:
    """A browser with one page, that keeps what it writes in a folder, and has so many seconds."""

    def __init__(self, program: str, folder: Path, seconds: int) -> None:
        self.seconds, self.ends = seconds, time.monotonic() + seconds
        commands, reports = os.pipe(), os.pipe()
        self.said, self.number = bytearray(), 0
        self.thrown: list[str] = []
        self.asked: list[str] = []
        theirs = [fcntl.fcntl(end, fcntl.F_DUPFD, FAR) for end in (commands[0], reports[1])]
        options = [*OPTIONS, f"--user-data-dir={folder / 'profile'}"]
        folder.mkdir(parents=True, exist_ok=True)
        places = dict.fromkeys(PLACES, str(folder))
        if os.geteuid() == 0:
            # For root there is no sandbox; the pages are the site's own.
            options.append("--no-sandbox")
        self.process = subprocess.Popen(
            ["bash", "-c", f'exec "$@" 3<&{theirs[0]} 4>&{theirs[1]}', "bash", program, *options],
            stdin=subprocess.DEVNULL, stdout=subprocess.DEVNULL, stderr=subprocess.DEVNULL,
            pass_fds=theirs, start_new_session=True, env={**os.environ, **places})
        with running.State.lock:
            running.State.running.add(self.process)
        for end in (commands[0], reports[1], *theirs):
            os.close(end)
        self.to, self.of = commands[1], reports[0]
        self.session: Any = None
        page = self.does("Target.createTarget", url="about:blank")["targetId"]
        self.session = self.does("Target.attachToTarget", targetId=page, flatten=True)["sessionId"]
        for domain in ("Page", "Runtime", "Network"):
            self.does(f"{domain}.enable")

    def __enter__(self) -> Browser:
        return self

    def __exit__(self, *_: object) -> None:
        # What it ends itself it also takes away.
        with contextlib.suppress(OSError):
            self.session, self.ends = None, time.monotonic() + CLOSING
            self.does("Browser.close")
        with contextlib.suppress(subprocess.TimeoutExpired):
            self.process.wait(CLOSING)
        running.kill([self.process])
        self.process.wait()
        with running.State.lock:
            running.State.running.discard(self.process)
        os.close(self.to)
        os.close(self.of)

    def does(self, method: str, **how: Any) -> dict[str, Any]:
        """Has the browser do something, and gives what it answers."""
        self.number += 1
        words = {"id": self.number, "method": method, "params": how}
        if self.session:
            words["sessionId"] = self.session
        try:
            os.write(self.to, json.dumps(words).encode() + b"\0")
        except BrokenPipeError:
            raise OSError(ENDED) from None
        answer = self.until(lambda one: one.get("id") == self.number)
        if "error" in answer:
            raise OSError(f"the browser refuses {method}: {answer['error'].get('message')}")
        return answer.get("result", {})

    def until(self, is_it: Callable[[dict[str, Any]], bool]) -> dict[str, Any]:
        """Reads what the browser says until something is said; gives that."""
        deadline = min(time.monotonic() + LONGEST, self.ends)
        while True:
            one = self.message(deadline)
            method, params = one.get("method"), one.get("params", {})
            if method == "Runtime.exceptionThrown":
                self.thrown.append(params["exceptionDetails"].get("text", ""))
            elif method == "Network.requestWillBeSent":
                self.asked.append(params["request"]["url"])
            if is_it(one):
                return one

    def message(self, deadline: float) -> dict[str, Any]:
        """Gives the next message."""
        with selectors.DefaultSelector() as waits:
            waits.register(self.of, selectors.EVENT_READ)
            while b"\0" not in self.said:
                if not waits.select(max(0, deadline - time.monotonic())):
                    is_one = deadline < self.ends
                    raise OSError(f"the browser took more than {LONGEST} seconds for one answer"
                                  if is_one else f"the browser took more than {self.seconds}"
                                  " seconds, which is all that it has")
                piece = os.read(self.of, 1 << 16)
                if not piece or len(self.said) > MOST:
                    raise OSError(ENDED)
                self.said.extend(piece)
        text, _, rest = bytes(self.said).partition(b"\0")
        self.said = bytearray(rest)
        message: dict[str, Any] = json.loads(text)
        return message

    def opens(self, address: str) -> int:
        """Opens a page; gives how many milliseconds that took."""
        began = time.monotonic()
        self.does("Page.navigate", url=address)
        self.until(lambda one: one.get("method") == "Page.loadEventFired")
        return int(1000 * (time.monotonic() - began))

    def says(self, expression: str) -> Any:
        """Gives the value of an expression on the page."""
        answer = self.does("Runtime.evaluate", expression=expression, returnByValue=True,
                           userGesture=True)
        if "exceptionDetails" in answer:
            self.thrown.append(f"{answer['exceptionDetails'].get('text')} of {expression[:60]}")
        return answer["result"].get("value")

    def presses(self, selector: str) -> bool:
        """Presses the mouse on the first thing that a selector finds, where it stands on the page
        and nothing covers it; gives whether it could."""
        at = self.says("(() => { const one = document.querySelector(" + json.dumps(selector) + """);
          if (!one) return null;
          one.scrollIntoView({block: 'center', behavior: 'instant'});
          const box = [...one.getClientRects()].find((part) => part.width && part.height);
          if (!box) return null;
          const at = [box.x + box.width / 2, box.y + box.height / 2];
          return one.contains(document.elementFromPoint(...at)) ? at : null; })()""")
        for kind in ("mousePressed", "mouseReleased") if at else ():
            self.does("Input.dispatchMouseEvent", type=kind, x=at[0], y=at[1], button="left",
                      clickCount=1)
        return at is not None

    def leads(self, selector: str) -> bool:
        """Presses the mouse on a link to another page, and waits until that is there; gives whether
        it could."""
        if not self.presses(selector):
            return False
        self.until(lambda one: one.get("method") == "Page.loadEventFired")
        return True

    def sized(self, width: int, height: int, is_dark: bool = False) -> None:
        """Gives the window a size, and its colors."""
        self.does("Emulation.setDeviceMetricsOverride", width=width, height=height,
                  deviceScaleFactor=1, mobile=width < 600)
        scheme = "dark" if is_dark else "light"
        self.does("Emulation.setEmulatedMedia",
                  features=[{"name": "prefers-color-scheme", "value": scheme}])

    def picture(self, path: Path) -> None:
        """Writes what is seen as a picture."""
        path.write_bytes(base64.b64decode(self.does("Page.captureScreenshot")["data"]))
