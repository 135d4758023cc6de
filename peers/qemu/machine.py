"""A machine of QEMU, `virt` with the AIA, of which no hart does anything by itself.

Loads, stores and wires go through QEMU's test protocol. CSRs can't be reached by it: each hart runs
the program of stub.S, to which `run` gives lists of CSR instructions.
"""

import os
import re
import selectors
import socket
import struct
import subprocess
import time

QEMU = "qemu-system-riscv64"
LISTS, MSIP = 0x80100000, 0x02000000
LIST_BYTES, HEAD_BYTES, ENTRY_BYTES, MOST_ENTRIES = 4096, 64, 32, 60
MACHINE_LEVEL, SUPERVISOR, GUEST = 3, 1, 5
ENVIRONMENT_CALLS = {8, 9, 10, 11}
WRITING = {"write": 1, "set": 2, "clear": 3}
TIME_LIMIT = 20
# Memory that QEMU gets is filled with 0x03, the complement of this number's byte.
FILLED = "glibc.malloc.perturb=252:glibc.malloc.tcache_count=0"


def instruction(csr, operation):
    """A CSR instruction that takes its operand from a0 and puts what it reads into a1."""
    if operation == "read":
        return csr << 20 | 2 << 12 | 11 << 7 | 0x73
    return csr << 20 | 10 << 15 | WRITING[operation] << 12 | 11 << 7 | 0x73


def command(stub, harts, guests, aia, tests, monitor):
    """QEMU with its words; it ends with the process that started it. `tests` and `monitor` are the
    descriptors on which it takes commands."""
    machine = f"virt,aia={aia}" + (f",aia-guests={guests}" if guests else "")
    return ["setpriv", "--pdeathsig", "KILL", QEMU, "-M", machine, "-smp", str(harts), "-m", "16M",
            "-bios", "none", "-kernel", stub, "-accel", "tcg,thread=single", "-nodefaults",
            "-display", "none", "-serial", "none",
            "-chardev", f"socket,id=tests,fd={tests}",
            "-object", "qtest,id=qtest,chardev=tests,log=none",
            "-chardev", f"socket,id=monitor,fd={monitor}", "-mon", "chardev=monitor"]


class Failed(Exception):
    """QEMU ended, or did not answer in time."""


class Channel:
    """A socket to QEMU, on which it answers in lines."""

    def __init__(self, ours):
        self.socket = ours
        self.waits = selectors.DefaultSelector()
        self.waits.register(ours, selectors.EVENT_READ)
        self.left = b""

    def send(self, text):
        try:
            self.socket.sendall(text)
        except OSError as error:
            raise Failed("QEMU has ended") from error

    def until(self, mark):
        """What comes up to a mark."""
        deadline = time.monotonic() + TIME_LIMIT
        while mark not in self.left:
            if not self.waits.select(max(0, deadline - time.monotonic())):
                raise Failed(f"QEMU did not answer within {TIME_LIMIT} seconds")
            piece = self.socket.recv(65536)
            if not piece:
                raise Failed("QEMU has ended")
            self.left += piece
        found, self.left = self.left.split(mark, 1)
        return found

    def close(self):
        self.waits.close()
        self.socket.close()


class Machine:
    """One machine: `aia` is aplic-imsic, where both domains deliver by MSIs, or aplic, where there
    are no interrupt files."""

    def __init__(self, stub, harts, guests, aia, is_filled=False):
        self.process = None
        self.channels = []
        tests, tests_end = self.pair()
        monitor, monitor_end = self.pair()
        ends = tests_end.fileno(), monitor_end.fileno()
        environment = {**os.environ, **({"GLIBC_TUNABLES": FILLED} if is_filled else {})}
        self.process = subprocess.Popen(
            command(stub, harts, guests, aia, *ends), env=environment, pass_fds=ends,
            stdin=subprocess.DEVNULL, stdout=subprocess.DEVNULL, stderr=subprocess.DEVNULL)
        tests_end.close()
        monitor_end.close()
        self.tests = tests
        self.root_domain = self.find_root_domain(monitor)

    def pair(self):
        ours, other = socket.socketpair()
        channel = Channel(ours)
        self.channels.append(channel)
        return channel, other

    @staticmethod
    def find_root_domain(monitor):
        """The name by which QEMU's tree of devices has the domain to which the wires lead."""
        monitor.until(b"(qemu) ")
        monitor.send(b"info qom-tree\n")
        tree = monitor.until(b"(qemu) ").decode()
        found = re.search(r"/(device\[\d+\]) \(riscv\.aplic\)", tree)
        if not found:
            raise Failed("QEMU's tree of devices has no APLIC")
        return "/machine/unattached/" + found[1]

    def close(self):
        if self.process:
            self.process.kill()
            self.process.wait()
        for channel in self.channels:
            channel.close()

    def ask(self, *commands):
        """Commands of the test protocol, and the words of each one's answer."""
        self.tests.send("".join(command + "\n" for command in commands).encode())
        answers = []
        for command in commands:
            words = self.tests.until(b"\n").split()
            if not words or words[0] != b"OK":
                raise Failed(f"QEMU answers {command} by {words}")
            answers.append(words[1:])
        return answers

    def load(self, address):
        return int(self.ask(f"readl {address:#x}")[0][0], 16)

    def store(self, address, value):
        self.ask(f"writel {address:#x} {value:#x}")

    def wire(self, source, level):
        self.ask(f"set_irq_in {self.root_domain} unnamed-gpio-in {source} {level}")

    def run(self, hart, entries):
        """Runs (level, instruction, operand) one after the other on a hart: of each what it read
        and the cause of its trap, None where there was none."""
        assert len(entries) <= MOST_ENTRIES
        place = LISTS + LIST_BYTES * hart
        text = struct.pack("<Q", len(entries)) + bytes(HEAD_BYTES - 8)
        for level, instruction, operand in entries:
            text += struct.pack("<IIQQQ", instruction, level, operand, 0, 0)
        read = f"read {place:#x} {len(text)}"
        answers = self.ask(f"write {place:#x} {len(text)} 0x{text.hex()}",
                           f"writel {MSIP + 4 * hart:#x} 1", read)
        deadline = time.monotonic() + TIME_LIMIT
        while int.from_bytes((found := bytes.fromhex(answers[-1][0][2:].decode()))[:8], "little"):
            if time.monotonic() > deadline:
                raise Failed(f"hart {hart} did not finish")
            answers = self.ask(read)
        results = []
        for at in range(HEAD_BYTES, len(found), ENTRY_BYTES):
            value, cause = struct.unpack_from("<QQ", found, at + 16)
            results.append((value, None if cause in ENVIRONMENT_CALLS else cause))
        return results
