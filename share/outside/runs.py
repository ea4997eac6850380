"""What `run` says: programs for guests (docs/guests.md), changed images, and the lines of a run."""
import hashlib
import struct
import subprocess
from dataclasses import dataclass

from emulator import Broken

ASKED = "one"
LI, LIH, LOAD, STORE, IN, OUT, READ_MSR, WRITE_MSR, VMCALL, STI, SETV = (
    0x01, 0x02, 0x0B, 0x0C, 0x11, 0x12, 0x13, 0x14, 0x16, 0x18, 0x1A)
SIZE_CODES = {1: 0, 2: 1, 4: 2, 8: 3}
# The policy's event `go`: its call and its vector.
GO_CALL, GO_VECTOR = 1, 33


def instruction(opcode, first=0, second=0, size=0, immediate=0):
    """The eight bytes of an instruction."""
    return struct.pack("<BBBBI", opcode, first << 4 | second, size, 0, immediate & 0xFFFFFFFF)


def put(register, value):
    """The instructions that put 64 bits into a register."""
    return instruction(LI, register, immediate=value) + instruction(LIH, register, immediate=value >> 32)


@dataclass
class Run:
    """What a run printed of the subject that is asked: what each turn did, by its `pc`, and the digests."""

    turns: list
    digests: dict

    def at(self, pc):
        """What the first turn at this address did."""
        return next((what for where, what in self.turns if where == pc), None)


def run(program, content, ticks, folder):
    """The run of an image's bytes for so many ticks."""
    image, record = folder / "changed", folder / "record"
    image.write_bytes(content)
    record.write_text(f"end {ticks}\n")
    done = subprocess.run([str(program), "run", str(image), str(record)], capture_output=True, timeout=600)
    if done.returncode:
        raise Broken(f"run: {done.stderr.decode(errors='replace').strip()}")
    turns, digests = [], {}
    for line in done.stdout.decode("ascii").splitlines():
        words = line.split(" ")
        if words[0] in ("region", "device"):
            digests[words[1]] = words[2]
        elif words[0].isdecimal() and words[2] == ASKED:
            turns.append((int(words[3], 16), words[4:]))
    return Run(turns, digests)


def changed(content, changes):
    """An image's bytes with others at some offsets."""
    content = bytearray(content)
    for offset, new in changes:
        content[offset:offset + len(new)] = new
    return bytes(content)


def digest(content):
    """As a line of a run has it."""
    return hashlib.sha256(content).hexdigest()


def exit_of(what):
    """(reason, qualification, address) of a turn that ended in an exit, or None."""
    if what and what[0] == "exit":
        return int(what[1]), int(what[2], 16), int(what[3], 16)
    return None
