"""Instructions and exits of guests in words, after docs/guests.md."""
import functools
from dataclasses import dataclass

PORTS = 65536
ADDRESSES_END = 1 << 48
WORD = 1 << 64
SIZES = {0: 1, 1: 2, 2: 4, 3: 8}
RIGHTS = {0: "none", 1: "r", 3: "rw", 5: "rx", 7: "rwx"}
ACCESSES = {1: "load from", 2: "store to", 4: "fetch from"}
# exits of this machine (docs/guests.md, docs/machine.md)
EXITS = {0: "what this machine can't run", 12: "HLT", 18: "VMCALL", 30: "I/O instruction",
         31: "RDMSR", 32: "WRMSR", 48: "EPT violation", 49: "EPT misconfiguration"}

# by opcode: the name, the fields (d: rd, s: rs, z: size code, p: size code of ports, i: imm), the
# text, and what its line shows (docs/guests.md, Instructions)
TABLE = [
    ("NOP", "", "", "-"), ("LI", "di", "{d}, {i}", "r"), ("LIH", "di", "{d}, {u}", "r"),
    ("MOV", "ds", "{d}, {s}", "r"), ("ADD", "ds", "{d}, {s}", "r"), ("SUB", "ds", "{d}, {s}", "r"),
    ("AND", "ds", "{d}, {s}", "r"), ("OR", "ds", "{d}, {s}", "r"), ("XOR", "ds", "{d}, {s}", "r"),
    ("SHL", "ds", "{d}, {s}", "r"), ("SHR", "ds", "{d}, {s}", "r"),
    ("LOAD", "dszi", "{d}, {z} at {s} {o}", "r"), ("STORE", "dszi", "{d}, {z} at {s} {o}", "store"),
    ("JMP", "i", "{i}", "-"), ("JZ", "di", "{d}, {i}", "-"), ("JNZ", "di", "{d}, {i}", "-"),
    ("JB", "dsi", "{d}, {s}, {i}", "-"), ("IN", "dspi", "{d}, {z} at port {s} {o}", "r"),
    ("OUT", "dspi", "{d}, {z} to port {s} {o}", "out"), ("RDMSR", "ds", "{d}, {s}", "r"),
    ("WRMSR", "ds", "{d}, {s}", "wrmsr"), ("RDTSC", "d", "{d}", "r"), ("VMCALL", "s", "{s}", "exit"),
    ("HLT", "", "", "exit"), ("STI", "", "", "-"), ("CLI", "", "", "-"), ("SETV", "s", "{s}", "-"),
    ("RETI", "", "", "-")]


@dataclass(frozen=True)
class Instruction:
    """An instruction; fields that it doesn't have are zero."""
    opcode: int
    rd: int
    rs: int
    size: int
    imm: int

    @property
    def name(self):
        """Its name."""
        return TABLE[self.opcode][0]

    @property
    def shows(self):
        """What its line shows: `-`, r, store, out, wrmsr or exit."""
        return TABLE[self.opcode][3]

    def __str__(self):
        size = f"{self.size} byte{'s' if self.size > 1 else ''}"
        text = TABLE[self.opcode][2].format(
            d=f"r{self.rd}", s=f"r{self.rs}", z=size, i=plain(self.imm),
            u=plain(self.imm % (1 << 32)),
            o=f"- {plain(-self.imm)}" if self.imm < 0 else f"+ {plain(self.imm)}")
        return f"{self.name} {text}".strip()


def plain(value):
    """A number as listings have it: decimal while it is small, else hexadecimal."""
    return str(value) if abs(value) < 1024 else f"{'-' if value < 0 else ''}0x{abs(value):x}"


@functools.lru_cache(4096)
def decode(word):
    """The instruction of eight bytes, or None where they are outside the table."""
    opcode, registers, code, zero = word[:4]
    if opcode >= len(TABLE):
        return None
    fields = TABLE[opcode][1]
    rd, rs = registers >> 4, registers & 15
    imm = int.from_bytes(word[4:8], "little", signed=True)
    most = 3 if "z" in fields else 2 if "p" in fields else 0
    unnamed = ("d" not in fields and rd) or ("s" not in fields and rs) or ("i" not in fields and imm)
    if unnamed or zero or code > most:
        return None
    return Instruction(opcode, rd, rs, SIZES[code] if most else 0, imm)


def exit_name(reason):
    """An exit reason in words."""
    return EXITS.get(reason, "no exit of this machine")


def flags(value):
    """The flags of a state in words."""
    names = ((1, "interrupts"), (2, "halted"), (4, "stopped"), (8, "exited"))
    return ", ".join(name for bit, name in names if value & bit) or "no flag"
