"""What a subject's program does that is mostly not meant, as far as its policy and its contents tell.

The program is gone through from the entry and from the handlers of the vectors that come to it, with what each register holds
where that is known: what all ways to an instruction agree on. What is loaded isn't known. Nothing is said of code that isn't
come to, nor of a program of more than MOST steps.
"""
from __future__ import annotations

import pathlib
from dataclasses import dataclass

from looking.guest import PORTS, WORD, decode
from looking.hints import Hint, contents_of_window, incoming
from looking.policy import name
from looking.schema import number_of

MOST = 100_000
SUMS = {"ADD": int.__add__, "SUB": int.__sub__, "AND": int.__and__, "OR": int.__or__, "XOR": int.__xor__,
        "SHL": lambda one, other: one << other % 64, "SHR": lambda one, other: one >> other % 64}
JUMPS = ("JMP", "JZ", "JNZ", "JB")


@dataclass(frozen=True)
class Known:
    """Before an instruction: the registers, the base of handlers, and whether events are let in; None where that isn't known."""
    registers: tuple
    base: int | None
    events: bool | None

    def joined(self, other):
        """What this and another agree on."""
        return Known(tuple(map(agreed, self.registers, other.registers)), agreed(self.base, other.base), agreed(self.events, other.events))

    def put(self, register, value):
        """With a register set, to a value or to what isn't known."""
        held = list(self.registers)
        held[register] = None if value is None else value % WORD
        return Known(tuple(held), self.base, self.events)

    def sum(self, register, imm):
        """A register and an immediate, or none."""
        held = self.registers[register]
        return None if held is None else (held + imm) % WORD


def is_odd(target, found):
    """Whether an address that is known is no multiple of an instruction's size."""
    return target is not None and target % found.size != 0


def agreed(one, other):
    """A value where both are it."""
    return one if one == other else None


class Program:
    """A subject's program: what is known before each instruction that is come to."""

    def __init__(self, policy, subject):
        self.policy, self.subject = policy, subject
        self.windows = [window for window in policy.windows(subject) if None not in (window.start, window.end)]
        self.contents = {}
        self.ports = granted_ports(policy, subject)
        self.traps = {number_of(node.get("trap")) for node in subject.items("sources")}
        self.known, self.waiting, self.steps, self.bases = {}, [], 0, set()
        entry = number_of(subject.get("entry"))
        self.vectors = sorted({vector for node, _ in incoming(policy, subject) if (vector := vector_of(policy, node)) is not None})
        if entry is not None:
            self.come(entry, Known((0,) * 16, 0, False))
        while self.waiting and self.steps < MOST:
            self.steps += 1
            self.go_on(self.waiting.pop())

    @property
    def is_whole(self):
        """Whether all of it was gone through."""
        return not self.waiting

    def come(self, address, known):
        """An instruction is come to, with this known."""
        old = self.known.get(address)
        new = known if old is None else old.joined(known)
        if new != old:
            self.known[address] = new
            self.waiting.append(address)

    def go_on(self, address):
        """From an instruction to those behind it, and to the handlers that an event may lead to there."""
        known, found = self.known[address], self.instruction(address)
        if known.events is not False and known.base is not None:
            for vector in self.vectors:
                self.bases.add(known.base)
                self.come((known.base + 8 * vector) % WORD, Known((None,) * 16, known.base, False))
        if found is None or self.ends(known, found):
            return
        if found.name in JUMPS:
            self.come((address + found.imm) % WORD, known)
        if found.name != "JMP":
            self.come((address + 8) % WORD, after(known, found))

    def ends(self, known, found):
        """Whether an instruction is the last one: nothing wakes the subject, a fault stops it, or it goes back to where an event came."""
        if found.name == "HLT":
            return not self.vectors or known.events is False
        if found.name in ("LOAD", "STORE"):
            target = known.sum(found.rs, found.imm)
            return 0 not in self.traps if is_odd(target, found) else 48 not in self.traps and self.lacks_window(target, found)
        if found.name in ("IN", "OUT"):
            return 30 not in self.traps and self.lacks_ports(known.sum(found.rs, found.imm), found)
        return found.name == "RETI"

    def lacks_window(self, target, found):
        """Whether an address that is known is one for which a load or a store has no right."""
        return target is not None and self.window_at(target, "w" if found.name == "STORE" else "r") is None

    def lacks_ports(self, port, found):
        """Whether ports that are known aren't all the subject's."""
        return port is not None and not set(range(port % PORTS, port % PORTS + found.size)) <= self.ports

    # ---- what stands at an address

    def window_at(self, address, right="x"):
        """The window with a right that shows an address, or none."""
        return next((window for window in self.windows if right in window.rights and window.start <= address < window.end), None)

    def content_at(self, address):
        """The bytes of the content that is shown at an address, and the offset in them; none where they aren't known."""
        window = self.window_at(address)
        if window is None:
            return None
        if window.node.path not in self.contents:
            self.contents[window.node.path] = contents_of_window(self.policy, window)
        content = self.contents[window.node.path]
        return None if content is None else (content, address - window.start)

    def instruction(self, address):
        """The instruction at an address, or none where none is known to stand there."""
        found = self.content_at(address)
        if found is None or address % 8:
            return None
        content, offset = found
        return decode(content[offset:offset + 8].ljust(8, b"\0"))

    def is_behind(self, address):
        """Whether the content ends before an address, so that zeros stand there."""
        found = self.content_at(address)
        return found is not None and found[1] >= len(found[0])


def after(known, found):
    """What is known behind an instruction that goes on."""
    registers = known.registers
    if found.name == "LI":
        return known.put(found.rd, found.imm)
    if found.name == "LIH":
        held = registers[found.rd]
        return known.put(found.rd, None if held is None else held % (1 << 32) | found.imm % (1 << 32) << 32)
    if found.name == "MOV":
        return known.put(found.rd, registers[found.rs])
    if found.name in SUMS:
        one, other = registers[found.rd], registers[found.rs]
        return known.put(found.rd, None if None in (one, other) else SUMS[found.name](one, other))
    if found.name == "SETV":
        return Known(registers, registers[found.rs], known.events)
    if found.name in ("STI", "CLI"):
        return Known(registers, known.base, found.name == "STI")
    return known.put(found.rd, None) if found.shows == "r" else known


def vector_of(policy, node):
    """The vector under which an event or an interrupt comes, or none."""
    value = number_of(node.get("vector"))
    if value is None and node.get("logical") is not None:
        # the map entry of a component's channel
        subject = policy.document.at(node.path[:2])
        end = next((end for end in policy.ends(subject) if end.named is node), None)
        value = None if end is None else number_of(end.vector)
    return value


# ---- warnings

def hints_of_code(policy):
    """The warnings on all programs."""
    for subject in policy.subjects:
        program = Program(policy, subject)
        if program.is_whole:
            yield from of_program(policy, subject, program)


def of_program(policy, subject, program):
    """Those of one program, each at the value of the policy that it is about."""
    calls = {number_of(node.get("call")) for node in subject.items("sources")}
    calls |= {number_of(end.call) for end in policy.ends(subject) if end.call is not None}
    entry, whose = subject.get("entry"), name(subject)
    handlers = {(base + 8 * vector) % WORD for base in program.bases for vector in program.vectors}
    for address in sorted(program.known):
        known, found = program.known[address], program.instruction(address)
        if address not in handlers and program.is_behind(address) and not (address - 8 in program.known and program.is_behind(address - 8)):
            yield Hint("runs-into-zeros", entry, f"{whose} runs at {address:x} where zeros are, behind its code")
        if found is None:
            continue
        if found.name == "VMCALL" and known.registers[found.rs] is not None and known.registers[found.rs] not in calls:
            yield Hint("call-of-nothing", entry, f"{whose} makes at {address:x} the call {known.registers[found.rs]}, which raises nothing")
        if found.name in ("LOAD", "STORE"):
            yield from of_access(program, whose, entry, address, known.sum(found.rs, found.imm), found)
        if found.name in ("IN", "OUT"):
            port = known.sum(found.rs, found.imm)
            if program.lacks_ports(port, found):
                yield Hint("no-right", entry, f"{whose} asks at {address:x} for the port {port % PORTS:x}, which it hasn't")
        if found.name == "HLT" and known.events is False and program.vectors:
            yield Hint("waits-with-events-off", entry, f"{whose} halts at {address:x} with events off, so none wakes it")
    yield from of_handlers(program, whose, entry)


def of_access(program, whose, entry, address, target, found):
    """A load or a store at an address that is known, for which there is no right, or which is no multiple of the size."""
    if is_odd(target, found):
        yield Hint("odd-access", entry, f"{whose} reaches at {address:x} for {found.size} bytes at {target:x}, which is no multiple of {found.size}")
    elif program.lacks_window(target, found):
        shown, word = program.window_at(target, ""), "stores" if found.name == "STORE" else "loads"
        what = f"{target:x}, where it sees {shown.shows} with {shown.rights}" if shown else f"{target:x}, where no window is"
        yield Hint("no-right", entry, f"{whose} {word} at {address:x} {'to' if found.name == 'STORE' else 'from'} {what}")


def granted_ports(policy, subject):
    """The ports that a subject has."""
    granted = set()
    for use in subject.items("devices"):
        device = policy.devices.first("name", use.text("device"))
        for node in use.items("ioPorts"):
            ports = device.items("ioPorts").first("name", node.value) if device else None
            first, last = (number_of(ports.get(key)) for key in ("start", "end")) if ports else (None, None)
            if None not in (first, last):
                granted |= set(range(first, min(last, PORTS - 1) + 1))
    return granted


def of_handlers(program, whose, entry):
    """Vectors that come to a subject that lets events in, and have no handler."""
    for base in sorted(program.bases):
        for vector in program.vectors:
            address = (base + 8 * vector) % WORD
            if program.content_at(address) is None:
                if program.window_at(address) is None:
                    yield Hint("no-handler", entry, f"{whose} has no code at {address:x}, where the handler of vector {vector} is to be")
            elif program.is_behind(address):
                yield Hint("no-handler", entry, f"{whose} has zeros at {address:x}, where the handler of vector {vector} is to be")
