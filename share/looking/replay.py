"""What a run's text tells of states and memory: registers, code that was stored, events that wait."""
from dataclasses import dataclass, field

from looking import guest
from looking.image_file import PAGE, STATE, TABLES

INSTRUCTION = 8
# which instruction an exit's line may have (docs/guests.md, Faults and exits)
EXITS_OF = {12: ("HLT",), 18: ("VMCALL",), 30: ("IN", "OUT"), 31: ("RDMSR",), 32: ("WRMSR",),
            0: ("LOAD", "STORE"), 48: ("LOAD", "STORE"), 49: ("LOAD", "STORE")}


@dataclass
class State:
    """A subject's registers, `pc`, `epc` and `vbase`; None where the text doesn't tell."""
    registers: list[int | None]
    pc: int | None
    epc: int | None
    vbase: int | None

    def forget(self):
        """Turns are missing: nothing is known any more."""
        self.registers = [None] * 16
        self.pc = self.epc = self.vbase = None

    def sum(self, register, imm, modulus=guest.WORD):
        """A register plus an immediate, where it is known."""
        value = self.registers[register]
        return None if value is None else (value + imm) % modulus


@dataclass
class Raised:
    """An event that waits: who raised it first and by which way, and when it was raised last."""
    who: int
    by: str
    first: int
    last: int


@dataclass
class Replay:
    """Follows a text, turn by turn. `complete` says that it begins with the run."""
    system: object
    complete: bool
    states: list[State] = field(default_factory=list)
    waiting: dict[tuple[int, int], Raised] = field(default_factory=dict)

    def __post_init__(self):
        pages = [subject.state for subject in self.system.image.subjects]
        # a state page that is another subject's too tells nothing (docs/machine.md)
        self.sharers = {number for number, page in enumerate(pages) if pages.count(page) > 1}
        for number in range(len(pages)):
            state = State([None] * 16, None, None, None)
            self.states.append(state)
            if self.complete:
                self.load_state(number)

    def load_state(self, number):
        """Takes a state from its state page (docs/tables.md)."""
        page, state = self.system.image.subjects[number].state.place, self.states[number]
        words = [int.from_bytes(self.system.memory.read(page + 8 * at, 8), "little")
                 for at in range(19)]
        state.registers, (state.pc, state.epc, state.vbase) = words[:16], words[16:]

    # ---- the instruction of a turn

    def instruction(self, number, turn):
        """The instruction at `pc`, or None: where there is none, or the line says another one."""
        if turn.kind == "inject":
            return None
        place = self.place_of(number, turn.pc)
        word = None if place is None or turn.pc % INSTRUCTION else self.system.memory.read(place, INSTRUCTION)
        found = guest.decode(word) if word else None
        return found if found and agrees(found, turn) else None

    def place_of(self, number, address):
        """The physical address that a subject sees at one of its own, or None."""
        window = self.system.view(number).window_at(address)
        return window.place + address - window.guest if window and window.span else None

    # ---- what a turn does

    def meet(self, number, turn):
        """Before a turn: where it doesn't go on where the subject's last one ended, turns are missing."""
        state = self.states[number]
        if number in self.sharers or (state.pc is not None and state.pc != turn.pc):
            state.forget()
        state.pc = turn.pc

    def carry_out(self, number, turn, found):
        """After a turn: the state, what was stored, and what was raised."""
        state, facts = self.states[number], turn.facts
        following = self.following(state, turn, found)
        if turn.kind == "inject":
            state.epc = turn.pc
            self.waiting.pop((number, facts["vector"]), None)
        elif turn.kind == "register":
            state.registers[facts["register"]] = facts["value"]
        elif turn.kind == "store":
            self.store(number, facts["address"], facts["stored"], facts["size"])
        elif turn.kind == "exit":
            self.leave(number, turn, found)
        elif found and found.name == "SETV":
            state.vbase = state.registers[found.rs]
        state.pc = following

    def following(self, state, turn, found):
        """Where the next turn of the subject begins, as far as the text tells."""
        onward = (turn.pc + INSTRUCTION) % guest.WORD
        if turn.kind == "inject":
            return None if state.vbase is None else (state.vbase + 8 * turn.facts["vector"]) % guest.WORD
        if turn.kind == "exit":
            return turn.pc if turn.facts["ending"] == "stop" else onward
        if turn.kind != "-":
            return onward
        if found is None:
            return None
        if found.name == "RETI":
            return state.epc
        taken = is_taken(state, found)
        if taken is None:
            return None
        return (turn.pc + found.imm) % guest.WORD if taken else onward

    def store(self, number, address, value, size):
        """What is stored changes code, states that a monitor may write, and tables."""
        place = self.place_of(number, address)
        if place is None:
            return
        self.system.memory.write(place, value.to_bytes(8, "little")[:size])
        span = self.system.memory.span_at(place)
        if span.part == STATE:
            for other, subject in enumerate(self.system.image.subjects):
                if subject.state is span and other != number:
                    self.overwrite(other, place - span.place, value, size)
                    if subject.cpu != self.system.image.subjects[number].cpu:
                        self.states[other].forget()
        if span.part == TABLES or any(place // PAGE in view.table_pages
                                      for view in self.system.views.values()):
            self.system.views.clear()

    def overwrite(self, number, offset, value, size):
        """A monitor has stored into a state page, while its subject isn't on the CPU."""
        state, (at, first) = self.states[number], divmod(offset, 8)
        fields = {16: "pc", 17: "epc", 18: "vbase"}
        old = state.registers[at] if at < 16 else getattr(state, fields.get(at, "pc"))
        if old is None and size == 8:
            old = 0
        new = None
        if old is not None:
            mask = (1 << 8 * size) - 1
            new = old & ~(mask << 8 * first) | (value & mask) << 8 * first
        if at < 16:
            state.registers[at] = new
        elif at in fields:
            setattr(state, fields[at], new)

    # ---- events

    def raised_by(self, number, turn, found):
        """The way, the number and the event of a call or a trap, or None."""
        subject = self.system.image.subjects[number]
        if turn.facts["ending"] == "on":
            call = self.states[number].registers[found.rs] if found else None
            return ("call", call, subject.calls.get(call))
        if turn.facts["ending"] == "trap":
            reason = turn.facts["reason"]
            return ("trap", reason, subject.traps.get(reason))
        return None

    def leave(self, number, turn, found):
        """An exit: its event waits at the target."""
        raised = self.raised_by(number, turn, found)
        if raised is None or raised[2] is None or not raised[2].vector:
            return
        way, which, event = raised
        key = event.target, event.vector
        if key in self.waiting:
            self.waiting[key].last = turn.tick
        else:
            by = f"{way} {which} of {self.system.name(number)}"
            self.waiting[key] = Raised(number, by, turn.tick, turn.tick)


def is_taken(state, found):
    """Whether a jump is taken, or None; other instructions go on."""
    if found.name == "JMP":
        return True
    if found.name not in ("JZ", "JNZ", "JB"):
        return False
    left, right = state.registers[found.rd], state.registers[found.rs]
    if left is None or (found.name == "JB" and right is None):
        return None
    return {"JZ": left == 0, "JNZ": left != 0, "JB": found.name == "JB" and left < right}[found.name]


def agrees(found, turn):
    """Whether an instruction can have this line; else other bytes stand there by now."""
    facts = turn.facts
    if turn.kind == "exit":
        if facts["reason"] == 48:
            return facts["qualification"] & 3 == {"LOAD": 1, "STORE": 2}.get(found.name)
        return found.name in EXITS_OF.get(facts["reason"], ())
    shows = {"register": "r"}.get(turn.kind, turn.kind)
    if found.shows != shows:
        return False
    if turn.kind == "register":
        known = {"LI": found.imm % guest.WORD, "RDTSC": turn.tick}.get(found.name, facts["value"])
        return (found.rd, known) == (facts["register"], facts["value"])
    return found.size in (0, facts.get("size"), facts.get("bytes"))
