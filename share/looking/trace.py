"""look trace: what each line of a run's text means."""
from dataclasses import dataclass

from looking import guest
from looking.files import read_text
from looking.guest import plain
from looking.image_file import STATE
from looking.inputs import add_record, inputs_of
from looking.replay import Replay, is_taken
from looking.system import System
from looking.turns import kind_of, lines_of
from looking.words import want_subject
from looking.wrong import Wrong

# the kinds of turns by the words of --only
KINDS = {"instruction": "instruction", "jump": "jump, flag, NOP", "store": "store", "call": "call", "halt": "halt", "event": "event",
         "output": "output", "trap": "trapped fault", "stop": "fault, stops"}
# .. and that of a line of the record
INPUT = "input"
HELP = "a run's text with instructions, names of regions, causes of events, and faults in words"
LONG_HELP = """Prints each line of a turn anew: tick, CPU, subject, where its instruction stands, the
instruction as the image has it (or as stores of the text have made it), and what
happened. Addresses are told as REGION+OFFSET, of the region that the subject sees
there; they, values and ports are hexadecimal, other numbers decimal. Final lines stay.
The text may begin and end at any line: what it doesn't tell is left out. What devices
write into code isn't in a text; an instruction that its line contradicts is shown as `?`.
With the record of the run, and the DMA tables that it was given, each line of the record
is told too, before the turns of its tick: behind `-` the device and what the line did;
of a `dma` line where it wrote, or at which address it was dropped and why.

  look trace gateway.img gateway.trace --subject black cipher --from 30 --until 50
  look trace gateway.img gateway.trace --only stop trap
  look trace ring.img ring.trace --record ring.record --dma ring.dma --only input

These tell some turns alone, as they are told among all, and no final lines. The kinds of
turns are instruction, jump (also a flag, and NOP), store, call, halt, event, output, trap (a
fault that is trapped) and stop (one that isn't); input is a line of the record."""


def add_arguments(parser):
    """The words of this form."""
    parser.add_argument("image", metavar="IMAGE", help="the image that was run")
    parser.add_argument("trace", metavar="TRACE", help="what `muen run` printed; - is standard input")
    parser.add_argument("--subject", nargs="+", metavar="NAME", help="the turns of these subjects alone")
    parser.add_argument("--from", metavar="TICK", dest="first", type=int, help="the first tick that is told")
    parser.add_argument("--until", metavar="TICK", dest="end", type=int, help="the tick behind the last")
    parser.add_argument("--only", nargs="+", choices=(*KINDS, INPUT), metavar="KIND", help="the turns of these kinds alone")
    add_record(parser)


def run(arguments):
    """Prints a line for each line, and for each line of the record."""
    system = System(arguments.image)
    text, inputs = read_text(arguments.trace, 1 << 30), inputs_of(arguments, system)
    # once for faults and widths, before anything is printed
    teller = Teller(system, lines_of(text, arguments.trace), arguments.trace)
    wanted, told_inputs = wanted_of(arguments, teller), wanted_inputs(arguments, teller)
    for line, turn in lines_of(text, arguments.trace):
        if inputs:
            for number in inputs.go_to(inputs.ticks if turn is None else turn.tick):
                if told_inputs(inputs.lines[number]):
                    print(teller.tell_input(inputs.lines[number]))
        # each turn is carried out, also where it isn't told
        told = line if turn is None else teller.tell(turn)
        if wanted is None or turn is not None and wanted(turn):
            print(told)
    return 0


def wanted_inputs(arguments, teller):
    """Whether a line of the record is told, as a function: none of before a text that begins later."""
    first = arguments.first if arguments.first is not None else 0 if teller.replay.complete else teller.ticks.start
    named = INPUT in arguments.only if arguments.only else not arguments.subject
    return lambda line: named and first <= line.tick and (arguments.end is None or line.tick < arguments.end)


def wanted_of(arguments, teller):
    """Whether a turn is told, as a function; none where all lines are."""
    first, end, names, kinds = arguments.first, arguments.end, arguments.subject, arguments.only
    for name in names or ():
        want_subject(name, (subject.name for subject in teller.system.image.subjects))
    if first is not None and end is not None and first >= end:
        raise Wrong(f"from {first} until {end}: no tick is there")
    if first is None and end is None and not names and not kinds:
        return None
    return lambda turn: ((first is None or first <= turn.tick) and (end is None or turn.tick < end)
                         and (not names or turn.subject in names) and (not kinds or kind_of(turn) in map(KINDS.get, kinds)))


@dataclass
class Told:
    """Of a turn: where its instruction stands, the instruction, and what happened."""
    place: str
    code: str
    what: str


class Teller:
    """Puts turns into words, in their order."""

    def __init__(self, system, lines, source):
        self.system = system
        self.numbers = {(subject.name, subject.cpu): number for number, subject
                        in reversed(list(enumerate(system.image.subjects)))}
        first, last, places = 0, 0, set()
        for number, (_, turn) in enumerate(lines, 1):
            if turn:
                if (turn.subject, turn.cpu) not in self.numbers:
                    raise Wrong(f"{source}: line {number}: the image has no subject {turn.subject}"
                                f" on CPU {turn.cpu}")
                first, last = first if places else turn.tick, turn.tick
                places.add((self.numbers[turn.subject, turn.cpu], turn.pc))
        self.replay = Replay(system, first == 0)
        # from the first turn's to the last one's
        self.ticks = range(first, last + 1) if places else range(0)
        self.tick_width = len(str(last))
        self.name_width = max(len(subject.name) for subject in system.image.subjects)
        self.place_width = max((len(self.where(who, pc)) for who, pc in places), default=1)

    def tell(self, turn):
        """The line of a turn."""
        who = self.numbers[turn.subject, turn.cpu]
        self.replay.meet(who, turn)
        told = self.parts(who, turn, self.replay.instruction(who, turn))
        return (f"{turn.tick:{self.tick_width}} {turn.cpu} {turn.subject:{self.name_width}} "
                f"{told.place:{self.place_width}}  {told.code:32}  {told.what}").rstrip()

    def tell_input(self, line):
        """The line of a line of the record."""
        return f"{line.tick:{self.tick_width}} - {line.device:{self.name_width}} {line.text}"

    def parts(self, who, turn, found):
        """What is told of a turn that was met, and of its instruction; it is carried out."""
        text = "" if turn.kind == "inject" else str(found or "?")
        what = getattr(self, f"tell_{'jump' if turn.kind == '-' else turn.kind}")(who, turn, found)
        if turn.kind == "exit" and found is None:
            text = ""
        told = Told(self.where(who, turn.pc), text, what)
        self.replay.carry_out(who, turn, found)
        return told

    def where(self, who, address):
        """A guest address as the region that the subject sees there, with the offset."""
        window = self.system.view(who).window_at(address)
        if window is None or window.span is None:
            return f"{address:x}"
        offset = window.offset + address - window.guest
        field = state_field(offset) if window.span.part == STATE else ""
        return f"{window.span.name}+{offset:x}{field}"

    # ---- what happened, by the kind of the line

    def tell_jump(self, who, turn, found):
        """A line `-`: a jump, a flag, the base of handlers, the way back."""
        state = self.replay.states[who]
        if found is None:
            return ""
        if found.name in ("JMP", "JZ", "JNZ", "JB"):
            taken = is_taken(state, found)
            there = self.where(who, (turn.pc + found.imm) % guest.WORD)
            return {True: f"to {there}", False: "not taken", None: f"to {there}, or not"}[taken]
        if found.name == "SETV":
            base = state.registers[found.rs]
            return "" if base is None else f"handlers from {base:x} + 8 x vector"
        if found.name == "RETI":
            there = "" if state.epc is None else f" to {self.where(who, state.epc)}"
            return f"back{there}, events on"
        return {"STI": "events on", "CLI": "events off"}.get(found.name, "")

    def tell_register(self, who, turn, found):
        """A register was written: where from."""
        text = f"r{turn.facts['register']} = {turn.facts['value']:x}"
        state = self.replay.states[who]
        if found and found.name == "LOAD":
            address = state.sum(found.rs, found.imm)
            return text if address is None else f"{text} from {self.where(who, address)}"
        if found and found.name == "IN":
            port = state.sum(found.rs, found.imm, guest.PORTS)
            return text if port is None else f"{text} from {self.port(port)}"
        if found and found.name == "RDMSR":
            index = state.registers[found.rs]
            return text if index is None else f"{text} from MSR {index % (1 << 32):x}"
        return text

    def tell_store(self, who, turn, _):
        """Bytes were stored."""
        return f"{self.where(who, turn.facts['address'])} = {turn.facts['stored']:x}"

    def tell_out(self, _, turn, __):
        """Bytes were written to ports."""
        return f"{self.port(turn.facts['port'])} = {turn.facts['sent']:x}"

    def tell_wrmsr(self, _, turn, __):
        """An MSR was written."""
        return f"MSR {turn.facts['index']:x} = {turn.facts['written']:x}"

    def tell_inject(self, who, turn, _):
        """An event is delivered: who raised it, or which device's interrupt can have."""
        vector = turn.facts["vector"]
        raised = self.replay.waiting.get((who, vector))
        if raised:
            last = f", last in {raised.last}" if raised.last != raised.first else ""
            return f"event {vector}: {raised.by} in tick {raised.first}{last}"
        interrupts = [f"interrupt {one.name} of {device.name}" for device, one in self.interrupts(who, vector)]
        return f"event {vector}: {' or '.join(interrupts) or 'nothing in this text raised it'}"

    def interrupts(self, who, vector):
        """The devices' interrupts that come to a subject under this vector, each with its device."""
        return [(device, one) for device in self.system.image.devices for one in device.interrupts
                if (one.target, one.vector) == (who, vector)]

    def tell_exit(self, who, turn, found):
        """An exit: a halt, a call with its event, or a fault in words with that of its trap."""
        raised = self.replay.raised_by(who, turn, found)
        if turn.facts["ending"] == "halt":
            return "waits for an event"
        text = "" if turn.facts["ending"] == "on" else f"{self.fault(who, turn, found)}; "
        if raised is None:
            return f"{text}stops"
        way, which, event = raised
        if way == "call" and which is None:
            return "a call whose number this text doesn't tell"
        if event is None:
            return f"{text}{way} {which} raises nothing"
        return f"{text}{self.system.raised(way, which, who, event)}"

    # ---- faults and ports (docs/guests.md, Faults and exits)

    def port(self, port):
        """A port with the device that has it."""
        owners = [device.name for device in self.system.image.devices
                  if any(first <= port <= last for first, last in device.ports)]
        return f"port {port:x}{''.join(f' of {name}' for name in owners)}"

    def fault(self, who, turn, found):
        """A fault in words."""
        reason, qualification, at = (turn.facts[name] for name in ("reason", "qualification", "at"))
        if reason == 48:
            return self.violation(who, qualification, at)
        if reason == 49:
            return f"the tables are misconfigured at {self.where(who, at)}"
        if reason == 30:
            return self.port_fault(qualification)
        if reason in (31, 32):
            index = self.replay.states[who].registers[found.rs] if found else None
            msr = "that MSR" if index is None else f"MSR {index % (1 << 32):x}"
            return f"may not {'read' if reason == 31 else 'write'} {msr}"
        if turn.pc % 8:
            return "pc is no multiple of 8"
        if found is None:
            return "these bytes are no instruction"
        address = self.replay.states[who].sum(found.rs, found.imm)
        there = "the address" if address is None else f"{address:x}"
        return f"{there} is no multiple of {plain(found.size)}"

    def violation(self, who, qualification, at):
        """An EPT violation by its qualification."""
        access = guest.ACCESSES.get(qualification & 7, "access to")
        rights = guest.RIGHTS.get(qualification >> 3 & 7, "other rights")
        if at >= guest.ADDRESSES_END:
            return f"{access} {at:x}, which is 2^48 or above"
        if rights == "none":
            return f"{access} {at:x}, where no window is"
        return f"{access} {self.where(who, at)}, whose window has {rights}"

    def port_fault(self, qualification):
        """A fault of IN or OUT by its qualification."""
        first, size = qualification >> 16, (qualification & 7) + 1
        ports = self.port(first) if size == 1 else f"ports {first:x} to {first + size - 1:x}"
        return f"may not {'read' if qualification & 8 else 'write'} {ports}"


def state_field(offset):
    """Which field of a state is at this offset of its page (docs/tables.md, The state page)."""
    names = [*(f"r{number}" for number in range(16)), "pc", "epc", "vbase", "flags"]
    return f" ({names[offset // 8]})" if offset <= 152 else ""
