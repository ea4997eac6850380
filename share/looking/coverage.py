"""look coverage: which instructions of each subject's code a run has come to, and how often."""
from collections import Counter
from dataclasses import dataclass, field

from looking import guest
from looking.files import read_text
from looking.image_file import DEVICE
from looking.sources import sources_of
from looking.system import System
from looking.trace import Teller
from looking.turns import lines_of
from looking.words import counted

HELP = "which instructions of each subject's code ran, and how often"
LONG_HELP = """Prints for each subject and each region that it may run: how many of its instructions ran, and
of each its address, how often it ran, and the instruction; behind ! one that never did.

  look coverage gateway.img gateway.trace --policy gateway.json
  look coverage gateway.img gateway.trace --missed

With a policy or a folder of sources, each has the line that it comes of: of REGION.asm, or of
COMPONENT_REGION.asm, in the folder beside the policy that has its name, or in that of --sources.
Where a source is found, its instructions are those that count; else all that decode, up to the
last byte that isn't zero, but for NOPs that never ran. A delivery of an event is no
instruction; one that ended in a fault has run. Instructions are told as they were at first,
or, where the run has come to others, as it came to them last."""
NOP = 0


def add_arguments(parser):
    """The words of this form."""
    parser.add_argument("image", metavar="IMAGE", help="the image that was run")
    parser.add_argument("trace", metavar="TRACE", help="what `muen run` printed; - is standard input")
    parser.add_argument("--policy", metavar="POLICY", help="the image's policy, which says where sources are")
    parser.add_argument("--sources", metavar="FOLDER", help="the folder of the guests' sources")
    parser.add_argument("--missed", action="store_true", help="list those alone that never ran")


def run(arguments):
    """Prints each region with its instructions, and a line on all."""
    system = System(arguments.image)
    codes = list(codes_of(system, sources_of(arguments.policy, arguments.sources)))
    text = read_text(arguments.trace, 1 << 30)
    teller = Teller(system, lines_of(text, arguments.trace), arguments.trace)
    counts, met = ran(teller, lines_of(text, arguments.trace))
    every = came = 0
    for code in codes:
        rows = list(code.rows(counts, met))
        done = sum(count > 0 for _, count, _, _ in rows)
        every, came = every + len(rows), came + done
        print(f"{code.title}: {done} of {counted(len(rows), 'instruction')} ran")
        for line in shown(rows, arguments.missed):
            print(line)
    print(f"all: {came} of {counted(every, 'instruction')} ran")
    return 0


@dataclass
class Code:
    """A window through which a subject runs a region: the instructions at its addresses, and their lines."""
    who: int
    title: str
    start: int
    end: int
    found: dict[int, guest.Instruction] = field(default_factory=dict)
    lines: dict[int, str] = field(default_factory=dict)
    # whether a source says which instructions there are
    is_known: bool = False

    def rows(self, counts, met):
        """Address, count, instruction and line of each that counts."""
        came = {address for who, address in counts if who == self.who and self.start <= address < self.end}
        never = {address for address, one in self.found.items() if self.is_known or one.opcode != NOP}
        for address in sorted(came | never):
            count = counts[self.who, address]
            text = met[self.who, address] if count else str(self.found[address])
            yield address, count, text, self.lines.get(address, "")


def codes_of(system, sources):
    """The code of each subject."""
    for who, subject in enumerate(system.image.subjects):
        for window in system.view(who).windows:
            if window.span and window.span.kind != DEVICE and "x" in window.rights:
                title = f"{subject.name}, {window.span.name} from {window.guest:x} on"
                code = Code(who, title, window.guest, window.end)
                fill(code, window, sources)
                yield code


def fill(code, window, sources):
    """Adds the instructions that stand in a window at first, with their lines."""
    content = bytes(window.span.content)
    known = sources.lines_of(window.span) if sources.folder is not None else {}
    code.is_known = bool(known)
    for at in known or range(0, len(content.rstrip(b"\0")), 8):
        found = guest.decode(content[at:at + 8]) if 0 <= at - window.offset < window.size and at + 8 <= len(content) else None
        if found is not None:
            address = window.guest + at - window.offset
            code.found[address] = found
            if line := sources.line(window.span, at, found):
                code.lines[address] = line


def ran(teller, lines):
    """How often each subject has come to each address, and the instruction that was there last."""
    counts, met = Counter(), {}
    for _, turn in lines:
        if turn is None:
            continue
        who = teller.numbers[turn.subject, turn.cpu]
        teller.replay.meet(who, turn)
        found = teller.replay.instruction(who, turn)
        if turn.kind != "inject":
            counts[who, turn.pc] += 1
            met[who, turn.pc] = str(found or "?")
        teller.replay.carry_out(who, turn, found)
    return counts, met


def shown(rows, is_missed):
    """The lines of these rows, or of those alone that never ran."""
    wide = max((len(str(count)) for _, count, _, _ in rows), default=1)
    for address, count, text, line in rows:
        if not (is_missed and count):
            yield f"{' ' if count else '!'} {address:x} {count:{wide}} {text:32} {line}".rstrip()
