"""The lines of a run's text, after docs/guests.md (What is printed)."""
import re
from dataclasses import dataclass

from looking.wrong import Wrong

TURN = re.compile(r"(\d{1,6}) (\d) (\S+) ([0-9a-f]{16}) (.+)")
WHAT = re.compile(
    r"(?P<nothing>-)|r(?P<register>1[0-5]|\d)=(?P<value>[0-9a-f]{16})"
    r"|store (?P<size>[1248]) (?P<address>[0-9a-f]{16}) (?P<stored>[0-9a-f]{16})"
    r"|exit (?P<reason>\d{1,2}) (?P<qualification>[0-9a-f]{16}) (?P<at>[0-9a-f]{16})"
    r" (?P<ending>halt|on|trap|stop)"
    r"|out (?P<bytes>[124]) (?P<port>[0-9a-f]{4}) (?P<sent>[0-9a-f]{8})"
    r"|wrmsr (?P<index>[0-9a-f]{8}) (?P<written>[0-9a-f]{16})|inject (?P<vector>\d{1,3})")
FINAL = re.compile(r"(end|regs|region|device) \S")
DECIMAL = {"register", "size", "reason", "bytes", "vector"}


@dataclass
class Turn:
    """A turn: what its line says. `kind` is `-`, register, store, exit, out, wrmsr or inject."""
    tick: int
    cpu: int
    subject: str
    pc: int
    kind: str
    facts: dict[str, int | str]


def turn_of(line):
    """The turn of a line, None for a final line, or Wrong without a place."""
    found = TURN.fullmatch(line)
    what = WHAT.fullmatch(found[5]) if found else None
    if what is None:
        if FINAL.match(line):
            return None
        raise Wrong(f"no line of a run: {line[:60]!r}")
    facts = {name: text if name in ("ending", "nothing") else int(text, 10 if name in DECIMAL else 16)
             for name, text in what.groupdict().items() if text is not None}
    kind = {"nothing": "-", "register": "register", "size": "store", "reason": "exit",
            "bytes": "out", "index": "wrmsr", "vector": "inject"}[next(iter(facts))]
    return Turn(int(found[1]), int(found[2]), found[3], int(found[4], 16), kind, facts)


def lines_of(text, source):
    """Each line with its turn, or None for a final line; faults with the line's number."""
    for number, line in enumerate(text.splitlines(), 1):
        try:
            yield line, turn_of(line)
        except Wrong as error:
            raise Wrong(f"{source}: line {number}: {error}") from None


def kind_of(turn):
    """The kind of a turn's line."""
    if turn.kind == "exit":
        return {"on": "call", "halt": "halt", "trap": "trapped fault", "stop": "fault, stops"}[turn.facts["ending"]]
    return {"-": "jump, flag, NOP", "store": "store", "wrmsr": "store", "out": "output", "inject": "event"}.get(turn.kind, "instruction")
