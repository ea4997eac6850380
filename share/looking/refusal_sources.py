"""look refusal of an assembly source (docs/assembly.md)."""
import re
from dataclasses import dataclass

from looking.files import read_bytes
from looking.guest import TABLE
from looking.program import call
from looking.schema import nearest
from looking.wrong import Wrong

FAULT = re.compile(r"(?:file (?P<file>.*), )?line (?P<line>\d+), column (?P<column>\d+): (?P<why>.*)")
MNEMONICS = {row[0] for row in TABLE}
STATEMENTS = [*sorted(MNEMONICS), ".at", ".byte", ".u16", ".u32", ".u64"]
# what other assemblers have, and what is written here
OTHERS = {".org": ".at", ".word": ".u16, .u32 or .u64", ".long": ".u32", ".quad": ".u64", ".ascii": ".byte with a number for each letter",
          ".equ": "NAME = NUMBER", ".set": "NAME = NUMBER", "INT": "VMCALL, with the number in a register", "CALL": "a JMP there, and one back",
          "RET": "RETI, from a handler of events", "IRET": "RETI", "BNE": "JNZ", "BEQ": "JZ", "JNE": "JNZ", "JE": "JZ", "JL": "JB", "INC": "ADD with a register that holds 1",
          "DEC": "SUB with a register that holds 1", "PUSH": "STORE", "POP": "LOAD", "CMP": "SUB into another register"}
SIZES = {"1": "1 byte", "2": "2 bytes", "4": "4 bytes", "8": "8 bytes"}


def explained(program, source, names):
    """The program's line, and what explains it; none where it refuses nothing."""
    status, line = call(program, "hex", *([names] if names else []), source)
    if status == 0:
        return None, ()
    found = FAULT.fullmatch(line)
    if status != 2 or not found:
        raise Wrong(f"muen_asm answers with status {status}: {line}")
    file = found["file"] or source
    rows = read_bytes(file).decode("latin-1").split("\n")
    row, at = rows[int(found["line"]) - 1], int(found["column"]) - 1
    hint = hint_of(found["why"], row, at, names_of(rows + (read_bytes(names).decode("latin-1").split("\n") if names else [])))
    return line, [f"{file}:{found['line']}:{found['column']}: {found['why']}{hint and f': {hint}'}"]


def names_of(rows):
    """The labels and the names for numbers of a source."""
    return [found[1] for row in rows if (found := re.match(r"\s*([A-Za-z_][\w.]*)\s*[:=]", row.split(";")[0]))]


@dataclass
class Place:
    """Where the fault is: the rest of the line from there on, its first word, the words before, and the names that there are."""
    rest: str
    word: str
    before: list[str]
    names: list[str]

    @property
    def mnemonic(self):
        """The instruction of the line, or the empty text."""
        return next((one for one in self.before if one in MNEMONICS), "")


def hint_of(why, row, at, names):
    """What is mostly meant, or the empty text."""
    rest = row[at:].split(";")[0].strip()
    place = Place(rest, re.match(r"[.\w]*", rest)[0], row[:at].split(";")[0].split(), names)
    found = HINTS.get(why, "")
    return found if isinstance(found, str) else found(place)


def of_statement(place):
    """Where an instruction, data, `.at` or a name is wanted."""
    if place.rest.startswith(("//", "#", "/*", "--")):
        return COMMENTS
    if re.match(r"[\w.]+\s*:", place.rest):
        return "a line has one label"
    if place.word.upper() in MNEMONICS:
        return f"instructions are spelled in capitals, {place.word.upper()}"
    if other := OTHERS.get(place.word) or OTHERS.get(place.word.upper()):
        return f"there is no {place.word}; write {other}"
    guess = nearest(place.word, STATEMENTS) if place.word else None
    return f"is {guess} meant?" if guess else ""


def of_register(place):
    """Where a register is wanted."""
    if re.fullmatch(r"r\d+", place.word):
        return "there are r0 to r15"
    if re.fullmatch(r"R\d+", place.word):
        return f"registers are spelled {place.word.lower()}"
    if re.match(r"[-+]?\d", place.rest) or place.word in place.names:
        return f"{place.mnemonic} takes no number; LI loads one into a register" if place.mnemonic else "LI loads a number into a register"
    return ""


def of_size(place):
    """Where the size of an access is wanted, at its number or at its word."""
    count = place.word if place.word in SIZES else next(iter(place.before[-1:]), "")
    if place.mnemonic in ("IN", "OUT") and count == "8":
        return f"{place.mnemonic} has 4 bytes at most"
    return f"want {SIZES[count]}" if count in SIZES else "want 1 byte, or 2, 4 or 8 bytes, and then `at` and a register"


def of_name(place):
    """Where a name stands for nothing."""
    guess = nearest(place.word, place.names) if place.word else None
    return f"is {guess} meant?" if guess else "no line has it as a label, or with `=`"


def of_end(place):
    """Where the line should end."""
    if place.rest.startswith(("//", "#", "/*")):
        return COMMENTS
    return f"{place.mnemonic} takes no more" if place.mnemonic else ""


def of_term(place):
    """Where a number or a name is wanted."""
    return "hexadecimal digits stand behind 0x" if re.match(r"[0-9]+[a-fA-F]|[$&]", place.rest) else ""


def of_range(place):
    """Where a value doesn't fit."""
    return "LI takes 32 bits, signed; LIH sets the upper 32" if place.mnemonic == "LI" else ""


COMMENTS = "`;` begins a comment"
HINTS = {"want an instruction, data, .at or a name": of_statement, "want a register": of_register, "want a size of access": of_size,
         "no such name": of_name, "want the end of the line": of_end, "want a number or a name": of_term, "out of range": of_range,
         "want at": "an address is `at` a register, as in `LOAD r1, 8 bytes at r2 + 8`", "want to": "as in `OUT r1, 1 byte to port r2`",
         "want port": "as in `IN r1, 1 byte at port r2`", "want a comma": "operands are parted by commas",
         "the name stands before": "a name stands for one thing", "the offset is behind": ".at leads forward alone",
         "an instruction off a multiple of 8": "put an .at before it, or data up to eight bytes", "the jump is too far": "a distance has 32 bits"}
