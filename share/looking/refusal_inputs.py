"""look refusal of what isn't a policy: a record, an image, a file of DMA tables."""
import re

from looking.dma_file import read_dma
from looking.files import MEBIBYTE, read_bytes
from looking.image_file import Refused, read_image
from looking.record_faults import explained

# what a field is to be, by the word of its fault (docs/image.md, docs/dma.md)
WANTED = {"short": "the file ends before this field does", "trailing": "bytes follow, and nothing is to stand there", "magic": "want the eight letters by which the file begins",
          "count": "a count that may not be so small or so great here", "zero": "a byte that is to be zero isn't", "span": "want the number of a span of this kind",
          "place": "want a multiple of 4096 that isn't below the end of what stands before", "pages": "want a number of pages, not 0, that end at 2^40 or below",
          "number": "want a number below the count of spans that no span before has", "kind": "want 0 to 3, and no more memory in all than an image may have",
          "part": "want a part that spans of this kind have", "name": "want 1 to 63 letters, digits, _, - and ., zeros behind them, and no name twice",
          "cpu": "want a CPU below the count", "first": "want a subject below the count", "group": "want a group of this CPU, whose first member agrees",
          "msrs": "want at most 64 entries", "eptp": "want a page's address below 2^40 with 1eH in the low twelve bits",
          "event": "want a mode of 1 to 4 with a target that there is and a vector of 32 or more, or all zeros",
          "ticks": "want ticks, not 0, that agree with those of the major frame"}
SHOWN = 16


def of_record(file, line, devices, cpus):
    """The lines that explain a record that is refused."""
    found = re.fullmatch(r"record refused at line (\d+): (.*)", line)
    text = read_bytes(file, 16 * MEBIBYTE).decode("latin-1")
    column, why = explained(text, int(found[1]), found[2], devices, cpus)
    yield f"{file}:{found[1]}:{column}: {why}"


def of_bytes(read, file):
    """The lines that explain an image or tables that are refused."""
    try:
        read(file)
    except Refused as fault:
        stands = fault.field[:SHOWN].hex(" ") + (" .." if len(fault.field) > SHOWN else "")
        yield f"{file}: byte {fault.at} ({fault.at:x}H), in {fault.part}: {WANTED.get(fault.word, fault.word)}"
        if stands:
            yield f"{file}: there stand{'s' if len(fault.field) == 1 else ''} {stands}"


def of_image(file):
    """The same of an image."""
    return of_bytes(read_image, file)


def of_tables(file):
    """The same of a file of tables."""
    return of_bytes(read_dma, file)
