"""look refusal: muen's line on a policy, a record, an image or tables, with the places that it is about."""
import pathlib
import re

from looking import refusal_inputs, refusal_sources
from looking.document import at
from looking.files import MEBIBYTE, read_bytes
from looking.image_file import read_image
from looking.policy import Policy
from looking.program import call, program_named
from looking.record_faults import devices_of_image, devices_of_policy
from looking.refused import refusals
from looking.schema import short
from looking.wrong import Wrong

HELP = "Tells why muen refuses a policy, a record, an image or DMA tables, or muen_asm a source, with file, line and column."
LONG_HELP = """Tells why muen refuses a policy, or a record of its devices; an image, or a record or DMA tables
with it; or muen_asm a source, a file whose name ends in .asm. First stands the program's line, and
behind it each place with what is wrong there. `accepted` is printed where nothing is refused; the
status is 1 where something is. Of a policy all that is refused is told, as share/look lint does,
and most of the first.

  look refusal gateway.json
  look refusal gateway.json gateway.record
  look refusal gateway.img
  look refusal gateway.img gateway.record gateway.dma
  look refusal gateway/black_code.asm --names black.names"""

PAGE = pathlib.Path(__file__).resolve().parents[2] / "docs" / "rules.md"


def add_arguments(parser):
    """The words of the form."""
    parser.add_argument("system", metavar="SYSTEM", help="a policy, an image, or a source of assembly")
    parser.add_argument("record", metavar="RECORD", nargs="?", help="a record for its devices")
    parser.add_argument("dma", metavar="DMA", nargs="?", help="a file of DMA tables for an image")
    parser.add_argument("--names", metavar="NAMES", help="the file of names for a source")


def run(arguments):
    """Prints the line and what explains it; 1 where there is one."""
    name = "muen"
    if arguments.system.endswith(".asm"):
        name, (line, told) = "muen_asm", refusal_sources.explained(program_named("muen_asm"), arguments.system, arguments.names)
    elif read_bytes(arguments.system, 96 * MEBIBYTE).startswith(b"MUENIMG"):
        line, told = of_image(arguments)
    elif arguments.dma is not None:
        raise Wrong(f"{arguments.system}: it is no image, and a policy has its domains in itself")
    else:
        line, told = of_policy(arguments)
    if line is None:
        print("accepted")
        return 0
    told = list(told)
    print(f"{name}: {line}")
    for each in told:
        print(each)
    return 1


def of_policy(arguments):
    """What muen says of a policy, and then of a record, and what explains it; none where it refuses neither."""
    policy, record = arguments.system, arguments.record
    document, found = refusals(policy)
    if found:
        return found[0].line, explained(policy, found)
    status, line = (0, None) if record is None else call(program_named("muen"), "boot", policy, record)
    if status == 0:
        return None, ()
    if status != 6:
        raise Wrong(f"muen answers with status {status}: {line}")
    described = Policy(document)
    return line, refusal_inputs.of_record(record, line, devices_of_policy(described), described.cpus)


def of_image(arguments):
    """The same of an image, with a record and tables where they are given."""
    image, record, tables = arguments.system, arguments.record, arguments.dma
    status, line = call(program_named("muen"), "run", image, record or "/dev/null", *([tables] if tables else ()))
    if status == 0 or record is None and status == 6:
        return None, ()
    if line.startswith("image refused at "):
        return line, refusal_inputs.of_image(image)
    if line.startswith("dma refused at "):
        return line, refusal_inputs.of_tables(tables)
    if status == 6:
        parts = read_image(image)
        return line, refusal_inputs.of_record(record, line, devices_of_image(parts), parts.cpus)
    raise Wrong(f"muen answers with status {status}: {line}")


def explained(file, found):
    """The lines that explain the first of these refusals of a policy, and those that tell the others."""
    one = found[0]
    if one.kind.startswith("rule-"):
        yield from sentence(one.kind[5:])
    yield f"{at(file, one.spot)}: {one.text}"
    told = {one.spot}
    for node in one.nodes:
        if node.spot not in told and one.kind != "shape":
            told.add(node.spot)
            yield f"{at(file, node.spot)}: with {node.place}: {short(node)}"
    for other in found[1:]:
        yield f"{at(file, other.spot)}: then {other.line}: {other.text}"


def sentence(number):
    """The title of a rule and its first paragraph, as docs/rules.md has them where it is there."""
    text = PAGE.read_text(encoding="utf-8") if PAGE.is_file() else ""
    for title, reason in re.findall(rf"(?m)^## Rule {number}: (.*)\n\n(.*)$", text):
        yield f"rule {number}, {title}: {reason.strip()}"
