"""look report: one page on a system and a run of it, which a browser opens without a server or a network."""
import argparse
import hashlib
import pathlib
import tempfile
from dataclasses import dataclass, replace

from looking import lint
from looking.dma_file import read_dma
from looking.document import opened
from looking.files import MEBIBYTE, read_bytes, read_text, write_text
from looking.image import sections_of
from looking.inputs import Inputs
from looking.policy import Policy
from looking.program import add_program, answer, output, program_of
from looking.report_page import page
from looking.report_run import data_of, memory_of, told_of
from looking.scene import Scene, scene_of
from looking.sources import sources_of
from looking.system import System
from looking.trace import Teller
from looking.turns import lines_of
from looking.wrong import Wrong

HELP = "one HTML page on a policy and a run: timeline, memory, who sees what, flows, plan, map, verify"
LONG_HELP = """Makes one HTML page on a policy, and with a record on a run of it, that stands by itself: a
double click opens it in a browser, without a server or a network, and it can be mailed.

  look report gateway.json --record gateway.record --output gateway.html

It has the run's turns by tick and subject, with what the chosen one did, its registers before
and after, and its source line where a source is found; memory at the end, as it follows from
the image and the text, held against the digests that the text has; who sees what, flows,
plan, memory map, closed sets, and what lint, `verify` and the image's bytes say. On the page,
keys step (left, right; with shift within a subject), zoom (+, -, 0) and search (/).
docs/report.md says more. `muen` makes and runs the image in the current folder, where it
finds the files of contents. Sources are REGION.asm, or COMPONENT_REGION.asm, in a folder
beside the policy that has its name, or in the one that --sources names."""


def add_arguments(parser):
    """The words of this form."""
    parser.add_argument("policy", metavar="POLICY", help="the policy")
    parser.add_argument("--record", metavar="RECORD", help="a device record; without it there is no run on the page")
    parser.add_argument("--sources", metavar="FOLDER", help="the folder of the guests' sources")
    parser.add_argument("--output", metavar="FILE", help="write the page into this file")
    add_program(parser)


def run(arguments):
    """Prints the page, or writes it into a file, whole or not at all."""
    text = page(looked_at(arguments))
    if arguments.output is None:
        print(text, end="")
        return 0
    write_text(arguments.output, text)
    return 0


# ---- what is looked at

@dataclass
class Looked:
    """All that the page tells: of the policy, its image and what `muen` printed, and of the run, where there is one."""
    policy: str
    description: str
    scene: Scene
    placed: Scene
    files: list[tuple[str, int, str]]
    lint: list[str]
    flows: list[list[str]]
    verified: str
    sections: list[tuple[str, list[str]]]
    record: str | None = None
    data: dict | None = None
    memory: list | None = None
    final: list[str] | None = None


def looked_at(arguments):
    """Calls the program, and reads what it says of a policy and its run."""
    program, policy = program_of(arguments), arguments.policy
    status, line, _ = answer(program, "map", policy)
    if status:
        raise Wrong(f"{policy}: {line}; look refusal says where" if status in (2, 3) else f"{policy}: {line}")
    with tempfile.TemporaryDirectory() as folder:
        image, tables = (str(pathlib.Path(folder, f"{pathlib.Path(policy).stem}.{kind}")) for kind in ("img", "dma"))
        output(program, "build", policy, image, tables)
        looked = of_policy(program, policy, image, tables)
        if arguments.record is not None:
            of_run(looked, program, arguments, image, tables)
    return looked


def of_policy(program, policy, image, tables):
    """What is told of a policy and its image."""
    document = opened(policy)
    flows = [line.split()[1:] for line in output(program, "flows", policy).splitlines()]
    status, line, text = answer(program, "verify", image, policy)
    scene, seen = (scene_of(argparse.Namespace(system=one, dma=dma)) for one, dma in ((policy, None), (image, tables)))
    # the policy's names with the image's places
    placed = replace(scene, things=seen.things, spans=seen.spans)
    files = [summed(pathlib.Path(file).name, read_bytes(file, 96 * MEBIBYTE)) for file in (policy, image, tables)]
    return Looked(pathlib.Path(policy).name, document.text("description") or "", scene, placed, files, lint.told(policy)[0], flows,
                  line if status else text.decode("ascii").strip(), sections_of(image, tables, False))


def summed(title, content):
    """A file's name, its length and its SHA-256."""
    return title, len(content), hashlib.sha256(content).hexdigest()


def of_run(looked, program, arguments, image, tables):
    """Adds what is told of a run."""
    record = arguments.record
    status, line, out = answer(program, "run", image, record, tables)
    if status:
        raise Wrong(f"{record}: {line}")
    text, title = out.decode("ascii"), "what muen printed"
    looked.files += [summed(pathlib.Path(record).name, read_bytes(record)), summed("the run's text", out)]
    system = System(image)
    teller = Teller(system, lines_of(text, title), title)
    inputs = Inputs(system, read_dma(tables), read_text(record), record)
    told = told_of(teller, text, title, inputs, sources_of(arguments.policy, arguments.sources))
    looked.final = [line for line in text.splitlines() if not line[0].isdigit()]
    looked.record, looked.data = pathlib.Path(record).name, data_of(told, inputs.ticks)
    looked.memory = list(memory_of(system, looked.final))
