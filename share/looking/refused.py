"""All that the program muen_lint refuses of a policy, and of each refusal where it stands and why."""
from __future__ import annotations

import re
from dataclasses import dataclass

from looking import causes_elements, causes_events, causes_memory
from looking.files import read_bytes
from looking.places import NotJson, Spot, document_of
from looking.policy import Policy, first
from looking.program import answer, program_named
from looking.schema import cause, number_of
from looking.words import counted
from looking.wrong import Wrong

MOST = 4 << 20
CAUSES = {number: getattr(module, f"rule_{number}") for module in (causes_elements, causes_events, causes_memory)
          for number in range(1, 25) if hasattr(module, f"rule_{number}")}
# of a subject the state page, two pages of port bitmaps, one of the MSR bitmap, one of the MSR area, and four of tables
KERNEL = 9 * 4096
RULE = re.compile(r"rule (\d+): (\S+) (\S+)")
SHAPE = re.compile(r"shape at (.*): want (.*)")
TOO_LONG = re.compile(r"(\S+): \d+ bytes in room for \d+")
NO_FILE = re.compile(r"missing file (.*)|file (.*) has \d+ bytes")
NO_ROOM = re.compile(r"no room for (\S+) of \d+ bytes")


@dataclass(frozen=True)
class Refused:
    """A refusal: the program's line, its kind, where it stands, why, and the values that show it, the first one foremost."""
    line: str
    kind: str
    spot: Spot
    text: str
    nodes: tuple = ()

    @property
    def of_policy(self):
        """Whether the policy is refused, whatever its contents are."""
        return self.kind in ("not-json", "shape") or self.kind.startswith("rule-")

    @property
    def place(self):
        """The place of the value that shows it."""
        return self.nodes[0].place if self.nodes else ""


def refusals(file):
    """The document of a policy's file, none where it is no JSON text, and all its refusals in the program's order."""
    held = read_bytes(file, MOST)
    status, line, out = answer(program_named("muen_lint"), "/dev/stdin", given=held)
    if status not in (0, 2):
        raise Wrong(f"muen_lint answers with status {status}: {line}")
    try:
        policy = Policy(document_of(held))
    except NotJson as error:
        return None, [Refused("not JSON", "not-json", error.spot, error.why)]
    # a file that several contents name is told with each
    return policy.document, [refused(policy, line) for line in dict.fromkeys(out.decode("ascii").splitlines())]


def refused(policy, line):
    """The refusal of a line."""
    document = policy.document
    if found := SHAPE.fullmatch(line):
        spot, text = cause(document, *found.groups())
        return Refused(line, "shape", spot, text, (document.at(found[1].split("/")[1:]) or document,))
    if found := RULE.fullmatch(line):
        kind, told = f"rule-{found[1]}", CAUSES[int(found[1])](policy, found[2], found[3])
    elif found := TOO_LONG.fullmatch(line):
        kind, told = "too-long", of_content(printed(policy, found[1]))
    elif found := NO_FILE.fullmatch(line):
        kind, told = ("no-file", of_file(policy, found[1], "the file is looked for in the current folder")) if found[1] else (
            "too-long", of_file(policy, found[2], "a content's file has at most 67108864 bytes"))
    elif found := NO_ROOM.fullmatch(line):
        kind, told = "no-room", of_room(policy, printed(policy, found[1]))
    else:
        raise Wrong(f"muen_lint tells what isn't known here: {line}")
    text, *nodes = next(told)
    nodes = tuple(node for node in nodes if node is not None)
    return Refused(line, kind, (nodes[0] if nodes else document).spot, text, nodes)


# ---- contents and room

def of_content(region):
    """That the content of a region is too long."""
    content = region.get("content")
    yield "the content is longer than the region", content.get("hex") or content.get("file") or content, region.get("size")


def of_file(policy, file, why):
    """Where contents name a file which isn't there, or is too long."""
    yield why, *(node for node in policy.document.walk() if node.path[-2:] == ("content", "file") and node.value == file)


def of_room(policy, region):
    """That a region has no place, and how much memory there is (docs/placement.md)."""
    components = [policy.component(subject) for subject in policy.subjects]
    provided = [each for one in components if one is not None for each in one.items("provides")]
    held, asked = (sum(number_of(node.get("size")) for node in nodes) for nodes in (policy.blocks, [*policy.memory, *policy.channels, *provided]))
    yield (f"there is no place for it: the blocks have {held} bytes; regions and channels take {asked}, and the kernel's five of "
           f"{counted(len(policy.subjects), 'subject')} at least {KERNEL * len(policy.subjects)}", region.get("size") or region, *policy.blocks)


def printed(policy, name):
    """The value by which a region has the name that the program prints."""
    subject, mark, logical = name.partition("|")
    if mark:
        return first(policy.component(first(policy.subjects, subject)).items("provides"), logical, "logical")
    return first(policy.subjects, name.partition(":")[0]) if ":" in name else first([*policy.memory, *policy.channels], name)
