"""look lint: all that muen_lint refuses of a policy, with where it stands and why, and warnings."""
import json
import pathlib
import re
from dataclasses import asdict, dataclass

from looking.files import read_text
from looking.hints import hints
from looking.hints_code import hints_of_code
from looking.policy import Policy
from looking.refused import refusals
from looking.words import counted
from looking.wrong import Wrong

HELP = "Tells all that muen build would refuse of a policy, where it stands and why, and warns of what is mostly not meant."
LONG_HELP = """Tells all that `muen build` would refuse of a policy, as muen_lint does, the first as muen would,
with where it stands and why; and warns of what is mostly not meant, each by a name;
docs/rules.md, "Warnings", has them with their reasons. The status is 1 where something is
refused. What isn't JSON, or breaks the schema, or one of the rules 1 and 2, is told alone:
nothing can be asked behind it. Contents are asked where all rules are kept; their files are
looked for in the current folder.

A file beside the policy, STEM.silenced for STEM.json, has on each line a warning that is meant,
and why:

  unused-device: the card is built in, and nobody uses it
  dma-into-shared at /deviceDomains/0/memory/1: the log is read by two

The first silences all warnings of this name, the second the one on the value of this place. A
line that silences nothing is warned of. With --json a list of objects is printed, one for each
fault and each warning: file, line, column, kind, name, place, text, and, where it is silenced,
why."""
# what isn't asked of a policy that is refused for this
BEHIND = {"shape": "; the rules are asked behind this", "rule-1": "; all other rules are asked behind this", "rule-2": "; rules 3 to 24 are asked behind this"}
LINE = re.compile(r"(?P<name>[a-z-]+)(?: at (?P<place>/\S*))?: (?P<reason>\S.*)")


@dataclass
class Told:
    """A fault or a warning: where, its name, the value that it is about, what it says, and why it is silenced, if it is."""
    file: str
    line: int
    column: int
    kind: str
    name: str
    place: str
    text: str
    silenced: str | None = None

    def __str__(self):
        return f"{self.file}:{self.line}:{self.column}: {self.kind}: {self.text}" + (f" [{self.name}]" if self.kind == "warning" else "")


def add_arguments(parser):
    """The words of the form."""
    parser.add_argument("policy", metavar="POLICY")
    parser.add_argument("--json", action="store_true", help="print a list of objects, for editors")
    parser.add_argument("--rules", action="store_true", help="leave out contents and room")


def run(arguments):
    """Prints each fault and each warning; 1 where there is a fault."""
    found = all_told(arguments.policy, arguments.rules)
    print(json.dumps(list(map(asdict, found)), indent=1) if arguments.json else "\n".join(lines_of(found)))
    return 1 if any(one.kind == "fault" for one in found) else 0


def told(file):
    """The lines on a policy, and whether it has a fault."""
    found = all_told(file)
    return lines_of(found), any(one.kind == "fault" for one in found)


def lines_of(found):
    """A line for each that isn't silenced, and how many there are."""
    shown = [one for one in found if one.silenced is None]
    counts = [counted(sum(one.kind == kind for one in shown), kind) for kind in ("fault", "warning")]
    silenced = [f"{len(found) - len(shown)} silenced"] if len(shown) < len(found) else []
    return [*map(str, shown), ", ".join(counts + silenced)]


def all_told(file, of_rules=False):
    """All refusals, and behind them all warnings by their places."""
    document, refused = refusals(file)
    wrong = [Told(file, one.spot.line, one.spot.column, "fault", one.kind, one.place, words_of(one)) for one in refused if one.of_policy or not of_rules]
    if any(one.kind in ("not-json", "shape") for one in refused):
        return wrong
    policy = Policy(document)
    # of a program only where the policy is one
    meant = [*hints(policy), *(() if wrong else hints_of_code(policy))]
    warnings = [Told(file, hint.spot.line, hint.spot.column, "warning", hint.name, hint.node.place, hint.text) for hint in meant]
    warnings.sort(key=lambda one: (one.line, one.column))
    return wrong + warnings + silence(file, warnings)


def words_of(one):
    """What is told of a refusal: why, the program's line, and what isn't asked behind it."""
    return f"not JSON: {one.text}" if one.kind == "not-json" else f"{one.text} ({one.line}){BEHIND.get(one.kind, '')}"


def silence(policy, warnings):
    """Silences the warnings that the file beside a policy names; a warning for each of its lines that silences none."""
    file = None if policy == "-" else pathlib.Path(policy).with_suffix(".silenced")
    unmet = []
    for number, line in enumerate(read_text(str(file)).splitlines(), 1) if file and file.is_file() else ():
        if not line.strip() or line.startswith("#"):
            continue
        found = LINE.fullmatch(line)
        if found is None:
            raise Wrong(f"{file}: line {number}: want NAME: REASON, or NAME at PLACE: REASON")
        meant = [one for one in warnings if one.name == found["name"] and found["place"] in (None, one.place)]
        for one in meant:
            one.silenced = found["reason"]
        if not meant:
            unmet.append(Told(str(file), number, 1, "warning", "silences-nothing", "", "there is no such warning"))
    return unmet
