"""What share/try does with a system's folder: where its parts are, and step after step what holds and what doesn't."""
import os
import pathlib
import re
import shutil
from concurrent.futures import ThreadPoolExecutor
from dataclasses import dataclass, field
from functools import cached_property

import running
from looking.document import at, document_in_shape
from looking.files import read_bytes, read_text, write_text
from looking.main import said
from looking.names import names_of
from looking.policy import Policy
from looking.program import answer
from looking.sources import contents_of, source_of
from looking.words import counted
from looking.wrong import Wrong

# what runs where there is no record
NO_INPUT = "end 100\n"
# so many lines of a fault are told
MOST_LINES = 4
# of each picture which files show it: an image tells places, and a policy names
PICTURES = {"trace": ("image", "text"), "plan": ("policy",), "matrix": ("image", "--dma", "tables"), "memory": ("image", "--dma", "tables"), "flows": ("policy",)}
# where a source isn't one, as the assembler says it
PLACE = re.compile(r"^file (.+), line (\d+), column (\d+):")


# ---- the folder

@dataclass(frozen=True)
class Home:
    """Where a system's sources are, and its policy: in the same folder, or beside it with its name."""
    sources: pathlib.Path
    policy: pathlib.Path

    @property
    def name(self):
        """The system's name, which its outputs have."""
        return self.sources.name

    def parts(self, kind):
        """The files of a kind that belong to the policy."""
        beside = self.policy.parent
        if beside == self.sources:
            return sorted(file for file in beside.glob(f"*{kind}") if file.is_file())
        return [file for file in [self.policy.with_suffix(kind)] if file.is_file()]

    def part(self, kind):
        """The one file of a kind, or none; Wrong where there are several."""
        found = self.parts(kind)
        if len(found) > 1:
            raise Wrong(f"more than one {kind}: {', '.join(file.name for file in found)}")
        return found[0] if found else None

    def inputs(self):
        """All files of the sources' folder but hidden ones, and what belongs to the policy, as far as files say so."""
        files = {file for file in self.sources.iterdir() if file.is_file() and not file.name.startswith(".")}
        return files | {file for kind in (".json", ".record", ".lines", ".claims", ".expected") for file in self.parts(kind)}


def home_of(folder):
    """Where the parts of the system in a folder are, or Wrong."""
    sources = pathlib.Path(folder).resolve()
    if not sources.is_dir():
        raise Wrong(f"{folder}: no folder")
    found = [file for file in [sources / "policy.json"] if file.is_file()] or sorted(sources.glob("*.json"))
    if not found:
        found = [file for file in [sources.with_name(f"{sources.name}.json")] if file.is_file()]
    if not found:
        raise Wrong(f"{folder}: no policy (.json) is in it, nor {sources.name}.json beside it")
    if len(found) > 1:
        raise Wrong(f"{folder}: more than one policy: {', '.join(file.name for file in found)}; one that is named policy.json would be taken")
    return Home(sources, found[0])


# ---- steps

class Failed(Exception):
    """A step that doesn't hold: its line, and lines of its first fault."""

    def __init__(self, line, *lines):
        super().__init__(line)
        self.line, self.lines = line, lines


class Nothing(Exception):
    """A step for which nothing is there; its text says what."""


@dataclass
class Trial:
    """One pass over a system, with its outputs in a folder, which is the current one."""
    home: Home
    folder: pathlib.Path
    fill: bool
    record: pathlib.Path | None = None
    # of each step that was tried whether it holds
    holds: dict[str, bool] = field(default_factory=dict)

    def output(self, kind):
        """An output of the system's name."""
        return self.folder / f"{self.home.name}{kind}"

    @property
    def files(self):
        """The files by which pictures are drawn."""
        return {"policy": self.home.policy, "image": self.output(".img"), "tables": self.output(".dma"), "text": self.output(".text")}

    @cached_property
    def programs(self):
        """All programs, made at the same time where they aren't there; in place of one that can't be, why."""
        def found(name):
            """A program, or why there is none."""
            try:
                return running.program(name)
            except running.NoProgram as error:
                return error
        names = ("muen", "muen_asm", "muen_lint")
        with ThreadPoolExecutor(len(names)) as pool:
            return dict(zip(names, pool.map(found, names)))

    def program(self, name):
        """Where a program is, or Failed."""
        found = self.programs[name]
        if isinstance(found, running.NoProgram):
            raise Failed(str(found))
        return str(found)

    def shown(self, text):
        """A text with names of files as they are in their folders."""
        return text.replace(f"{self.folder}/", "").replace(f"{self.home.sources}/", "").replace(f"{self.home.policy.parent}/", "")

    def muen(self, *words):
        """What the program prints, or Failed with its line."""
        status, line, text = answer(self.program("muen"), *words)
        if status:
            raise Failed(self.shown(line))
        return text

    def look(self, *words):
        """The lines of a form of share/look, or Failed with the first ones."""
        status, text = said(*words)
        lines = self.shown(text).splitlines()
        if status:
            raise Failed(lines[-1].removeprefix("look: ") if lines else f"status {status}", *lines[:-1])
        return lines


    def explained(self, *words):
        """What look refusal tells behind the program's line."""
        _, text = said("refusal", *words)
        return self.shown(text).splitlines()[1:]


def binary(trial, source):
    """Where a source's bytes are put: apart from the files that contents name."""
    return trial.folder / "assembled" / f"{source.stem}.bin"


def names_before(trial, sources):
    """Of each source the file of names that stands before it, and why there is none, or none."""
    policy = Policy(document_in_shape(str(trial.home.policy)))
    titles, found = {source: [] for source in sources}, {}
    for title, content in contents_of(policy):
        titles.setdefault(source_of(trial.home.sources, title, content), []).append(title)
    for source in sources:
        file, why = binary(trial, source).with_suffix(".names"), None
        try:
            text = names_of(policy, titles[source])
        except Wrong as error:
            text, why = "", str(error)
        write_text(str(file), text)
        found[source] = file, why
    return found


def placed(line):
    """A line of the assembler as editors take places."""
    return PLACE.sub(r"\1:\2:\3:", line)


def assemble(trial):
    """Each source becomes a file of bytes, behind the names of what the policy says of who runs it."""
    sources = sorted(trial.home.sources.glob("*.asm"))
    if not sources:
        raise Nothing("no sources (.asm)")
    assembler = trial.program("muen_asm")
    (trial.folder / "assembled").mkdir(exist_ok=True)
    names = names_before(trial, sources)
    with ThreadPoolExecutor(os.cpu_count()) as pool:
        answers = pool.map(lambda source: answer(assembler, "bin", names[source][0], source, binary(trial, source)), sources)
    wrong = [(source, placed(trial.shown(line))) for source, (status, line, _) in zip(sources, answers) if status]
    if wrong:
        source, line = wrong[0]
        raise Failed(f"{len(wrong)} of {counted(len(sources), 'source')} refused", line, *filter(None, [names[source][1]]))
    return counted(len(sources), "source")


def lint(trial):
    """The policy follows the schema and keeps the rules; its contents aren't there yet."""
    # what is told while the programs are made is none of its lines
    trial.program("muen_lint")
    lines = trial.look("lint", trial.home.policy, "--rules")
    return "\n".join([lines[-1], *lines[:-1][:MOST_LINES]])


def contents(trial):
    """Each content of the policy has the bytes of its source: files are put into the folder, digits are compared or filled in."""
    taken, others, wrong = set(), [], []
    for title, content in contents_of(Policy(document_in_shape(str(trial.home.policy)))):
        file, digits, source = content.text("file"), content.get("hex"), source_of(trial.home.sources, title, content)
        if file is not None:
            wrong += put(trial, file, source)
        elif digits is not None and source is not None and digits.value.lower() != binary(trial, source).read_bytes().hex():
            others.append((digits, source))
        if file is not None or digits is not None:
            taken.add(source)
    if others and trial.fill:
        fill(trial, others)
    else:
        wrong += [f"{at(trial.home.policy.name, digits.spot)}: {source.name} has other bytes; --fill puts them into the policy" for digits, source in others]
    wrong += [f"{source.name}: no content of the policy is named so" for source in sorted(set(trial.home.sources.glob("*.asm")) - taken)]
    if wrong:
        raise Failed(counted(len(wrong), "fault"), wrong[0])
    return f"{counted(len(taken - {None}), 'source')} in place" + (f", {len(others)} of them filled in" if others else "")


def put(trial, name, source):
    """Puts a file that a content names into the folder, by its source or from beside the policy; a fault where there is neither."""
    target, found = trial.folder / name, trial.home.policy.parent / name if source is None else binary(trial, source)
    if target.is_file():
        target.unlink()
    if not found.is_file():
        return [f"{name}: neither it nor {pathlib.Path(name).stem}.asm is there"]
    shutil.copy(found, target)
    return []


def fill(trial, others):
    """Writes digits into the policy, the last ones first."""
    text = others[0][0].source.text
    for digits, source in sorted(others, key=lambda pair: pair[0].start, reverse=True):
        text = f'{text[:digits.start]}"{binary(trial, source).read_bytes().hex()}"{text[digits.end:]}'
    write_text(str(trial.home.policy), text, encoding="utf-8")


def build(trial):
    """The program makes an image, with tables of what devices may access."""
    files, program = trial.files, trial.program("muen")
    status, line, _ = answer(program, "build", files["policy"], files["image"], files["tables"])
    if status in (2, 3):
        raise Failed(line, *trial.explained(files["policy"]))
    if status:
        raise Failed(line)
    return ", ".join(f"{file.name} of {file.stat().st_size} bytes" for file in (files["image"], files["tables"]))


def verify(trial):
    """The image is sound."""
    return trial.muen("verify", trial.files["image"], trial.files["policy"]).decode("ascii").strip()


def run(trial):
    """The image runs on the record, that of the lines, or without input."""
    trial.record, told = record(trial)
    try:
        text = trial.muen("run", trial.files["image"], trial.record, trial.files["tables"])
    except Failed as fault:
        refused = re.search(r"record refused at line (\d+)", fault.line)
        line = read_text(str(trial.record)).splitlines()[int(refused[1]) - 1:][:1] if refused else []
        raise Failed(f"{trial.record.name}: {fault.line}", *line, *(trial.explained(trial.files["image"], trial.record) if refused else [])) from None
    trial.files["text"].write_bytes(text)
    turns = sum(line[:1].isdigit() for line in text.splitlines())
    ticks = read_text(str(trial.record)).split()[-1]
    return f"{counted(turns, 'turn')} in {ticks} ticks, {told}"


def record(trial):
    """The record, and how it is told; Failed where lines make none."""
    lines, there, made = trial.home.part(".lines"), trial.home.part(".record"), trial.output(".record")
    if lines is not None:
        write_text(str(made), "".join(f"{line}\n" for line in trial.look("record", lines)))
        return made, lines.name
    if there is not None:
        return there, there.name
    write_text(str(made), NO_INPUT)
    return made, "without input"


def compare(trial):
    """The text is the one that is expected."""
    expected = trial.home.part(".expected")
    if expected is None:
        raise Nothing("no text that is expected (.expected)")
    if read_bytes(str(expected)) != read_bytes(str(trial.files["text"])):
        _, text = said("diff", expected, trial.files["text"])
        raise Failed(f"not the text of {expected.name}", *[line for line in trial.shown(text).splitlines() if re.match("@@ |[-+] |look: ", line)])
    return f"the text of {expected.name}"


def claims(trial):
    """The claims hold."""
    files = trial.home.parts(".claims")
    if not files:
        raise Nothing("no claims (.claims)")
    return "; ".join(trial.look("ways", trial.home.policy, "--claims", file)[-1] for file in files)


def pictures(trial):
    """Pictures are drawn: that of turns where there are some."""
    drawn = [name for name in PICTURES if name != "trace" or trial.holds.get("run")]
    left = "flows" if shutil.which("dot") is None else None
    for name in drawn:
        if name != left:
            trial.look("draw", name, *[trial.files.get(word, word) for word in PICTURES[name]], "--output", trial.output(f"-{name}.svg"))
    names = " ".join(name for name in drawn if name != left)
    return f"{names}; not {left}: graphviz's dot isn't there" if left else names


def report(trial):
    """The page of the system and its run."""
    page = trial.output(".html")
    trial.look("report", trial.home.policy, "--record", trial.record, "--sources", trial.home.sources, "--program", trial.program("muen"), "--output", page)
    return page.name


# the steps, each with those that have to hold before it
STEPS = ((lint, ()), (assemble, (lint,)), (contents, (assemble,)), (build, (contents,)), (verify, (build,)), (run, (build,)), (compare, (run,)),
         (claims, (lint,)), (pictures, (build,)), (report, (run,)))


# ---- a pass

def tried(trial, step, before):
    """Whether a step holds, its mark, and its lines."""
    failed = [one.__name__ for one in before if not trial.holds[one.__name__]]
    if failed:
        return False, "--", [f"not done without {failed[0]}"]
    try:
        return True, "ok", step(trial).splitlines()
    except Nothing as nothing:
        return True, "--", [str(nothing)]
    except Failed as fault:
        return False, "NO", [fault.line, *fault.lines[:MOST_LINES]]
    except Wrong as error:
        return False, "NO", [trial.shown(str(error))]
    except OSError as error:
        return False, "NO", [trial.shown(f"{error.filename or 'output'}: {error.strerror}")]


def tell(home, folder, filling):
    """Prints each step with what became of it; 1 where one fails."""
    trial = Trial(home, folder, filling)
    for file in [*trial.files.values(), trial.output(".html"), *(trial.output(f"-{name}.svg") for name in PICTURES)]:
        if file != home.policy:
            file.unlink(missing_ok=True)
    for step, before in STEPS:
        name = step.__name__
        trial.holds[name], mark, lines = tried(trial, step, before)
        print(f"{mark}  {name:9} {lines[0]}", *(f"              {line}" for line in lines[1:]), sep="\n", flush=True)
    failed = sum(not holds for holds in trial.holds.values())
    print(f"{counted(failed, 'step')} of {len(STEPS)} without success" if failed else "all holds", flush=True)
    return 1 if failed else 0
