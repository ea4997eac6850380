"""Which line of an assembly source (docs/assembly.md) each instruction of a region comes of, where sources are given."""
import pathlib
import re

from looking.document import document_in_shape
from looking.files import read_text
from looking.guest import TABLE
from looking.policy import Policy, name
from looking.wrong import Wrong

LABEL = re.compile(r"\s*[A-Za-z_][\w.]*\s*:\s*")
NUMBER = re.compile(r"16#([0-9A-Fa-f_]+)#|0[xX]([0-9A-Fa-f_]+)|([0-9_]+)")
DATA = {".byte": 1, ".u16": 2, ".u32": 4, ".u64": 8}
NAMES = {row[0] for row in TABLE}


def number_of(word):
    """A number of a source, or none."""
    found = NUMBER.fullmatch(word)
    if not found:
        return None
    digits = (found[1] or found[2] or found[3]).replace("_", "")
    return int(digits, 10 if found[3] else 16)


def instructions(text):
    """Of each instruction its offset, its name, the number of its line, and the line without its comment."""
    at = 0
    for number, line in enumerate(text.splitlines(), 1):
        content = line.split(";")[0]
        statement = LABEL.sub("", content, count=1)
        word, _, rest = statement.strip().partition(" ")
        if word == ".at":
            at = number_of(rest.strip()) or at
        elif word in DATA:
            at += DATA[word] * (rest.count(",") + 1)
        elif word in NAMES:
            yield at, word, number, content.strip()
            at += 8


def contents_of(policy):
    """Of each content of a policy its region's name, COMPONENT_REGION where a component provides it, and the value."""
    held = [(name(region), region) for region in policy.memory]
    held += [(f"{name(component)}_{name(region, 'logical')}", region) for component in policy.components for region in component.items("provides")]
    for title, region in held:
        if (content := region.get("content")) is not None:
            yield title, content


def source_of(folder, title, content):
    """The source of a content in a folder: of its region's name, or of its file's; or none."""
    stems = [title] if content is None or content.text("file") is None else [title, pathlib.Path(content.text("file")).stem]
    return next((file for stem in stems if (file := pathlib.Path(folder, f"{stem}.asm")).is_file()), None)


class Sources:
    """The sources of a folder, by the names of regions, or of the files of their contents."""

    def __init__(self, folder, components, contents):
        """`components` has of each subject the name of its component, and `contents` the values of `contents_of`."""
        if folder is not None and not pathlib.Path(folder).is_dir():
            raise Wrong(f"{folder}: no folder")
        self.folder, self.components, self.contents, self.read = folder, components, contents, {}

    def line(self, span, offset, found):
        """File, number and text of an instruction's line, or the empty text where no source has it."""
        if self.folder is None or found is None:
            return ""
        if span.name not in self.read:
            self.read[span.name] = self.lines_of(span)
        name, text = self.read[span.name].get(offset, ("", ""))
        return text if name == found.name else ""

    def lines_of(self, span):
        """Of each offset of a region the name of its instruction and its line."""
        title = span.name if span.own_name is None else f"{self.components.get(span.owner)}_{span.own_name}"
        file = source_of(self.folder, title, self.contents.get(title))
        if file is None:
            return {}
        return {at: (name, f"{file.name}:{number}: {text}") for at, name, number, text in instructions(read_text(str(file)))}


def sources_of(policy, folder):
    """The sources of a folder, or of the one beside a policy, whose components are known then."""
    components, contents = {}, {}
    if policy is not None:
        declared, beside = Policy(document_in_shape(policy)), pathlib.Path(policy).with_suffix("")
        components = {name(subject): name(component) for subject in declared.subjects
                      if (component := declared.component(subject)) is not None}
        contents = dict(contents_of(declared))
        folder = folder or (str(beside) if beside.is_dir() else None)
    return Sources(folder, components, contents)
