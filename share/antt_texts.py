"""What stands in the .antt files of the crates: imports, modules and items, and each text as a tree of words."""
import dataclasses
import re

from crate_list import TOP

CRATES = TOP / "crates"
WORD = re.compile(r'"[^"]*"|[(){}\[\],;]|[^\s(){}\[\],;"]+')
OPENS, CLOSES = {"(": ")", "{": "}", "[": "]"}, ")}]"
HEAD = re.compile(r"((?:pub |abbrev |unfoldable )*)([^\s(){}\[\],;|λ]+) : ?(.*)", re.DOTALL)
NOT_NAMES = {"let", "elim", "record", "field", "use", "module", "where", "data"}


@dataclasses.dataclass
class Item:
    """A lemma, definition or record, with the parameters of the modules around it."""
    file: str
    module: str
    line: int
    name: str
    words: set
    type: list
    clauses: list
    parameters: list
    names: dict
    is_record: bool = False
    is_inner: bool = False

    def key(self):
        return f"{self.module}:{self.line}.{self.name}" if self.is_inner else f"{self.module}.{self.name}"

    def spot(self):
        return f"{self.file}:{self.line}"


@dataclasses.dataclass
class File:
    """A file's items, the names that it has from elsewhere, those that it hands on, and its constructors."""
    module: str
    items: list
    names: dict
    handed: dict
    constructors: set


def split(word):
    """A word with its projections apart: `p.0.one` is `p .0 .one`, and the `x.` of a λ is `x .`."""
    if word[0] == '"' or "." not in word or set(word) == {"."}:
        return [word]
    head, *rest = word.split(".")
    return ([head] if head else []) + ["." + part for part in rest]


def tree(text):
    """The words of a text, where a group in brackets is a pair of its bracket and its own words."""
    stack = [("", [])]
    for word in WORD.findall(text):
        if word in OPENS:
            stack.append((word, []))
        elif word in CLOSES:
            group = stack.pop()
            stack[-1][1].append(group)
        else:
            stack[-1][1].extend(split(word))
    return stack[0][1]


def words_of(nodes):
    """Each word of a tree."""
    for node in nodes:
        if isinstance(node, tuple):
            yield from words_of(node[1])
        else:
            yield node


def blocks(lines):
    """The lines by those with the least indent: each with the deeper ones that follow it, and its number."""
    found, least = [], min((len(text) - len(text.lstrip()) for _, text in lines), default=0)
    for number, text in lines:
        if len(text) - len(text.lstrip()) == least and text.lstrip()[0] not in CLOSES:
            found.append([])
        found[-1].append((number, text))
    return found


def bare(text):
    """Its lines with their numbers, without comments and blank lines."""
    for number, line in enumerate(text.split("\n"), 1):
        kept = re.sub(r"(^|\s)--(\s.*|$)", "", line).rstrip()
        if kept:
            yield number, kept


def joined(block):
    return "\n".join(text for _, text in block)


def where(block):
    """Where its lines go on behind the first `where` that ends one."""
    return next((k + 1 for k, (_, line) in enumerate(block) if re.search(r"(^|\s)where$", line)), len(block))


def imports(text):
    """What `use` makes of its text: pairs of a name here and a path; that of a module ends in a dot."""
    path, _, rest = text.partition(".{")
    if rest:
        for one in rest.rstrip("} \n").split(","):
            name, _, other = one.strip().partition(" as ")
            if name:
                yield other or name, f"{path}.{name}"
    else:
        path, _, other = text.partition(" as ")
        yield other.strip() or path.strip().split(".")[-1], path.strip() + "."


class Reader:
    """Reads one file: the modules around an item give it their parameters."""

    def __init__(self, file):
        self.path = str(file.relative_to(TOP))
        self.read = File("Rattle." + ".".join(file.relative_to(CRATES).with_suffix("").parts), [], {}, {}, set())
        self.take(blocks(list(bare(file.read_text(encoding="utf-8")))), [], self.read.names)

    def take(self, found, parameters, names):
        """The items of these blocks, each with the clauses that follow its type."""
        last = None
        for block in found:
            text = joined(block).strip()
            if not self.take_other(block, text, parameters, names):
                head = HEAD.fullmatch(text)
                if head and head[2] not in NOT_NAMES:
                    last = self.add(block, head, parameters, names)
                elif last and not text.startswith("unfolding"):
                    self.add_clause(last, block, text)

    def take_other(self, block, text, parameters, names):
        """Takes what isn't a lemma or a definition, and answers whether the block is that."""
        first = text.removeprefix("pub ").split(maxsplit=1)[0]
        rest = text.removeprefix("pub ").removeprefix(first).strip()
        if first in ("use", "open"):
            found = dict(imports(rest)) if first == "use" else {}
            names.update(found)
            self.read.handed.update(found if text.startswith("pub ") else {})
        elif first == "module":
            end = where(block)
            groups = [node for node in tree(joined(block[:end])) if isinstance(node, tuple)]
            self.take(blocks(block[end:]), parameters + groups, names)
        elif first in ("record", "data") and where(block) < len(block) and rest[:1] != "{":
            self.add_record(block, first, rest.partition(" where")[0], parameters, names)
        else:
            return first in ("mod", "infixl", "infixr")
        return True

    def add_record(self, block, first, head, parameters, names):
        """A record with its fields, or data with their constructors."""
        name, _, kind = head.partition(" ")
        item = self.add(block, (None, first, name, kind), parameters, names)
        fields = [joined(field).strip().removeprefix("pub ") for field in blocks(block[where(block):])]
        item.clauses, item.is_record = [tree(field) for field in fields], True
        if first == "data":
            made = {field.split()[0]: f"{self.read.module}.{field.split()[0]}" for field in fields}
            names.update(made)
            self.read.constructors.update(made.values())

    def add(self, block, head, parameters, names):
        """An item, known by its name to what stands beside and below it."""
        item = Item(self.path, self.read.module, block[0][0], head[2], set(head[1].split()), tree(head[3]), [],
                    parameters, names)
        self.read.items.append(item)
        names.setdefault(item.name, item.key())
        return item

    def add_clause(self, item, block, text):
        """A clause of an item; the items below its `where` are found by it alone."""
        item.clauses.append(tree(text))
        if where(block) < len(block):
            inner, mark = dict(item.names), len(self.read.items)
            self.take(blocks(block[where(block):]), item.parameters, inner)
            for found in self.read.items[mark:]:
                found.is_inner = True
                inner[found.name] = found.key()


def files():
    """Each file of specs/ and proofs/ of the crates, read."""
    for crate in sorted(CRATES.iterdir()):
        for folder in ("specs", "proofs"):
            for file in sorted(crate.glob(f"{folder}/**/*.antt")):
                yield Reader(file).read
