"""Shapes of .antt texts: two texts that differ in bound names, in paths of imports or in blanks have one shape."""
import collections
import itertools
import re

LIBRARY = "library."
ENDS = (None, "→")
LOOSE = {"→", "×", "⊎", "λ", "let", "elim", "≡"}
# what isn't a name, or is one that needs no import
PLAIN = {"→", "×", "⊎", "λ", "⊥", "let", "in", "elim", "as", "record", ":", "=", "|", "↦", ".", ",", ";", "_", "Type",
         "Unit", "tt", "absurd", "cc", "omega", "rw", "simp", "search", "assumption", "grind", "hlevel", "first_of", "←"}
Binder = collections.namedtuple("Binder", "number type arrow")


class Names:
    """What a name of a file stands for: the item that declares it."""

    def __init__(self, files):
        self.files = {file.module: file for file in files}
        self.crates = {module.split(".")[1] for module in self.files}
        self.constructors = set().union(*(file.constructors for file in files))
        self.parts = {}

    def item(self, path):
        """The path of the module that declares an item; of a library its name alone counts."""
        module, _, name = path.rpartition(".")
        module = self.module(module)
        file = self.files.get(module)
        if file and name in file.handed:
            return self.item(file.handed[name])
        top, crate = re.split(r"[.:]", module)[:2]
        return f"{module}.{name}" if top == "Rattle" and crate in self.crates else LIBRARY + name

    def module(self, path):
        """The path of a module where it stands: a Lib hands on modules of others, with those below them."""
        parts = path.split(".")
        for end in range(len(parts), 3, -1):
            library = self.files.get(".".join([*parts[:end - 1], "Lib"]))
            if library and library.handed.get(parts[end - 1], "").endswith("."):
                return self.module(library.handed[parts[end - 1]] + ".".join(parts[end:]).rstrip("."))
        return path.rstrip(".")

    def path(self, names, word):
        """The path that a file has for a word, where an operator stands for its name with gaps."""
        if word in names:
            return names[word]
        if id(names) not in self.parts:
            found = [(re.findall("[^◌]+", name), path) for name, path in names.items() if "◌" in name]
            self.parts[id(names)] = {part: path if len(parts) == 1 else f"{path.rpartition('.')[0]}.{part}"
                                     for parts, path in found for part in parts}
        return self.parts[id(names)].get(word)


class Shape:
    """One item's texts. Bound names are numbers, and Binders stand in the way of an arrow's left side."""

    def __init__(self, item, names):
        self.known, self.item, self.free = names, item, set()
        self.numbers = itertools.count()

    def word(self, nodes, at, bound):
        """What a word is written as, and how many words were read."""
        word, after = nodes[at], nodes[at + 1] if at + 1 < len(nodes) else None
        if after == "=":
            return word, 1
        if word in bound:
            return bound[word], 1
        path = self.known.path(self.item.names, word)
        if path and path.endswith("."):
            named = isinstance(after, str) and after.startswith(".")
            return (self.known.item(path[:-1] + after), 2) if named else (path, 1)
        if path:
            return "itself" if path == self.item.key() else self.known.item(path), 1
        if word not in PLAIN and word[0] not in '."0123456789':
            self.free.add(word)
        return word, 1

    def walk(self, nodes, bound):
        """Writes a text. Names that it binds are bound to its end, and `bound` has them then."""
        out, at, before = [], 0, dict(bound)
        while at < len(nodes):
            node = nodes[at]
            if is_binder(node):
                at = self.binders(nodes, at, bound, out)
            elif isinstance(node, tuple):
                self.group(nodes, at, bound, out)
                at += 1
            elif node == "λ":
                at = self.function(nodes, at + 1, bound, out)
            elif node == "let":
                at = self.let(nodes, at + 1, bound, out)
            elif node == "|" and "↦" in nodes[at:]:
                end = nodes.index("↦", at)
                bound.clear()
                bound.update(before)
                out += ["|", *self.pattern(nodes[at + 1:end], bound)]
                at = end
            else:
                word, read = self.word(nodes, at, bound)
                out.append(word)
                at += read
        return out

    def binders(self, nodes, at, bound, out):
        """`(x y : T) (z : U) →`, where the arrow may be `×`; parameters of a module have none."""
        end = at
        while end < len(nodes) and is_binder(nodes[end]):
            end += 1
        arrow = nodes[end] if end < len(nodes) and nodes[end] in ("→", "×") else "→"
        for _, inner in nodes[at:end]:
            colon = inner.index(":")
            kind = self.walk(inner[colon + 1:], dict(bound))
            for name in inner[:colon]:
                bound[name] = next(self.numbers)
                out.append(Binder(bound[name], kind, arrow))
        return end + 1 if end < len(nodes) and nodes[end] in ("→", "×", ":") else end

    def group(self, nodes, at, bound, out):
        """A group in brackets; brackets that say nothing are left out."""
        bracket, inner = nodes[at]
        after = nodes[at + 1] if at + 1 < len(nodes) else None
        last = out[-1] if out else None
        found = self.walk(inner, dict(bound))
        if bracket == "(" and (len(found) == 1 and not isinstance(found[0], Binder) or needless(last, found, after)):
            out += found
        else:
            out += [bracket, *found, {"(": ")", "{": "}", "[": "]"}[bracket]]

    def function(self, nodes, at, bound, out):
        """`λ x (y : T).`, without the types."""
        while at < len(nodes) and nodes[at] != ".":
            inner = nodes[at][1] if isinstance(nodes[at], tuple) else [nodes[at]]
            for name in inner[:inner.index(":")] if ":" in inner else inner:
                bound[name] = next(self.numbers)
                out += ["λ", bound[name], "."]
            at += 1
        return at + 1

    def let(self, nodes, at, bound, out):
        """`let x : T = e in`, which binds its name behind itself."""
        end, depth = at, 1
        while end < len(nodes) and depth:
            depth += (nodes[end] == "let") - (nodes[end] == "in")
            end += 1
        inner = nodes[at:end - 1]
        mark = min((inner.index(word) for word in (":", "=") if word in inner), default=len(inner))
        value = self.walk(inner[mark:], dict(bound))
        out += ["let", *self.pattern(inner[:mark], bound), *value, "in"]
        return end

    def pattern(self, nodes, bound):
        """A pattern: what isn't a constructor is bound."""
        out = []
        for at, node in enumerate(nodes):
            if isinstance(node, tuple):
                out += [node[0], *self.pattern(node[1], bound), {"(": ")", "{": "}", "[": "]"}[node[0]]]
                continue
            if node == self.item.name:
                out.append("itself")
            elif node in PLAIN or at + 1 < len(nodes) and nodes[at + 1] == "=" or self.is_constructor(node):
                out.append(self.word(nodes, at, {})[0])
            else:
                bound[node] = next(self.numbers)
                out.append(bound[node])
        return out

    def is_constructor(self, word):
        path = self.known.path(self.item.names, word) or ""
        known = path in self.known.constructors or word in ("zero", "suc", "true", "false", "inl", "inr")
        return bool(path) and (known or not word[0].islower())

    def clause(self, nodes, bound):
        """A clause of a definition."""
        end = nodes.index("=") if "=" in nodes else 0
        return [*self.pattern(nodes[:end], bound), *self.walk(nodes[end:], bound)]

    def field(self, nodes, bound):
        """A field of a record, or a constructor."""
        return [*nodes[:1], *self.walk(nodes[1:], bound)]


def is_binder(node):
    """Whether it is `(x y : T)` or `{x : T}`."""
    if not isinstance(node, tuple) or node[0] == "[" or ":" not in node[1]:
        return False
    names = node[1][:node[1].index(":")]
    return bool(names) and all(isinstance(name, str) and name not in PLAIN - {"_"} for name in names)


def needless(last, inner, after):
    """Whether brackets say nothing: round all that an arrow leads to, or a side of an arrow or a path."""
    if (last in ENDS or isinstance(last, Binder)) and after is None:
        return True
    depth, loose = 0, set()
    for word in inner:
        depth += (word in ("(", "{", "[")) - (word in (")", "}", "]"))
        if not depth and (isinstance(word, Binder) or short(word) in LOOSE):
            loose.add("→" if isinstance(word, Binder) else short(word))
    sides = {"→"} | ({"≡"} if not loose else set())
    return not loose - {"≡"} and (last is None or isinstance(last, Binder) or short(last) in sides) \
        and (after is None or after in sides)


def short(word):
    """The name of an item without its path, as it is written."""
    if not isinstance(word, str) or len(word) == 1 or word[0] in '."':
        return word
    return word.rpartition(".")[2].strip("◌")


def used(words):
    """The numbers of names that a written text has."""
    for word in words:
        if isinstance(word, Binder):
            yield from used(word.type)
        elif isinstance(word, int):
            yield word


def spelled(words, same):
    """The text, with a letter for each name in the order of their first use; with whole paths, and as it is read.

    `same` has for items the one that they are the same as."""
    counts, letters = set(used(words)), {}

    def flat(words):
        for at, word in enumerate(words):
            if not isinstance(word, Binder):
                yield letters.setdefault(word, len(letters)) if isinstance(word, int) else same.get(word, word)
            elif word.number in counts:
                kind = list(flat(word.type))
                yield from ["(", letters.setdefault(word.number, len(letters)), ":", *kind, ")"]
                after = words[at + 1] if at + 1 < len(words) else None
                if word.arrow == "×" or not (isinstance(after, Binder) and after.number in counts):
                    yield word.arrow
            else:
                kind = list(flat(word.type))
                loose = any(short(one) in LOOSE - {"≡"} for one in kind)
                yield from ["(", *kind, ")", word.arrow] if loose else [*kind, word.arrow]

    found = list(flat(words))
    exact = " ".join(f"${word}" if isinstance(word, int) else word for word in found)
    return exact, tidy(letter(word) if isinstance(word, int) else short(word) for word in found)


def letter(number):
    return "abcdefghijklmnopqrstuvwxyz"[number % 26] + (str(number // 26) if number > 25 else "")


def tidy(words):
    """The words with blanks as they are written by hand."""
    text = " ".join(words)
    for bracket in "({[":
        text = text.replace(f"{bracket} ", bracket)
    for mark in (")", "}", "]", ".", ";", ","):
        text = text.replace(f" {mark}", mark)
    return text
