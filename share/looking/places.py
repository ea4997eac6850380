"""JSON with the line and the column of each key and value.

It takes the texts that docs/policy.md calls JSON, and tells of any other where it stops being one.
"""
from __future__ import annotations

import json
import math
import re
from dataclasses import dataclass, field

DEEPEST = 127
BLANKS = " \t\n\r"
NUMBER = re.compile(r"-?(0|[1-9][0-9]*)(\.[0-9]+)?([eE][+-]?[0-9]+)?")
NUMBER_OF_POLICIES = re.compile(r"\b16#[0-9a-fA-F_]+")
WORDS = {"true": True, "false": False, "null": None}
# in a text that is JSON, what spells one character
ESCAPE = re.compile(r"\\u[dD][89abAB]..\\u....|\\u....|\\.")
ESCAPES = set('"\\/bfnrt')


@dataclass(frozen=True, order=True)
class Spot:
    """A line and a column of a text, both from 1."""
    line: int
    column: int


class NotJson(Exception):
    """The text is no JSON from this spot on."""

    def __init__(self, spot, why):
        super().__init__(why)
        self.spot, self.why = spot, why


@dataclass
class Source:
    """A text, with where its lines begin."""
    text: str
    starts: list = field(default_factory=list)

    def __post_init__(self):
        self.starts = [0] + [match.end() for match in re.finditer("\n", self.text)]

    def spot(self, offset):
        """The line and column of an offset."""
        low, high = 0, len(self.starts)
        while high - low > 1:
            middle = (low + high) // 2
            low, high = (middle, high) if self.starts[middle] <= offset else (low, middle)
        return Spot(low + 1, offset - self.starts[low] + 1)


class Items(list):
    """The items of a list, which are found by the text under a key."""

    def first(self, key, text):
        """The first item that has this text under this key, or none."""
        if key not in (indexes := self.__dict__.setdefault("indexes", {})):
            indexes[key] = {}
            for item in self:
                indexes[key].setdefault(item.text(key), item)
        return indexes[key].get(text)


@dataclass
class Node:
    """A value of a document: what it is, its path, and where it and its key stand."""
    source: Source
    path: tuple
    start: int
    end: int = 0
    kind: str = ""
    value: object = None
    key_start: int | None = None
    # of an object each member in the order of the text, a repeated key with each of its values
    members: list = field(default_factory=list)

    @property
    def spot(self):
        """Where the value begins."""
        return self.source.spot(self.start)

    @property
    def key_spot(self):
        """Where its key begins, or the value where it has none."""
        return self.source.spot(self.start if self.key_start is None else self.key_start)

    @property
    def raw(self):
        """The value as the text spells it."""
        return self.source.text[self.start:self.end]

    @property
    def place(self):
        """The path as muen writes it."""
        return "".join(f"/{step}" for step in self.path)

    def get(self, key):
        """The value of a key, or none."""
        return self.value.get(key) if self.kind == "object" else None

    def items(self, key=None):
        """The items of a list, or of the list under a key; none where there is no list."""
        node = self if key is None else self.get(key)
        return node.value if node is not None and node.kind == "list" else []

    def text(self, key):
        """The text under a key, or none."""
        node = self.get(key)
        return node.value if node is not None and node.kind == "text" else None

    def at(self, path):
        """The value at a path, or none."""
        node = self
        for step in path:
            if node is None:
                return None
            if node.kind == "list":
                node = node.value[int(step)] if str(step).isdigit() and int(step) < len(node.value) else None
            else:
                node = node.get(step)
        return node

    def walk(self):
        """This value and all below it, in the order of the text."""
        yield self
        below = self.value if self.kind == "list" else [node for _, node in self.members]
        for node in below:
            yield from node.walk()

    def spot_in(self, index):
        """Where the character of this number stands of a text's value."""
        offset = self.start + 1
        for _ in range(index):
            if offset >= self.end - 1:
                break
            escape = ESCAPE.match(self.source.text, offset)
            offset = escape.end() if escape else offset + 1
        return self.source.spot(offset)


class Reader:
    """Reads one document."""

    def __init__(self, text):
        self.source, self.text, self.at = Source(text), text, 0

    def fail(self, why, offset=None):
        """Ends with NotJson, here or at an offset."""
        raise NotJson(self.source.spot(self.at if offset is None else offset), why)

    def blanks(self):
        """Passes blanks."""
        while self.at < len(self.text) and self.text[self.at] in BLANKS:
            self.at += 1

    def peek(self):
        """The next character behind blanks, or the empty text at the end."""
        self.blanks()
        return self.text[self.at:self.at + 1]

    def document(self):
        """The one value of the text."""
        node = self.node((), 0)
        if self.peek():
            self.fail("more text behind the document")
        return node

    def node(self, path, depth, key_start=None):
        """The value that begins here."""
        first = self.peek()
        node = Node(self.source, path, self.at, key_start=key_start)
        if first in ("{", "["):
            if depth == DEEPEST:
                self.fail(f"values nest deeper than {DEEPEST}")
            (self.object if first == "{" else self.list)(node, depth + 1)
        elif first == '"':
            node.kind, node.value = "text", self.string()
        elif first == "-" or first.isdigit() and first.isascii():
            node.kind, node.value = "number", self.number()
        else:
            node.kind, node.value = self.word(first)
        node.end = self.at
        return node

    def word(self, first):
        """One of the words true, false and null."""
        for word, value in WORDS.items():
            if self.text.startswith(word, self.at):
                self.at += len(word)
                return word, value
        if not first:
            self.fail("the text ends where a value is wanted")
        if first in "}]":
            self.loose_comma()
        self.fail("here stands no value" + self.hint(first))

    def loose_comma(self):
        """Fails at the comma that stands before this closing bracket, where there is one."""
        before = self.text[:self.at].rstrip(BLANKS)
        if before.endswith(","):
            self.fail("a comma behind the last item", len(before) - 1)

    def hint(self, first):
        """What is mostly meant by what stands here."""
        if first == "\ufeff":
            return ": a byte order mark"
        if first == "'":
            return ": texts stand between double quotes"
        if first == "#" and NUMBER_OF_POLICIES.search(self.text[max(self.at - 4, 0):self.at + 24]):
            return ": a number such as 16#1000# stands between double quotes"
        return ": JSON has no comments" if first in ("/", "#") else ""

    def number(self):
        """The spelling of the number that begins here."""
        match = NUMBER.match(self.text, self.at)
        if not match:
            self.fail("a number is cut short")
        if math.isinf(float(match.group())):
            self.fail("the number is too great")
        begun, self.at = self.at, match.end()
        if self.text[self.at:self.at + 1].isalnum():
            self.fail("no number is spelled so", begun)
        return match.group()

    def string(self):
        """The text that begins with these quotes."""
        begun = self.at
        self.at += 1
        while True:
            here = self.text[self.at:self.at + 1]
            if not here:
                self.fail("a text isn't closed", begun)
            if here == '"':
                break
            if here < " ":
                self.fail("a line ends inside a text" if here in "\r\n" else "a control character inside a text")
            self.at += self.escape() if here == "\\" else 1
        self.at += 1
        return json.loads(self.text[begun:self.at])

    def escape(self):
        """How long the escape is that begins here."""
        mark = self.text[self.at + 1:self.at + 2]
        if mark in ESCAPES:
            return 2
        match = re.compile(r"\\u([0-9a-fA-F]{4})").match(self.text, self.at)
        if not match:
            self.fail("no such escape")
        code = int(match.group(1), 16)
        if 0xD800 <= code < 0xDC00 and re.compile(r"\\u[dD][c-fC-F][0-9a-fA-F]{2}").match(self.text, self.at + 6):
            return 12
        if 0xD800 <= code < 0xE000:
            self.fail("half of a pair of escapes")
        return 6

    def list(self, node, depth):
        """Reads the list that begins here into a node."""
        node.kind, node.value = "list", Items()
        self.at += 1
        if self.peek() == "]":
            self.at += 1
            return
        while True:
            node.value.append(self.node((*node.path, len(node.value)), depth))
            if self.follows("]", "a comma or ] is wanted"):
                return

    def object(self, node, depth):
        """Reads the object that begins here into a node."""
        node.kind, node.value = "object", {}
        self.at += 1
        if self.peek() == "}":
            self.at += 1
            return
        while True:
            key, start = self.key()
            value = self.node((*node.path, key), depth, start)
            node.members.append((key, value))
            node.value[key] = value
            if self.follows("}", "a comma or } is wanted"):
                return

    def key(self):
        """A key and the colon behind it; the key and where it stands."""
        first = self.peek()
        start = self.at
        if first == "}":
            self.loose_comma()
        if first != '"':
            self.fail("a key in double quotes is wanted" + self.hint(first) if first else "the text ends inside an object")
        key = self.string()
        if self.peek() != ":":
            self.fail("a colon is wanted behind the key")
        self.at += 1
        return key, start

    def follows(self, closing, why):
        """Whether this object or list ends here; else a comma was passed."""
        here = self.peek()
        if here not in (",", closing) or not here:
            self.fail("the text ends here, and " + why if not here else why + self.hint(here))
        self.at += 1
        return here == closing


def document_of(data):
    """The document of these bytes, or NotJson."""
    try:
        text = data.decode("utf-8")
    except UnicodeDecodeError as error:
        before = data[:error.start].decode("utf-8")
        raise NotJson(Source(before).spot(len(before)), f"the byte {data[error.start]:02x} is no UTF-8") from None
    return Reader(text).document()
