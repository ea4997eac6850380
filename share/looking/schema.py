"""The schema of policies, read from share/policy.schema.json, and why a value breaks it where the program has told that it does."""
from __future__ import annotations

import difflib
import functools
import json
import pathlib
import re
from dataclasses import dataclass

FILE = pathlib.Path(__file__).resolve().parent.parent / "policy.schema.json"
LARGEST = 2**64 - 1
FILE_KEYS = ("offset", "length")


@dataclass(frozen=True)
class Key:
    """What the schema says of a key."""
    kind: str
    is_list: bool
    is_required: bool


@functools.cache
def definitions():
    """The kinds of the schema."""
    return json.loads(FILE.read_text(encoding="utf-8"))["$defs"]


@functools.cache
def keys_of(kind):
    """The keys of an object of this kind, in the order of its table."""
    definition, keys = definitions()[kind], {}
    for name, says in definition["properties"].items():
        is_list = says.get("type") == "array"
        reference = says["items"]["$ref"] if is_list else says["$ref"]
        keys[name] = Key(reference.rpartition("/")[2], is_list, name in definition.get("required", []))
    return keys


def is_object(kind):
    """Whether values of this kind are objects."""
    return definitions()[kind].get("type") == "object"


def nearest(word, known):
    """The known word that is most like this one, or none."""
    small = {name.lower(): name for name in known}
    found = difflib.get_close_matches(word.lower(), small, 1, 0.6)
    return small[found[0]] if found else None


# ---- texts that spell numbers and bytes

def number_fault(text):
    """Of a text that spells no number the index of the first wrong character, and why; else none."""
    if not text.startswith("16#"):
        if re.fullmatch("[0-9]+", text):
            return 0, "a decimal number stands without quotes"
        return 0, 'a text spells a number as "16#1000#"' + (", not with 0x" if text[:2].lower() == "0x" else "")
    for index, letter in enumerate(text[3:], 3):
        if letter == "#":
            break
        if letter == "_" and (text[index - 1] in "#_" or text[index + 1:index + 2] in ("", "#", "_")):
            return index, "an underscore stands between two digits"
        if letter not in "0123456789abcdefABCDEF_":
            return index, f"{letter!r} is no hexadecimal digit"
    else:
        return len(text), "the # behind the digits is missing"
    if index == 3:
        return index, "there is no digit"
    if index + 1 < len(text):
        return index + 1, "more text behind the last #"
    return (3, "the number is 2^64 or more") if int(text[3:-1], 16) > LARGEST else None


def number_of(node):
    """The number that a value spells, or none."""
    if node is None or node.kind not in ("number", "text"):
        return None
    if node.kind == "text":
        return None if number_fault(node.value) else int(node.value[3:-1], 16)
    value = int(node.value) if node.value.isdigit() else LARGEST + 1
    return value if value <= LARGEST else None


def hexadecimal_fault(text):
    """Of a text that spells no bytes the index of the first wrong character, and why."""
    for index, letter in enumerate(text):
        if letter not in "0123456789abcdefABCDEF":
            return index, f"digit {index} is {letter!r}, which is no hexadecimal digit"
    return len(text), f"{len(text)} digits, an odd number"


def name_fault(text):
    """Of a text that is no name the index of the first wrong character, and why."""
    match = re.match("[A-Za-z0-9_.-]*", text)
    if match.end() < len(text):
        return match.end(), f"{text[match.end()]!r} doesn't stand in names"
    return 0, f"a name has 1 to 63 characters, and this {len(text)}"


# ---- faults of values

def called(node):
    """What a value is, for people."""
    names = {"text": "a text", "number": "a number", "list": "a list", "object": "an object", "null": "null"}
    return names.get(node.kind, node.raw)


def scalar_fault(kind, node):
    """The spot and the words of the fault of a value of a kind without keys."""
    definition = definitions()[kind]
    if "enum" in definition:
        choices = ", ".join(f'"{each}"' for each in definition["enum"])
        return node.spot, f"stands {short(node)}; it may be {choices}"
    if kind in ("number", "byte"):
        return numeric_fault(kind, node)
    if node.kind != "text":
        return node.spot, f"stands {called(node)}, and a text is wanted"
    index, why = name_fault(node.value) if kind == "name" else hexadecimal_fault(node.value)
    return node.spot_in(index), f"{short(node)}: {why}"


def numeric_fault(kind, node):
    """As scalar_fault, of numbers and bytes."""
    if kind == "byte" and number_of(node) is not None:
        return node.spot, f"{short(node)}: a byte is below 256"
    if node.kind == "text":
        index, why = number_fault(node.value)
        return node.spot_in(index), f"{short(node)}: {why}"
    if node.kind == "number":
        wrong = re.search(r"[^0-9]", node.value)
        why = f"{wrong.group()!r} stands in no number here" if wrong else "the number is 2^64 or more"
        return node.source.spot(node.start + (wrong.start() if wrong else 0)), f"{short(node)}: {why}"
    return node.spot, f"stands {called(node)}, and a number is wanted"


def short(node):
    """The text of a value, cut where it is long."""
    raw = " ".join(node.raw.split())
    return raw if len(raw) <= 40 else f"{raw[:37]}.."


def kind_at(path):
    """The kind of the value at a place, or of the items of a list there."""
    kind = "System"
    for step in path:
        kind = kind if isinstance(step, int) else keys_of(kind)[step].kind
    return kind


def cause(document, place, want):
    """Where and why a document breaks the schema first, which the program has told with its place and want."""
    path = [int(step) if step.isdigit() else step for step in place.split("/")[1:]]
    node = document.at(path[:-1] if want == "present" else path)
    if want == "present":
        return node.spot, f'the object lacks the key "{path[-1]}"'
    if want in ("list", "object"):
        return node.spot, f"stands {called(node)}, and {'a list' if want == 'list' else 'an object'} is wanted"
    kind = kind_at(path)
    if want == "known keys":
        keys = keys_of(kind)
        name, value = next((name, value) for name, value in node.members if name not in keys)
        return value.key_spot, unknown_key(name, keys, node)
    return (node.spot, one_of_fault(node, kind)) if is_object(kind) else scalar_fault(kind, node)


def unknown_key(name, keys, node):
    """What is wrong with a key, and which one may be meant."""
    guess = nearest(name, [key for key in keys if key == "description" or node.get(key) is None])
    guess = guess or nearest(name, keys)
    said = f'unknown key "{name}"'
    return f'{said}; did you mean "{guess}"?' if guess else f"{said}; known are {', '.join(keys)}"


def one_of_fault(node, kind):
    """What an object with one of several keys has too many or too few of."""
    choices = [each["required"][0] for each in definitions()[kind]["oneOf"]]
    there = [key for key in choices if node.get(key) is not None]
    if len(there) == 1:
        return f'"{next(key for key in FILE_KEYS if node.get(key) is not None)}" stands with "file" alone'
    return f"exactly one of {', '.join(choices)} stands here, not {' and '.join(there) or 'none'}"


def repeated_keys(document):
    """Of each key that an object repeats its later values."""
    for node in document.walk():
        seen = set()
        for name, value in node.members:
            if name in seen:
                yield name, value
            seen.add(name)
