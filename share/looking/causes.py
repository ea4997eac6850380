"""Why a policy breaks a rule of docs/rules.md that the program has told: where the rules' modules meet, and what they share.

A cause takes the policy and the two names of the refusal, and gives in words what is wrong, with the values that show it, the first one
foremost; of several the first. It asks for no more than it needs for this: where a rule behind the first two is broken, the document
follows the schema, and the names that those two rules ask for are declared.
"""
from itertools import takewhile

from looking.policy import first, name
from looking.schema import nearest, number_of

# of what is granted of a device the key of its list, and in each item that of its name
PARTS = (("memory", "memory"), ("ioPorts", None), ("irqs", "irq"))


def named(nodes, word, key="name"):
    """Those of these that have this name."""
    return [node for node in nodes if node.text(key) == word]


def frames_named(policy, word):
    """The major frame that is named so, if one is."""
    return [frame for number, frame in enumerate(policy.frames) if f"major.{number}" == word]


def cpus_named(frame, word):
    """The CPUs that a major frame lists under this name."""
    return [cpu for cpu in frame.items("cpus") if f"cpu.{number_of(cpu.get('cpu'))}" == word]


def undeclared(node, declared, what, other=((), ""), key="name"):
    """That a value is the name of none of these; `other` is what it may be the name of, with a word for that."""
    guess = nearest(node.value, [name(each, key) for each in declared])
    hint = f"; {node.value} is a {other[1]}" if first(other[0], node.value) else f'; did you mean "{guess}"?' if guess else ""
    return f'{what} "{node.value}" is declared{hint}', node


def no_region(policy, node):
    """That a value is the name of no region of `memory`."""
    return undeclared(node, policy.memory, "no region", (policy.channels, "channel"))


def overlap(one, other):
    """Whether two ranges, each with its first number and the one behind, have a number in common."""
    return max(one[0], other[0]) < min(one[1], other[1])


def span(node, address="physicalAddress"):
    """The range of a value with an address and a size."""
    start = number_of(node.get(address))
    return start, start + number_of(node.get("size"))


def clashes(ones, others, span_of):
    """Each pair of one of the first and one of the others that overlap, the first one before the other where both lists have it."""
    return ((one, other) for other in others for one in takewhile(lambda one: one is not other, ones) if overlap(span_of(one), span_of(other)))


def repeats(nodes, key):
    """Each item whose key stood before, behind the first item of that key."""
    seen = {}
    for node in nodes:
        if key(node) is not None and seen.setdefault(key(node), node) is not node:
            yield seen[key(node)], node
