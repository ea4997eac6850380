"""Damaged entries of tables: `run` of the damaged image against the emulator, access by access.

The marks of small.py tell which page is run and loaded from; where a store arrives is told by the emulator, and
has to give the digests that `run` prints. A difference is known only where the emulator does what `run` does of
an entry without the known difference; where a walk leaves memory, what the emulator does isn't judged.
"""
import random
import struct
from dataclasses import dataclass, replace

import emulator
import questions
import runs
import small
from emulator import question
from questions import HLT, PAGE, VALID_LINEAR, VIOLATION, VMCALL
from runs import instruction, put
from small import LOADS_AT, RUNS_AT, STORES_AT

MISCONFIGURATION = 49
BIT_12, LEAF, ADDRESS = 1 << 12, 1 << 7, 0xF_FFFF_FFFF_F000
# The windows whose entries are damaged, and how far behind the beginning the address is that is asked about.
INSIDE = {"near": 0, "read": 0, "run": 0, "pool": 5 * PAGE}
BIT, ALONE, LEAVES = ("bit 12 of a leaf of 2 MiB or 1 GiB", "execute alone", "memory that isn't there")


@dataclass(frozen=True)
class Damage:
    """An entry with another value, and the page that is asked about."""

    place: int
    level: int
    new: int
    page: int


@dataclass
class Found:
    """What a load, a store and a fetch came to; the digests are those of `run`."""

    accesses: list
    digests: dict


def path(memory, eptp, address):
    """The entries on the way to an address: (level, place, entry)."""
    table = eptp & ADDRESS
    for level in (3, 2, 1, 0):
        place = table + 8 * (address >> 12 + 9 * level & 511)
        entry = struct.unpack("<Q", memory.read(place, 8))[0]
        yield level, place, entry
        if not entry & 7 or level == 0 or level < 3 and entry & LEAF:
            return
        table = entry & ADDRESS


def values(level, old, draw):
    """Other values of an entry: each low byte, up to three bits of chance, other pages."""
    yield from (old & ~0xFF | byte for byte in range(256))
    for _ in range(64):
        yield old ^ 1 << draw.randrange(64) ^ 1 << draw.randrange(64) ^ 1 << draw.randrange(64)
    for _ in range(32):
        page = draw.randrange(0x100, 0x400) << 12
        yield old & ~ADDRESS | page | draw.choice([0, LEAF] if level in (1, 2) else [0])


def damages(base, draw, count):
    """So many damaged entries: first each bit of the leaves, then some of all that there are."""
    bits, others, memory = [], [], base.memory()
    for name, step in INSIDE.items():
        page = next(one.guest for one in base.subject.windows if one.place == base.places[name]) + step
        *above, leaf = path(memory, base.control.eptp, page)
        bits += [Damage(leaf[1], leaf[0], leaf[2] ^ 1 << bit, page) for bit in range(64)]
        for level, place, old in above:
            others += [Damage(place, level, old ^ 1 << bit, page) for bit in range(64)]
        for level, place, old in (*above, leaf):
            others += [Damage(place, level, new, page) for new in values(level, old, draw) if new != old]
    return bits[:count] + draw.sample(others, min(len(others), max(0, count - len(bits))))


def guest_of(page, tag):
    """A load, a store and a fetch in a page; and where the first two stand in it."""
    code = put(2, page + LOADS_AT)
    load_at = len(code)
    code += instruction(runs.LOAD, 3, 2, 3) + put(4, tag)
    store_at = len(code)
    code += instruction(runs.STORE, 4, 2, 3, STORES_AT - LOADS_AT)
    # the event `go` is delivered to the handler of its vector: there the fetch is
    code += put(9, page + RUNS_AT - 8 * runs.GO_VECTOR) + instruction(runs.SETV, 0, 9) + instruction(runs.STI)
    code += put(1, runs.GO_CALL) + instruction(runs.VMCALL, 0, 1)
    return code, load_at, store_at


def by_run(base, damage, tag):
    """What `run` of the damaged image says."""
    code, load_at, store_at = guest_of(damage.page, tag)
    content = runs.changed(base.content, [base.program_at(code), (base.image.offset_of(damage.place),
                                                                   struct.pack("<Q", damage.new))])
    run = runs.run(base.program, content, len(code) // 8 + 2, base.folder)
    load, store, fetch = (run.at(at) for at in (base.subject.entry + load_at, base.subject.entry + store_at,
                                                damage.page + RUNS_AT))
    if load is None or store is None or fetch is None:
        raise emulator.Broken(f"run made no access in {damage}")
    accesses = [("exit", *runs.exit_of(load)) if runs.exit_of(load) else ("loaded", int(load[0][3:], 16)),
                ("exit", *runs.exit_of(store)) if runs.exit_of(store) else ("stored",)]
    left = runs.exit_of(fetch)
    if left and left[0] in (VIOLATION, MISCONFIGURATION):
        accesses.append(("exit", *left))
    else:
        accesses.append(("ran", int(fetch[0][3:], 16) if fetch[0].startswith("r5=") else None))
    return Found(accesses, run.digests)


def by_emulator(answers):
    """The same of the emulator's three answers, and the place of the store."""
    found, place = [], None
    for way, (reason, _, qualification, address, value) in zip(("load", "store", "fetch"), answers):
        if reason == VIOLATION:
            # a page walk of the guest would lack bit 8
            found.append(("exit", reason, qualification ^ VALID_LINEAR, address))
        elif reason == MISCONFIGURATION:
            found.append(("exit", reason, qualification, address))
        elif way == "fetch":
            found.append(("ran", value if reason == HLT else None))
        elif reason != VMCALL:
            found.append(("left by", reason))
        elif way == "load":
            found.append(("loaded", value))
        else:
            found.append(("stored",))
            place = value
    return found, place


def digests_fit(base, found, damage, place, tag):
    """Whether `run` prints the digests of memory in which the store arrived at this place, or nowhere."""
    changes = [(base.window.place + base.subject.entry - base.window.guest, guest_of(damage.page, tag)[0])]
    if place is not None:
        changes.append((place, struct.pack("<Q", tag)))
    return all(found.digests[name] == base.digest(name, changes) for name in base.regions)


def leaves_memory(base, memory, damage):
    """Whether the way to the page leads to what no span has."""
    table = base.control.eptp & ADDRESS
    for level in (3, 2, 1, 0):
        place = table + 8 * (damage.page >> 12 + 9 * level & 511)
        if not base.there(place):
            return True
        entry = damage.new if place == damage.place else struct.unpack("<Q", memory.read(place, 8))[0]
        if not entry & 7:
            return False
        if level == 0 or level < 3 and entry & LEAF:
            span = PAGE << 9 * level
            return not base.there((entry & ADDRESS) // span * span + damage.page % span)
        table = entry & ADDRESS
    return False


def explained(base, damage, tag):
    """Of an entry with a known difference its words, and what the emulator may do: as `run` without it."""
    new, words = damage.new, []
    if damage.level in (1, 2) and new & LEAF and new & 7 and new & BIT_12:
        new, words = new & ~BIT_12, [BIT]
    if new & 7 == 4:
        new, words = new | 1, words + [ALONE]
    like = by_run(base, replace(damage, new=new), tag)
    if ALONE in words:
        like.accesses = without_read(like.accesses)
    return " and ".join(words), like


def without_read(accesses):
    """Accesses by way of an entry with the rights 5, as they are with 4: a load fails where a store does."""
    load, store, fetch = accesses
    if store[0] == "exit":
        load = ("exit", store[1], store[2] ^ 3 if store[2] else 0, store[3] + LOADS_AT - STORES_AT)
    return [(*one[:2], one[2] & ~8, one[3]) if one[:2] == ("exit", VIOLATION) else one for one in (load, store, fetch)]


def agrees(base, damage, tag, run, emulated, leaves):
    """Whether the emulator did what `run` did; where a walk leaves memory, it goes on in place of an exit 49."""
    found, place = emulated
    for wanted, came in zip(run.accesses, found):
        if wanted != came and not (leaves and wanted[:2] == ("exit", MISCONFIGURATION)):
            return False
    return digests_fit(base, run, damage, place if run.accesses[1] == ("stored",) else None, tag)


def judge(base, memory, damage, tag, answers, counts):
    """Holds the three accesses of a damaged image against one another."""
    counts.add("damaged entries", 3)
    run, emulated = by_run(base, damage, tag), by_emulator(answers)
    if agrees(base, damage, tag, run, emulated, False):
        return
    word, like = explained(base, damage, tag)
    if not word or not agrees(base, damage, tag, like, emulated, False):
        word = LEAVES
        if not leaves_memory(base, memory, damage) or not agrees(base, damage, tag, like, emulated, True):
            what = f"{damage.new:#x} at {damage.place:#x}, page {damage.page:#x}"
            if emulated[0] == run.accesses:
                counts.differ.append(f"{what}: the digests of run don't tell of a store at {emulated[1]}")
            else:
                counts.differ.append(f"{what}: {emulated[0]}, not {run.accesses}")
            return
    counts.known[word] = counts.known.get(word, 0) + 3


def asked(program, folder, words):
    """The part: so many damaged images."""
    base = small.Small(program, folder)
    base.mark()
    draw = random.Random(words.seed)
    chosen = damages(base, draw, words.count or 500)
    sheet, counts, memory = questions.Sheet(), questions.Counts(), base.memory()
    sheet.begin(**base.fields(questions.host_of(base.subject, base.window)))
    tags = []
    for damage in chosen:
        tags.append(sheet.new_tag())
        old = struct.unpack("<Q", memory.read(damage.place, 8))[0]
        for value, accesses in ((damage.new, True), (old, False)):
            sheet.packed.append(question(emulator.POKE, size=8, place=damage.place, value=value))
            if accesses:
                sheet.packed += [question(emulator.LOAD, size=8, address=damage.page + LOADS_AT),
                                 question(emulator.FIND, size=8, address=damage.page + STORES_AT, value=tags[-1]),
                                 question(emulator.FETCH, address=damage.page + RUNS_AT)]
    answers = list(struct.iter_unpack("<IIQQQ", base.ask(memory, sheet.packed)))
    for i, damage in enumerate(chosen):
        judge(base, memory, damage, tags[i], answers[3 * i:3 * i + 3], counts)
    return counts
