"""Random bitmaps of ports and MSRs: `run` of the image against the emulator, access by access."""
import random
import struct

import emulator
import questions
import runs
import small
from emulator import PIECES
from questions import PORT, RDMSR, VMCALL, WRMSR
from runs import instruction

PAGE = 4096
# How many bits of a hundred are set, in one image after another.
DENSITIES = (50, 5, 95, 20)
ACCESSES = 400
BIT_4 = 1 << 4
PAGE_FAULT, GENERAL_PROTECTION = 14, 13


def bits(draw, density, size):
    """So many bytes, of whose bits about so many of a hundred are set."""
    return bytes(sum((draw.randrange(100) < density) << bit for bit in range(8)) for _ in range(size))


def accesses_of(draw):
    """Accesses to ports and MSRs: (way, size, number)."""
    edges = [*range(0x7FF8, 0x8008), *range(0xFFF8, 0x10000), *range(4)]
    for i in range(ACCESSES):
        port = draw.choice(edges) if i % 4 == 0 else draw.randrange(0x10000)
        yield draw.choice(["in", "out"]), draw.choice([1, 2, 4]), port
    near = [0, 0x1FFF, 0x2000, 0xBFFFFFFF, 0xC0000000, 0xC0001FFF, 0xC0002000, 0xFFFFFFFF]
    for i in range(ACCESSES):
        index = draw.choice(near) if i % 8 == 0 else draw.randrange(0x2000) + draw.choice([0, 0xC0000000])
        yield draw.choice(["rdmsr", "wrmsr"]), 0, index


def instruction_of(way, size):
    """The instruction of an access, to what register 1 names."""
    opcode = {"in": runs.IN, "out": runs.OUT, "rdmsr": runs.READ_MSR, "wrmsr": runs.WRITE_MSR}[way]
    return instruction(opcode, 2, 1, runs.SIZE_CODES[size] if size else 0)


def by_run(base, changes, accesses):
    """The exit of each access as `run` has it, or None where it is let through."""
    code = b"".join(instruction(runs.LI, 1, immediate=number) + instruction_of(way, size)
                    for way, size, number in accesses)
    content = runs.changed(base.content, [base.program_at(code), *changes])
    run = runs.run(base.program, content, len(code) // 8, base.folder)
    found = [run.at(base.subject.entry + 16 * i + 8) for i in range(len(accesses))]
    if None in found:
        raise emulator.Broken("run made fewer accesses than the guest has")
    return [runs.exit_of(one) for one in found]


def judge(answer, way, left):
    """What is wrong in the emulator's answer, where `run` left so; INS and OUTS stand for IN and OUT."""
    reason, detail, qualification, _, _ = answer
    if way in ("in", "out"):
        passes = reason == 0 and detail & 0xFF == PAGE_FAULT
        exits, qualification = PORT, qualification ^ BIT_4
    else:
        passes = reason == VMCALL or reason == 0 and detail & 0xFF == GENERAL_PROTECTION
        exits = RDMSR if way == "rdmsr" else WRMSR
    if left is None:
        return None if passes else "run lets it through"
    return None if (reason, qualification, 0) == left and reason == exits else f"run: {left}"


def asked(program, folder, words):
    """The part: some images, each with bitmaps of chance."""
    base, draw = small.Small(program, folder), random.Random(words.seed)
    sheet, host = questions.Sheet(), questions.host_of(base.subject, base.window)
    memory = base.memory()
    for density in DENSITIES:
        ports, msrs = bits(draw, density, 2 * PAGE), bits(draw, density, PAGE)
        accesses = list(accesses_of(draw))
        changes = [(base.image.offset_of(base.control.ports), ports),
                   (base.image.offset_of(base.control.msr_bitmap), msrs)]
        for place, new in ((base.control.ports, ports), (base.control.msr_bitmap, msrs)):
            for at in range(0, len(new), 8):
                sheet.tell(emulator.POKE, size=8, place=place + at, value=struct.unpack_from("<Q", new, at)[0])
        sheet.begin(**base.fields(host))
        for (way, size, number), left in zip(accesses, by_run(base, changes, accesses)):
            piece = PIECES[way] if size == 0 else PIECES[way + "s"][size]
            sheet.ask(("random bitmaps", f"{density}%: {way} {size} {number:#x}"),
                      lambda answer, way=way, left=left: judge(answer, way, left),
                      emulator.RUN, size=piece, number=number, value=questions.UNFIT)
    return questions.compare(sheet, base.ask(memory, sheet.packed))
