"""The emulator: builds the stub, lays a disk for it, runs Bochs without a display, reads the answers.

stub/stub.h says what the stub and this module agree on.
"""
import os
import pathlib
import pty
import select
import shutil
import signal
import struct
import subprocess
import time

STUB = pathlib.Path(__file__).resolve().parent / "stub"
PROGRAMS = ["bochs", "gcc", "ld", "objcopy"]
PAGE = 4096
SECTOR = 512
MEBIBYTE = 1 << 20
NOWHERE = (1 << 64) - 1
# Above 640 KiB and below 1 MiB a PC has no memory of its own; Bochs takes at most 2 GiB, the stub's part with it.
HOLE = (0xA0000, 0x100000)
SECONDS = 1800
MOST_MEMORY, MOST_WITH_STUB = 1900 * MEBIBYTE, 2040 * MEBIBYTE
MAGIC, ENDED = 0x3145474455454E55, 0x3144454445444E45

SET, BEGIN, RUN, LOAD, STORE, FETCH, FIND, SCAN_PORTS, SCAN_MSRS, POKE, AREA_LOAD, AREA_STORE = range(1, 13)
SILENT = {SET, BEGIN, POKE}
FIELDS = ["eptp", "ports_a", "ports_b", "msr_bitmap", "area", "code_address", "code_place", "mode",
          "find_low", "find_high"]
PAGED, FLAT = 0, 1
PASSES, EXITS, ELSE = 0, 1, 2
REFUSED, UNREADABLE = 1, 2
FAILED = 0xFFFFFFFF
PIECES = {"in": {1: 8, 2: 9, 4: 10}, "out": {1: 11, 2: 12, 4: 13},
          "ins": {1: 14, 2: 15, 4: 16}, "outs": {1: 17, 2: 18, 4: 19}, "rdmsr": 20, "wrmsr": 21}

CONFIGURATION = """\
config_interface: textconfig
display_library: term
memory: guest={memory}, host={memory}
romimage: file="{folder}/rom.bin", address=0xffff0000
cpu: model=corei7_haswell_4770, count=1, ips=50000000, ignore_bad_msrs=0, reset_on_triple_fault=0
ata0: enabled=1, ioaddr1=0x1f0, ioaddr2=0x3f0, irq=14
ata0-master: type=disk, path="{folder}/disk", mode=flat, cylinders={cylinders}, heads=16, spt=63
boot: disk
log: "{folder}/log"
panic: action=fatal
error: action=ignore
info: action=ignore
debug: action=ignore
"""


class Broken(Exception):
    """What keeps the emulator from answering."""


class Lacking(Exception):
    """A package that isn't there."""


class CantBeAsked(Exception):
    """What this emulator has no way to be asked."""


def look_for_programs():
    """Ends in Lacking where a program isn't there."""
    lacking = [name for name in PROGRAMS if shutil.which(name) is None]
    if lacking:
        raise Lacking(", ".join(lacking))


def question(kind, size=0, number=0, address=0, place=NOWHERE, value=0):
    """A question as the stub reads it."""
    return struct.pack("<HHIQQQ", kind, size, number, address, place, value)


def bytes_of_answer(packed):
    """How many bytes the stub answers to a question."""
    kind, _, _, _, _, value = struct.unpack("<HHIQQQ", packed)
    if kind in SILENT:
        return 0
    return value if kind in (SCAN_PORTS, SCAN_MSRS) else 32


class Memory:
    """Physical memory by pages; what isn't written is zero."""

    def __init__(self):
        self.pages = {}

    def write(self, place, content):
        """Writes bytes from a place on."""
        while content:
            number, offset = divmod(place, PAGE)
            part = content[:PAGE - offset]
            page = self.pages.setdefault(number, bytearray(PAGE))
            page[offset:offset + len(part)] = part
            place, content = place + len(part), content[len(part):]

    def read(self, place, size):
        """Reads bytes from a place on."""
        found = b""
        while size > len(found):
            number, offset = divmod(place + len(found), PAGE)
            page = self.pages.get(number, bytes(PAGE))
            found += bytes(page[offset:offset + size - len(found)])
        return found

    def runs(self):
        """Pages that aren't all zero, side by side: (place, bytes)."""
        run, start, last = [], None, None
        for number in sorted(self.pages):
            if not any(self.pages[number]):
                continue
            if last is not None and number != last + 1:
                yield start * PAGE, b"".join(run)
                run = []
            if not run:
                start = number
            run.append(bytes(self.pages[number]))
            last = number
        if run:
            yield start * PAGE, b"".join(run)


def call(words, folder):
    """Runs a tool that has to succeed."""
    done = subprocess.run(words, cwd=folder, capture_output=True, text=True)
    if done.returncode:
        raise Broken(f"{words[0]}: {done.stderr.strip()[:400]}")


def build(folder, base):
    """Builds the ROM, with a stub that runs at `base`."""
    flags = ["-O2", "-Wall", "-Wextra", "-std=gnu11", "-ffreestanding", "-fno-pic", "-fno-pie", "-mno-red-zone",
             "-mgeneral-regs-only", "-mcmodel=large", "-fno-stack-protector", "-fcf-protection=none",
             "-fno-asynchronous-unwind-tables", "-nostdinc"]
    sources = ["start.S", "stub.c", "vmx.c", "disk.c"]
    for name in sources:
        call(["gcc", *flags, "-c", str(STUB / name), "-o", f"{name}.o"], folder)
    call(["ld", "-n", "-nostdlib", "--build-id=none", f"--defsym=stub_base={base:#x}", "-T", str(STUB / "stub.ld"),
          *[f"{name}.o" for name in sources], "-o", "stub.elf"], folder)
    call(["objcopy", "-O", "binary", "-j", ".text", "stub.elf", "stub.bin"], folder)
    call(["gcc", "-m32", "-c", str(STUB / "reset.S"), "-o", "reset.o"], folder)
    call(["ld", "-n", "-m", "elf_i386", "-nostdlib", "--build-id=none", f"--defsym=stub_base={base:#x}",
          "-T", str(STUB / "reset.ld"), "reset.o", "-o", "rom.elf"], folder)
    call(["objcopy", "-O", "binary", "rom.elf", "rom.bin"], folder)


class Disk:
    """The disk: a header, a table of what is loaded, that, and room for the answers."""

    def __init__(self):
        self.loads = []
        self.content = bytearray()

    def add(self, place, content):
        """What is to be loaded at a place."""
        content = content.ljust(-(-len(content) // SECTOR) * SECTOR, b"\0")
        self.loads.append((place, len(self.content) // SECTOR, len(content) // SECTOR))
        self.content += content

    def packed(self, questions, count, answers, answer_bytes):
        """The bytes of the disk, its cylinders, and where the answers are on it."""
        table = -(-len(self.loads) * 16 // SECTOR)
        first = 1 + table
        sectors = -(-answer_bytes // SECTOR)
        at = first + len(self.content) // SECTOR
        header = struct.pack("<7Q", MAGIC, len(self.loads), questions, count, answers, sectors, at)
        entries = b"".join(struct.pack("<QII", place, first + sector, size) for place, sector, size in self.loads)
        packed = header.ljust(SECTOR, b"\0") + entries.ljust(table * SECTOR, b"\0") + bytes(self.content)
        cylinders = (at + sectors) // (16 * 63) + 1
        return packed.ljust(cylinders * 16 * 63 * SECTOR, b"\0"), cylinders, at * SECTOR


def place_of_stub(spans):
    """Above the memory of the image, where no single wrong bit of an entry leads."""
    top = max(span.place + span.size for span in spans)
    for span in spans:
        if span.place < HOLE[1] and HOLE[0] < span.place + span.size:
            raise CantBeAsked(f"its memory at {span.place:#x} isn't memory of a PC")
    if top > MOST_MEMORY:
        raise CantBeAsked(f"its memory goes on to {top:#x}, the emulator's to {MOST_MEMORY:#x}")
    return -(-top // (2 * MEBIBYTE)) * 2 * MEBIBYTE + 0x6D_0000


def ask(folder, memory, spans, questions, seconds=SECONDS):
    """The answers of the processor to packed questions, over this memory of these spans."""
    room = sum(map(bytes_of_answer, questions))
    base = place_of_stub(spans)
    places = base + MEBIBYTE // 2
    answers = places + -(-len(questions) * 32 // PAGE) * PAGE
    end = answers + room + SECTOR
    if end > MOST_WITH_STUB:
        raise CantBeAsked("its questions take more than the emulator's memory")
    build(folder, base)
    disk = Disk()
    for place, content in memory.runs():
        disk.add(place, content)
    disk.add(places, b"".join(questions))
    packed, cylinders, at = disk.packed(places, len(questions), answers, room)
    (folder / "disk").write_bytes(packed)
    (folder / "configuration").write_text(CONFIGURATION.format(
        memory=-(-end // (4 * MEBIBYTE)) * 4, folder=folder, cylinders=cylinders))
    said = run_bochs(folder, seconds)
    written = (folder / "disk").read_bytes()
    if struct.unpack_from("<Q", written)[0] != ENDED:
        if "display library 'term' not available" in said:
            raise Lacking("bochs-term")
        raise Broken("the emulator ended before the last answer: " + last_lines(folder / "log", said))
    return written[at:at + room]


def last_lines(log, said):
    """The end of Bochs' log, or of what it said, for an error line."""
    text = log.read_text(errors="replace") if log.exists() else said
    return " | ".join(line.strip() for line in text.splitlines()[-3:])


def run_bochs(folder, seconds):
    """Runs Bochs on a terminal of its own, which nobody sees: so it opens no window and no port."""
    (folder / "commands").write_text("c\n")
    words = ["bochs", "-q", "-f", str(folder / "configuration"), "-rc", str(folder / "commands")]
    ours, theirs = pty.openpty()
    try:
        process = subprocess.Popen(words, cwd=folder, stdin=theirs, stdout=theirs, stderr=theirs,
                                   start_new_session=True, env={**os.environ, "TERM": "vt100"})
    finally:
        os.close(theirs)
    try:
        return listen(process, ours, time.monotonic() + seconds)
    finally:
        if process.poll() is None:
            os.killpg(process.pid, signal.SIGKILL)
            process.wait()
        os.close(ours)


def listen(process, terminal, end):
    """The end of what a process says until it has ended."""
    said = b""
    while time.monotonic() < end:
        ended = process.poll() is not None
        if select.select([terminal], [], [], 0 if ended else 0.1)[0]:
            try:
                said = (said + os.read(terminal, 65536))[-65536:]
                continue
            except OSError:
                # a terminal that nobody writes to any more
                process.wait(timeout=max(1, end - time.monotonic()))
                ended = True
        if ended:
            return said.decode(errors="replace")
    raise Broken("the emulator took too long")
