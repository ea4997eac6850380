"""QEMU as a bus with a unit of VT-d: devices `edu` read and write memory by the tables that lie there.

The processor is halted from its first instruction on. Registers are read and written by lines of qtest on a Unix
socket in a folder of this call; memory is a sparse file that QEMU and this module share. A source is a number:
256 * bus + 8 * device + function.
"""
import os
import shutil
import socket
import subprocess
import time
from dataclasses import dataclass

from emulator import Broken, CantBeAsked, Lacking

QEMU = "qemu-system-x86_64"
PAGE = 4096
MEBIBYTE, GIBIBYTE = 1 << 20, 1 << 30
LOW_END, HIGH = 2 * GIBIBYTE, 4 * GIBIBYTE
SECONDS = 120
# The unit's registers (VT-d, "Register Descriptions").
UNIT = 0xFED9_0000
COMMAND, STATUS, ROOT, CONTEXT_COMMAND, FAULT_STATUS, FLUSH = 0x18, 0x1C, 0x20, 0x28, 0x34, 0xF8
FAULT_ADDRESS, FAULT = 0x220, 0x228
ENABLE, SET_ROOT = 1 << 31, 1 << 30
FAULT_IS_THERE, FAULT_OF_READ = 1 << 63, 1 << 62
# `edu`: its registers, its buffer, and how many bytes it can move at once.
FROM, TO, COUNT, MOVE, BUFFER, MOST = 0x80, 0x88, 0x90, 0x98, 0x4_0000, 4095
INWARD, OUTWARD = 1, 3
FIRST_WINDOW = 0xC000_0000
# Places of bus 0 that are the chipset's own.
CHIPSET = {*range(8), *range(31 * 8, 32 * 8)}


@dataclass(frozen=True)
class Fault:
    """What the unit records of an access that it refuses."""

    reason: int
    source: int
    address: int
    reads: bool


def look_for_programs():
    """Ends in Lacking where QEMU isn't there."""
    if shutil.which(QEMU) is None:
        raise Lacking(QEMU)


def spelled(source):
    """A source as lspci spells it."""
    return f"{source >> 8:02x}:{source >> 3 & 31:02x}.{source & 7}"


def ram_bytes(ends):
    """How many bytes of memory a machine has, so that all of these places are there; each is (place, end)."""
    for place, end in ends:
        if place < HIGH and end > LOW_END:
            raise CantBeAsked(f"its memory at {place:#x} is where the emulated PC has devices")
    top = -(-max(end for _, end in ends) // MEBIBYTE) * MEBIBYTE
    return max(64 * MEBIBYTE, top if top <= LOW_END else LOW_END + top - HIGH)


class Ram:
    """Memory as a sparse file: its bytes by physical addresses."""

    def __init__(self, path, size):
        self.path, self.size = path, size
        self.file = os.open(path, os.O_RDWR | os.O_CREAT, 0o600)
        os.ftruncate(self.file, size)

    def offset(self, place):
        """Where in the file a place is."""
        return place if place < LOW_END else place - HIGH + LOW_END

    def write(self, place, content):
        """Writes bytes from a place on."""
        os.pwrite(self.file, content, self.offset(place))

    def read(self, place, size):
        """Reads bytes from a place on."""
        return os.pread(self.file, size, self.offset(place))

    def clear(self):
        """Makes all of it zeros; QEMU sees it."""
        os.ftruncate(self.file, 0)
        os.ftruncate(self.file, self.size)

    def runs(self):
        """All that was ever written: (place, bytes), in parts of 1 MiB at most."""
        at = 0
        while at < self.size:
            try:
                at = os.lseek(self.file, at, os.SEEK_DATA)
            except OSError:
                return
            end = os.lseek(self.file, at, os.SEEK_HOLE)
            while at < end:
                part = os.pread(self.file, min(MEBIBYTE, end - at), at)
                yield (at if at < LOW_END else at - LOW_END + HIGH), part
                at += len(part)


class Bus:
    """QEMU with an `edu` at each of these sources. Used in a `with`, which ends it."""

    def __init__(self, folder, sources, ram):
        if any(source in CHIPSET for source in sources):
            raise Broken("a device of the chipset's own can't be asked")
        self.folder, self.ram = folder, Ram(folder / "ram", ram)
        self.windows, self.ports, self.process, self.line = {}, {}, None, None
        self.left, self.faulted = b"", False
        for source in sorted(sources):
            self.windows[source] = None
            if source >> 8:
                # without a device at 0.0 of its bus a port gives no power
                self.windows[source & 0xFF00] = None
        free = (place for place in range(8, 31 * 8) if place not in self.windows)
        for bus in sorted({source >> 8 for source in self.windows} - {0}):
            self.ports[bus] = next(free)

    def words(self):
        """The words of the command."""
        devices = []
        for bus, place in self.ports.items():
            devices += ["-device", f"pcie-root-port,id=port{bus},bus=pcie.0,addr={place >> 3:x}.{place & 7},"
                                   f"chassis={bus},multifunction=on"]
        for source in self.windows:
            on = f"port{source >> 8}" if source >> 8 else "pcie.0"
            devices += ["-device", f"edu,bus={on},addr={source >> 3 & 31:x}.{source & 7},multifunction=on,"
                                   "dma_mask=0xffffffffffffffff"]
        return [QEMU, "-nodefaults", "-no-user-config", "-display", "none",
                "-machine", "q35,memory-backend=ram,max-ram-below-4g=2G", "-accel", "tcg",
                "-icount", "shift=0,sleep=off", "-cpu", "qemu64,vendor=GenuineIntel,phys-bits=46",
                "-m", f"{self.ram.size // MEBIBYTE}M", "-object",
                f"memory-backend-file,id=ram,size={self.ram.size},mem-path={self.ram.path},share=on",
                "-bios", str(self.folder / "rom"), "-qtest", f"unix:{self.folder / 'line'}", "-qtest-log", "none",
                "-device", "intel-iommu,intremap=off,aw-bits=48", *devices]

    def __enter__(self):
        # CLI; HLT, and again
        (self.folder / "rom").write_bytes((b"\xf4" * 0xFFF0 + b"\xfa\xf4\xeb\xfc").ljust(0x10000, b"\xf4"))
        listener = socket.socket(socket.AF_UNIX)
        try:
            listener.bind(str(self.folder / "line"))
            listener.listen(1)
            with open(self.folder / "said", "wb") as said:
                self.process = subprocess.Popen(self.words(), stdin=subprocess.DEVNULL, stdout=said, stderr=said)
            self.answered(listener)
            self.set_up()
        except BaseException:
            self.__exit__()
            raise
        finally:
            listener.close()
        return self

    def __exit__(self, *_):
        if self.line:
            self.line.close()
        if self.process and self.process.poll() is None:
            self.process.kill()
            self.process.wait()
        os.close(self.ram.file)
        for name in ("ram", "line"):
            (self.folder / name).unlink(missing_ok=True)

    def answered(self, listener):
        """Waits until QEMU has taken the line, or has ended."""
        listener.settimeout(0.2)
        end = time.monotonic() + SECONDS
        while self.line is None:
            try:
                self.line = listener.accept()[0]
            except TimeoutError:
                if self.process.poll() is not None or time.monotonic() > end:
                    raise self.broken("QEMU didn't begin") from None
        self.line.settimeout(SECONDS)

    def broken(self, what):
        """What it ended with, for an error line."""
        said = (self.folder / "said").read_text(errors="replace").splitlines()
        return Broken(" | ".join([what, *(line for line in said if "warning" not in line)][:4]))

    def ask(self, *lines):
        """The answers to lines of qtest, without their first word."""
        try:
            self.line.sendall("".join(f"{line}\n" for line in lines).encode())
            while self.left.count(b"\n") < len(lines):
                more = self.line.recv(1 << 16)
                if not more:
                    raise self.broken("QEMU ended")
                self.left += more
        except OSError:
            raise self.broken("QEMU doesn't answer") from None
        *answers, self.left = self.left.split(b"\n")
        if not all(answer.startswith(b"OK") for answer in answers):
            raise Broken(f"QEMU answers {answers}")
        return [int(answer[2:] or b"0", 16) for answer in answers]

    def configure(self, source, register, value):
        """Writes 32 bits of PCI configuration."""
        self.ask(f"outl 0xcf8 {1 << 31 | source << 8 | register:#x}", f"outl 0xcfc {value:#x}")

    def set_up(self):
        """Gives each port its bus and each device its window, and makes all of the first 1 MiB memory."""
        # the chipset's registers PAM0 to PAM6 and SMRAM
        self.configure(0, 0x90, 0x33333330)
        self.configure(0, 0x94, 0x00333333)
        self.ask(f"outl 0xcf8 {1 << 31 | 0x9C:#x}", "outb 0xcfd 0x4a")
        at = FIRST_WINDOW
        for bus in sorted({source >> 8 for source in self.windows}):
            first, here = at, [source for source in self.windows if source >> 8 == bus]
            at += MEBIBYTE * len(here)
            if bus:
                self.number(bus, bus)
                self.configure(self.ports[bus], 0x20, (at - MEBIBYTE) >> 16 << 16 | first >> 16)
                self.configure(self.ports[bus], 0x04, 6)
            for i, source in enumerate(here):
                self.windows[source] = first + MEBIBYTE * i
                self.configure(source, 0x10, self.windows[source])
                self.configure(source, 0x04, 6)
                if self.ask(f"readl {self.windows[source]:#x}")[0] != 0x010000ED:
                    raise Broken(f"QEMU has no edu at {spelled(source)}")

    def number(self, port, bus):
        """Gives the bus behind a port another number."""
        self.configure(self.ports[port], 0x18, bus << 16 | bus << 8)

    def translate(self, base=None):
        """Turns translation on by the tables at a base, or off."""
        command = 0
        if base is not None:
            self.ask(f"writeq {UNIT + ROOT:#x} {base:#x}", f"writel {UNIT + COMMAND:#x} {SET_ROOT:#x}")
            self.forget()
            command = ENABLE
        self.ask(f"writel {UNIT + COMMAND:#x} {command:#x}")
        if self.ask(f"readl {UNIT + STATUS:#x}")[0] & ENABLE != command:
            raise Broken("QEMU's unit doesn't turn")

    def forget(self):
        """Invalidates all that the unit keeps: context entries, then translations."""
        self.ask(f"writeq {UNIT + CONTEXT_COMMAND:#x} {1 << 63 | 1 << 61:#x}",
                 f"writeq {UNIT + FLUSH:#x} {1 << 63 | 1 << 60:#x}")

    def move(self, source, way, address, offset, count):
        """Lets the device at a source move bytes of its buffer; answers the fault, or None."""
        window, ours = self.windows[source], BUFFER + offset
        pair = (address, ours) if way == INWARD else (ours, address)
        lines = []
        if self.faulted:
            lines = [f"writeq {UNIT + FAULT:#x} {FAULT_IS_THERE:#x}", f"writel {UNIT + FAULT_STATUS:#x} 1"]
        self.ask(*lines, f"writeq {window + FROM:#x} {pair[0]:#x}", f"writeq {window + TO:#x} {pair[1]:#x}",
                 f"writeq {window + COUNT:#x} {count}", f"writeq {window + MOVE:#x} {way}")
        end = time.monotonic() + SECONDS
        while True:
            moving, low, high = self.ask(f"readq {window + MOVE:#x}", f"readq {UNIT + FAULT_ADDRESS:#x}",
                                         f"readq {UNIT + FAULT:#x}")
            if not moving & 1:
                break
            if time.monotonic() > end:
                raise Broken(f"the device at {spelled(source)} doesn't end")
        self.faulted = bool(high & FAULT_IS_THERE)
        if not self.faulted:
            return None
        return Fault(high >> 32 & 0xFF, high & 0xFFFF, low & ~0xFFF, bool(high & FAULT_OF_READ))

    def fill(self, sources, content):
        """Puts bytes into each device's buffer, by way of memory at 0; translation is off."""
        old = self.ram.read(0, PAGE)
        for source in sources:
            self.ram.write(0, content[source])
            self.must(source, INWARD)
        self.ram.write(0, old)

    def buffers(self, sources):
        """Each device's buffer, by way of memory at 0; translation is off."""
        old, found = self.ram.read(0, PAGE), {}
        for source in sources:
            self.must(source, OUTWARD)
            found[source] = self.ram.read(0, MOST)
        self.ram.write(0, old)
        return found

    def must(self, source, way):
        """Moves the whole buffer from or to memory at 0."""
        if self.move(source, way, 0, 0, MOST):
            raise Broken(f"the device at {spelled(source)} can't reach memory without translation")
