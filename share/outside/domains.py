"""What a policy declares of devices' own access to memory (docs/policy.md, "Domain"), what `build` and `run` make
of it, and the pages of tables. No table is read here."""
import bisect
import json
import pathlib
import struct
import subprocess
from dataclasses import dataclass, field

import image
from declared import called, number
from emulator import Broken

PAGE = 4096
ADDRESSES = 1 << 48
# Requests to these addresses are interrupts, and no table is asked.
INTERRUPTS = (0xFEE0_0000, 0xFEF0_0000)
# Reasons of VT-d's fault records: no root entry, no context entry, an address too high, no right to write, or to read.
NO_ROOT, NO_CONTEXT, BEYOND, NO_WRITE, NO_READ = 1, 2, 4, 5, 6


@dataclass
class Window:
    """What a domain shows from an address on."""

    address: int
    size: int
    writes: bool
    place: int

    @property
    def end(self):
        """The address behind its last byte."""
        return self.address + self.size


@dataclass
class Domain:
    """A domain: its devices' sources, and its windows by address."""

    name: str
    sources: list
    windows: list

    def window_at(self, address):
        """The window that has an address, or None."""
        i = bisect.bisect_right(self.windows, address, key=lambda window: window.address) - 1
        return self.windows[i] if i >= 0 and address < self.windows[i].end else None


@dataclass
class Made:
    """A policy's devices and domains, and what was built of it."""

    names: dict
    domains: list
    regions: dict
    states: list
    image: image.Image
    base: int
    tables: bytes
    dma: bytes
    by_source: dict = field(default_factory=dict)

    def __post_init__(self):
        self.by_source = {source: domain for domain in self.domains for source in domain.sources}
        self.buses = {source >> 8 for source in self.by_source}

    def spans(self):
        """The places of all that is laid: the image's spans but devices', and the tables."""
        return [(span.place, span.place + span.size) for span in self.image.spans if span.kind != image.DEVICE] + [
            (self.base, self.base + len(self.tables))]

    def reason(self, source, address, write):
        """Why an access to one address has to be refused, or None with the place that it has to reach."""
        if source >> 8 not in self.buses:
            return NO_ROOT, None
        if source not in self.by_source:
            return NO_CONTEXT, None
        if address >= ADDRESSES:
            return BEYOND, None
        window = self.by_source[source].window_at(address)
        if window is None or write and not window.writes:
            return NO_WRITE if write else NO_READ, None
        return None, window.place + address - window.address


def source_of(bdf):
    """The source of a policy's `bdf`."""
    return number(bdf["bus"]) << 8 | number(bdf["device"]) << 3 | number(bdf["function"])


def tables_of(content):
    """The base and the pages of a file of tables (docs/dma.md)."""
    if content[:8] != b"MUENDMA1":
        raise Broken("the file of tables has no header")
    base, pages, devices = struct.unpack_from("<QIB", content, 8)
    tables = content[24 + 68 * devices:]
    if len(tables) != pages * PAGE:
        raise Broken("the file of tables has another length")
    return base, tables


def regions_of(program, path):
    """Place of each region, as `map` prints them."""
    lines = (line.split(" ") for line in called(program, ["map", path.name], path.parent).splitlines())
    return {words[3]: int(words[1], 16) for words in lines if words[0] == "region"}


def made(program, path, folder):
    """What a policy declares, and what is built of it."""
    try:
        policy = json.loads(pathlib.Path(path).read_text(encoding="utf-8"))
    except (OSError, ValueError) as error:
        raise Broken(f"{path}: {error}") from None
    places = regions_of(program, path)
    called(program, ["build", path.name, folder / "image", folder / "dma"], path.parent)
    dma = (folder / "dma").read_bytes()
    sizes = {one["name"]: number(one["size"]) for one in policy["memory"]}
    sources = {one["name"]: source_of(one["bdf"]) for one in policy.get("devices", []) if "bdf" in one}
    domains = []
    for one in policy.get("deviceDomains", []):
        windows = [Window(number(shown["virtualAddress"]), sizes[shown["region"]], shown["rights"] == "rw",
                          places[shown["region"]]) for shown in one.get("memory", [])]
        domains.append(Domain(one["name"], [sources[name] for name in one.get("devices", [])],
                              sorted(windows, key=lambda window: window.address)))
    base, tables = tables_of(dma)
    states = [places[f"{one['name']}:state"] for one in policy["subjects"]]
    return Made({source: name for name, source in sources.items()}, domains,
                {name: (places[name], size) for name, size in sizes.items()}, states,
                image.read((folder / "image").read_bytes()), base, tables, dma)


def stilled(made):
    """The image's bytes with 1 as each subject's `pc`: its first turn is an exit, and stores nothing."""
    content = bytearray(made.image.content)
    for place in made.states:
        struct.pack_into("<Q", content, made.image.offset_of(place) + 128, 1)
    return bytes(content)


def digests(program, image_bytes, dma, lines, folder):
    """The digest of each region, as `run` prints them after these lines of a record."""
    for name, content in (("changed", image_bytes), ("tables", dma), ("record", "".join(
            f"{line}\n" for line in [*lines, "end 1"]).encode())):
        (folder / name).write_bytes(content)
    words = [str(program), "run", *(str(folder / name) for name in ("changed", "record", "tables"))]
    done = subprocess.run(words, capture_output=True, timeout=600)
    if done.returncode:
        raise Broken(f"run: {done.stderr.decode(errors='replace').strip()}")
    printed = [line.split(" ") for line in done.stdout.decode("ascii").splitlines()]
    return {one[1]: one[2] for one in printed if one[0] == "region"}
