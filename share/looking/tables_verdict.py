"""The first fault of tables for direct memory access, for a policy and an image (docs/dma.md, "When tables are sound"): a plain
search of small files, source by source and address by address."""
from looking.dma_file import WIDE_ENTRIES, is_root
from looking.guest import ADDRESSES_END
from looking.image_file import MEMORY_END, OWN, PAGE
from looking.schema import number_of
from looking.walk import ENTRIES

ADDRESS_BITS = MEMORY_END - PAGE


def source_of(device):
    """The source of requests that a device of a policy is, or None."""
    place = device.get("bdf")
    return place and 256 * number_of(place.get("bus")) + 8 * number_of(place.get("device")) + number_of(place.get("function"))


def windows_of(policy, device, image):
    """The windows of a device's domain: first address, end, rights, and where the image has the first byte."""
    places = {span.name: span.place for span in image.spans if span.kind == OWN}
    sizes = {node.text("name"): number_of(node.get("size")) for node in policy.memory}
    for domain in policy.domains:
        if device in [node.value for node in domain.items("devices")]:
            for window in domain.items("memory"):
                start, region = number_of(window.get("virtualAddress")), window.text("region")
                yield start, start + sizes[region], window.text("rights"), places.get(region)


def listing_fault(policy, file):
    """The first device of the file's list that the policy hasn't there, or else the first that isn't in the list; or None."""
    at = {source_of(device): device.text("name") for device in policy.devices}
    for master in file.masters:
        if at.get(256 * master.bus + master.function) != master.name:
            return master.name
    grouped = {node.value for domain in policy.domains for node in domain.items("devices")}
    listed = {master.name for master in file.masters}
    return next((device.text("name") for device in policy.devices if device.text("name") in grouped - listed), None)


class Search:
    """Goes through all sources, and for each through the addresses at which something may change."""

    def __init__(self, policy, image, file):
        self.policy, self.image, self.file = policy, image, file
        # of each table that a walk has come to, by which path
        self.paths = {file.base: "root"}
        self.devices = {source_of(device): device.text("name") for device in policy.devices}

    def fault(self):
        """The first fault, as the program tells it, or None."""
        for source in self.sources():
            self.windows = list(windows_of(self.policy, self.devices.get(source), self.image))
            table, root = self.highest(source)
            for address in self.marks(table):
                if kind := self.kind_at(source, root, table, address):
                    return f"{kind} {source >> 8:02x}:{source >> 3 & 31:02x}.{source & 7} {address:016x}"
        return None

    def sources(self):
        """Those that are devices, or have a context entry, and the first of each bus; on others nothing is declared, and no table is come to
        that isn't come to on the first."""
        for source in range(65536):
            _, root = self.highest(source)
            page = root is not None and self.file.page(root)
            if source % 256 == 0 or source in self.devices or page and page[16 * (source & 255)] & 1:
                yield source

    def highest(self, source):
        """The highest table of a source, and the context table; None where there is none."""
        low, _ = WIDE_ENTRIES.unpack_from(self.file.page(self.file.base), 16 * (source >> 8))
        if not is_root(self.file, source >> 8):
            return None, None
        root = low & ADDRESS_BITS
        page = self.file.page(root)
        low, high = WIDE_ENTRIES.unpack_from(page, 16 * (source & 255)) if page else (0, 0)
        good = low & 1 and not low & ~(ADDRESS_BITS | 1) and high & 7 == 2 and not high & ~0xffff07
        return (low & ADDRESS_BITS if good else None), root

    def marks(self, table):
        """Every address at which the walk may come elsewhere than just before it, or what is declared may change."""
        found = {0, *(edge for start, end, _, _ in self.windows for edge in (start, end))}
        if table is not None:
            self.mark(table, 3, 0, found)
        return sorted(address for address in found if address < ADDRESSES_END)

    def mark(self, table, level, start, found):
        """Those of a table at this address: each entry that is present, and what is behind it."""
        page = self.file.page(table)
        for number, entry in enumerate(ENTRIES.unpack(page) if page else ()):
            if is_present(entry):
                here = start + number * (PAGE << 9 * level)
                found |= {here, here + (PAGE << 9 * level)}
                if level:
                    self.mark(entry & ADDRESS_BITS, level - 1, here, found)

    def kind_at(self, source, root, table, address):
        """What is wrong at an address of a source, or None."""
        tables = [(root, ("context", source >> 8))] if root is not None else []
        entry, level = None, 3
        while table is not None:
            tables.append((table, (self_of(tables, table, level), level, address // (PAGE << 9 * (level + 1)))))
            page = self.file.page(table)
            entry = ENTRIES.unpack(page)[address // (PAGE << 9 * level) % 512] if page else 0
            table, level = (entry & ADDRESS_BITS if level and is_present(entry) else None), level - 1
        if any(self.file.page(place) is None for place, _ in tables):
            return "outside"
        if not all(self.paths.setdefault(place, path) == path for place, path in tables):
            return "twice"
        return self.ends(address, entries_of(self.file, tables, address))

    def ends(self, address, entries):
        """What is wrong with where a read and a write come to, or None."""
        kinds = []
        for right in (1, 2):
            got = None
            if len(entries) == 4 and all(is_present(entry) and entry & right for entry in entries):
                got = (entries[-1] & ADDRESS_BITS) + address % PAGE
            want = next((place + address - start for start, end, rights, place in self.windows
                         if start <= address < end and place is not None and "rw"[right - 1] in rights), None)
            if got is not None and got != want:
                kinds.append("leak" if any(span.place <= got < span.end for span in self.image.spans) else "outside")
            elif got is None and want is not None:
                kinds.append("lacks")
        return next((kind for kind in ("outside", "leak", "lacks") if kind in kinds), None)


def is_present(entry):
    """Whether a second-level entry has a right, and no bit that the tables don't have."""
    return entry & 3 != 0 and not entry & ~(ADDRESS_BITS | 3)


def self_of(tables, table, level):
    """The highest table of the walk, which may be the one that it has come to."""
    return table if level == 3 else tables[1][0]


def entries_of(file, tables, address):
    """The entries of the second-level tables of a walk."""
    return [ENTRIES.unpack(file.page(place))[address // (PAGE << 9 * (3 - at)) % 512] for at, (place, _) in enumerate(tables[1:])]


def verdict(policy, image, file):
    """`sound`, or the line that says why not."""
    device = listing_fault(policy, file)
    fault = f"device {device}" if device is not None else Search(policy, image, file).fault()
    return "sound" if fault is None else f"not sound: {fault}"
