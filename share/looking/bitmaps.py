"""What is granted by bits that are zero: ports and MSRs (docs/tables.md)."""
from looking.image_file import PAGE

MSR_RANGES = [(0, 0), (0xC000_0000, 1024)]
MSRS_IN_A_RANGE = 0x2000
WRITES = 2048


def zero_bits(content):
    """The numbers of the bits that are zero, ascending."""
    if bytes(content).count(0xff) == len(content):
        return
    for at, byte in enumerate(content):
        if byte != 0xff:
            for bit in range(8):
                if not byte >> bit & 1:
                    yield 8 * at + bit


def ranges(numbers):
    """Ascending numbers as ranges of a first and a last one."""
    found = []
    for number in numbers:
        if found and found[-1][1] == number - 1:
            found[-1][1] = number
        else:
            found.append([number, number])
    return [tuple(one) for one in found]


def granted_ports(subject):
    """Ranges of the ports of both bitmaps, the one behind the other."""
    return ranges(zero_bits(subject.port_bitmaps.content[:2 * PAGE]))


def granted_msrs(subject):
    """Ranges of MSRs, each with its rights."""
    reads, writes = ({first + bit for first, at in MSR_RANGES for bit in zero_bits(subject.msr_bitmap.content[at + half:at + half + 1024])}
                     for half in (0, WRITES))
    return by_rights(reads, writes)


def by_rights(reads, writes):
    """Ranges of the numbers that may be read, written, or both, ascending, each with its rights."""
    kinds = (("r", reads - writes), ("w", writes - reads), ("rw", reads & writes))
    return sorted((low, high, rights) for rights, numbers in kinds for low, high in ranges(sorted(numbers)))


def area_indexes(subject):
    """The indexes that the MSR area names, in its order, and the values that it has for them."""
    area = subject.msr_area.content
    for at in range(subject.area_entries):
        entry = area[16 * at:16 * at + 16]
        yield int.from_bytes(entry[:4], "little"), int.from_bytes(entry[8:], "little")
