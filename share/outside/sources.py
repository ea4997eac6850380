"""Every source of buses 1 to 255: the number of a bus goes from 1 to 255, with some of its devices after others."""
import random

import bus
import domains
from dma_questions import Access, Asking, Counts

FIRST, AT_ONCE = 0x100, 32


def addresses(made, draw):
    """Of each source of a domain one that it may write; of all others one of those."""
    granted = {source: [window for window in domain.windows if window.writes]
               for source, domain in made.by_source.items()}
    anywhere = [window for windows in granted.values() for window in windows]

    def address(source):
        """An address for a source."""
        window = draw.choice(granted.get(source) or anywhere)
        return window.address + 8 * draw.randrange(window.size // 8)
    return address


class Renumbered(Asking):
    """A machine whose only bus with devices has another number from time to time."""

    def renumber(self, number, address):
        """Gives the bus this number, and lets each of its devices write at the address for its source."""
        self.bus.number(1, number)
        self.bus.forget()
        for here in list(self.windows):
            source = number << 8 | here & 255
            self.bus.windows[source], self.buffers[source] = self.windows[here], self.buffers[here]
            self.write(Access(source, address(source), 8))


def asked(program, path, folder, seed, buses):
    """The part: every source of these buses writes once. A machine with few devices is quicker by far."""
    made, draw = domains.made(program, path, folder), random.Random(seed)
    address, counts = addresses(made, draw), Counts()
    for first in range(FIRST, FIRST + 256, AT_ONCE):
        here = range(first, first + AT_ONCE)
        with bus.Bus(folder, here, bus.ram_bytes(made.spans())) as machine:
            asking = Renumbered(machine, made, draw)
            asking.lay()
            asking.windows = {source: machine.windows[source] for source in here}
            for number in buses:
                asking.renumber(number, address)
            asking.look_through()
            counts.join(asking.counts)
    return counts
