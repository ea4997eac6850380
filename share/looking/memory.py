"""Physical memory: the pages of an image's spans, with what is written later (docs/tables.md)."""
import bisect

from looking.image_file import PAGE


class Memory:
    """What stands at physical addresses; where no span is, nothing is."""

    def __init__(self, image):
        self.spans = image.spans
        self.places = [span.place for span in image.spans]
        self.written = {}

    def span_at(self, address):
        """The span that has this address, or None."""
        at = bisect.bisect_right(self.places, address) - 1
        if at >= 0 and address < self.spans[at].end:
            return self.spans[at]
        return None

    def next_place(self, address):
        """Where the first span above this address begins, or None."""
        at = bisect.bisect_right(self.places, address)
        return self.places[at] if at < len(self.places) else None

    def page(self, number):
        """The bytes of a page by its number, or None where no span has it."""
        if number in self.written:
            return self.written[number]
        span = self.span_at(number * PAGE)
        if span is None:
            return None
        if span.content is None:
            return bytes(PAGE)
        first = number * PAGE - span.place
        return span.content[first:first + PAGE]

    def read(self, address, size):
        """Bytes that lie in one page, or None."""
        page = self.page(address // PAGE)
        return None if page is None else bytes(page[address % PAGE:address % PAGE + size])

    def write(self, address, content):
        """Writes bytes that lie in one page; where no span has it, nothing is."""
        number = address // PAGE
        if number not in self.written:
            page = self.page(number)
            if page is None:
                return
            self.written[number] = bytearray(page)
        self.written[number][address % PAGE:address % PAGE + len(content)] = content
