"""An image with its memory: words for its parts that several forms use."""
from looking.guest import exit_name
from looking.image_file import CHANNEL, MODES, PAGE, SWITCH, read_image
from looking.memory import Memory
from looking.walk import View


class System:
    """An image with memory as it is at first."""

    def __init__(self, name):
        self.image = read_image(name)
        self.memory = Memory(self.image)
        self.views = {}

    def view(self, number):
        """What a subject sees; it is walked when it is first asked for."""
        if number not in self.views:
            subject = self.image.subjects[number]
            self.views[number] = View(self.memory, subject.table_pointer, subject.name)
        return self.views[number]

    def name(self, number):
        """The name of a subject."""
        return self.image.subjects[number].name

    def channels_between(self, writer, reader):
        """The channels that one subject may write and another one sees."""
        def seen(number, rights):
            """Its channels in windows with one of these rights."""
            return [window.span for window in self.view(number).windows
                    if window.span and window.span.kind == CHANNEL and window.rights in rights]
        seen_there = seen(reader, ("r", "rw", "rx", "rwx"))
        return sorted({span.name for span in seen(writer, ("rw", "rwx")) if span in seen_there})

    def event(self, source, event):
        """What is raised, in words; channels between the two are told, for the image has no names
        of events."""
        target = self.name(event.target)
        if event.mode == SWITCH:
            text = f"hands the CPU to {target}"
            return f"{text}, vector {event.vector}" if event.vector else text
        text = f"{MODES[event.mode]} event, vector {event.vector} at {target}"
        channels = self.channels_between(source, event.target)
        return f"{text}, which reads {' '.join(channels)}" if channels else text

    def raised(self, way, number, source, event):
        """The same with the call or trap that raises it."""
        words = f" ({exit_name(number)})" if way == "trap" else ""
        return f"{way} {number}{words}: {self.event(source, event)}"


def size_text(size):
    """A size in the greatest unit that it is a multiple of."""
    for unit, name in ((1 << 30, "GiB"), (1 << 20, "MiB"), (1 << 10, "KiB")):
        if size % unit == 0:
            return f"{size // unit} {name}"
    return f"{size} bytes"


def span_part(span, place, size):
    """Which part of a span so many bytes from a place on are."""
    if (place, size) == (span.place, span.size):
        return span.name
    return f"{span.name} from {place - span.place:x} on, of {span.pages * PAGE:x}"
