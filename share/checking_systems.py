"""Systems that are built and run, each with pieces of the text that were worked out by hand: small programs for every instruction and
fault, channels, events, handovers, devices, monitors and frames; and what a subject prints where another one does something else."""
from calling import SYSTEMS, Calls, changed, has_pieces, numbered, texts, with_words
from checking import Wrong, each, want, with_program

TEXTS = texts("runs")
PROGRAMS = texts("instructions")

# blocks of small programs, and the system whose code they are
INSTRUCTIONS = (("memory", "pages"), ("others", "pages"), ("system", "pages"), ("turns", "two"), ("faults", "entered"))

# blocks of runs, the system, and the text that changes it, if one does
RUNS = (
    ("granted runs", "one", ""),
    ("channel runs", "channel", ""),
    ("channel runs", "channel", "shared channel"),
    ("channel on one runs", "channel", "channel on one"),
    ("event on one runs", "event", "event on one"),
    ("msrs of two runs", "leaves", "msrs of two"),
    ("event runs", "event", ""),
    ("handover runs", "handover", ""),
    ("gateway runs", "gateway", ""),
    ("shared runs", "shared", ""),
    ("choice runs", "choice", ""),
    ("monitor runs", "monitor", ""),
    ("device runs", "device", ""),
)

# a file whose sixteen bytes behind the first eight are the code of a subject that loads a number and halts
CODE_FILE = b"\xff\xff\xff\xff\xff\xff\xff\xff\x01\x10\x00\x00\x05\x00\x00\x00\x17\x00\x00\x00\x00\x00\x00\x00"
CONTENTS = ('{"fill":0}=>{"hex":"01100000050000001700000000000000"}', '{"fill":0}=>{"file":"code.bin","offset":8,"length":16}')

# records that aren't for the system, each at its first fault
REFUSED = (
    ("channel", "order 0 0 2\nend 5\n", "line 1: range"),
    ("channel", "end 5\nirq 0 net rx\n", "line 2: after end"),
    ("channel", "irq 0 net rx\nend 5\n", "line 1: unknown"),
    ("device", "irq 0 net tx\nend 5\n", "line 1: unknown"),
    ("device", "port 2 net 783 1\nport 2 net 784 1\nend 5\n", "line 2: unknown"),
    ("device", "mem 0 net buf 4095 0102\n", "line 1: unknown"),
    ("device", "mem 0 net buf 4094 0102\n", "line 2: no end"),
)


class Booted(Calls):
    """What `boot` prints, and what `run` prints of the image that `build` writes."""

    def booted(self, policy, record):
        """What `boot` prints."""
        self.hold(p=policy, r=record, **{"code.bin": CODE_FILE})
        return self.printed("boot p r")

    def ran(self, image, record):
        """What the run of an image prints."""
        self.hold(i=image, r=record)
        return self.printed("run i r")

    def built_and_ran(self, policy, record):
        """What `run` prints of the image that `build` writes."""
        return self.ran(self.image(policy, **{"code.bin": CODE_FILE}), record)

    def printed_by_both(self, policy, record):
        """What both print, which is the same."""
        text = self.booted(policy, record)
        want(self.built_and_ran(policy, record), text, "what run prints")
        return text


def has(text, pieces):
    """The text has these pieces, or Wrong."""
    if not has_pieces(text, pieces):
        raise Wrong(f"{text}\nhasn't the pieces\n{pieces}")


@with_program
class Blocks(Booted):
    """Blocks of a record and changes to a system, and then of what is printed: three points stand for any lines."""

    @each((title, block, system) for name, system in INSTRUCTIONS for title, block in numbered(name, PROGRAMS[name].split("\n\n")))
    def test_program(self, block, system):
        """What a small program prints."""
        inputs, pieces = block.split("\n", 1)
        record, changes = inputs.split(" | ", 1)
        has(self.booted(changed(SYSTEMS[system], changes), record), pieces)

    @each((title, block, system, changes) for name, system, changes in RUNS
          for title, block in numbered(f"{changes} {name}", TEXTS[name].split("\n\n")))
    def test_run(self, block, system, changes):
        """Both print the same, with these pieces. Strokes stand for the ends of the record's lines."""
        inputs, pieces = block.split("\n", 1)
        record, _, more = inputs.partition(" | ")
        policy = changed(changed(SYSTEMS[system], TEXTS[changes] if changes else ""), more)
        has(self.printed_by_both(policy, record.replace("/", "\n")), pieces)


@with_program
class Both(Booted):
    """`boot`, and `build` with `run`."""

    @each(numbered("one subject", CONTENTS))
    def test_content(self, content):
        """The subject's code stands in the policy, or in a part of a file."""
        want(self.printed_by_both(changed(SYSTEMS["one"], content), "end 3\n"), TEXTS["one ran"] + "\n", content)

    @each((f"record {number} is refused", system, record, line) for number, (system, record, line) in enumerate(REFUSED, 1))
    def test_refused(self, system, record, line):
        """Both refuse it, and say the same."""
        self.hold(p=SYSTEMS[system], r=record)
        answer = self.answer("boot p r")
        self.image(SYSTEMS[system])
        self.want(self.answer("run i r"), answer, "the answer of run")
        self.want((answer.startswith("6 muen: record refused at "), answer.endswith(line)), (True, True), f"{answer} ends with {line}")


# six rounds of the gateway's frames: bytes come in, and an interrupt for `black`
GATEWAY_RECORD = "port 100 net 768 5\nirq 200 net rx\nend 300\n"

# the code of `black`
BLACK_CODE = ("012000000010600001900000f0fe3f001a09000000000000180000000000000017000000000000000d000000f8ffffff0b52030000000000"
              "12570000000300001b000000000000001b00000000000000")

# how many lines each of the other four has, and each channel that they write: a line for each tick of a subject in
# each round; then come five final lines of it
OF_OTHERS = (
    ("plain", 6 * 30 + 5),
    ("keys", 6 * 10 + 5),
    ("slots", 6 * 10 + 5),
    ("cipher", 6 * 30 + 5),
    ("job", 1),
    ("key", 1),
    ("beat", 1),
    ("sealed", 1),
)


def tells_of(line, name):
    """Whether a line tells of this subject or region: the line of a turn has its name as the third word, each other line as the second one."""
    words = line.split(" ")
    return words[1 if words[0] in ("end", "regs", "region") else 2:][:1] == [name]


def lines_of(text, name):
    """The lines of a text that tell of a subject or region."""
    return [line for line in text.split("\n") if tells_of(line, name)]


@with_program
class Another(Booted):
    """Nothing leads from `black` to the other four. So they, and the channels that they write, are the same where it does something else,
    which here is to halt; and where it has more memory, which moves theirs."""

    def setUp(self):
        super().setUp()
        self.more = changed(SYSTEMS["gateway"], TEXTS["more for black"])
        self.whole, self.idles, self.has_more = (self.built_and_ran(policy, GATEWAY_RECORD) for policy in (
            SYSTEMS["gateway"], changed(SYSTEMS["gateway"], f"{BLACK_CODE}=>1700000000000000"), self.more))

    @each((f"lines of {name}", name, count) for name, count in OF_OTHERS)
    def test_others(self, name, count):
        """Another text has the same lines of them."""
        lines = lines_of(self.whole, name)
        self.want(len(lines), count, "how many lines there are")
        self.want(lines_of(self.idles, name), lines, "the lines where black halts")
        self.want(lines_of(self.has_more, name), lines, "the lines where black has more memory")

    def test_black_halts(self):
        """The six lines of `black` where it halts, which aren't those where it doesn't."""
        black, before = lines_of(self.idles, "black"), lines_of(self.whole, "black")
        self.want(len(black), 6, "how many lines there are")
        self.want(black[:1], ["30 0 black 0000000000400000 exit 12 0000000000000000 0000000000000000 halt"], "the first line")
        self.want("34 0 black 0000000000400020 inject 40" in before, True, "before it has an event")
        self.want(before != black, True, "before it has other lines")

    def test_moved(self):
        """Where `black` has more memory, `map` has another line of a channel."""
        lines = []
        for policy in (SYSTEMS["gateway"], self.more):
            self.hold(p=policy)
            lines.append([line for line in self.printed("map p").split("\n") if line.endswith(" job")])
        want(lines[0] != lines[1], True, f"{lines} differ")


# what differs where the reader has its turn first: the two lines of that tick, and the register that it loads
READER_FIRST = """\
4 0 writer 0000000000400020 store 8 0000000000600000 0000000000000007
4 1 reader 0000000000400020 r5=0000000000000007
=>4 1 reader 0000000000400020 r5=0000000000000000
4 0 writer 0000000000400020 store 8 0000000000600000 0000000000000007
 | regs reader 4 0000000000000000 0000000000000007=>regs reader 4 0000000000000000 0000000000000000"""

# the files of a run, its answer's beginning
FAULTS = (
    ("run q r", "3 muen: missing file q"),
    ("run i q", "3 muen: missing file q"),
    ("run i", "1 muen: usage: "),
)


@with_program
class Runs(Booted):
    """Calls of `build`, and then of `run` on the image that was written."""

    def test_both_orders(self):
        """A writer and a reader on two CPUs: the texts of the two orders differ in nothing else."""
        ascending = self.built_and_ran(SYSTEMS["channel"], "end 5\n")
        want(self.built_and_ran(SYSTEMS["channel"], "order 4 1 0\nend 5\n"), changed(ascending, READER_FIRST), "the other order")

    def test_changed_leaf(self):
        """The machine goes by the image's bytes: a leaf that leads to another subject's page shows that page."""
        image = self.image(SYSTEMS["leaves"])
        self.want("\n1 0 a 0000000000400008 r1=0000000000000000\n" in self.ran(image, "end 3\n"), True, "its own page is shown")
        # the entry of the page at 0x500000 in the last table of `a`, and the page of `b`'s region
        image = with_words(image, [(17_856, 0x10f031)])
        self.want("\n1 0 a 0000000000400008 r1=abababababababab\n" in self.ran(image, "end 3\n"), True, "the other's page is shown")

    def test_own_page_table(self):
        """A guest whose page table is its second page, and whose third is an entry of it: what it stores there counts at its next load."""
        image = with_words(self.image(SYSTEMS["own tables"]), [(13_912, 0x103033), (13_920, 0x107031)])
        text = self.ran(image, "end 5\n")
        for line in ("2 0 one 0000000000400010 r4=0000000000000000",
                     "3 0 one 0000000000400018 store 8 0000000000401010 0000000000106031",
                     "4 0 one 0000000000400020 r4=0040100000002001"):
            self.want(f"\n{line}\n" in text, True, line)

    @each((
        ("a short image", lambda image: image[:-1], "end 1\n", 5, ": short"),
        ("a long image", lambda image: image + b"\0", "end 1\n", 5, ": trailing"),
        ("an empty image", lambda image: b"", "", 5, "muen: image refused at 0: short"),
        ("an empty record", lambda image: image, "", 6, "muen: record refused at line 1: no end"),
        ("a record of a device", lambda image: image, "irq 0 net rx\nend 1\n", 6, "muen: record refused at line 1: unknown"),
        ("a record of a tick", lambda image: image, "end 1\n", 0, ""),
    ))
    def test_ends(self, change, record, status, line):
        """A run ends with this status and this end of a line, and puts something only where it ends well."""
        self.hold(i=change(self.image(SYSTEMS["channel"])), r=record)
        answer, out = self.ended("run i r")
        self.want((answer.split(" ")[0], answer.endswith(line)), (str(status), True), f"{answer} ends with {line}")
        self.want(out == "", status != 0, "nothing is printed")

    @each((words, words, begin) for words, begin in FAULTS)
    def test_fault(self, words, begin):
        """Missing files, and words that have no form."""
        self.image(SYSTEMS["channel"], r="end 1\n")
        want(self.answer(words)[:len(begin)], begin, words)


# the regions with the digest of 4,096 zeros
ZEROS = ("\nregion buf ad7facb2586fc6e966c004d7d1d16b024f5805ff7cb47c7a85dabd8b48892ca7\n"
         "region log ad7facb2586fc6e966c004d7d1d16b024f5805ff7cb47c7a85dabd8b48892ca7\n")
LOADED = "\n1 0 one 0000000000400008 r1=0000000000000007\n"
UNTOUCHED = "\n1 0 one 0000000000400008 r1=0000000000000000\n"

# how the file of the tables begins; and the words in its six pages at base 0 that aren't 0, each at its place in them
FRONT = b"MUENDMA1\x00\x00\x00\x00\x00\x00\x00\x00\x06\x00\x00\x00\x01\x00\x00\x00\x03nic"
WORDS = (
    (0, 0x1001),
    (4480, 0x2001),
    (4488, 0x102),
    (8192, 0x3003),
    (12288, 0x4003),
    (16384, 0x5003),
    (20488, 0x107003),
    (20496, 0x108001),
)


@with_program
class Domains(Booted):
    """A device that writes into memory by itself: `boot` holds it to the tables that it makes, `run` to those that it is handed, and without
    tables it drops what the device writes."""

    def is_dropped(self, text):
        """Nothing was written into either region."""
        want((UNTOUCHED in text, ZEROS in text), (True, True), f"nothing is written: {text}")

    def test_inside(self):
        """A write inside its domain."""
        want(LOADED in self.booted(SYSTEMS["nic"], "dma 0 nic 4104 0700\nend 2\n"), True, "it is written")

    @each((
        ("a window to read", "dma 0 nic 8200 0700\nend 2\n"),
        ("the end of a window with rights", "dma 0 nic 8191 0707\nend 2\n"),
        ("an address before all", "dma 0 nic 4095 0707\nend 2\n"),
        ("a device in no domain", "dma 0 card 4104 0700\nend 2\n"),
    ))
    def test_outside(self, record):
        """A write that is dropped."""
        self.is_dropped(self.booted(SYSTEMS["nic"], record))

    def test_without_tables(self):
        """What the device writes is dropped."""
        self.is_dropped(self.built_and_ran(SYSTEMS["nic"], "dma 0 nic 4104 0700\nend 2\n"))

    @each((f"tables {record}", record) for record in ("dma 0 nic 4104 0700\nend 2\n", "dma 0 nic 8191 0707\nend 2\n"))
    def test_with_tables(self, record):
        """`build` writes the tables too, and `run` with them prints what `boot` prints."""
        text = self.booted(SYSTEMS["nic"], record)
        want(self.answer("build p i t"), "0 ", "build p i t")
        self.want(self.printed("run i r t"), text, "what run prints")
        self.want(self.answer("run i r r"), "10 muen: dma refused at 0: magic", "a record in place of tables")
        self.want(self.answer("run i r i"), "10 muen: dma refused at 0: magic", "an image in place of tables")
        self.want(self.answer("run i t t")[:2], "6 ", "tables in place of a record")

    def test_six_pages(self):
        """The file of the tables, put together; and one that is empty."""
        self.hold(p=SYSTEMS["nic"], r="end 0\n", empty="")
        want(self.answer("build p i t"), "0 ", "build p i t")
        tables = FRONT.ljust(88, b"\0") + bytes([0, 24, 0, 0]) + with_words(bytes(24576), WORDS)
        self.want(self.bytes_of("t"), tables, "the tables")
        self.want(self.answer("run i r empty"), "10 muen: dma refused at 0: short", "an empty file of tables")
