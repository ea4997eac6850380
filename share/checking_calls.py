"""Whole calls of each command, each with the text or the line that was worked out by hand."""
import pathlib
import tempfile

from calling import SYSTEMS, Calls, changed, numbered, texts
from checking import each, want, with_program

TEXTS = texts("calls")
POLICY = SYSTEMS["policy"]

# the files of calls, besides the policy `p`
FILES = {"zero": "end 0", "three": "end 3\n", "late": "end 100001\n", "broken": "{", "list": "[]", "bare": '{"processor":{"logicalCpus":1},"scheduling":{}}',
         "underscored": SYSTEMS["underscored"], "several": SYSTEMS["several"], "past": SYSTEMS["past"], "ro": SYSTEMS["read only"],
         "two": SYSTEMS["two cpus"], "page": 4096 * b"\1", "long": 5000 * b"\1"}


def rows_of(name):
    """The rows of a text, each with a title."""
    return numbered(name, TEXTS[name].split("\n"))


@with_program
class Files(Calls):
    """Calls on these files."""

    @each((words, words) for words in TEXTS if words.startswith("boot "))
    def test_text(self, words):
        """What `boot` prints."""
        self.hold(p=POLICY, **FILES)
        want(self.printed(words), f"{TEXTS[words]}\n", words)

    def refuses(self, policy, words, line):
        """The call has this line. Nothing is printed, and no file is made or changed."""
        self.hold(p=policy, **FILES)
        want(self.answer(words), line, words)
        want((self.bytes_of("image"), self.bytes_of("p")), (None, policy.encode()), "the image and the policy")

    @each(rows_of("refusals"))
    def test_refused(self, row):
        """The status with the line, and the words."""
        line, _, words = row.partition(" | ")
        self.refuses(POLICY, words, line)

    @each((*((*row, "from files") for row in rows_of("contents")), *((*row, "provided") for row in rows_of("provided contents"))))
    def test_content(self, row, system):
        """The status with the line, the words, and changes to the system."""
        line, words, changes = row.split(" | ", 2)
        self.refuses(changed(SYSTEMS[system], changes).replace("@", 4096 * "00"), words, line)

    @each((words, words, image) for words, image in (("build p image", "image"), ("build several three", "three"), ("build p p", "p")))
    def test_image(self, words, image):
        """The image may have the name of the policy itself, or of a file that there is."""
        self.hold(p=POLICY, **FILES)
        want(self.answer(words), "0 ", words)
        want(self.bytes_of(image)[:8], b"MUENIMG1", image)


@with_program
class Limits(Calls):
    """Each command keeps the limit of each kind of file: what has a byte more than tables may have is no image."""

    @classmethod
    def setUpClass(cls):
        held = tempfile.TemporaryDirectory()
        cls.addClassCleanup(held.cleanup)
        cls.common = pathlib.Path(held.name)
        for name, length in (("long", 4_194_305), ("longer", 16_777_217), ("longest", 67_108_865)):
            (cls.common / name).write_bytes(length * b" ")
        (cls.common / "component").hardlink_to(cls.common / "longest")

    def setUp(self):
        self.folder = self.common
        self.hold(three="end 3\n", **{name: changed(SYSTEMS["from files"], f'MEMORY=>{{"name":"r","size":4096,"content":{{"file":"{file}","length":1}}}}')
                                      for name, file in (("s", "longer"), ("q", "component"))})
        self.image(POLICY)

    @each((*rows_of("long files"), *rows_of("limits")))
    def test_long(self, row):
        """The words, and the line."""
        words, line = row.split(" | ")
        want(self.answer(words), line, words)


# where each part of the image of that policy begins, where its last field begins, and where it ends: the header, six
# spans, a group, a subject, a major frame, and the contents of the six spans, each of which is one field
PARTS = (
    (0, 18, 24),
    (24, 168, 184),
    (184, 328, 344),
    (344, 488, 504),
    (504, 648, 664),
    (664, 808, 824),
    (824, 968, 984),
    (984, 986, 992),
    (992, 1_596, 1_600),
    (1_600, 1_612, 1_616),
    (1_616, 1_616, 18_000),
    (18_000, 18_000, 26_192),
    (26_192, 26_192, 30_288),
    (30_288, 30_288, 34_384),
    (34_384, 34_384, 38_480),
    (38_480, 38_480, 42_576),
)

# another byte at a place; the answer, and how what is printed begins
CHANGED = (
    (0, 0, "5 muen: image refused at 0: magic", ""),
    (8, 9, "5 muen: image refused at 8: count", ""),
    (984, 1, "5 muen: image refused at 984: cpu", ""),
    (1_600, 9, "5 muen: image refused at 1612: ticks", ""),
    (1_008, 0x1f, "5 muen: image refused at 1008: eptp", ""),
    (1_010, 0x20, "0 ", "0 0 one 0000000000400000 exit 49 0000000000000000 0000000000400000 stop\n"),
)

# a byte above 127 comes first, wherever it stands
RECORDS = (
    (b"no word\nend 1\xc8", "6 muen: record refused at line 2: not ASCII"),
    (b"end 1\nend 2\n\xc8", "6 muen: record refused at line 3: not ASCII"),
    (b"end 200000\n\n\n\x80\n", "6 muen: record refused at line 4: not ASCII"),
    (b"no word\nend 1\x7f", "6 muen: record refused at line 1: word"),
)


@with_program
class Damaged(Calls):
    """Images and records that are damaged."""

    def setUp(self):
        super().setUp()
        self.whole = self.image(POLICY)

    def ran(self, image, record):
        """How a run of these bytes ends on a record, and what it prints."""
        self.hold(i=image, r=record)
        return self.ended("run i r")

    @each((f"an image cut in the part at {first}", first, last, end) for first, last, end in PARTS)
    def test_cut(self, first, last, end):
        """An image that is cut at a part's first byte lacks the field that begins there; one that lacks a part's last byte lacks that
        part's last field."""
        self.want(len(self.whole), 42_576, "the bytes of the image")
        for length, at in ((first, first), (end - 1, last)):
            self.want(self.ran(self.whole[:length], "end 1\n"), (f"5 muen: image refused at {at}: short", ""), f"the image of {length} bytes")

    @each((f"another byte {at}", at, byte, line, begin) for at, byte, line, begin in CHANGED)
    def test_changed(self, at, byte, line, begin):
        """One byte is changed. Where it leads elsewhere, the machine goes by it."""
        answer, out = self.ran(self.whole[:at] + bytes([byte]) + self.whole[at + 1:], "end 1\n")
        want((answer, out.startswith(begin)), (line, True), "the answer, and how the text begins")

    @each((f"a record with another byte {number}", record, line) for number, (record, line) in enumerate(RECORDS, 1))
    def test_record(self, record, line):
        """It is refused at its line."""
        want(self.ran(self.whole, record)[0], line, "the answer")


# each text was made by a program of its own, from what the documents say of guests, of scheduling and of the generated
# systems: 1 to 4 CPUs, whose first subjects have 1, 2, 7 and 2 ticks
LOADS = (
    ("load 0", "subjects 2\nticks 20000\ntrace 956825\nsha256 ad893307bcd939ce24cde01ab1d804f663e4e4f7b94a4be7cdcf5aa5c3ede6ae\n"),
    ("load 1", "subjects 4\nticks 20000\ntrace 1859672\nsha256 c4683371d4d0ab246a2df41b7e52c1fa2794e657cb6c4e0b345e56982aa5df71\n"),
    ("load 6", "subjects 6\nticks 20000\ntrace 2921001\nsha256 b201bb481d8a4ffecb63a270a798810ab19351f0a50a064fbc93432c5655684d\n"),
    ("load 65535", "subjects 8\nticks 20000\ntrace 3721210\nsha256 c194388221ca88a195daa7a90c491cb96fd24c6913d23b3f2583e05147ae8d4f\n"),
)


@with_program
class Loads(Calls):
    """Systems that are generated."""

    @each((words, words, text) for words, text in LOADS)
    def test_text(self, words, text):
        """The four lines."""
        want(self.printed(words), text, words)

    @each((f"system {number} is accepted", number) for number in range(28))
    def test_accepted(self, number):
        """Each number of CPUs with each share of the ticks: the system is accepted, and its record for it, so that it is run."""
        begin = f"subjects {2 * (1 + number % 4)}\nticks 20000\ntrace "
        want(self.printed(f"load {number}")[:len(begin)], begin, "how the text begins")


# ten pages are enough, and no component file is read
FROM_FILE = '65536=>40960 | {"fill":0}=>{"file":"nothing"}'
# without room there are flows
NO_ROOM = "65536=>36864"
# a monitor that may change the state of the other
WRITES = '"rights":"r"}=>"rights":"rw"}'
# the second of two that share a region may only read it
READS = '"rights":"rw"}]}],"scheduling"=>"rights":"r"}]}],"scheduling"'

# the words, the system, changes to it, and the whole text
REPORTS = (
    ("map p", "one", "", TEXTS["map of one"] + "\n"),
    ("map p", "one", FROM_FILE, TEXTS["map of one"] + "\n"),
    ("map p", "fixed", "", TEXTS["map of fixed"] + "\n"),
    ("flows p", "one", FROM_FILE, "flow one from one\n"),
    ("flows p", "one", NO_ROOM, "flow one from one\n"),
    ("flows p", "gateway", "", TEXTS["flows of gateway"] + "\n"),
    ("flows p", "monitor", "", "flow s from s\nflow m from s m\n"),
    ("flows p", "monitor", WRITES, "flow s from s m\nflow m from s m\n"),
    ("flows p", "shared", "", "flow writer from writer reader\nflow reader from writer reader\n"),
    ("flows p", "shared", READS, "flow writer from writer\nflow reader from writer reader\n"),
    ("flows p", "choice", "", "flow t from t\nflow a from t a\n"),
)

# the system, and pieces of its map, of which the last ends it where this is said
MAPS = (
    ("gateway", False, "region 0000000001028000 0000000000001000 plain|text\n"),
    ("gateway", False, "window cipher 0000000000601000 0000000000001000 r job\n"),
    ("gateway", False, "window plain 0000000000400000 0000000000001000 rx plain|text\n"),
    ("monitor", True, "window m 0000000000600000 0000000000001000 r s:state\n"),
    ("device", True, "\ndevice 0000000000200000 0000000000001000 net|buf\nwindow one 0000000000400000 0000000000001000 rx code\n"
                     "window one 0000000000700000 0000000000001000 rw net|buf\n"),
)


@with_program
class Reports(Calls):
    """Calls of `map` and `flows`."""

    @each((f"report {number}: {words} of {system}", words, system, changes, text) for number, (words, system, changes, text) in enumerate(REPORTS, 1))
    def test_text(self, words, system, changes, text):
        """The whole text."""
        self.hold(p=changed(SYSTEMS[system], changes))
        want(self.printed(words), text, words)

    @each((f"map {number} of {system}", system, last, piece) for number, (system, last, piece) in enumerate(MAPS, 1))
    def test_map(self, system, last, piece):
        """A piece of it, or its end."""
        self.hold(p=SYSTEMS[system])
        text = self.printed("map p")
        want(text.endswith(piece) if last else piece in text, True, f"{piece} is in {text}")

    @each(rows_of("refusals of reports"))
    def test_refused(self, row):
        """The status with the line, the words, and changes to the policy."""
        line, words, changes = (*row.split(" | ", 2), "")[:3]
        self.hold(p=changes.removeprefix("WHOLE=>") if changes.startswith("WHOLE=>") else changed(SYSTEMS["one"], changes))
        want(self.answer(words), line, words)

    @each((f"words of {words}", words) for words in ("map p q", "flows p q"))
    def test_words(self, words):
        """They are too many."""
        self.hold(p=SYSTEMS["fixed"])
        want(self.answer(words)[:2], "1 ", words)
