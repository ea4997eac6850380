"""The checks of what share/look tells of records, images, tables and sources: what each line of a record did, and why one of them is refused."""
import json
import pathlib
import tempfile

from checking import ASSEMBLER_PROGRAM, EXAMPLES, PROGRAM, Case, call, each, looked, said, want, with_assembler, with_program
from checking_pictures import Seen
from looking.draw_trace import DROPPED, GIVEN

# a second device, in no domain, with a port, memory and an interrupt that nobody has; `buf` stands at 1000H of nic, and the code,
# which nic may only read, behind it
RECORD = """dma 0 nic 4104 0700
order 1 0
dma 1 nic 8191 0707
dma 1 nic 4095 0707
dma 1 card 4104 0700
dma 2 nic 281474976710655 0707
irq 2 card late
mem 2 card store 4090 01020304
end 3
"""
WRITTEN, OTHERS = "0 - nic dma at 1008 = 0700 into buf+8", ["1 -  CPUs take their turns in the order 0", "2 - card interrupt late: nobody has it",
                                                           "2 - card card|store+ffa = 01020304"]
DROPS = ["1 - nic dma at 1fff = 0707: dropped at 2000, no right", "1 - nic dma at fff = 0707: dropped at fff, not present",
         "1 - card dma at 1008 = 0700: dropped at 1008, no device", "2 - nic dma at ffffffffffff = 0707: dropped at ffffffffffff, not present"]
# a byte of the tables by its page and offset, the value that it has then, and why the first line is dropped by these; the pages are
# those of docs/dma.md, "An example": the root table, the context table, and those of four levels
SPOILED = [(0, 0, 0, "no table"), (1, 16 * 24, 0, "no table"), (0, 1, 0x80, "no table"), (0, 5, 1, "bad entry"), (0, 8, 1, "bad entry"), (1, 16 * 24 + 8, 3, "bad entry"), (1, 16 * 24 + 11, 1, "bad entry"), (2, 1, 0x80, "no table"), (2, 0, 0, "not present"),
           (4, 0, 1, "no right"), (5, 8, 0, "not present"), (5, 8, 4 | 3, "bad entry"), (5, 8, 4, "not present"), (5, 8 + 7, 0x80, "bad entry"), (5, 8, 1, "no right"), (5, 8 + 3, 0x40, "outside")]


class Ran:
    """The example device_domains, with a device more and a window to read, and a run of a record."""

    def __init__(self, folder):
        self.policy, self.record, self.image, self.tables, self.text = (pathlib.Path(folder, name) for name in ("p.json", "r", "p.img", "p.dma", "p.trace"))
        document = json.loads((EXAMPLES / "device_domains.json").read_text(encoding="utf-8"))
        document["devices"].append({"name": "card", "memory": [{"name": "store", "physicalAddress": "16#4000_0000#", "size": 4096}], "irqs": [{"name": "late"}]})
        document["deviceDomains"][0]["memory"].append({"region": "code", "virtualAddress": 0x2000, "rights": "r"})
        self.policy.write_text(json.dumps(document), encoding="utf-8")
        self.record.write_text(RECORD, encoding="ascii")
        self.program("build", self.policy, self.image, self.tables)

    @staticmethod
    def program(*words):
        """What a call of the program prints."""
        done = call([PROGRAM, *words])
        want((done.returncode, done.stderr), (0, b""), " ".join(map(str, words)))
        return done.stdout

    def run(self, *tables):
        """The words of a run with these tables."""
        self.text.write_bytes(self.program("run", self.image, self.record, *tables))
        return [self.image, self.text, "--record", self.record, *(("--dma", *tables) if tables else ())]

    def told(self, words, *others):
        """The lines of `look trace`, with single blanks."""
        return [" ".join(line.split(" ")) for line in looked("trace", *words, *others).splitlines()]


# records of the system of docs/record.md, "A worked record", with one line that is refused, and what is told of it
TWO = {"processor": {"logicalCpus": 2}, "memoryBlocks": [{"name": "ram", "physicalAddress": 0x400000, "size": 0x100000}],
       "devices": [{"name": "net", "ioPorts": [{"name": "regs", "start": 768, "end": 783}], "irqs": [{"name": "rx"}, {"name": "tx"}],
                    "memory": [{"name": "buf", "physicalAddress": 0x200000, "size": 4096}]}],
       "subjects": [{"name": "one", "cpu": 0, "entry": 0}, {"name": "two", "cpu": 1, "entry": 0}],
       "scheduling": {"groups": [{"name": "g", "cpu": 0, "subjects": ["one"]}, {"name": "h", "cpu": 1, "subjects": ["two"]}],
                      "majorFrames": [{"cpus": [{"cpu": 0, "minorFrames": [{"group": "g", "ticks": 9}]}, {"cpu": 1, "minorFrames": [{"group": "h", "ticks": 9}]}]}]}}
REFUSED = [
    ("order 0 1", "count", 1, "there are 2 CPUs: want `order T` and each CPU's number once"),
    ("order 0 1 1", "order", 11, "CPU 1 stands twice"),
    ("order 0 2 1", "range", 9, "a CPU is at most 1, and is 2"),
    ("port 0 net 784 255", "unknown", 12, "net has no port 784; it has 768 to 783"),
    ("port 0 net 784 256", "range", 16, "V is at most 255, and is 256"),
    ("port 0 nett 768 5", "unknown", 8, "no device is nett; is net meant?"),
    ("irq 0 disk rx", "unknown", 7, "no device is disk; there is net"),
    ("mem 1 net buf 4095 fF01", "unknown", 15, "2 bytes from 4095 on pass the end of buf, which has 4096 bytes"),
    ("mem 1 net bug 0 fF01", "unknown", 11, "net has no memory bug; is buf meant?"),
    ("mem 1 net buf 4094 fF0", "hex", 20, "want two hexadecimal digits a byte, and there are 3 digits"),
    ("mem 1 net buf 4094 " + 65 * "00", "hex", 20, "a line has 64 bytes at most, and this one has 65"),
    ("dma 1 net 0 0g", "hex", 13, "want 1 to 64 bytes in hexadecimal digits"),
    ("dma 1 net 281474976710656 00", "range", 11, "ADDR is at most 281474976710655, and is 281474976710656"),
    ("irq 1 net ry", "unknown", 11, "net has no interrupt ry; there are rx, tx"),
    ("irq 01 net rx", "number", 5, "T is to be a number in decimal digits, and is '01': no zeros stand in front"),
    ("irq 0x1 net rx", "number", 5, "T is to be a number in decimal digits, and is '0x1'"),
    ("irq 1 net rx ", "count", 14, "a blank at the line's end"),
    ("irq 1  net rx", "count", 7, "a blank too many"),
    ("irq 1 net", "count", 1, "want `irq T DEVICE IRQ`"),
    ("irg 1 net rx", "word", 1, "irg is none of order, port, mem, irq, dma, end; is irq meant?"),
    ("# interrupts", "word", 1, "a record has no comments; share/look record makes one of lines that may have them"),
    ("", "word", 1, "an empty line"),
    ("irq 1 net rx\r", "unknown", 13, "the line ends with a carriage return; lines end with a line feed alone"),
    ("end 9\r", "number", 6, "the line ends with a carriage return; lines end with a line feed alone"),
    ("irq 1 net \u00e9", "not ASCII", 11, "a record is ASCII"),
    ("irq 1 net rx\nirq 0 net rx", "back", 5, "tick 0 is behind tick 1 of the line before; ticks don't fall"),
    ("order 1 0 1\norder 1 1 0", "order", 1, "tick 1 has an order already"),
    ("end 9\nirq 9 net rx", "after end", 1, "the line `end` is the last one"),
]
# bytes of an image and of tables that are changed, muen's line, and the line behind it without the file
BYTES = [
    ("img", 24, b"\1", "image refused at 24: place", "byte 24 (18H), in span 0: want a multiple of 4096 that isn't below the end of what stands before"),
    ("img", 13, b"\1", "image refused at 13: zero", "byte 13 (dH), in the header: a byte that is to be zero isn't"),
    ("dma", 22, b"\1", "dma refused at 21: zero", "byte 21 (15H), in the header: a byte that is to be zero isn't"),
    ("dma", 0, b"m", "dma refused at 0: magic", "byte 0 (0H), in the header: want the eight letters by which the file begins"),
]


@with_program
class Refused(Case):
    """`look refusal` of records, images and tables."""

    def asked(self, *words):
        """The status and the lines of `look refusal`."""
        status, text = said("refusal", *words)
        return status, text.splitlines()

    @each((f"look refusal of a record: row {row}, {why} at {column}", text, why, column, told) for row, (text, why, column, told) in enumerate(REFUSED))
    def test_record(self, text, why, column, told):
        """muen's line, and where the fault is and what it is: of the policy and of the image that is built of it."""
        with tempfile.TemporaryDirectory() as folder:
            policy, image, record = (pathlib.Path(folder, name) for name in ("p.json", "p.img", "r"))
            policy.write_text(json.dumps(TWO), encoding="ascii")
            record.write_bytes(f"{text}\nend 9\n".encode("latin-1") if not text.startswith("end") else f"{text}\n".encode("ascii"))
            number = text.count("\n") + 1
            lines = [f"muen: record refused at line {number}: {why}", f"{record}:{number}:{column}: {told}"]
            self.want(self.asked(policy, record), (1, lines), "of the policy")
            want(call([PROGRAM, "build", policy, image]).returncode, 0, "build")
            self.want(self.asked(image, record), (1, lines), "of the image")
            self.want(self.asked(image), (0, ["accepted"]), "the image alone")

    @each((f"look refusal of byte {at} of {kind}", kind, at, value, line, told) for kind, at, value, line, told in BYTES)
    def test_bytes(self, kind, at, value, line, told):
        """muen's line, and in which part of the file the field is, and what it is to be."""
        with tempfile.TemporaryDirectory() as folder:
            ran = Ran(folder)
            file = {"img": ran.image, "dma": ran.tables}[kind]
            held = file.read_bytes()
            file.write_bytes(held[:at] + value + held[at + 1:])
            status, lines = self.asked(ran.image, ran.record, ran.tables)
            want((status, lines[:2]), (1, [f"muen: {line}", f"{file}: {told}"]), "the lines")
            file.write_bytes(held[:100])
            status, lines = self.asked(ran.image, ran.record, ran.tables)
            want((status, lines[0].endswith(": short"), "the file ends before this field does" in lines[1]), (1, True, True), f"a front: {lines}")
            file.write_bytes(held + b"x")
            status, lines = self.asked(ran.image, ran.record, ran.tables)
            want((status, lines[1].endswith("in the end: bytes follow, and nothing is to stand there")), (1, True), f"a byte more: {lines}")

    def test_accepted(self):
        """What muen takes."""
        with tempfile.TemporaryDirectory() as folder:
            ran = Ran(folder)
            for words in ((ran.policy,), (ran.policy, ran.record), (ran.image,), (ran.image, ran.record), (ran.image, ran.record, ran.tables)):
                self.want(self.asked(*words), (0, ["accepted"]), words)
            self.want(self.asked(ran.policy, ran.record, ran.tables),
                      (1, [f"look: {ran.policy}: it is no image, and a policy has its domains in itself"]), "tables of a policy")


# lines of a source behind `loop: NOP`, and what is told of them: the column, muen_asm's reason, and what is meant
SOURCES = [
    ("LOAD r1, 8 byte at r2", 12, "want a size of access: want 8 bytes"),
    ("STORE r1, 3 bytes at r2", 11, "want a size of access: want 1 byte, or 2, 4 or 8 bytes, and then `at` and a register"),
    ("OUT r1, 8 bytes to port r2", 9, "want a size of access: OUT has 4 bytes at most"),
    ("MOV r1, 5", 9, "want a register: MOV takes no number; LI loads one into a register"),
    ("ADD r1, 1", 9, "want a register: ADD takes no number; LI loads one into a register"),
    ("VMCALL 1", 8, "want a register: VMCALL takes no number; LI loads one into a register"),
    ("LI r16, 5", 4, "want a register: there are r0 to r15"),
    ("LI R1, 5", 4, "want a register: registers are spelled r1"),
    ("li r1, 5", 1, "want an instruction, data, .at or a name: instructions are spelled in capitals, LI"),
    ("LAOD r1, 8 bytes at r2", 1, "want an instruction, data, .at or a name: is LOAD meant?"),
    (".org 5", 1, "want an instruction, data, .at or a name: there is no .org; write .at"),
    (".word 5", 1, "want an instruction, data, .at or a name: there is no .word; write .u16, .u32 or .u64"),
    ("JNE r1, loop", 1, "want an instruction, data, .at or a name: there is no JNE; write JNZ"),
    ("// a comment", 1, "want an instruction, data, .at or a name: `;` begins a comment"),
    ("# a comment", 1, "want an instruction, data, .at or a name: `;` begins a comment"),
    ("HLT # a comment", 5, "want the end of the line: `;` begins a comment"),
    ("HLT r1", 5, "want the end of the line: HLT takes no more"),
    ("JMP lop", 5, "no such name: is loop meant?"),
    ("JMP there", 5, "no such name: no line has it as a label, or with `=`"),
    ("LI r1 5", 7, "want a comma: operands are parted by commas"),
    ("LI r1, 0xc000_0082", 8, "out of range: LI takes 32 bits, signed; LIH sets the upper 32"),
    ("LOAD r1, 8 bytes r2", 18, "want at: an address is `at` a register, as in `LOAD r1, 8 bytes at r2 + 8`"),
    ("x: y: NOP", 4, "want an instruction, data, .at or a name: a line has one label"),
    ("loop: NOP", 1, "the name stands before: a name stands for one thing"),
    (".byte 1\nNOP", 1, "an instruction off a multiple of 8: put an .at before it, or data up to eight bytes"),
]


@with_assembler
class Sources(Case):
    """`look refusal` of a source."""

    @each((f"look refusal of a source: row {row}, column {column}", line, column, told) for row, (line, column, told) in enumerate(SOURCES))
    def test_source(self, line, column, told):
        """muen_asm's line, and what is meant, with the file."""
        with tempfile.TemporaryDirectory() as folder:
            file, number = pathlib.Path(folder, "code.asm"), line.count("\n") + 2
            file.write_text(f"loop: NOP\n{line}\n", encoding="ascii")
            status, text = said("refusal", file)
            self.want(status, 1, "the status")
            want(text.splitlines()[1], f"{file}:{number}:{column}: {told}", "the place")
            self.want(text.splitlines()[0], f"muen_asm: line {number}, column {column}: {told.split(': ')[0]}", "muen_asm's line")

    def test_accepted(self):
        """A source that is taken; and one whose names stand in another file, with a fault there."""
        with tempfile.TemporaryDirectory() as folder:
            file, names = pathlib.Path(folder, "code.asm"), pathlib.Path(folder, "names")
            file.write_text("LI r1, there\n", encoding="ascii")
            names.write_text("there = 5\n", encoding="ascii")
            self.want(said("refusal", file, "--names", names), (0, "accepted\n"), "with names")
            names.write_text("here = 5\nthere == 5\n", encoding="ascii")
            status, text = said("refusal", file, "--names", names)
            self.want((status, text.splitlines()[1].startswith(f"{names}:2:8: ")), (1, True), f"a fault of the names: {text}")


class Made(Case):
    """`look record --for POLICY`."""

    def made(self, text):
        """The status and what is printed of these lines for the example packet_ring, but the record."""
        with tempfile.TemporaryDirectory() as folder:
            file = pathlib.Path(folder, "lines")
            file.write_text(text, encoding="ascii")
            status, told = said("record", file, "--for", EXAMPLES / "packet_ring.json")
            return status, [line.replace(str(file), "FILE") for line in told.splitlines() if line.startswith("look: ")]

    @each((f"look record --for POLICY: {line}", line, status, told) for line, status, told in [
        ("irq nic rx", 0, []),
        ("dma nic 4096 00", 0, []),
        ("dma nic 0 00", 0, ["look: FILE: line 2: warning: the line is dropped: the domain d has no window at 0"]),
        ("irq nix rx", 1, ["look: FILE: line 2: no device is nix; is nic meant?"]),
        ("irq nic ry", 1, ["look: FILE: line 2: nic has no interrupt ry; there is rx"]),
        ("port nic 7 5", 1, ["look: FILE: line 2: nic has no port 7; it has none"]),
        ("order 1 0", 1, ["look: FILE: line 2: an order names each CPU once, and there is 1 CPU"]),
    ])
    def test_named(self, line, status, told):
        """What the policy hasn't is told, and what does nothing."""
        want(self.made(f"end 9\nat 2: {line}\n"), (status, told), "the lines")


@with_program
class Records(Case):
    """`look trace` and `look draw trace` with a record."""

    def of_run(self, check):
        """A check of the run."""
        with tempfile.TemporaryDirectory() as folder:
            check(Ran(folder))

    def test_trace(self):
        """Each line stands before the turns of its tick; alone with `--only input`, and not among some subject's turns."""
        def check(ran):
            """Of the run."""
            words = ran.run(ran.tables)
            lines = [" ".join(line.split()) for line in looked("trace", *words).splitlines()]
            inputs = [WRITTEN, OTHERS[0], *DROPS[:3], DROPS[3], *OTHERS[1:]]
            inputs = [" ".join(line.split()) for line in inputs]
            self.want([line for line in lines if " - " in line[:6]], inputs, "the lines of the record")
            self.want([line[0] for line in lines if line[0].isdigit()], sorted(line[0] for line in lines if line[0].isdigit()), "the order of ticks")
            self.want([" ".join(line.split()) for line in looked("trace", *words, "--only", "input").splitlines()], inputs, "--only input")
            self.want([line for line in looked("trace", *words, "--subject", "one").splitlines() if " - " in line[:6]], [], "--subject one")
            self.want(lines[1:2], [line for line in lines if line.startswith("0 0 one")], "the turn of tick 0 is behind the line of tick 0")
        self.of_run(check)

    def test_written(self):
        """The word that a line says was written is what the subject loads then; and without tables all lines are dropped."""
        def check(ran):
            """Of the run."""
            words = ran.run(ran.tables)
            self.want("r1 = 7" in looked("trace", *words) or "= 7 from buf+8" in looked("trace", *words), True, "what is loaded")
            words = ran.run()
            dropped = [line for line in looked("trace", *words, "--only", "input").splitlines() if "dma at" in line]
            self.want([line.rsplit(", ", 1)[1] for line in dropped], 5 * ["no tables"], "without tables")
            self.want("= 7 from buf+8" in looked("trace", *words), False, "what is loaded without tables")
        self.of_run(check)

    @each((f"look trace of tables whose page {page} has {value:x} at {at}", page, at, value, why) for page, at, value, why in SPOILED)
    def test_spoiled(self, page, at, value, why):
        """Why the first line is dropped by tables that were changed, as `run` drops it."""
        with tempfile.TemporaryDirectory() as folder:
            ran = Ran(folder)
            tables = bytearray(ran.tables.read_bytes())
            tables[len(tables) - 4096 * (6 - page) + at] = value
            spoiled = pathlib.Path(folder, "spoiled.dma")
            spoiled.write_bytes(tables)
            words = ran.run(spoiled)
            want(looked("trace", *words, "--only", "input").splitlines()[0].split(), f"0 - nic dma at 1008 = 0700: dropped at 1008, {why}".split(), "the line")
            want("= 7 from buf+8" in looked("trace", *words), False, "what is loaded")

    def test_picture(self):
        """The lane of the record has a cell for each tick with lines, those where one was dropped in another colour."""
        def check(ran):
            """Of the run."""
            words = ran.run(ran.tables)
            seen = Seen(looked("draw", "trace", *words))
            cells = [(title.splitlines(), element.get("fill")) for element, title in seen.titled("rect") if element.get("fill") in (GIVEN, DROPPED)]
            self.want([(len(lines), fill) for lines, fill in cells], [(1, GIVEN), (4, DROPPED), (3, DROPPED)], "the cells")
            self.want(cells[0][0], ["0 nic dma at 1008 = 0700 into buf+8"], "the first title")
            seen.names(["record", "lines of the record", "of which one was dropped"])
        self.of_run(check)

    def test_faults(self):
        """A record that the run can't have had, and tables without one."""
        def check(ran):
            """Of the run."""
            words = ran.run(ran.tables)
            for line, why in (("irq 0 disk rx", "`muen run` takes no such line: 'irq 0 disk rx'"), ("beep 1", "no line of a record: 'beep 1'")):
                ran.record.write_text(f"{line}\nend 3\n", encoding="ascii")
                self.want(said("trace", *words), (1, f"look: {ran.record}: line 1: {why}\n"), line)
            self.want(said("trace", *words[:2], "--dma", ran.tables), (1, "look: --dma wants --record: the tables say what the record's dma lines did\n"), "no record")
        self.of_run(check)

    def test_tables_wanted(self):
        """`look image` and `look draw matrix` of an image with devices say where tables weren't given."""
        def check(ran):
            """Of the image."""
            line = "DMA tables not given: devices' windows aren't shown"
            self.want(looked("image", ran.image).splitlines()[-2:], ["DMA tables", f"  {line}"], "look image")
            self.want(line in looked("image", ran.image, ran.tables), False, "look image with tables")
            Seen(looked("draw", "matrix", ran.image)).names([line])
            self.want(line in looked("draw", "matrix", ran.image, "--dma", ran.tables), False, "the matrix with tables")
            self.want(line in looked("draw", "matrix", ran.policy), False, "the matrix of a policy")
        self.of_run(check)
