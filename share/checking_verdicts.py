"""What stands in images that `build` writes, and what `verify` says of them, as they were built and with bytes changed."""
from calling import SYSTEMS, Calls, changed, with_words
from checking import each, want, with_program

ONE, TWO, GATEWAY = (SYSTEMS[name] for name in ("policy", "verified two", "gateway"))

# with code that maps a page of tables, and stores there
MAPS = changed(ONE, "01100000050000001700000000000000=>"
                    "012000000010400001100000316010000b420300001000000c120300100000000b42030000100000")

# `b` monitors `a`
MONITORS = changed(TWO, '"name":"b","cpu":0,=>"name":"b","cpu":0,"monitors":[{"subject":"a","virtualAddress":6291456,"rights":"r"}],')

# words of tables are changed
TABLES = (
    (TWO, [(17856, 0x10f031)], "leak a 0000000000500000"),
    (ONE, [(9832, 0x103007)], "twice one 0000000000600000"),
    (ONE, [(13904, 0)], "lacks one 0000000000400000"),
    (MAPS, [(13912, 0x103033), (13920, 0x107031)], "leak one 0000000000401000"),
)

# the image of ONE, for a policy with a change; where its regions lie, and the names of groups, may differ
CHANGES = (
    ('"hex":"0110=>"hex":"0210', "9 muen: not sound: section a code"),
    ('}}],\n"subjects"=>}},{"name":"more","size":4096}],\n"subjects"', "9 muen: not sound: section a more"),
    ('"cpu":0,"entry"=>"cpu":0,"msrs":[{"start":1,"end":1,"rights":"r"}],"entry"', "9 muen: not sound: section d one"),
    ('"entry":4194304=>"entry":4194312', "9 muen: not sound: section f one"),
    ('"ticks":10=>"ticks":7', "9 muen: not sound: section h plan"),
    ('"rights":"rx"=>"rights":"r"', "9 muen: not sound: leak one 0000000000400000"),
    ('"rights":"rx"=>"rights":"rwx"', "9 muen: not sound: lacks one 0000000000400000"),
    ('"size":65536=>"size":4096', "sound"),
    ('"physicalAddress":1048576=>"physicalAddress":2097152', "sound"),
    ('"group":"g"=>"group":"f" | "name":"g"=>"name":"f"', "sound"),
    ('{"processor"=>{"processor', "2 muen: not JSON"),
    ('"subjects":["one"]=>"subjects":["two"]', "2 muen: rule 2: g two"),
)

# what of the second subject's part of the image of TWO is told, and of two faults the first: words of its part (its CPU,
# group, MSRs and spans at 2888, its EPTP at 2904, its name at 2912), and of the first one's state page
OF_TWO = (
    ([(2888, 0x000b_0009_0001_0100)], "section e b"),
    ([(2888, 0x000b_0004_0000_0100)], "section g a"),
    ([(2912, 0x6301)], "section h b"),
    ([(2904, 0x1e)], "section c b"),
    ([(2904, 0x10_001e)], "twice b 0000000000000000"),
    # two of them
    ([(2888, 0x000b_0004_0001_0100)], "section e b"),
    ([(2888, 0x000b_0004_0000_0100), (2912, 0x6301)], "section g a"),
    ([(2904, 0x1e), (2912, 0x6301)], "section h b"),
)

# the image of a policy of several, for the policy with a change
CHANGES_OF_SEVERAL = (
    (TWO, '"fill":171=>"fill":172', "section a page_b"),
    (TWO, '"name":"page_b"=>"name":"page_c" | "region":"page_b"=>"region":"page_c"', "section a page_c"),
    (TWO, ',{"name":"page_b","size":4096,"content":{"fill":171}}=> | ,\n{"region":"page_b","virtualAddress":5242880,"rights":"r"}=>', "section a page_b"),
    (TWO, '"name":"b","cpu":0,"entry":4194304=>"name":"b","cpu":0,"entry":4194312', "section f b"),
    (TWO, '"entry":4194304=>"entry":4194312 | "entry":4194304=>"entry":4194312', "section f a"),
    (GATEWAY, '"ioPorts":["regs"],=>', "section d black"),
    (GATEWAY, '"irqs":[{"name":"rx"}]=>"irqs":[{"name":"tx"}] | "irq":"rx"=>"irq":"tx"', "section h net"),
    (GATEWAY, "012000000010600001900000f0fe3f00=>022000000010600001900000f0fe3f00", "section a black_code"),
)

# the words, and the verdict on the image of a policy whose content is the file `short`
OTHERS = (
    ("verify i p", "9 muen: not sound: section a code"),
    ("verify none p", "3 muen: missing file none"),
    ("verify short p", "5 muen: image refused at 8: short"),
    ("verify p p", "5 muen: image refused at 0: magic"),
    ("verify i i", "2 muen: not JSON"),
    ("verify i none", "3 muen: missing file none"),
)


@with_program
class Verdicts(Calls):
    """Calls of `verify`."""

    def verdict(self, words):
        """What `verify` answers: its status and line, or the line that it has put."""
        answer, out = self.ended(words)
        if answer != "0 ":
            want(out, "", f"what {words} prints: {answer}")
            return answer
        want(out[out.index("\n"):], "\n", f"{words} prints one line")
        return out.removesuffix("\n")

    def judged(self, image, policy):
        """What it answers of an image for a policy."""
        self.hold(i=image, p=policy)
        return self.verdict("verify i p")

    @each((
        ("one", ONE),
        ("two", TWO),
        ("gateway", GATEWAY),
        ("a monitor that reads", MONITORS),
        ("a monitor that writes", changed(MONITORS, '6291456,"rights":"r"=>6291456,"rights":"rw"')),
    ))
    def test_sound(self, policy):
        """The image that is built for a policy is sound."""
        want(self.judged(self.image(policy), policy), "sound", "the verdict")

    @each((*((f"tables {number}", *row) for number, row in enumerate(TABLES, 1)), *((f"of two {number}", TWO, *row) for number, row in enumerate(OF_TWO, 1))))
    def test_words(self, policy, words, fault):
        """Words of the image of a policy are changed, and this is the fault."""
        want(self.judged(with_words(self.image(policy), words), policy), f"9 muen: not sound: {fault}", "the verdict")

    @each((f"another policy {number}", change, line) for number, (change, line) in enumerate(CHANGES, 1))
    def test_another(self, change, line):
        """The image of a policy for another one."""
        want(self.judged(self.image(ONE), changed(ONE, change)), line, change)

    @each((f"another policy of several {number}", policy, change, fault) for number, (policy, change, fault) in enumerate(CHANGES_OF_SEVERAL, 1))
    def test_another_of_several(self, policy, change, fault):
        """The image of a policy for another one, and this is the fault."""
        want(self.judged(self.image(policy), changed(policy, change)), f"9 muen: not sound: {fault}", change)

    @each((words, words, line) for words, line in OTHERS)
    def test_files(self, words, line):
        """Other files, and images that are none."""
        short = changed(ONE, '"hex":"01100000050000001700000000000000"=>"file":"short"')
        image = self.image(short, short="MUENIMG1")
        want(self.judged(image, short), "sound", "its own image")
        self.hold(p=ONE)
        want(self.verdict(words), line, words)


# changes to a system, and parts of its image: where one begins and how many bytes it has; the words of eight bytes at
# these offsets in it, and what each byte of all others is
PARTS = (
    # one subject with a page of code at 400000H: its image is as docs/image.md has it, six spans
    ("the EPTP of one page", "", 1_008, 8, [(0, 0x10_001e)], 0),
    ("the tables of one page", "", 1_616, 4 * 4_096, [
        (0, 0x10_1007),
        (4_096, 0x10_2007),
        (8_192 + 16, 0x10_3007),
        (12_288, 0x10_6035),
    ], 0),
    # a page to read at the end of guest addresses too, for which three more tables are
    ("the tables of the highest page", "highest", 1_776, 7 * 4_096, [
        (0, 0x10_1007),
        (511 * 8, 0x10_4007),
        (4_096, 0x10_2007),
        (8_192 + 16, 0x10_3007),
        (12_288, 0x10_9035),
        (16_384 + 511 * 8, 0x10_5007),
        (20_480 + 511 * 8, 0x10_6007),
        (24_576 + 511 * 8, 0x10_a031),
    ], 0),
    # a large page beside the small one: a leaf of the page directory, and a fifth table that isn't needed
    ("the EPTP of a large page", "large", 1_168, 8, [(0, 0x10_001e)], 0),
    ("the tables of a large page", "large", 1_776, 5 * 4_096, [
        (0, 0x10_1007),
        (4_096, 0x10_2007),
        (8_192 + 16, 0x10_3007),
        (8_192 + 32, 0x20_00b3),
        (12_288, 0x10_7035),
    ], 0),
    # the ports 3F8H to 3FFH: a byte of the first of two bitmaps, behind a device of 72 bytes
    ("the I/O bitmaps", "ports", 18_072, 2 * 4_096, [(0x78, 0x00ff_ffff_ffff_ffff)], 0xff),
    # MSR C0000082H, to read and to write
    ("the MSR bitmap", "msrs", 34_384, 4_096, [
        (1_040, 0xffff_ffff_ffff_fffb),
        (3_088, 0xffff_ffff_ffff_fffb),
    ], 0xff),
    ("the MSR area", "msrs", 38_480, 4_096, [(0, 0xc000_0082)], 0),
)
BUILT = {
    "": "",
    "highest": '{"fill":0}}=>{"fill":0}},{"name":"last","size":4096} | '
               '"rights":"rx"}]=>"rights":"rx"},{"region":"last","virtualAddress":281474976706560,"rights":"r"}]',
    "large": '65536=>8388608 | {"fill":0}}=>{"fill":0}},{"name":"big","size":2097152,"alignment":2097152} | '
             '"rights":"rx"}]=>"rights":"rx"},{"region":"big","virtualAddress":8388608,"rights":"rw"}]',
    "ports": '"memory":[{"name"=>"devices":[{"name":"net","ioPorts":[{"name":"com","start":1016,"end":1023}]}],"memory":[{"name" | '
             '"rights":"rx"}]=>"rights":"rx"}],"devices":[{"device":"net","ioPorts":["com"]}]',
    "msrs": '"rights":"rx"}]=>"rights":"rx"}],"msrs":[{"start":3221225602,"end":3221225602,"rights":"rw"}]',
}


@with_program
class Images(Calls):
    """Tables, bitmaps and MSR areas that were worked out by hand."""

    @each((what, *part) for what, *part in PARTS)
    def test_part(self, changes, start, length, words, other):
        """A part of an image that was built."""
        image = self.image(changed(SYSTEMS["one"], BUILT[changes]))
        want(image[start:start + length], with_words(bytes([other]) * length, words), "the part")
