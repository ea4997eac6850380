"""The checks of the page that `look report` makes: what it holds, against what the program prints, and how a browser shows it."""
import base64
import hashlib
import json
import pathlib
import re
import shutil
import sys
import tempfile
import unittest
import zlib
from collections import Counter
from html import unescape

import checking_browser
import checking_ring
from checking import EXAMPLES, LOOK, NO_DOT, PROGRAM, TOP, Case, call, each, looked, said, want, with_program
from checking_pictures import Seen, both, kind_of
from looking.draw_trace import KINDS

with_browser = unittest.skipUnless(checking_browser.PROGRAM, "chromium isn't there")
SECTIONS = ["timeline", "memory", "matrix", "flows", "plan", "map", "closed", "lint", "verify", "image"]
TICKS = 20_000
PAGES = ("two_way_gateway", "packet_ring", "gateway", "ring")
README_PICTURE = TOP / "docs" / "report.png"
# that the pages were made once, by their names
MADE = {}


class Made:
    """A page of a system, with what the program prints of it."""

    def __init__(self, name, folder):
        if name == "ring":
            policy, record = pathlib.Path(folder, "ring.json"), pathlib.Path(folder, "ring.record")
            policy.write_text(checking_ring.system(8, 4), encoding="ascii")
            record.write_text(checking_ring.record(TICKS), encoding="ascii")
        else:
            policy, record = (EXAMPLES / f"{name}.{kind}" for kind in ("json", "record"))
        self.policy, self.file = policy, pathlib.Path(folder, f"{name}.html")
        want(looked("report", policy, "--record", record, "--output", self.file), "", "what is printed beside the file")
        self.page = self.file.read_text(encoding="ascii")
        self.data = json.loads(zlib.decompress(base64.b64decode(re.search(r'id="data">([^<]*)<', self.page)[1])))
        self.lines = call([PROGRAM, "boot", policy, record]).stdout.decode().splitlines()
        self.turns = [line for line in self.lines if line[0].isdigit()]

    def printed(self, command):
        """The words of each line that a command prints of the policy."""
        return [line.split() for line in call([PROGRAM, command, self.policy]).stdout.decode().splitlines()]

    def column(self, name):
        """A column of the turns; texts are those that its numbers name."""
        values = self.data["turns"][name]
        if name == "tick":
            return [sum(values[:1])] and list(accumulated(values))
        return values if name in ("who", "kind") else [self.data["texts"][value] for value in values]


def accumulated(steps):
    """The sums of all fronts."""
    total = 0
    for step in steps:
        total += step
        yield total


def made(name):
    """The page of this name, which is made when it is first asked for."""
    if name not in MADE:
        MADE[name] = Made(name, FOLDER.name)
    return MADE[name]


def readme_picture(browser, page):
    """The picture of README, of a page of the two-way gateway without its words on keys: the turns from tick 86 on, of which a store of
    guard's is chosen."""
    browser.look()
    browser.open(page.file)
    turn = next(row for row, line in enumerate(page.turns) if line.startswith("189 1 guard "))
    browser.value(f"void (document.querySelector('#timeline > p').hidden = true, stepper.timeline.first = 86, stepper.choose({turn}))")
    return browser.window()


FOLDER = None


def setUpModule():
    """A folder for pages."""
    global FOLDER
    FOLDER = tempfile.TemporaryDirectory()


def tearDownModule():
    """The folder goes, and what was made."""
    MADE.clear()
    FOLDER.cleanup()


@with_program
class Held(Case):
    """What pages hold, without a browser."""

    @each((f"the turns on the page of {name}", name) for name in PAGES)
    def test_turns(self, name):
        """They are the lines that the program prints, with their subjects and kinds; and all registers come out as it prints them."""
        page = made(name)
        names = [(str(one["cpu"]), one["name"]) for one in page.data["subjects"]]
        kinds = [kind for kind, *_ in page.data["kinds"]]
        found = [(str(tick), *names[who], f"{int(pc, 16):016x}", kinds[kind])
                 for tick, who, pc, kind in zip(*map(page.column, ("tick", "who", "pc", "kind")))]
        want(found, [(*line.split()[:4], kind_of(line)) for line in page.turns], "the turns")
        states = [dict(zip(page.data["fields"], one["start"])) for one in page.data["subjects"]]
        for who, change in zip(page.column("who"), page.column("change")):
            states[who].update(word.split("=") for word in change.replace("|", " ").split() if not word.startswith("pc="))
        finals = {words[1]: {} for words in map(str.split, page.lines) if words[0] == "end"}
        for words in map(str.split, page.lines):
            if words[0] == "regs":
                finals[words[1]].update((f"r{int(words[2]) + at}", f"{int(value, 16):x}") for at, value in enumerate(words[3:]))
            elif words[0] == "end":
                finals[words[1]].update(epc=f"{int(words[3], 16):x}", vbase=f"{int(words[4], 16):x}")
        want({one["name"]: state for one, state in zip(page.data["subjects"], states)}, finals, "the registers at the end")

    @each((f"memory at the end on the page of {name}", name) for name in PAGES)
    def test_memory(self, name):
        """Each region and each device's memory has the digest that the program prints."""
        page = made(name)
        printed = {words[1]: words[2] for words in map(str.split, page.lines) if words[0] in ("region", "device")}
        parts = re.findall(r'data-name="([^"]*)">.*?SHA-256 ([0-9a-f]{64})', page.page)
        want({unescape(one): digest for one, digest in parts}, printed, "the digests")
        want("differ" in page.page.split("<script")[0], False, "none differs")

    @each((f"what the page of {name} needs besides", name) for name in PAGES)
    def test_alone(self, name):
        """It needs nothing besides itself, and says so; its style and its script are those that it allows."""
        page = made(name).page
        policy = re.search(r'http-equiv="Content-Security-Policy" content="([^"]*)"', page)[1]
        want(policy.startswith("default-src 'none'; "), True, "the policy")
        for tag in ("style", "script"):
            inside = re.search(f"<{tag}>(.*?)</{tag}>", page, re.S)[1]
            digest = base64.b64encode(hashlib.sha256(inside.encode()).digest()).decode()
            self.want(f"{tag}-src 'sha256-{digest}'" in policy, True, f"the digest of its {tag}")
        visible = re.sub(r"xmlns(:xlink)?=\S+", "", page)
        want(re.findall(r"<link|<img|<iframe|\bsrc=|\bhref=\"(?!#)|@import|url\(|https?:|\sstyle=|\son\w+=", visible), [], "what it takes from elsewhere")

    def test_size(self):
        """The page of the gateway's 5,000 ticks has at most 3 MB."""
        want(len(made("gateway").page) <= 3_000_000, True, "at most 3 MB")

    def test_sources(self):
        """An instruction has its line of the source."""
        page = made("gateway")
        rows = {place: source for place, source, code in zip(*map(page.column, ("place", "source", "code"))) if code}
        source = (EXAMPLES / "gateway" / "black_code.asm").read_text(encoding="ascii").splitlines()
        seen = [line for place, line in rows.items() if place.startswith("black_code+")]
        want(all(re.match(r"black_code\.asm:\d+: ", line) for line in seen) and len(seen) > 5, True, f"the lines of black_code: {seen}")
        for line in seen:
            number, text = re.match(r"black_code\.asm:(\d+): (.*)", line).groups()
            self.want(source[int(number) - 1].split(";")[0].strip(), text, line)

    @each((f"who reads what devices write, on the page of {name}", name) for name in ("two_way_gateway", "packet_ring"))
    def test_reads(self, name):
        """From each line `dma` an arrow leads to each subject's first load from what it wrote, before that is stored over."""
        page, found = made(name), {}
        written = [(at, one[0], *re.search(r" = (\w+) into (\S+)[+](\w+)$", one[3]).groups()) for at, one in enumerate(page.data["inputs"])
                   if one[1] == "dma" and " into " in one[3]]
        want(len(written) > 1, True, "lines that write")
        for row, (tick, who, what) in enumerate(zip(*map(page.column, ("tick", "who", "what")))):
            if load := re.search(r" from (\S+)[+](\w+)$", what):
                over = [at for at, when, digits, region, offset in written if when <= tick and region == load[1]
                        and int(offset, 16) <= int(load[2], 16) < int(offset, 16) + len(digits) // 2]
                if over:
                    found.setdefault((over[-1], who), row)
        want([tuple(one) for one in page.data["reads"]], sorted(((at, row) for (at, _), row in found.items()), key=lambda one: one[1]), "the arrows")
        want(len(found) > 1, True, "how many there are")

    @each((f"numbers of the image on the page of {name}", name) for name in PAGES)
    def test_numbers(self, name):
        """Each address of a window and of a region in what the page tells of the image is marked as a number, and no name or decimal number is."""
        page = made(name)
        section = re.search(r'<section id="image">.*?</section>', page.page, re.S)[0]
        marked = re.sub(r'<span class="number mono">(.*?)</span>', r"#\1", section)
        for kind, words in (("window", 4), ("region", 3)):
            for line in (line for line in page.printed("map") if line[0] == kind):
                place, size = (f"{int(one, 16):x}" for one in line[words - 2:words])
                shown = f"window #{place} #{size} " if kind == "window" else f"#{int(line[1], 16):x} "
                self.want(shown in marked, True, " ".join(line))
        self.want(re.findall(r"(?:CPU|number|group|vector|call|trap|level) #", marked), [], "decimal numbers")
        self.want(re.findall(r"(?:from|starts at|ports?|MSRs?) [0-9a-f]+\b(?!\|)", marked), [], "numbers that aren't marked")
        self.want(set(re.findall(r"#(\w+)", marked)) & {one["name"] for one in page.data["subjects"]}, set(), "names")

    def test_dropped(self):
        """A line of direct memory access that leads nowhere is told as dropped; and of one that a subject stores over in a later tick
        memory has the store."""
        document = json.loads((EXAMPLES / "device_domains.json").read_text(encoding="utf-8"))
        document["memory"][0]["content"] = {"hex": checking_ring.word("LI", 2, imm=0x500000) + checking_ring.word("STORE", 2, 2, imm=8, size=3)}
        document["subjects"][0]["memory"][1]["rights"] = "rw"
        # behind the window that may be written is one that may not
        document["deviceDomains"][0]["memory"].append({"region": "code", "virtualAddress": 0x2000, "rights": "r"})
        with tempfile.TemporaryDirectory() as folder:
            policy, record = pathlib.Path(folder, "policy.json"), pathlib.Path(folder, "record")
            policy.write_text(json.dumps(document), encoding="utf-8")
            record.write_text("dma 0 nic 4104 0700\ndma 1 nic 8191 0707\nend 8\n", encoding="ascii")
            page = looked("report", policy, "--record", record)
        data = json.loads(zlib.decompress(base64.b64decode(re.search(r'id="data">([^<]*)<', page)[1])))
        want(data["inputs"], [[0, "dma", "nic", "dma at 1008 = 0700 into buf+8", "1008 is 4104"],
                              [1, "dma", "nic", "dma at 1fff = 0707: dropped at 2000, no right", "1fff is 8191, 2000 is 8192"]], "the inputs")
        want(data["reads"], [], "nobody reads what is written")
        want("digests are those that muen printed" in page, True, "the digests")

    def test_marked(self):
        """A region whose digest isn't the printed one is marked."""
        page, fake = made("packet_ring"), pathlib.Path(FOLDER.name, "fake")
        fake.write_text(f"#!/bin/sh\n'{PROGRAM}' \"$@\" | sed -E 's/^(region ring .*)[0-9a-f]$/\\1x/'\n", encoding="ascii")
        fake.chmod(0o755)
        other = looked("report", page.policy, "--record", EXAMPLES / "packet_ring.record", "--program", fake)
        names = [words[1] for words in map(str.split, page.lines) if words[0] in ("region", "device")]
        marks = re.findall(r'data-name="([^"]*)"><summary>.*?<span class="(good|bad)">', other)
        want(marks, [(name, "bad" if name == "ring" else "good") for name in names], "the marks")
        want('<p class="bad">of 1 the digest differs' in other and "ring" in names, True, "it is told")

    def test_faults(self):
        """What can't be made is answered by one line, and leaves no file."""
        refused, gateway = EXAMPLES / "refused" / "shared_writable.json", EXAMPLES / "gateway.json"
        with tempfile.TemporaryDirectory() as folder:
            file = pathlib.Path(folder, "page.html")
            for words, line in (([refused], f"{refused}: rule 8: data b; look refusal says where"),
                                (["nothing.json"], "nothing.json: missing file nothing.json; look refusal says where"),
                                ([gateway, "--record", gateway], f"{gateway}: record refused at line 1: word"),
                                ([gateway, "--sources", "nowhere", "--record", EXAMPLES / "gateway.record"], "nowhere: no folder")):
                self.want(said("report", *words, "--output", file), (1, f"look: {line}\n"), line)
            self.want(list(pathlib.Path(folder).iterdir()), [], "no file is left")
            self.want(said("report", gateway, "--output", "nowhere/page.html"), (1, "look: nowhere/page.html: No such file or directory\n"), "no folder")

    def test_without_dot(self):
        """Where dot isn't there, the page says so in place of the picture, and has the list of flows."""
        done = call([sys.executable, LOOK, "report", "gateway.json"], env={"PATH": ""})
        want((done.returncode, done.stderr), (0, b""), "status and errors")
        flows = re.search(r'<section id="flows">.*?</section>', done.stdout.decode(), re.S)[0]
        want(("No picture: graphviz&#x27;s dot" in flows, flows.count("<tr data-source")), (True, len(looked("ways", EXAMPLES / "gateway.json").splitlines())), "flows")

    def test_large(self):
        """Pictures of 32 subjects on 8 CPUs fit into a page of 830 pixels, with the names of all."""
        policy = made("ring").policy
        for picture, *words in (("plan",), ("memory",), ("matrix",), ("flows", "--fold")):
            with self.subTest(picture):
                if picture == "flows" and not shutil.which("dot"):
                    self.skipTest(NO_DOT)
                seen = Seen(looked("draw", picture, policy, *words))
                seen.names(f"s{at}" for at in range(32))
                want(float(seen.root.get("viewBox").split()[2]) <= 830, True, f"it is narrow: {seen.root.get('viewBox')}")

    def test_parts(self):
        """The matrix of 32 subjects has a cell for each window of `map`, in parts: a column for each subject, below its CPU, and in each
        row of a part some cell; `--whole` has the same cells in one."""
        page = made("ring")
        windows = Counter(f"{who} sees {shown} at {both(int(place, 16))}, {rights}" for _, who, place, _, rights, shown
                          in (words for words in page.printed("map") if words[0] == "window"))
        for words, is_narrow in (([], True), (["--whole"], False)):
            seen = Seen(looked("draw", "matrix", page.policy, *words))
            names = Counter(text.words for text in seen.texts)
            cells = Counter(title for _, title in seen.titled("rect") if " sees " in title)
            self.want((cells, names["code"] > 1), (windows, is_narrow), "the cells")
            self.want([at for at in range(32) if names[f"s{at}"] != 1] + [at for at in range(8) if names[f"CPU {at}"] != 1], [], "the columns")
            self.want(float(seen.root.get("viewBox").split()[2]) <= 830, is_narrow, "whether it is narrow")

    def test_without_record(self):
        """Without a record there is no run on the page."""
        page = looked("report", EXAMPLES / "gateway.json")
        want(re.findall(r'<section id="(\w+)"', page), SECTIONS[2:], "the sections")


@with_program
@with_browser
class Shown(Case):
    """How a browser shows pages."""

    @classmethod
    def setUpClass(cls):
        cls.browser = checking_browser.Browser()

    @classmethod
    def tearDownClass(cls):
        cls.browser.close()

    def opened(self, name):
        """The page is opened, and the browser says nothing."""
        page = made(name)
        self.browser.look()
        self.browser.open(page.file)
        want(self.browser.said, [], "what the browser says")
        return page, self.browser

    def test_readme(self):
        """README's picture is what share/draw-pictures makes, but for how letters are drawn."""
        with checking_browser.Browser(1200, 800) as browser:
            drawn = readme_picture(browser, made("two_way_gateway"))
            browser.key("ArrowRight")
            stored, other = (browser.different(one, drawn) for one in (README_PICTURE.read_bytes(), browser.window()))
        self.want((stored < .002, other >= .002), (True, True), f"what differs: {stored}, and of another turn {other}")

    @each((f"the page of {name} in a browser", name) for name in PAGES)
    def test_sections(self, name):
        """Each section is there with what it has to show, in light and dark; nothing is wider than the window; and it prints."""
        page, browser = self.opened(name)
        self.want(browser.value("[...document.querySelectorAll('section')].map(one => one.id)"), SECTIONS, "the sections")
        flows, windows = page.printed("flows"), [words for words in page.printed("map") if words[0] == "window"]
        regions = [line for line in page.lines if line.startswith(("region ", "device "))]
        subjects, dots = len(page.data["subjects"]), sum(len(words) - 3 for words in flows)
        counts = {"#memory .region .good": len(regions), "#memory .region .bad": 0,
                  "#closed td[title*=' can depend']:not(:empty)": dots, "#closed td:empty": subjects ** 2 - dots,
                  "#steps tbody tr": len(looked("ways", page.policy).splitlines()), "#leave input": subjects, "#verify .good": 1,
                  "#around tbody tr": 17 if len(page.turns) > 16 else len(page.turns)}
        for selector, count in counts.items():
            self.want(browser.value(f"document.querySelectorAll({json.dumps(selector)}).length"), count, selector)
        cells = browser.value("[...document.querySelectorAll('#matrix rect[data-thing] title')].map(one => one.textContent)")
        self.want({f"{who} sees {shown} at {both(int(place, 16))}, {rights}" for _, who, place, _, rights, shown in windows} - set(cells), set(), "the matrix")
        for where in ("#map", "#plan", "#flows", "#closed", "#image"):
            text = browser.value(f"document.querySelector('{where}').textContent")
            self.want([one["name"] for one in page.data["subjects"] if one["name"] not in text], [], f"names in {where}")
        grounds = []
        for scheme in ("light", "dark"):
            browser.look(scheme)
            grounds.append(browser.value("getComputedStyle(document.body).backgroundColor"))
            self.want(browser.value("document.documentElement.scrollWidth <= innerWidth"), True, f"nothing is too wide, {scheme}")
        self.want(len(set(grounds)), 2, f"light and dark: {grounds}")
        if name == "two_way_gateway":
            self.want(base64.b64decode(browser.call("Page.printToPDF")["data"])[:5], b"%PDF-", "it prints")

    def test_drawn(self):
        """In the middle of its place each turn that is seen has the colour of its kind."""
        page, browser = self.opened("two_way_gateway")
        browser.value("void (stepper.timeline.scale = 8, stepper.timeline.first = 80, stepper.timeline.draw())")
        ticks, kinds, who = map(page.column, ("tick", "kind", "who"))
        wrong = []
        for row, (tick, kind) in enumerate(zip(ticks, kinds)):
            # halts and outputs are hatched
            if 82 <= tick < 130 and page.data["kinds"][kind][0] not in ("halt", "output"):
                spot = (f"(() => {{ const one = stepper.timeline, dots = devicePixelRatio; return [...one.pen.getImageData("
                        f"(one.x({tick}) + 3) * dots, (one.y({who[row]}) + 2) * dots, 1, 1).data].slice(0, 3); }})()")
                colour = list(KINDS.values())[kind]
                if browser.value(spot) != [int(colour[at:at + 2], 16) for at in (1, 3, 5)]:
                    wrong.append(page.turns[row])
        self.want(wrong, [], "turns of another colour")

    def test_click_and_keys(self):
        """A click chooses a turn; keys step, zoom, search and follow arrows."""
        page, browser = self.opened("two_way_gateway")
        head = "document.querySelector('#told h3').textContent"
        row = next(at for at, line in enumerate(page.turns) if line.startswith("13 1 encrypt"))
        x, y = browser.value(f"(() => {{ const one = stepper.timeline; one.canvas.scrollIntoView(); const box = one.canvas.getBoundingClientRect();"
                             f" return [box.x + one.x(13.5), box.y + one.y({page.column('who')[row]}) + 5]; }})()")
        browser.click(x, y)
        self.want(browser.value(head), "Tick 13, CPU 1, encrypt", "the turn that was clicked")
        self.want(browser.value("document.querySelector('#what').textContent"), page.column("what")[row], "what happened")
        browser.key("c")
        self.want(browser.value(head), "Tick 13, CPU 0, red", "its cause")
        browser.key("ArrowRight")
        self.want(browser.value(head), "Tick 13, CPU 1, encrypt", "one turn on")
        browser.key("ArrowRight", shift=True)
        self.want(browser.value(head), "Tick 14, CPU 1, encrypt", "one turn of the subject on")
        shown = browser.value("stepper.timeline.end - stepper.timeline.first")
        browser.key("+")
        self.want(browser.value("stepper.timeline.end - stepper.timeline.first") < shown / 1.5, True, "closer")
        browser.key("/")
        for letter in "trapped":
            browser.key(letter)
        browser.key("Enter")
        traps = [line.split()[0] for line in page.turns if line.endswith(" trap")]
        self.want(browser.value(head), f"Tick {traps[0]}, CPU 1, encrypt", "what was searched")
        self.want(browser.value("document.querySelector('#count').textContent"), f"1 of {len(traps)} turns", "how many were found")

    def test_registers(self):
        """Registers before and after each turn are those of a walk from the start; and a turn ends where the subject's next one stands,
        but where a monitor has stored another address into its state."""
        page, browser = self.opened("two_way_gateway")
        found = browser.value("[...Array(stepper.run.count).keys()].map(turn => stepper.run.registers(turn))")
        states = [dict(zip(page.data["fields"], one["start"])) for one in page.data["subjects"]]
        ends, moved, wrong = {}, [], []
        for row, (who, pc, change) in enumerate(zip(*map(page.column, ("who", "pc", "change")))):
            for part, when in zip(change.split("|"), ("before", "after")):
                states[who].update(word.split("=") for word in part.split() if not word.startswith("pc="))
                if {name: value for name, value in found[row][when].items() if name != "pc"} != states[who]:
                    wrong.append(f"{when} {page.turns[row]}")
            if ends.get(who, pc) != pc:
                moved.append(row)
            ends[who] = found[row]["after"]["pc"]
        self.want(wrong, [], "where registers differ")
        monitors = [end for _, end, kind in page.data["arrows"] if page.data["arrow_kinds"][kind][0] == "monitor"]
        self.want((moved, len(monitors)), (monitors, 1), "where a subject goes on elsewhere")
        stored = [row for row, what in enumerate(page.column("what")) if "encrypt:state+80 (pc)" in what]
        self.want(page.column("pc")[moved[0]], f"{int(page.turns[stored[-1]].split()[-1], 16):x}", "the address that the monitor has stored")

    def test_matrix_and_flows(self):
        """A click on a cell marks its flows; a subject is left out, and flows are folded."""
        page, browser = self.opened("two_way_gateway")
        browser.click(*browser.middle("#matrix rect[data-thing='to_seal'][data-subject='red']"))
        marked = browser.value("[...document.querySelectorAll('#steps tr.marked')].map(row => [...row.cells].map(one => one.textContent.trim()).join(' '))")
        self.want(marked, ["red encrypt channel to_seal", "red encrypt event to_seal: call 1, asap, vector 40"], "the flows that are marked")
        visible = "[...document.querySelectorAll('#steps tbody tr')].filter(row => row.offsetHeight).length"
        watch = sum("watch" in line.split(":")[0].split() for line in looked("ways", page.policy).splitlines())
        every = browser.value(visible)
        browser.click(*browser.middle("#leave input[value='watch']"))
        self.want(browser.value(visible), every - watch, "flows without watch")
        if browser.value("document.querySelectorAll('#flows svg').length"):
            gone = "[...document.querySelectorAll('#flows .whole g.node')].filter(one => one.classList.contains('gone')).map(one => one.querySelector('title').textContent)"
            self.want(browser.value(gone), ["watch"], "the nodes that are gone")
            browser.click(*browser.middle("#fold"))
            self.want(browser.value("[document.querySelector('#flows .whole').offsetHeight > 0, document.querySelector('#flows .folded').offsetHeight > 0]"),
                      [False, True], "folded")

    def test_sums(self):
        """Where turns are summed up, halts and outputs are hatched, and so no bar of theirs is higher than two pixels without a line; others are."""
        page, browser = self.opened("gateway")
        browser.value("void stepper.timeline.zoom(0)")
        runs = browser.value("""(() => { const one = stepper.timeline, found = {};
            const { data, width, height } = one.pen.getImageData(0, 0, one.canvas.width, one.canvas.height);
            for (let x = 0; x < width; x++) {
              let before = "", high = 0;
              for (let y = 0; y < height; y++) {
                const at = 4 * (y * width + x), colour = [0, 1, 2].map(part => data[at + part].toString(16).padStart(2, "0")).join("");
                high = colour === before ? high + 1 : 1;
                before = colour;
                found[colour] = Math.max(found[colour] || 0, high);
              }
            }
            return found; })()""")
        highest = {kind: runs.get(colour[1:], 0) for kind, _, colour, _ in page.data["kinds"]}
        self.want({kind: 0 < highest[kind] <= 2 for kind in ("halt", "output")}, {"halt": True, "output": True}, f"hatched: {highest}")
        self.want(highest["instruction"] > 4, True, f"not hatched: {highest}")

    def test_decimal(self):
        """Where the pointer is, hexadecimal numbers are told in decimal."""
        _, browser = self.opened("two_way_gateway")
        browser.value("void stepper.goTo(3)")
        for selector, wanted in (("#image .number", ["1000000 hexadecimal is 16777216 decimal"]), ("#what", ["300 hexadecimal is 768 decimal"]),
                                 ("#timeline pre .number", [])):
            text, title = browser.value(f"""(() => {{ const cell = document.querySelector({json.dumps(selector)});
                cell.dispatchEvent(new MouseEvent("mouseover", {{ bubbles: true }})); return [cell.textContent, cell.title]; }})()""")
            digits, decimal = re.fullmatch(r"(\w+) hexadecimal is (\d+) decimal", title).groups()
            self.want((digits in text, int(decimal), not wanted or title in wanted), (True, int(digits, 16), True), f"{selector}: {text}, {title}")

    def test_read(self):
        """Of a turn that reads what a device has written the page tells the line, and of that line who reads it."""
        page, browser = self.opened("two_way_gateway")
        (number, row), head = page.data["reads"][0], "document.querySelector('#told').textContent"
        browser.value(f"void stepper.choose({row})")
        tick, _, device, text, _ = page.data["inputs"][number]
        self.want(f"from, dma{tick} {device} {text}" in browser.value(head), True, "where it comes from")
        browser.value(f"void stepper.goTo({tick})")
        self.want(f"read by{' '.join(page.turns[row].split()[:3])}" in browser.value(head), True, "who reads it")

    @each((f"how fast the page of {name} is", name, most) for name, most in (("gateway", 1000), ("ring", 3000)))
    def test_fast(self, name, most):
        """The best of five times: it is drawn within so many milliseconds, and a zoom is within 50."""
        page, browser = made(name), self.browser
        opened = min(browser.open(page.file) for _ in range(5))
        self.want(opened <= most, True, f"drawn within {most} ms: {opened}")
        zoom = ("(() => { const times = [], { timeline } = stepper; for (const factor of [.5, .5, .5, .01, 2, 2, 2, 2, 2]) { const begun = performance.now();"
                " timeline.zoom(factor); timeline.pen.getImageData(0, 0, 1, 1); times.push(performance.now() - begun); }"
                " return times.sort((one, other) => one - other)[4]; })()")
        times = [browser.value(zoom) for _ in range(3)]
        self.want(min(times) <= 50, True, f"a zoom within 50 ms: {times}")
