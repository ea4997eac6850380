"""What crates.txt promises: each crate behind those that it cites, in its room, and its README with how many stand on it."""
import re
import subprocess

from checking import TOP, Case, each, want
from crate_list import below, count_line, crates, readme


# what has to be read for all clauses of muen, and for `boots`, in lines: share/footprint
MOST_LINES = (5665, 2316)


class Crates(Case):
    """crates.txt, the rooms of docs/architecture.md, and the READMEs of crates."""

    def rooms(self):
        """The crates below each heading of crates.txt."""
        found = {}
        for block in (TOP / "crates.txt").read_text(encoding="utf-8").split("\n\n")[1:]:
            heading, *lines = block.splitlines()
            room = re.fullmatch(r"# (.*?)(?: \(.*\))?", heading)[1]
            found.setdefault(room, set()).update(line.split(":")[0] for line in lines)
        return found

    def test_lowest_first(self):
        """Each crate stands behind those that it cites."""
        before = set()
        for name, below in crates().items():
            self.want([one for one in below if one not in before], [], f"what {name} cites and stands behind it")
            before.add(name)

    def test_rooms(self):
        """The crates below each heading, which is `# ROOM` or `# ROOM (WHY)` behind an empty line, are those of docs/architecture.md."""
        found = self.rooms()
        rows = re.findall(r"(?m)^\| ([^|`]+) \| ((?:`\w+`(?:, )?)+) \|", (TOP / "docs" / "architecture.md").read_text(encoding="utf-8"))
        self.want(set(found), {room for room, _ in rows}, "the rooms")
        for room, names in rows:
            self.want(found.get(room), set(re.findall(r"\w+", names)), f"the crates of the room {room}")

    def test_checkers_apart(self):
        """The checkers stand on no crate that builds an image, runs one or proves what holds of either, but on three that go from a policy to what an image has to have, and that of tables for devices on these."""
        rooms = {name: room for room, names in self.rooms().items() for name in names}
        apart = {"the abstract system", "proofs", "reports", "the program"}
        writers = {"ept_emit", "event_emit", "plan_emit"}
        tables = {"device_bench", "dma_tables"}
        machine = {"event_router", "image_emit", "image_load", "kernel_core", "muen_build", "muen_run", "region_alloc", "view_text", "vmx_machine"}
        for checker, more in (("image_verify", machine | tables), ("dma_check", machine)):
            found = {one for one in below(checker) if rooms[one] in apart or one in more or rooms[one] == "who writes it" and one not in writers}
            self.want(found, set(), f"what {checker} stands on")

    def test_twins(self):
        """No statement is proved in several files, and no definition stands twice, but for those that share/twins has a reason for."""
        told = subprocess.run([TOP / "share" / "twins"], cwd=TOP, capture_output=True, text=True, check=True).stdout
        self.want(told, "0 statements in several files (0 copies), 0 definitions\n", "what share/twins tells")

    def test_footprint(self):
        """The lines of definitions under all clauses of muen, and under `boots`, only fall."""
        told = self.footprint()
        found = [int(lines) for lines in re.findall(r"(\d+) lines", told)]
        self.want([most for most, lines in zip(MOST_LINES, found, strict=True) if lines > most], [], f"what is exceeded by {told}")

    def test_reading_order(self):
        """docs/definitions.md tells the lines that each step of its reading order adds, and those of all."""
        text = (TOP / "docs" / "definitions.md").read_text(encoding="utf-8")
        rows = re.findall(r"(?m)^\| \d+ \| `([^`]+)` \| .* \| (\d+) \|$", text)
        self.want(self.footprint("--in-turn", *(word for word, _ in rows)), "".join(f"{int(lines):4} {word}\n" for word, lines in rows), "what share/footprint --in-turn tells")
        told = re.search(r"rest on ([\d,]+) lines, `boots` on ([\d,]+)", text).groups()
        self.want([int(number.replace(",", "")) for number in told], [int(lines) for lines in re.findall(r"(\d+) lines", self.footprint())], "the lines under all clauses, and under boots")

    def footprint(self, *words):
        """What share/footprint tells."""
        return subprocess.run([TOP / "share" / "footprint", *words], cwd=TOP, capture_output=True, text=True, check=True).stdout

    @each((f"how many crates stand on {name}", name) for name in crates())
    def test_count(self, name):
        """The last line of its README."""
        want(readme(name).read_text(encoding="utf-8").splitlines()[-1], count_line(name), "its last line (share/modules --count writes it)")
