"""What examples/ and the documents on them promise: everything has an example, and what is quoted is printed, or stands in a source."""
import json
import re
import shutil
import unittest

from checking import EXAMPLES, PROGRAM, TOP, Case, call, each, want, with_program
from looking.guest import TABLE, decode

RULES = 24
RECORD = re.compile(r"(\w+\.record)`")


def text_of(document):
    """The text of a document."""
    return (TOP / document).read_text(encoding="utf-8")


def rows():
    """The cells of each row of the tables of examples/README.md whose first one is a policy."""
    for row in text_of("examples/README.md").splitlines():
        cells = [cell.strip() for cell in row.strip("|").split("|")]
        if re.fullmatch(r"`\S+\.json`", cells[0]):
            yield cells


def readme_rows():
    """Of each policy in the tables of examples/README.md its refusal, or none where it runs."""
    for cells in rows():
        line = re.fullmatch(r"`(muen: .*)`", cells[-1])
        yield cells[0].strip("`"), line and line[1]


# the examples that run, and those that are refused, with the line
RUNNING = [name for name, line in readme_rows() if not line]
REFUSED = [(name, line) for name, line in readme_rows() if line]


# ---- everything has an example

def policies():
    """The documents of examples/, those that are refused too."""
    return [json.loads(policy.read_text(encoding="utf-8")) for policy in sorted(EXAMPLES.glob("**/*.json"))]


def values(document):
    """All values of a document, itself first."""
    yield document
    if isinstance(document, (dict, list)):
        for value in document.values() if isinstance(document, dict) else document:
            yield from values(value)


def objects(kinds, kind, value):
    """Each object of a document, with its kind in the schema."""
    yield kind, value
    for key, rule in kinds[kind]["properties"].items():
        many = rule.get("type") == "array"
        below = (rule["items"] if many else rule)["$ref"].rsplit("/", 1)[1]
        if below[0].isupper():
            found = value.get(key, []) if isinstance(value, dict) else []
            for item in found if isinstance(found, list) else [found]:
                yield from objects(kinds, below, item)


class Everything(Case):
    """Everything has an example."""

    def all_of(self, wanted, found, what):
        """Nothing of what is wanted is missing."""
        want(sorted(set(wanted) - set(found)), [], what)

    def test_key(self):
        """Each key of each object of the schema stands in some policy."""
        kinds = json.loads(text_of("share/policy.schema.json"))["$defs"]
        found = {(kind, key) for policy in policies() for kind, value in objects(kinds, "System", policy) if isinstance(value, dict) for key in value}
        wanted = {(kind, key) for kind in kinds if kind[0].isupper() for key in kinds[kind]["properties"] if key != "description"}
        self.all_of(wanted, found, "keys without an example")

    def test_instruction(self):
        """Each instruction stands in the code of some policy that runs."""
        found = set()
        for policy in EXAMPLES.glob("*.json"):
            for value in values(json.loads(policy.read_text(encoding="utf-8"))):
                code = bytes.fromhex(value["hex"]) if isinstance(value, dict) and "hex" in value else b""
                words = [decode(code[at:at + 8]) for at in range(0, len(code) - 7, 8)]
                found |= {word.name for word in words if word}
        self.all_of((row[0] for row in TABLE), found, "instructions without an example")

    def test_word(self):
        """Each mode of events, role, right of a window and of MSRs, and each end of a line stands in some policy that runs."""
        found = {(key, value[key]) for policy in EXAMPLES.glob("*.json") for value in values(json.loads(policy.read_text(encoding="utf-8")))
                 if isinstance(value, dict) for key in ("mode", "hasEvent", "role", "rights") if isinstance(value.get(key), str)}
        modes = {(key, mode) for key in ("mode", "hasEvent") for mode in ("asap", "async", "switch")}
        self.all_of({*modes, ("mode", "self"), ("role", "writer"), ("role", "reader"), *(("rights", right) for right in ("r", "w", "rw", "rx", "rwx"))},
                    found, "words without an example")

    def test_input(self):
        """Each kind of line stands in some record."""
        found = {line.split()[0] for record in EXAMPLES.glob("*.record") for line in record.read_text(encoding="ascii").splitlines()}
        self.all_of(("order", "port", "mem", "irq", "dma", "end"), found, "lines of a record without an example")

    def test_rule(self):
        """Each rule refuses some policy."""
        found = [int(rule) for cells in rows() for rule in re.findall(r"^`muen: rule (\d+):", cells[-1])]
        self.all_of(range(1, RULES + 1), found, "rules without a refusal")


class Expanded(Case):
    """Policies by jsonnet."""

    @unittest.skipUnless(shutil.which("jsonnet"), "jsonnet isn't there")
    @each((f"examples/{file.name}", file) for file in sorted(EXAMPLES.glob("*.jsonnet")))
    def test_expanded(self, file):
        """Expanded, it is the plain policy of its name."""
        done = call(["jsonnet", file])
        want((done.returncode, done.stderr), (0, b""), "the status and errors of jsonnet")
        want(json.loads(done.stdout), json.loads(file.with_suffix(".json").read_text(encoding="utf-8")), "the policy")


# ---- what documents quote

def quoted():
    """Of each row of a policy that runs, and of each section of a document that quotes runs: policies, records and lines."""
    for policy, *cells in rows():
        if "refused" not in policy:
            yield f"examples/{policy[1:-1]} in its README", [policy[1:-1]], RECORD.findall(cells[0]), lines_in(" ".join(cells))
    for document in ("examples/worked.md", "docs/scheduling.md"):
        for section in text_of(document).split("\n## ")[1:]:
            policies = [policy for policy in re.findall(r"(\w+\.json)`", section) if (EXAMPLES / policy).is_file()]
            yield f"{document}, {section.splitlines()[0]}", policies, RECORD.findall(section), lines_in(section)


def lines_in(text):
    """The lines of a run in a text: between marks, or on a line of their own."""
    return re.findall(r"(?m)(?:^|`)((?:\d+ \d|end|regs|region) \w[^`\n]*[^`.\n])(?:`|$)", text)


def steps():
    """Each step of examples/README.md: its command, and the line that it prints."""
    for step in re.findall(r"(?m)^\d+\. .*$", text_of("examples/README.md")):
        command, line = re.findall(r"`([^`]*)`", step)[-2:]
        yield command, line


class Quoted(Case):
    """What documents quote is printed, or stands in a source."""

    @with_program
    @each((f"the lines of {where}", *what) for where, *what in quoted())
    def test_printed(self, policies, records, lines):
        """Each line is printed of one of the policies with one of the records."""
        found = set()
        for policy in policies if lines else ():
            for record in records or ["twenty_ticks.record"]:
                done = call([PROGRAM, "boot", policy, record])
                self.want((done.returncode, done.stderr), (0, b""), f"boot of {policy} with {record}")
                found |= set(done.stdout.decode().splitlines())
        want([line for line in lines if line not in found], [], "lines that aren't printed")

    @with_program
    @each((f"step {number} of examples/README.md", *step) for number, step in enumerate(steps(), 1))
    def test_step(self, command, line):
        """The command of a step prints the line."""
        done = call(["bash", "-c", command])
        want((done.returncode, line in done.stdout.decode().splitlines()), (0, True), line)

    def test_excerpts(self):
        """Each block of a document that begins with the name of a source is a part of it."""
        count = 0
        for document in sorted(TOP.glob("docs/*.md")):
            for name, part in re.findall(r"(?ms)^```\n; (\w+/\w+\.asm)\n(.*?)^```", document.read_text(encoding="utf-8")):
                count += 1
                self.want(part in (EXAMPLES / name).read_text(encoding="utf-8"), True, f"{document.name}: the part of {name} is in it")
        want(count > 0, True, "some document has a part of a source")
