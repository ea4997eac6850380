"""The checks of docs/rules.md: its policy, and each row there that changes one value of it."""
import json
import pathlib
import re
import tempfile

from checking import PROGRAM, TOP, Case, call, each, want, with_program


def rules():
    """The policy of docs/rules.md, and of each row that writes one value elsewhere in it where, what and the refusal."""
    text = (TOP / "docs" / "rules.md").read_text(encoding="utf-8")
    policy = re.search(r"(?ms)^```json\n(.*?)^```", text).group(1)
    rows, rule = [], None
    for line in text.splitlines():
        if heading := re.match(r"## Rule (\d+):", line):
            rule = heading.group(1)
        if row := re.match(r"\| `(/\S+)` \| `(.*?)` \| `(\S+ \S+)` \|", line):
            rows.append((row.group(1), row.group(2), f"muen: rule {rule}: {row.group(3)}"))
    return policy, rows


def changed(policy, at, value):
    """The policy with this value at a place: in place of what stands there, one item more, or a further key."""
    document = json.loads(policy)
    *above, last = at.split("/")[1:]
    inside = document
    for step in above:
        inside = inside[int(step) if isinstance(inside, list) else step]
    if isinstance(inside, list):
        inside[int(last):int(last) + 1] = [value]
    else:
        inside[last] = value
    return json.dumps(document)


POLICY, ROWS = rules()


@with_program
class Rules(Case):
    """`map` answers the policy of docs/rules.md, and what each row makes of it."""

    def answers(self, policy, line):
        """`map` answers the policy with this line, or accepts it where there is none."""
        with tempfile.TemporaryDirectory() as folder:
            pathlib.Path(folder, "policy.json").write_text(policy, encoding="utf-8")
            done = call([PROGRAM, "map", "policy.json"], folder)
        want((done.returncode, done.stderr.decode()), (2, f"{line}\n") if line else (0, ""), "its answer")

    def test_policy(self):
        """The policy is accepted."""
        self.answers(POLICY, None)

    @each((f"docs/rules.md: {stands} at {at}", at, stands, line) for at, stands, line in ROWS)
    def test_row(self, at, stands, line):
        """The changed policy is refused so."""
        self.answers(changed(POLICY, at, json.loads(stands)), line)
