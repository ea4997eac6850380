"""The rules that a policy must keep, over whole documents: each answer was worked out by hand from the text of the rules."""
from calling import SYSTEMS, Calls, changed, numbered, texts
from checking import each, want, with_program

TEXTS = texts("rules")

# rows of changes, and the document that they change
ROWS = (("memory and plan", "lawful"), ("cpus", "on two"), ("references and channels", "whole"), ("devices and events", "whole"), ("plan and domains", "whole"))


def longer(document, lists, count):
    """The document with so many items more."""
    for one in lists.split(" | "):
        anchor, item = one.split("=>", 1)
        document = document.replace(anchor, "".join(item.replace("@", str(number)) + "," for number in range(count)) + anchor, 1)
    return document


@with_program
class Lawful(Calls):
    """`flows` answers each document."""

    def answers(self, policy, line):
        """`flows` accepts the policy, or refuses it with this line."""
        self.hold(p=policy)
        answer, out = self.ended("flows p")
        want((answer, bool(out)), ("0 ", True) if line == "lawful" else (f"2 muen: {line}", False), "the answer, and whether something is printed")

    @each((title, row, system) for name, system in ROWS for title, row in numbered(name, TEXTS[name].split("\n")))
    def test_row(self, row, system):
        """The line of the answer, and changes to the document."""
        line, _, changes = row.partition(" | ")
        self.answers(changed(SYSTEMS[system], changes), line)

    @each(numbered("longest lists", TEXTS["longest lists"].split("\n")))
    def test_longest(self, row):
        """So many items more are lawful, and one more isn't."""
        system, most, line, lists = row.split(" | ", 3)
        for count, answer in ((int(most), "lawful"), (int(most) + 1, line)):
            with self.subTest(f"{count} items more"):
                self.answers(longer(SYSTEMS[system], lists, count), answer)
