"""The parts of what is asked: what a policy declares, and the parts that need no policy."""
import pathlib

import bitmaps
import damage
import declared
import emulator
import image
import questions
import random_policies
import spoiled


def look_for_programs():
    """Ends in Lacking where a program isn't there."""
    emulator.look_for_programs()


def examples(folder):
    """The policies of a folder."""
    return sorted(map(str, folder.glob("*.json")))


def line_of(name, asked, counts):
    """A line of counts."""
    known = [f"{count} {word}" for word, count in sorted(counts.known.items())]
    return f"{name}: {asked} asked, {len(counts.differ)} differ" + (f"; known: {', '.join(known)}" if known else "")


def damaged_entries(program, folder, words):
    """Damaged entries of tables."""
    counts = damage.asked(program, folder, words)
    return [line_of("damaged entries", counts.asked["damaged entries"], counts)], counts.differ


def random_bitmaps(program, folder, words):
    """Random bitmaps."""
    counts = bitmaps.asked(program, folder, words)
    return [line_of("random bitmaps", counts.asked["random bitmaps"], counts)], [line for _, line in counts.differ]


def spoiled_bytes(program, folder, _):
    """The judge's own test."""
    seen = spoiled.asked(program, folder)
    unspoiled = seen.pop("nothing")
    missed = [f"{name}: nothing differs" for name, count in seen.items() if not count]
    if unspoiled:
        missed.append(f"nothing is spoiled: {unspoiled} differ")
    return [f"spoiled bytes: {len(seen)} asked, {sum(map(bool, seen.values()))} seen"], missed


def policies_of_chance(program, folder, words):
    """What policies of chance declare."""
    lines, differ = [], []
    for path in random_policies.write(folder, words.seed, words.count or 20):
        more, wrong = policy(program, path, folder, words.short)
        lines, differ = lines + more, differ + [f"{path.stem}: {one}" for one in wrong]
    return lines, differ


PARTS = {"damage": damaged_entries, "bitmaps": random_bitmaps, "spoiled": spoiled_bytes, "random": policies_of_chance}


def answer(program, name, folder, words):
    """The lines of a part or of a policy, and what differs."""
    if name in PARTS:
        return PARTS[name](program, folder, words)
    return policy(program, pathlib.Path(name).resolve(), folder, words.short)


def policy(program, path, folder, short):
    """What a policy declares."""
    subjects, _ = declared.declared(program, path)
    made = image.read(image.built(program, path, folder))
    sheet = questions.Sheet()
    beyond = questions.ask_policy(sheet, subjects, made, short)
    counts = questions.compare(sheet, emulator.ask(folder, made.memory(), made.spans, sheet.packed))
    line = line_of(path.name, ", ".join(f"{count} {topic}" for topic, count in counts.asked.items()), counts)
    if beyond:
        line += f"; {beyond} more beyond the processor's physical bits"
    return [line], [f"{topic}: {words}" for topic, words in counts.differ]
