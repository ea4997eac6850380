"""The parts of what devices are asked, and their lines: a policy's domains, and the parts that need no policy."""
import json
import pathlib

import bus
import dma_damage
import dma_questions
import dma_spoiled
import domains
import random_domains
import sources

WORDS = {"writes": "{} writes ({} arrive)", "reads": "{} reads ({} arrive)", "lines": "{} lines",
         "regions": "{} regions"}


def look_for_programs():
    """Ends in Lacking where a program isn't there."""
    bus.look_for_programs()


def examples(folder):
    """The policies of a folder that have domains."""
    return [str(path) for path in sorted(folder.glob("*.json"))
            if json.loads(path.read_text(encoding="utf-8")).get("deviceDomains")]


def line_of(name, counts):
    """A line of counts."""
    asked = ", ".join(text.format(counts.asked[what], counts.arrived.get(what, 0))
                      for what, text in WORDS.items() if what in counts.asked)
    return f"{name}: {asked} asked, {len(counts.differ)} differ"


def spoiled_tables(program, folder, words):
    """The judge's own test."""
    seen = dma_spoiled.asked(program, folder, words.seed)
    unspoiled = seen.pop("nothing")
    missed = [f"{name}: nothing differs" for name, count in seen.items() if not count]
    if unspoiled:
        missed.append(f"nothing is spoiled: {unspoiled} differ")
    return [f"spoiled tables: {len(seen)} asked, {sum(map(bool, seen.values()))} seen"], missed


def every_source(program, folder, words):
    """Every source of the buses 1 to 255, or of so many of them."""
    path = random_domains.write(folder, words.seed, 1, 30)[0]
    counts = sources.asked(program, path, folder, words.seed, range(1, 1 + min(255, words.count or 255)))
    return [line_of("every source", counts)], counts.differ


def damaged_tables(program, folder, words):
    """Damaged entries."""
    counts = dma_damage.asked(program, folder, words.seed, words.count or 600)
    return [line_of("damaged entries", counts)], counts.differ


def policies_of_chance(program, folder, words):
    """What policies of chance declare."""
    lines, differ = [], []
    for path in random_domains.write(folder, words.seed, words.count or 4):
        more, wrong = policy(program, path, folder, words)
        lines, differ = lines + more, differ + [f"{path.stem}: {one}" for one in wrong]
    return lines, differ


PARTS = {"damage": damaged_tables, "spoiled": spoiled_tables, "sources": every_source, "random": policies_of_chance}


def answer(program, name, folder, words):
    """The lines of a part or of a policy, and what differs."""
    if name in PARTS:
        return PARTS[name](program, folder, words)
    return policy(program, pathlib.Path(name).resolve(), folder, words)


def policy(program, path, folder, words):
    """What a policy declares."""
    counts = dma_questions.ask_policy(program, domains.made(program, path, folder), folder, words)
    return [line_of(path.name, counts)], counts.differ
