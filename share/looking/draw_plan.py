"""look draw plan: the scheduling plan, with the share and the longest wait of each group."""
from itertools import product

from looking.scene import add_system, scene_of
from looking.svg import Picture, round_step, shortened, widest, width
from looking.words import counted

HELP = "bars of the scheduling plan, share and longest wait of each group"
LONG_HELP = """Draws for each major frame and CPU the minor frames as bars, and below for each group its
ticks, its share of the CPU, and its longest wait: the most ticks, one after another, in
which it hasn't the CPU. Where a subject chooses the major frames, each of them may follow
each: shares are those in each frame, and a group that lacks a frame may wait without end."""
COLOURS = ["#a6cee3", "#fdbf6f", "#b2df8a", "#fb9a99", "#cab2d6", "#ffff99",
           "#8dd3c7", "#e5c494", "#d9d9d9", "#fccde5", "#ccebc5", "#f4f4ec"]
LEFT, WIDE, LEAST, BAR = 62, 740, 220, 32


def add_arguments(parser):
    """The words of this picture."""
    add_system(parser)


def draw(arguments):
    """The picture."""
    return drawn(scene_of(arguments))


def drawn(scene):
    """The picture of a scene."""
    picture = Picture()
    y = heading(picture, scene)
    longest = max(frame.ticks for frame in scene.frames)
    for number, frame in enumerate(scene.frames):
        y = draw_frame(picture, scene, number, max(LEAST, WIDE * frame.ticks / longest), y + 22)
    draw_groups(picture, scene, y + 26)
    return picture.svg(f"the plan of {scene.source}")


def heading(picture, scene):
    """How the major frames follow one another."""
    count, ticks = len(scene.frames), counted(sum(frame.ticks for frame in scene.frames), "tick")
    picture.text(LEFT, 20, f"{scene.source}: {counted(count, 'major frame')}, {ticks}", room=WIDE, bold=True, size=13)
    if scene.choice:
        who, region = " or ".join(scene.choosers) or "nobody", scene.choice
        picture.text(LEFT, 38, f"{shortened(who, 300)} chooses which comes next, by the first byte of {shortened(region, 300)}",
                     title="" if width(who + region) < 300 else f"{who}: {region}")
    else:
        picture.text(LEFT, 38, "one after another, again and again" if count > 1 else "again and again")
    return 38


def draw_frame(picture, scene, number, wide, y):
    """The bars of a major frame, and its ticks."""
    frame = scene.frames[number]
    scale = wide / frame.ticks
    picture.text(LEFT, y, f"major frame {number}: {counted(frame.ticks, 'tick')}", fill="#444")
    y += 8
    for cpu, minors in enumerate(frame.minor_frames):
        picture.text(8, y + BAR / 2 + 4, f"CPU {cpu}")
        at = 0
        for group, ticks in minors:
            draw_bar(picture, scene.groups[group], COLOURS[group % len(COLOURS)], (LEFT + at * scale, y, ticks * scale),
                     f"major frame {number}, CPU {cpu}, ticks {at} to {at + ticks - 1}", ticks)
            at += ticks
        y += BAR + 6
    return draw_ticks(picture, LEFT, y - 2, 0, frame.ticks, scale)


def draw_bar(picture, group, colour, where, when, ticks):
    """A minor frame: the members of its group, and its ticks."""
    x, y, wide = where
    names = "/".join(group.members)
    picture.rect(x, y, wide, BAR, title=f"{when}: {group.name} ({names})", fill=colour, stroke="#555", stroke_width=".7")
    picture.text(x + wide / 2, y + 14, names, room=wide - 6, text_anchor="middle")
    if width(str(ticks), 9) < wide - 3:
        picture.text(x + wide / 2, y + 26, str(ticks), size=9, text_anchor="middle")


def draw_ticks(picture, left, y, first, end, scale):
    """An axis of ticks; where the next line would be."""
    step = round_step(end - first, max(1, (end - first) * scale / (width(str(end), 9) + 14)))
    for tick in range(-(-first // step) * step, end + 1, step):
        x = left + (tick - first) * scale
        picture.path(f"M{x:.1f} {y}v5", stroke_width=".7")
        picture.text(x, y + 15, str(tick), size=9, text_anchor="middle")
    picture.reach(left + (end - first) * scale + width(str(end), 9) / 2, y + 15)
    return y + 18


# ---- shares and waits

def draw_groups(picture, scene, y):
    """A table of the groups."""
    rows = [("group", "members", "CPU", "ticks", "share of its CPU", "longest wait")]
    rows += [(group.name, " ".join(group.members), str(group.cpu), *numbers(scene, number))
             for number, group in enumerate(scene.groups)]
    rooms = [min(widest((row[at] for row in rows), bold=True), 220 if at < 2 else WIDE) for at in range(6)]
    for line, row in enumerate(rows):
        x = LEFT
        if line:
            picture.rect(x - 18, y - 10, 12, 12, title=f"{row[0]}: {', '.join(row[3:])}", stroke="#555", stroke_width=".7",
                         fill=COLOURS[(line - 1) % len(COLOURS)])
        for cell, room in zip(row, rooms):
            picture.text(x, y, cell, room=room, bold=not line)
            x += room + 18
        y += 18
    picture.text(LEFT, y + 6, "longest wait: the most ticks, one after another, in which the group hasn't its CPU", size=10, fill="#444")


def numbers(scene, group):
    """Of a group its ticks, its share and its longest wait, in words."""
    rows = [frame.minor_frames[scene.groups[group].cpu] for frame in scene.frames]
    if not scene.choice:
        rows = [sum(rows, [])]
    counts = [(sum(ticks for one, ticks in row if one == group), sum(ticks for _, ticks in row)) for row in rows]
    if len(counts) > 4:
        low, high = min(counts, key=quotient), max(counts, key=quotient)
        shares = f"{share(*low)} to {share(*high)}"
        ticks = f"{min(own for own, _ in counts)} to {max(own for own, _ in counts)} a frame"
    else:
        shares = " / ".join(share(*count) for count in counts)
        ticks = " / ".join(f"{own} of {every}" for own, every in counts)
    wait = longest_wait(rows, group)
    if wait is None:
        lacking = next(number for number, (own, _) in enumerate(counts) if not own)
        return ticks, shares, f"no end, if frame {lacking} is chosen again and again" if scene.choice else "no end"
    return ticks, shares, counted(wait, "tick")


def quotient(count):
    """A share as a number."""
    return count[0] / count[1]


def share(own, every):
    """A share in percent."""
    if 0 < own * 1000 < every:
        return "below 0.1 %"
    return f"{100 * own / every:.1f}".removesuffix(".0") + " %"


def longest_wait(rows, group):
    """The most ticks that a group hasn't, one after another, where each row may follow each; None is no end."""
    if not all(group in [one for one, _ in row] for row in rows):
        return None
    longest = 0
    for first, second in product(rows, repeat=2):
        waited = 0
        for one, ticks in first + second:
            waited = 0 if one == group else waited + ticks
            longest = max(longest, waited)
    return longest
