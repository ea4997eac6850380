"""The page of look report: its sections as HTML, with the script, the style and the packed data in it."""
import base64
import hashlib
import json
import pathlib
import re
import zlib
from html import escape

from looking import draw_matrix, draw_memory, draw_plan
from looking.draw_flows import dot_text, laid_out
from looking.image_file import DEVICE
from looking.report_run import ROW
from looking.scene import MANY
from looking.steps import device_steps, steps
from looking.system import size_text
from looking.words import HEXADECIMAL, counted
from looking.wrong import Wrong

HERE = pathlib.Path(__file__).resolve().parent / "page"
SCRIPTS = ("timeline.js", "stepper.js", "sections.js")
# in the words of look image what stands before hexadecimal numbers, and before two of them
BEFORE = re.compile(r"((?:\bstarts|\bmemory(?: \S+)?) at |\bfrom |\bon, of |\bports? |\bMSRs? |(?<!CPU )\bto |\bis |\bepc |\bvbase |\br\d+ )"
                    r"([0-9a-f]+)(?![\w.|:+-])")
BEFORE_TWO = re.compile(r"(\bwindow )([0-9a-f]+) ([0-9a-f]+)")


def page(looked):
    """The whole page."""
    sections = [one for one in (timeline(looked), memory(looked), matrix(looked), flows(looked), plan(looked), memory_map(looked),
                                closed_sets(looked), lint(looked), verified(looked), image(looked)) if one]
    style = (HERE / "style.css").read_text(encoding="ascii")
    script = f'"use strict";\nconst HEXADECIMAL = /{HEXADECIMAL.pattern}/g;\n'
    script += "".join((HERE / name).read_text(encoding="ascii") for name in SCRIPTS)
    policy = (f"default-src 'none'; style-src {digest(style)}; script-src {digest(script)}; base-uri 'none'; form-action 'none'")
    title = escape(f"{looked.policy}{f', {looked.record}' if looked.record else ''}")
    links = "".join(f'<a href="#{name}">{heading}</a>' for name, heading, _ in sections)
    body = "".join(f'<section id="{name}"><h2>{heading}</h2>\n{inside}\n</section>\n' for name, heading, inside in sections)
    data = "" if looked.data is None else f'<script type="text/plain" id="data">{packed(looked.data)}</script>\n'
    text = (f'<!DOCTYPE html>\n<html lang="en">\n<head>\n<meta charset="utf-8">\n<meta http-equiv="Content-Security-Policy" content="{policy}">\n'
            f'<meta name="viewport" content="width=device-width, initial-scale=1">\n<title>{title}</title>\n<style>{style}</style>\n</head>\n<body>\n'
            f"<h1>{title}</h1>\n{head(looked)}\n<nav>{links}</nav>\n{body}{data}<script>{script}</script>\n</body>\n</html>\n")
    return text.encode("ascii", "xmlcharrefreplace").decode()


def digest(text):
    """How a content security policy names a style or a script that stands in the page."""
    return f"'sha256-{base64.b64encode(hashlib.sha256(text.encode()).digest()).decode()}'"


def packed(data):
    """Data as text that the page's script unpacks."""
    return base64.b64encode(zlib.compress(json.dumps(data, separators=(",", ":")).encode(), 9)).decode()


def head(looked):
    """What the page is of."""
    scene = looked.scene
    counts = [counted(scene.cpus, "CPU"), counted(len(scene.subjects), "subject"), counted(len(scene.frames), "major frame")]
    if looked.data:
        counts += [counted(looked.data["ticks"], "tick"), counted(len(looked.data["turns"]["tick"]), "turn")]
    rows = "".join(f'<tr><td>{escape(name)}</td><td>{size} bytes</td><td class="mono">SHA-256 {digits}</td></tr>' for name, size, digits in looked.files)
    about = f"<p>{escape(looked.description)}</p>" if looked.description else ""
    return f'{about}<p>{", ".join(counts)}.</p><details><summary class="quiet">the files</summary><table class="facts">{rows}</table></details>'


def number(text):
    """A hexadecimal number, which tells what it is in decimal."""
    return f'<span class="number mono">{text}</span>'


# ---- the run

TOOLS = (("own_before", "&#8676;", "the turn before of this subject (shift and left)"), ("before", "&larr;", "the turn before (left)"),
         ("after", "&rarr;", "the next turn (right)"), ("own_after", "&#8677;", "the next turn of this subject (shift and right)"),
         ("closer", "+", "closer (+)"), ("further", "&minus;", "further away (-)"), ("whole", "all", "the whole run (0)"))


def timeline(looked):
    """The canvas, its tools, and room for the chosen turn."""
    if looked.data is None:
        return None
    buttons = "".join(f'<button type="button" id="{name}" title="{title}" aria-label="{title}">{text}</button>' for name, text, title in TOOLS)
    registers = escape("\n".join(line for line in looked.final if line.startswith(("end", "regs"))))
    registers = re.sub(r"\b[0-9a-f]{16}\b", lambda one: number(one[0]), registers)
    return "timeline", "Timeline", f'''<p class="quiet">A click chooses a turn; the wheel zooms, dragging scrolls. Keys: left and right step, with shift within the subject;
+, - and 0 zoom, &lt; and &gt; scroll, / searches, n and N go to what is found, g goes to a tick, c and e follow an arrow to its cause and its effect.</p>
<div class="tools">{buttons}<label>tick <input type="number" id="tick" min="0" max="{looked.data['ticks']}"></label>
<label>search <input type="search" id="search" placeholder="subject, kind, address .."></label>
<button type="button" id="earlier" title="the one found before (N)">&#9650;</button><button type="button" id="later" title="the next one found (n)">&#9660;</button>
<span id="count" class="quiet" role="status"></span></div>
<div id="key"></div>
<canvas id="lanes" tabindex="0" role="img" aria-label="turns by tick and subject; the table below tells the chosen turn"></canvas>
<div id="pointed" class="mono quiet"></div>
<div id="turn"><div id="told" aria-live="polite"></div><div class="scroll"><table id="around" class="mono"><thead><tr><th>tick<th>CPU<th>subject<th>at<th>instruction
<th>what happened</tr></thead><tbody></tbody></table></div></div>
<details><summary>registers at the end, as <code>muen</code> printed them</summary><pre>{registers}</pre></details>'''


def memory(looked):
    """Each region at the end, held against the digest that the text has."""
    if looked.memory is None:
        return None
    wrong = [one.span.name for one, _ in looked.memory if not one.agrees]
    said = (f'<p class="bad">of {len(wrong)} the digest differs from the printed one: {escape(", ".join(wrong))}</p>' if wrong
            else f'<p class="good">all {len(looked.memory)} digests are those that muen printed</p>')
    parts = "".join(region(one, rows) for one, rows in looked.memory)
    about = ('<p class="quiet">Replayed from the image, the record and the text. A row has 16 bytes, then two numbers of 8 bytes, '
             'the lowest byte first.</p>')
    return "memory", "Memory at the end", f"{about}{said}{parts}"


def region(one, rows):
    """A region with its rows."""
    mark = '<span class="good">digest agrees</span>' if one.agrees else '<span class="bad">digest differs from the printed one</span>'
    lines = "".join(row_of(at, row, times) for at, row, times in rows)
    kind = "device's memory" if one.span.kind == DEVICE else "region"
    return (f'<details class="region" data-name="{escape(one.span.name)}"><summary>{escape(one.span.name)}, {kind} at {number(f"{one.span.place:x}")}, '
            f'{size_text(one.span.size)}: {mark}</summary><table class="rows">{lines}</table><p class="quiet mono">SHA-256 {one.digest}'
            f'{"" if one.agrees else f", printed: {one.printed or chr(45)}"}</p></details>\n')


def row_of(at, row, times):
    """A row of bytes with its numbers and letters; rows that are the same are one."""
    if not times:
        return '<tr><td colspan="5">further rows are left out</td></tr>'
    letters = "".join(chr(byte) if 32 <= byte < 127 else "." for byte in row)
    values = [f"{int.from_bytes(row[begin:begin + 8], 'little'):x}" for begin in (0, 8)]
    more = f" to {at + times * ROW - 1:x}" if times > 1 else ""
    return (f'<tr><td>{at:x}{more}</td><td>{row[:8].hex(" ")}  {row[8:].hex(" ")}</td><td class="number">{values[0]}</td>'
            f'<td class="number">{values[1]}</td><td>{escape(letters)}</td></tr>')


# ---- the system

def picture(text):
    """A picture inside the page: without names that another one has, too, nor the ground that is behind all."""
    text = re.sub(r' id="[^"]*"', "", text.replace("\n", " "))
    return f'<div class="picture">{re.sub(chr(60) + "rect width=.[0-9.]+. height=.[0-9.]+. fill=.#ffffff./>", "", text)}</div>'


def matrix(looked):
    """Who sees what."""
    return "matrix", "Who sees what", ('<p class="quiet">A click on a cell marks the flows that go by it.</p>'
                                       f'{picture(draw_matrix.drawn(looked.placed))}<p id="marked" role="status"></p>')


def flows(looked):
    """The picture of flows, whole and folded, and all steps."""
    scene = looked.scene
    boxes = "".join(f'<label><input type="checkbox" value="{escape(subject.name)}" checked>{escape(subject.name)}</label>' for subject in scene.by_cpu)
    checked = " checked" if len(scene.subjects) >= MANY else ""
    tools = (f'<div class="tools"><label><input type="checkbox" id="fold"{checked}>fold by CPU</label><button type="button" id="all">all</button>'
             f'<button type="button" id="none">none</button></div><div class="tools" id="leave">{boxes}</div>')
    try:
        drawings = "".join(f'<div class="{name}"{" hidden" if name == "folded" and not checked else ""}>{picture(laid_out(dot_text(scene, fold)))}</div>'
                           for name, fold in (("whole", False), ("folded", True)))
    except Wrong as error:
        drawings = f'<p class="quiet">No picture: {escape(str(error))}.</p>'
    rows = "".join(step_row(one) for one in [*steps(scene), *device_steps(scene)])
    return "flows", "Flows", ('<p class="quiet">Direct flows (docs/flows.md); what is granted of devices is none, and told apart. '
                              "What isn't ticked is left out.</p>"
                              f'{tools}{drawings}<div class="scroll tall"><table id="steps"><thead><tr><th>from<th>to<th>kind<th>by</tr></thead>'
                              f'<tbody>{rows}</tbody></table></div>')


def step_row(step):
    """A flow, with the region that carries it."""
    whose = re.search(r" the state of (\S+)$", step.by) if step.kind == "monitor" else None
    # the name of an event along a channel is the channel's
    thing = f"{whose[1]}:state" if whose else step.by.split(": ")[0]
    return (f'<tr data-source="{escape(step.source)}" data-target="{escape(step.target)}" data-kind="{step.kind}" data-thing="{escape(thing)}">'
            f"<td>{escape(step.source)} </td><td>{escape(step.target)} </td><td>{step.kind} </td><td>{escape(step.by)} </td></tr>")


def plan(looked):
    """The scheduling plan."""
    return "plan", "Plan", picture(draw_plan.drawn(looked.scene))


def memory_map(looked):
    """Physical memory, and each subject's addresses."""
    return "map", "Memory map", picture(draw_memory.drawn(looked.placed))


def closed_sets(looked):
    """On whom each subject can depend, as `flows` prints it."""
    names = [words[0] for words in looked.flows]
    heads = "".join(f'<th scope="col">{escape(one)}</th>' for one in names)
    rows = "".join(f'<tr><th scope="row">{escape(who)}</th>' + "".join(
        f'<td title="{escape(who)} {"can" if other in sources else "can&#39;t"} depend on {escape(other)}">{"&#9679;" if other in sources else ""}</td>'
        for other in names) + "</tr>" for who, _, *sources in looked.flows)
    sets = {frozenset(sources) for _, _, *sources in looked.flows}
    return "closed", "Closed sets", ('<p class="quiet">A dot: the subject of the row can depend on that of the column (<code>muen flows</code>). '
                                     f"What a row marks is closed under flows: {counted(len(sets), 'set')}.</p>"
                                     f'<div class="scroll"><table class="closed"><thead><tr><th></th>{heads}</tr></thead><tbody>{rows}</tbody></table></div>')


def lint(looked):
    """What lint says."""
    return "lint", "Lint", f"<pre>{escape(chr(10).join(looked.lint))}</pre>"


def verified(looked):
    """What `verify` says of the image."""
    look = "good" if looked.verified == "sound" else "bad"
    return "verify", "Verify", f'<p><code>muen verify</code>: <span class="{look}">{escape(looked.verified)}</span></p>'


def image(looked):
    """What the image's bytes say, section by section."""
    parts = ((escape(title), numbered(escape("\n".join(lines)), title == "spans")) for title, lines in looked.sections)
    return "image", "Image", "".join(f"<details><summary>{title}</summary><pre>{text}</pre></details>" for title, text in parts)


def numbered(text, is_spans):
    """Lines of look image, with its hexadecimal numbers marked as such; lines of spans begin with one."""
    if is_spans:
        return re.sub(r"(?m)^( *)([0-9a-f]+)", lambda one: one[1] + number(one[2]), text)
    text = BEFORE_TWO.sub(lambda one: f"{one[1]}{number(one[2])} {number(one[3])}", text)
    return BEFORE.sub(lambda one: one[1] + number(one[2]), text)
