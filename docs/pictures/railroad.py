"""Syntax diagrams of the rules in syntax.txt. A diagram is read along its line, from the bar on the left to the bar on the right."""

import re
from dataclasses import dataclass
from typing import Callable

import svg
from svg import number

LETTERS = 14  # size of the letters in boxes
HALF = 14  # half the height of a box
PAD = 10  # space between a box's edge and its text
GAP = 12  # length of the line between two boxes
ROW = 10  # space between two rows
ARC = 9  # radius of the bends
MARGIN = 18
WIDEST = 720  # rules stand beside each other up to this width
ASIDE = 44  # space between two rules beside each other

FIXED = ("#fff3d1", "#9a6700")  # a text that stands as it is: fill, edge
NAMED = ("#ddf0ff", "#0969da")  # the name of another rule


@dataclass
class Shape:
    """A part of a diagram: its line enters on the left and leaves on the right at height 0; draw(x, y) gives its SVG."""

    width: float
    up: float
    down: float
    draw: Callable


# ---- shapes


def line(x, y, to):
    """A straight line to the right."""
    return svg.path(f"M{number(x)} {number(y)}H{number(to)}")


def boxed(text, mono, radius, colours):
    """A box with a text in it."""
    width = svg.text_width(text, LETTERS, mono) + 2 * PAD

    def draw(x, y):
        frame = svg.box(x, y - HALF, width, 2 * HALF, radius, *colours)
        return [frame, svg.label(x + width / 2, y + 5, text, LETTERS, mono=mono, weight="bold" if mono else "normal")]

    return Shape(width, HALF, HALF, draw)


def fixed(text):
    """A text that stands as it is, in a rounded box."""
    return boxed(text, True, HALF, FIXED)


def named(text):
    """The name of a rule, in a square box."""
    return boxed(text, False, 2, NAMED)


def nothing():
    """A line past what may be left out."""
    return Shape(0, 0, 0, lambda x, y: [])


def sequence(shapes):
    """One part behind the other."""
    width = sum(s.width for s in shapes) + GAP * (len(shapes) - 1)

    def draw(x, y):
        parts = []
        for i, s in enumerate(shapes):
            if i:
                parts.append(line(x, y, x + GAP))
                x += GAP
            parts += s.draw(x, y)
            x += s.width
        return parts

    return Shape(width, max(s.up for s in shapes), max(s.down for s in shapes), draw)


def row_heights(shapes):
    """The heights of the rows below the first, from the first row's line."""
    at, heights = 0, []
    for above, s in zip(shapes, shapes[1:]):
        at += max(above.down, ARC) + ROW + max(s.up, ARC)
        heights.append(at)
    return heights


def branch(x, y, low, inner, shape):
    """A row of a choice, at the height low: the line down to it, the part, and the line up again."""
    down = f"M{number(x)} {number(y)}a{ARC} {ARC} 0 0 1 {ARC} {ARC}V{number(low - ARC)}a{ARC} {ARC} 0 0 0 {ARC} {ARC}"
    right = x + 4 * ARC + inner
    end = right - 2 * ARC
    up = f"H{number(end)}a{ARC} {ARC} 0 0 0 {ARC} -{ARC}V{number(y + ARC)}a{ARC} {ARC} 0 0 1 {ARC} -{ARC}"
    start = x + 2 * ARC
    out = f"M{number(start + shape.width)} {number(low)}{up}"
    return [svg.path(down), *shape.draw(start, low), svg.path(out)]


def choice(shapes):
    """One of several parts; the first is on the main line."""
    inner = max(s.width for s in shapes)
    width = inner + 4 * ARC
    heights = row_heights(shapes)

    def draw(x, y):
        first = shapes[0]
        start = x + 2 * ARC
        parts = [line(x, y, start), *first.draw(start, y), line(start + first.width, y, x + width)]
        for s, low in zip(shapes[1:], heights):
            parts += branch(x, y, y + low, inner, s)
        return parts

    return Shape(width, shapes[0].up, heights[-1] + max(shapes[-1].down, 1), draw)


def optional(shape):
    """A part that may be left out: the main line goes past it, above."""
    high = max(shape.up, ARC) + ROW
    width = shape.width + 4 * ARC

    def draw(x, y):
        top = y - high
        end = x + width
        rise = f"M{number(x)} {number(y)}a{ARC} {ARC} 0 0 0 {ARC} -{ARC}V{number(top + ARC)}a{ARC} {ARC} 0 0 1 {ARC} -{ARC}"
        fall = f"H{number(end - 2 * ARC)}a{ARC} {ARC} 0 0 1 {ARC} {ARC}V{number(y - ARC)}a{ARC} {ARC} 0 0 0 {ARC} {ARC}"
        start = x + 2 * ARC
        return [
            line(x, y, start),
            *shape.draw(start, y),
            line(start + shape.width, y, end),
            svg.path(rise + fall),
            svg.arrow_head(x + width / 2 + 4, top, 1),
        ]

    return Shape(width, high + 4, shape.down, draw)


def loop(shape, between, note):
    """A part, then perhaps again, with what stands between two of them on the way back; the note tells how often."""
    space = svg.text_width(note, LETTERS - 2) + GAP if note else 0
    inner = max(shape.width, between.width + (space if between.width else max(space, 3 * GAP)))
    low = max(shape.down, ARC) + ROW + max(between.up, ARC)
    width = inner + 2 * ARC

    def draw(x, y):
        left, right, back = x + ARC, x + ARC + inner, y + low
        start = left + (inner - shape.width) / 2
        middle = left if note and between.width else left + (inner - between.width) / 2
        parts = [line(x, y, start), *shape.draw(start, y), line(start + shape.width, y, x + width)]
        turn = f"M{number(right)} {number(y)}a{ARC} {ARC} 0 0 1 {ARC} {ARC}V{number(back - ARC)}a{ARC} {ARC} 0 0 1 -{ARC} {ARC}"
        rise = f"H{number(left)}a{ARC} {ARC} 0 0 1 -{ARC} -{ARC}V{number(y + ARC)}a{ARC} {ARC} 0 0 1 {ARC} -{ARC}"
        parts.append(svg.path(turn + rise))
        parts.append(svg.arrow_head(middle + between.width if between.width else middle - 4, back, -1))
        parts += between.draw(middle, back)
        if note:
            parts.append(svg.label(right, back + 16, note, LETTERS - 2, "end", colour=svg.MUTED))
        return parts

    return Shape(width, shape.up, low + max(between.down, 20 if note else 4), draw)


# ---- the description; syntax.txt tells its signs

TOKEN = re.compile(
    r"""\s*(?:"(?P<fixed>[^"]*)"|'(?P<marked>[^']*)'|<(?P<note>[^>]*)>|`(?P<words>[^`]*)`|(?P<sign>[|\[\]{}()~])"""
    r"""|(?P<named>[^\s|\[\]{}()~"'`<>]+(?: [^\s|\[\]{}()~"'`<>]+)*))"""
)
KINDS = {"marked": "fixed", "words": "named"}
PICTURE = "picture "


def tokens(text):
    """The tokens of a rule's right side, each with its kind."""
    found, at = [], 0
    while text[at:].strip():
        m = TOKEN.match(text, at)
        if not m:
            raise ValueError(f"this is no part of a rule: {text[at:].strip()}")
        found.append((KINDS.get(m.lastgroup, m.lastgroup), m[m.lastgroup]))
        at = m.end()
    return found


def expect(queue, sign):
    """Takes the sign from the front, or tells that it is missing."""
    if not queue or queue[0] != ("sign", sign):
        raise ValueError(f"'{sign}' is missing before {queue[:1]}")
    queue.pop(0)


def parse_loop(queue):
    """{ part ~ what stands between }<note>, behind its brace."""
    shape = parse_choice(queue)
    between = nothing()
    if queue and queue[0] == ("sign", "~"):
        queue.pop(0)
        between = parse_choice(queue)
    expect(queue, "}")
    note = queue.pop(0)[1] if queue and queue[0][0] == "note" else ""
    return loop(shape, between, note)


def parse_part(queue):
    """One part: a box, an option, a loop or a group."""
    kind, value = queue.pop(0)
    if kind == "fixed":
        return fixed(value)
    if kind == "named":
        return named(value)
    if value == "{":
        return parse_loop(queue)
    if value not in ("[", "("):
        raise ValueError(f"'{value}' stands where a part should")
    shape = parse_choice(queue)
    expect(queue, "]" if value == "[" else ")")
    return optional(shape) if value == "[" else shape


def parse_sequence(queue):
    """Parts behind each other, up to a sign that ends them."""
    shapes = []
    while queue and queue[0] not in [("sign", s) for s in "|~]})"]:
        shapes.append(parse_part(queue))
    if not shapes:
        raise ValueError("an alternative is empty")
    return shapes[0] if len(shapes) == 1 else sequence(shapes)


def parse_choice(queue):
    """Alternatives parted by |."""
    shapes = [parse_sequence(queue)]
    while queue and queue[0] == ("sign", "|"):
        queue.pop(0)
        shapes.append(parse_sequence(queue))
    return shapes[0] if len(shapes) == 1 else choice(shapes)


def parse_rule(text):
    """The diagram of a rule's right side."""
    queue = tokens(text)
    shape = parse_choice(queue)
    if queue:
        raise ValueError(f"nothing should stand behind the rule: {queue[0][1]}")
    return shape


def read_row(row, pictures):
    """One line of the description: a picture, a rule of the last picture, or more of the last rule."""
    if row.startswith(PICTURE):
        name, title = row[len(PICTURE) :].split(": ", 1)
        pictures.append((name, title, []))
    elif row.startswith("    "):
        name, right = pictures[-1][2].pop()
        pictures[-1][2].append((name, right + row))
    else:
        name, right = row.split(" = ", 1)
        pictures[-1][2].append((name, right))


def read_pictures(text):
    """The pictures of the description: a name, a title, and the rules with their right sides."""
    pictures = []
    for at, row in enumerate(text.splitlines(), 1):
        if not row.strip() or row.startswith("#"):
            continue
        try:
            read_row(row, pictures)
        except (ValueError, IndexError) as e:
            raise ValueError(f"syntax.txt, line {at} is neither a picture nor a rule of one: {row}") from e
    return pictures


# ---- a picture


def draw_rule(name, shape, x, top):
    """A rule's name, below it the diagram with a bar at both ends."""
    y = top + LETTERS + ROW + shape.up
    start, end = x + GAP, x + 2 * GAP + shape.width
    bars = svg.path(f"M{number(x)} {number(y - 8)}v16M{number(end)} {number(y - 8)}v16", width=2)
    return [
        svg.label(x, top + LETTERS, name, LETTERS, "start", weight="bold"),
        bars,
        line(x, y, start),
        *shape.draw(start, y),
        line(start + shape.width, y, end),
        svg.arrow_head(end - 1, y, 1),
    ]


def rule_width(name, shape):
    """How wide a rule is: its diagram or its name."""
    return max(shape.width + 2 * GAP, 1.1 * svg.text_width(name, LETTERS))


def in_rows(rules):
    """The rules in rows, as many beside each other as the widest picture allows."""
    rows, room = [], 0
    for name, shape in rules:
        width = rule_width(name, shape)
        if not rows or room < width:
            rows.append([])
            room = WIDEST
        rows[-1].append((name, shape))
        room -= width + ASIDE
    return rows


def shaped(title, rules):
    """The rules with their diagrams."""
    shapes = []
    for name, right in rules:
        try:
            shapes.append((name, parse_rule(right)))
        except (ValueError, IndexError) as e:
            raise ValueError(f"syntax.txt, picture '{title}', rule '{name}': {e}") from e
    return shapes


def draw_picture(title, rules):
    """The SVG of a picture."""
    top, wide, parts = MARGIN, 0, []
    for row in in_rows(shaped(title, rules)):
        x = MARGIN
        for name, shape in row:
            parts += draw_rule(name, shape, x, top)
            x += rule_width(name, shape) + ASIDE
        wide = max(wide, x - ASIDE + MARGIN)
        top += LETTERS + ROW + max(s.up + s.down for _, s in row) + 2 * ROW
    return svg.document(wide, top, title, parts)
