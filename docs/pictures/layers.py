"""The graph of the crates from crates.txt, in layers: a crate stands above all crates that it uses.

A line is drawn only where no longer way says the same. What the toolchain brings (io, libc, ..) is not drawn.
"""

import svg
from svg import number

LETTERS = 13
HEIGHT = 26  # of a box
PAD = 9  # space between a box's edge and its text
LAYER = 62  # from one layer to the next
SPACE = 14  # between two neighbours of a layer
LANE = 6  # width of a line that passes through a layer
STRAIGHT = 4  # how much a line that passes through layers wants to go straight down
BEND = 0.6  # how long a line keeps its direction, as a share of the gap between two layers
MARGIN = 20
SWEEPS = 40
LEGEND = 66  # height of the lines of kinds below the graph
COLUMNS = (0, 400)  # where the kinds stand, two to a line

# A crate's kind: words, fill, edge.
KINDS = {
    "rules": ("definitions and theorems, no function", "#eee3ff", "#8250df"),
    "exact": ("code with exact contracts", "#ddf0ff", "#0969da"),
    "safe": ("code that is proved to end and to stay within its buffers", "#eaeef2", "#6e7781"),
    "program": ("program", "#dafbe1", "#1a7f37"),
}


# ---- crates.txt


def read_crates(text):
    """Each crate with the crates of this house that it uses."""
    rows = [row.split("#")[0].strip() for row in text.splitlines()]
    pairs = [row.split(":", 1) for row in rows if row]
    if any(len(p) != 2 for p in pairs):
        raise ValueError("crates.txt: a line has no ':'")
    # What stands behind a name, as `staticlib`, is no name.
    names = [p[0].split()[0] for p in pairs]
    return {name.split()[0]: [d for d in deps.split() if d in names] for name, deps in pairs}


def kind_of(house, name):
    """A crate's kind, by what its folder has."""
    folder = house / "crates" / name
    if (folder / "src" / "main.rt").exists():
        return "program"
    code = (folder / "src" / "lib.rt").read_text(encoding="utf-8")
    if not any(row.lstrip().startswith(("fn ", "pub fn ", 'pub extern "C" fn ')) for row in code.splitlines()):
        return "rules"
    if 'pub extern "C" fn ' in code:
        return "exact"  # each export says its clauses
    return "exact" if any((folder / "specs").glob("*.antt")) else "safe"


def all_below(uses):
    """All crates that a crate uses, directly or through others."""
    below = {}

    def visit(name, above):
        if name in above:
            raise ValueError(f"crates.txt: {name} uses itself")
        if name not in below:
            direct = uses[name]
            below[name] = set(direct).union(*(visit(d, above | {name}) for d in direct))
        return below[name]

    for name in uses:
        visit(name, set())
    return below


def reduced(uses):
    """Only the uses that do not follow from longer ways."""
    below = all_below(uses)
    return {name: [d for d in deps if not any(d in below[e] for e in deps)] for name, deps in uses.items()}


def heights(uses):
    """The layer of each crate: one above the highest that it uses; one that uses nothing stands just below its lowest user."""
    below = all_below(uses)
    height = {}
    for name in sorted(uses, key=lambda n: len(below[n])):
        height[name] = 1 + max((height[d] for d in uses[name]), default=-1)
    for name in uses:
        users = [height[n] for n in uses if name in uses[n]]
        if users and not uses[name]:
            height[name] = min(users) - 1
    return height


# ---- nodes: a crate is its name; where a line passes through a layer stands (upper, lower, layer)


def chains(uses, height):
    """Each line as the nodes that it goes through, from the upper crate down."""
    return [
        [name, *((name, d, h) for h in range(height[name] - 1, height[d], -1)), d] for name in uses for d in uses[name]
    ]


def make_layers(uses, height, lines):
    """The nodes of each layer, crates first, in the order of crates.txt."""
    rows = [[n for n in uses if height[n] == h] for h in range(max(height.values()) + 1)]
    for nodes in lines:
        for node in nodes[1:-1]:
            rows[node[2]].append(node)
    return rows


def neighbours(lines):
    """For each node, the nodes that lines join it with, below and above."""
    below, above = {}, {}
    for nodes in lines:
        for upper, lower in zip(nodes, nodes[1:]):
            below.setdefault(upper, []).append(lower)
            above.setdefault(lower, []).append(upper)
    return below, above


def node_width(node):
    """How wide a node is: a box for a crate, a lane for a line."""
    return LANE if isinstance(node, tuple) else svg.text_width(node, LETTERS, mono=True) + 2 * PAD


# ---- the order in each layer: few crossings


def crossings(rows, below):
    """How many pairs of lines cross between neighbouring layers."""
    total = 0
    for low, high in zip(rows, rows[1:]):
        at = {node: i for i, node in enumerate(low)}
        ends = [at[d] for node in high for d in sorted(below.get(node, []), key=at.get)]
        total += sum(a > b for i, a in enumerate(ends) for b in ends[i + 1 :])
    return total


def sort_by(row, fixed, joined):
    """The row by the middle of each node's neighbours in the fixed row; a node without any keeps its share of the way."""
    at = {node: (i + 0.5) / len(fixed) for i, node in enumerate(fixed)}
    own = {node: (i + 0.5) / len(row) for i, node in enumerate(row)}

    def middle(node):
        places = [at[n] for n in joined.get(node, [])]
        return sum(places) / len(places) if places else own[node]

    return sorted(row, key=middle)


def untangle(rows, below, above):
    """The best order that sweeps up and down through the layers find."""
    best, fewest = [list(r) for r in rows], crossings(rows, below)
    for _ in range(SWEEPS):
        for h in range(1, len(rows)):
            rows[h] = sort_by(rows[h], rows[h - 1], below)
        for h in range(len(rows) - 2, -1, -1):
            rows[h] = sort_by(rows[h], rows[h + 1], above)
        rows, now = swap_neighbours(rows, below)
        if now < fewest:
            best, fewest = [list(r) for r in rows], now
    return best


def swap_neighbours(rows, below):
    """The rows with neighbours changed for each other wherever that takes a crossing away."""
    now = crossings(rows, below)
    for row in rows:
        for i in range(len(row) - 1):
            row[i], row[i + 1] = row[i + 1], row[i]
            then = crossings(rows, below)
            if then < now:
                now = then
            else:
                row[i], row[i + 1] = row[i + 1], row[i]
    return rows, now


# ---- places in each layer: near the neighbours, in order, none over another


def spread(wanted, row):
    """The places nearest to the wanted ones that keep the order and the space between nodes (pool adjacent violators)."""
    offsets, at = [], 0
    for i, node in enumerate(row):
        at += (node_width(row[i - 1]) + node_width(node)) / 2 + SPACE if i else 0
        offsets.append(at)
    pools = []
    for x, off in zip(wanted, offsets):
        pools.append([x - off, 1])
        while len(pools) > 1 and pools[-2][0] > pools[-1][0]:
            (b, m), (a, n) = pools.pop(), pools.pop()
            pools.append([(a * n + b * m) / (n + m), n + m])
    flat = [x for x, n in pools for _ in range(n)]
    return [x + off for x, off in zip(flat, offsets)]


def wanted_place(node, joined, x, lanes):
    """Where a node wants to stand: between its neighbours; where a line passes through, with the rest of that line, so that it goes straight down."""
    middle = sum(x[n] for n in joined) / len(joined) if joined else x[node]
    if not isinstance(node, tuple):
        return middle
    lane = [x[n] for n in lanes[node[:2]]]
    return (middle + STRAIGHT * sum(lane) / len(lane)) / (1 + STRAIGHT)


def place_nodes(rows, below, above):
    """The x of every node's middle."""
    x = {node: xi for row in rows for node, xi in zip(row, spread([0] * len(row), row))}
    lanes = {}
    for node in x:
        if isinstance(node, tuple):
            lanes.setdefault(node[:2], []).append(node)
    for turn in range(SWEEPS):
        for row in rows if turn % 2 else rows[::-1]:
            wanted = [wanted_place(n, below.get(n, []) + above.get(n, []), x, lanes) for n in row]
            x.update(zip(row, spread(wanted, row)))
    left = min(x[n] - node_width(n) / 2 for n in x)
    return {n: xn - left + MARGIN for n, xn in x.items()}


# ---- the picture


def draw_line(nodes, x, y):
    """A line from the upper crate down to the lower one: straight past the boxes of a layer, bent between two layers."""
    first, *between, last = nodes
    half = HEIGHT / 2
    data = f"M{number(x[first])} {number(y[first] + half)}"
    for node in [*between, last]:
        low = y[node] - half
        gap = LAYER - HEIGHT
        data += f"c0 {number(gap * BEND)} {number(x[node] - x[first])} {number(gap * (1 - BEND))} {number(x[node] - x[first])} {number(gap)}"
        if node != last:
            data += f"V{number(low + HEIGHT)}"
        first = node
    return svg.path(data, svg.MUTED, 1.2)


def draw_crate(name, kind, x, y):
    """A crate's box with its name."""
    width = node_width(name)
    frame = svg.box(x - width / 2, y - HEIGHT / 2, width, HEIGHT, 4, *KINDS[kind][1:])
    return [frame, svg.label(x, y + 4.5, name, LETTERS, mono=True)]


def draw_legend(y):
    """What the colours mean."""
    parts = []
    for i, (words, fill, edge) in enumerate(KINDS.values()):
        x, low = MARGIN + COLUMNS[i % 2], y + 24 * (i // 2)
        parts.append(svg.box(x, low - 12, 18, 14, 3, fill, edge))
        parts.append(svg.label(x + 25, low, words, LETTERS, "start"))
    return parts


def draw_crates(house):
    """The SVG of the graph of the crates."""
    uses = read_crates((house / "crates.txt").read_text(encoding="utf-8"))
    uses = reduced(uses)
    height = heights(uses)
    lines = chains(uses, height)
    below, above = neighbours(lines)
    rows = untangle(make_layers(uses, height, lines), below, above)
    x = place_nodes(rows, below, above)
    top = len(rows) - 1
    y = {n: MARGIN + HEIGHT / 2 + LAYER * (top - h) for h, row in enumerate(rows) for n in row}
    parts = [draw_line(nodes, x, y) for nodes in lines]
    for name in uses:
        parts += draw_crate(name, kind_of(house, name), x[name], y[name])
    bottom = 2 * MARGIN + HEIGHT + LAYER * top + LEGEND
    width = max(x[n] + node_width(n) / 2 for n in x) + MARGIN
    return svg.document(width, bottom, "The crates, each above those that it uses", parts + draw_legend(bottom - LEGEND + MARGIN))
