"""Small pieces of SVG, shared by the two kinds of pictures. Nothing here depends on the machine: the same input gives the same bytes."""

SANS = "Helvetica, Arial, 'Liberation Sans', sans-serif"
MONO = "'DejaVu Sans Mono', Menlo, Consolas, monospace"

INK = "#24292f"
MUTED = "#57606a"
PAPER = "#ffffff"

# Widths of characters in hundredths of the letter size; MIDDLE for the others.
WIDTHS = {**dict.fromkeys("ijl", 24), **dict.fromkeys("frt.,:;'()[] -/I", 34), **dict.fromkeys("mwMWG", 84)}
MIDDLE = 58
CAPITAL = 70
MONO_WIDTH = 61


def escape(text):
    """The text with the characters that XML reserves written as entities."""
    return text.replace("&", "&amp;").replace("<", "&lt;").replace(">", "&gt;").replace('"', "&quot;")


def number(x):
    """A coordinate, to a tenth, without a needless zero."""
    text = f"{x:.1f}"
    return text[:-2] if text.endswith(".0") else text


def char_width(c):
    """The width of a character of the sans-serif letters, in hundredths of their size."""
    return WIDTHS.get(c, CAPITAL if c.isupper() else MIDDLE)


def text_width(text, size, mono=False):
    """How wide the text is, a little more rather than less."""
    hundredths = MONO_WIDTH * len(text) if mono else sum(map(char_width, text))
    return size * hundredths / 100


def label(x, y, text, size, anchor="middle", mono=False, colour=INK, weight="normal"):
    """A text whose base line is at y."""
    family = MONO if mono else SANS
    return (
        f'<text x="{number(x)}" y="{number(y)}" font-family="{family}" font-size="{number(size)}" '
        f'font-weight="{weight}" text-anchor="{anchor}" fill="{colour}">{escape(text)}</text>'
    )


def box(x, y, width, height, radius, fill, stroke):
    """A rectangle with its upper left corner at x, y."""
    return (
        f'<rect x="{number(x)}" y="{number(y)}" width="{number(width)}" height="{number(height)}" '
        f'rx="{number(radius)}" fill="{fill}" stroke="{stroke}" stroke-width="1.2"/>'
    )


def path(data, colour=INK, width=1.5):
    """A line along the path, not filled."""
    return f'<path d="{data}" fill="none" stroke="{colour}" stroke-width="{number(width)}"/>'


def arrow_head(x, y, towards, colour=INK):
    """A small arrow whose tip is at x, y; towards is 1 for the right and -1 for the left."""
    back = x - 7 * towards
    return f'<path d="M{number(x)} {number(y)}L{number(back)} {number(y - 3.5)}V{number(y + 3.5)}Z" fill="{colour}"/>'


def document(width, height, title, parts):
    """A whole picture on white paper, so that it can be read on a dark page too."""
    head = (
        f'<svg xmlns="http://www.w3.org/2000/svg" width="{number(width)}" height="{number(height)}" '
        f'viewBox="0 0 {number(width)} {number(height)}" role="img">'
    )
    paper = f'<rect width="{number(width)}" height="{number(height)}" rx="6" fill="{PAPER}"/>'
    return "\n".join([head, f"<title>{escape(title)}</title>", paper, *parts, "</svg>"]) + "\n"
