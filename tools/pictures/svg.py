"""Parts of an SVG file as text: numbers, shapes, and words whose width is estimated."""
from html import escape


def number(value):
    """A coordinate: one decimal at most."""
    text = f"{value:.1f}"
    return text[:-2] if text.endswith(".0") else text


def grouped(count):
    """A count as text, with a comma before every three digits."""
    return f"{count:,}"


def counted(count, word):
    """A count with its word, as '1 round' or '3 rounds'."""
    return f"{grouped(count)} {word}{'' if count == 1 else 's'}"


def text(x, y, words, style="", anchor="start"):
    """Words at a place. `style` names classes; `anchor` is start, middle or end."""
    more = (f' class="{style}"' if style else "") + ("" if anchor == "start" else f' text-anchor="{anchor}"')
    return f'<text x="{number(x)}" y="{number(y)}"{more}>{escape(words, quote=False)}</text>'


def rect(x, y, width, height, style):
    """A filled rectangle."""
    return f'<rect x="{number(x)}" y="{number(y)}" width="{number(width)}" height="{number(height)}" class="{style}"/>'


def line(x1, y1, x2, y2, style):
    """A straight line."""
    return f'<path d="M{number(x1)} {number(y1)}L{number(x2)} {number(y2)}" class="{style}"/>'


def box(x, y, width, height):
    """The part of a path that is a rectangle."""
    return f"M{number(x)} {number(y)}h{number(width)}v{number(height)}h{number(-width)}z"


def cross(x, y, size):
    """The part of a path that is a diagonal cross around a place."""
    half = size / 2
    there, back = number(size), number(-size)
    return f"M{number(x - half)} {number(y - half)}l{there} {there}m0 {back}l{back} {there}"


def diamond(x, y, size):
    """The part of a path that is a square on its tip, around a place."""
    half = number(size / 2)
    return f"M{number(x)} {number(y - size / 2)}l{half} {half}l-{half} {half}l-{half} -{half}z"


def path(parts, style):
    """A path of parts; nothing where there are none."""
    return f'<path d="{"".join(parts)}" class="{style}"/>' if parts else ""


def width_of(words, size=12):
    """About how wide words are, in the widest of the usual fonts."""
    return 0.6 * size * len(words)
