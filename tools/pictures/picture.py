"""A run as an SVG picture: heading, ribbon of where the guests are, owed blocks and pages, and the lanes."""
from html import escape

from . import lanes, owed, svg
from .frame import LEFT, RIGHT, WIDTH, Frame
from .style import sheet
from .words import copied, notes_of, summary_of, title_of

OWED_TALL = 120
PAGES_TALL = 46
ROW = 17


def legend(items, y):
    """Signs with words, in rows; answers the lines of SVG and the y below them."""
    parts, x = [], LEFT
    for sign, words in items:
        wide = 18 + svg.width_of(words, 11) + 14
        if x + wide > WIDTH and x > LEFT:
            x, y = LEFT, y + ROW
        if sign == "cross":
            parts.append(svg.path([svg.cross(x + 6, y - 4, 8)], "bad"))
        elif sign == "again":
            parts.append(svg.path([svg.diamond(x + 6, y - 4, 9)], "again"))
        elif sign == "limit":
            parts.append(svg.line(x, y - 4, x + 14, y - 4, "limit"))
        else:
            parts.append(svg.rect(x, y - 9, 12, 10, sign))
        parts.append(svg.text(x + 18, y, words, "small"))
        x += wide
    return parts, y


def phases(run, frame):
    """The ribbon's parts: left and right edge, class, and words from long to short."""
    end = frame.start(frame.turns + 1)
    if run.migrated is None:
        return [(LEFT, end, "source", ["guests at the source"])]
    moved = frame.end(run.migrated) if run.migrated != run.suspended else frame.pause()
    stop = frame.pause() if run.suspended is not None else frame.end(run.ending[1]) if run.ending else end
    found = [
        (LEFT, moved, "source", ["guests at the source", "source"]),
        (moved, stop, "moving", ["guests at the source, rounds of copying", "rounds of copying", "rounds"]),
    ]
    if run.suspended is not None:
        found.append((stop, stop + frame.gap, "paused", []))
    if run.ending:
        there = run.ending[0] == "resume to"
        where = "destination" if there else "source again"
        found.append((stop + frame.gap, end, "there" if there else "source", [f"guests at the {where}", where]))
    return [part for part in found if part[1] - part[0] > 0.05]


def ribbon(run, frame, y):
    """Where the guests are."""
    parts = [svg.text(12, y + 14, "guests", "head")]
    for left, right, style, choices in phases(run, frame):
        parts.append(svg.rect(left, y, right - left, 20, style))
        words = next((words for words in choices if svg.width_of(words, 11) + 6 < right - left), None)
        if words:
            parts.append(svg.text((left + right) / 2, y + 14, words, "small", "middle"))
    return parts


def marks(run, frame):
    """The lines of the migration that stand between turns, and the cut: their place and their words."""
    cut = [] if run.cut is None else [(RIGHT, "cut")]
    if run.migrated is None:
        return cut
    words = []
    if run.suspended is not None:
        words = ["suspend"]
        if run.pause:
            words.append(copied(run))
    if run.ending:
        words.append(run.ending[0])
    at = frame.bounds()
    if run.suspended is not None:
        at.append(frame.pause() + frame.gap / 2)
    if run.migrated == run.suspended:
        return [(at[0], ", ".join(["migrate", *words])), *cut]
    return [(at[0], "migrate")] + ([(at[1], ", ".join(words))] if words else []) + cut


def rows_of(found):
    """For each mark its place, the middle of its words, the words and their row; and the number of rows.

    Words that would meet others stand in a row above."""
    placed, ends = [], []
    for x, words in found:
        wide = svg.width_of(words, 11)
        left = max(4, min(x - wide / 2, WIDTH - 8 - wide))
        row = next((row for row, end in enumerate(ends) if end < left), len(ends))
        ends[row : row + 1] = [left + wide + 10]
        placed.append((x, left + wide / 2, words, row))
    return placed, len(ends)


def marked(placed, y):
    """The words of marks, with lines down into the ribbon."""
    parts = []
    for x, middle, words, row in placed:
        parts.append(svg.line(x, y - row * ROW + 3, x, y + 26, "mark"))
        parts.append(svg.text(middle, y - row * ROW, words, "small", "middle"))
    return parts


def turns_axis(frame, y, single):
    """The axis of turns."""
    parts = [svg.text(frame.middle(turn), y + 18, svg.grouped(turn), "small muted", "middle") for turn in frame.ticks()]
    words = "turn (all are equally wide; within one, its events from left to right)" if single else "turn"
    return [*parts, svg.text((LEFT + RIGHT) / 2, y + 36, words, "muted", "middle")]


def owed_part(run, frame, y):
    """The panels of what is owed; lines of SVG, and the y below them."""
    sizes = run.script.sizes if run.script else {}
    parts, y = heading("Owed after each round", owed.legend(run, frame), y)
    y += 8 + owed.HEADROOM
    parts += owed.panel(run, frame, y, OWED_TALL, "blocks", sizes.get("blocks"), sizes.get("small"))
    has_pages = any(one.pages for one in run.rounds)
    y += OWED_TALL + 8 + (owed.HEADROOM if has_pages else 0)
    parts += owed.panel(run, frame, y, PAGES_TALL, "pages", None, sizes.get("pages"))
    return parts, y + (PAGES_TALL if has_pages else 12)


def heading(words, items, y):
    """A part's heading with its legend below."""
    parts, y_below = legend(items, y + 18)
    return [svg.text(LEFT, y, words, "head"), *parts], y_below


def lanes_part(run, frame, y, single):
    """The bands of all lanes: lines of SVG, boxes, and the y below them."""
    words = "Commands from fetch to post" if single else "Commands"
    parts, y = heading(words, lanes.legend(run, single), y)
    y += 8
    boxes, most = [], lanes.most_of(run, frame)
    for number in sorted(run.lanes):
        band, found, y = lanes.band(run, frame, number, y, single, most)
        parts, boxes, y = parts + band, boxes + found, y + 8
    return parts, boxes, y - 8


def draw(run):
    """The picture of a run as the text of an SVG file, and its boxes."""
    frame = Frame(run)
    single = lanes.is_drawn_singly(run, frame)
    title = title_of(run)
    lines = [(words, "") for words in summary_of(run)] + notes_of(run, frame, single)
    front, y = [svg.text(12, 30, title, "title")], 35
    for words, style in lines:
        y += ROW
        front.append(svg.text(12, y, words, style))
    placed, rows = rows_of(marks(run, frame))
    top = y + 18 + rows * ROW
    body, y = ribbon(run, frame, top) + marked(placed, top - 6), top + 20
    if run.rounds:
        parts, y = owed_part(run, frame, y + 26)
        body += parts
    boxes = []
    if run.lanes:
        parts, boxes, y = lanes_part(run, frame, y + 28, single)
        body += parts
    if run.turns:
        body += turns_axis(frame, y, single)
        y += 36
    height = y + 12
    parts = [
        f'<svg xmlns="http://www.w3.org/2000/svg" viewBox="0 0 {WIDTH} {svg.number(height)}" role="img"'
        f' width="{WIDTH}" height="{svg.number(height)}">',
        f"<title>{escape(title)}</title>",
        f"<desc>{escape(' '.join(words for words, _ in lines))}</desc>",
        sheet(),
        svg.rect(0, 0, WIDTH, height, "ground"),
        *front, *body,
        "</svg>",
    ]
    return "\n".join(part for part in parts if part) + "\n", boxes
