"""The upper part of a picture: the blocks and the pages that a migration owes after each of its rounds."""
from . import svg
from .frame import LEFT, RIGHT, steps

MOST_NUMBERS = 24
HEADROOM = 26


class Bar:
    """What a column shows: the most that is owed after one of its rounds, what is owed after the last of them, whether it
    rose in one, and whether copying began anew."""

    def __init__(self):
        self.value, self.last, self.rose, self.restarted = 0, 0, False, False


def bars_of(run, frame, field, start):
    """The bars by column. `field` is blocks or pages; `start` is what is owed at first, None where that isn't known."""
    bars, before = {}, start
    for one in run.rounds:
        value = getattr(one, field)
        bar = bars.setdefault(frame.column_of[one.turn], Bar())
        bar.value, bar.last = max(bar.value, value), value
        began_anew = one.restarted and field == "blocks"
        bar.rose |= before is not None and value > before and not began_anew
        bar.restarted |= began_anew
        before = value
    return bars


def values_axis(top, height, most, name):
    """The axis on the left with its grid."""
    step = steps(most, max(2, height // 30))
    parts = [svg.text(12, top + 12, name, "head")]
    for value in range(0, most + 1, step):
        y = top + height - height * value / most
        parts.append(svg.line(LEFT, y, RIGHT, y, "grid"))
        parts.append(svg.text(LEFT - 6, y + 4, svg.grouped(value), "small muted", "end"))
    return parts


def numbers(frame, bars, top, height, most):
    """The values over the bars: all, where there is room, and else the highest and the last."""
    chosen = sorted(bars)
    widest = max(svg.width_of(svg.grouped(bar.value), 11) for bar in bars.values())
    if len(bars) > MOST_NUMBERS or frame.column(chosen[0])[1] < widest + 2:
        last = chosen[-1]
        highest = max(chosen, key=lambda index: (bars[index].value, -index))
        chosen = [highest, last] if frame.column(last)[0] - frame.column(highest)[0] > 2 * widest else [last]
    parts = []
    for index in chosen:
        x, width = frame.column(index)
        y = top + height - height * bars[index].value / most - 4
        value = bars[index].last if index == chosen[-1] else bars[index].value
        parts.append(svg.text(x + width / 2, y, svg.grouped(value), "small value", "middle"))
    return parts


def panel(run, frame, top, height, field, start, small):
    """A panel over the rounds, as lines of SVG."""
    bars = bars_of(run, frame, field, start)
    most = max([bar.value for bar in bars.values()] + [start or 0, 1])
    if not any(bar.value for bar in bars.values()):
        words = svg.text(LEFT + 8, top + 12, f"no {field} after any round", "small muted")
        return [svg.text(12, top + 12, field, "head"), words]
    parts = frame.ground(top - HEADROOM, height + HEADROOM)
    parts += values_axis(top, height, most, field)
    shapes = {"fell": [], "rose": [], "pages": []}
    marks = []
    for index, bar in sorted(bars.items()):
        x, width = frame.column(index)
        tall = height * bar.value / most
        style = "rose" if bar.rose else "fell" if field == "blocks" else "pages"
        shapes[style].append(svg.box(x, top + height - tall, max(width - 1, 1), tall))
        if bar.restarted:
            marks.append(svg.diamond(x + width / 2, top - HEADROOM + 7, 10))
    parts += [svg.path(shape, style) for style, shape in shapes.items()]
    if small is not None and 0 < small < most:
        y = top + height - height * small / most
        parts.append(svg.line(LEFT, y, RIGHT, y, "limit"))
    return parts + [svg.path(marks, "again")] + numbers(frame, bars, top, height, most)


def legend(run, frame):
    """What the panels' signs mean."""
    found = list(bars_of(run, frame, "blocks", None).values()) + list(bars_of(run, frame, "pages", None).values())
    items = [("fell", "blocks"), ("pages", "pages")] if any(one.pages for one in run.rounds) else [("fell", "blocks")]
    if any(bar.rose for bar in found):
        items.append(("rose", "more than before: writes came faster than the copying"))
    if any(one.restarted for one in run.rounds):
        items.append(("again", "restart: a change was lost, and copying began anew"))
    if run.script and "small" in run.script.sizes and "pages" in run.script.sizes:
        sizes = run.script.sizes
        blocks, pages = svg.counted(sizes["small"], "block"), svg.counted(sizes["pages"], "page")
        items.append(("limit", f"the guests are suspended at {blocks} and {pages} or fewer"))
    return items
