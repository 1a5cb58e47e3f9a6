"""The lower part of a picture: a band for each lane with its commands, and its pieces a turn."""
import heapq

from . import svg
from .frame import LEFT, RIGHT
from .style import KINDS

TALL = 84
PIECES = 18
LEAST_BAND = 46
MOST_TRACKS = 14
LEAST_TURN = 24


class Box:
    """A rectangle of a picture, and the commands that it stands for, from its foot up."""

    def __init__(self, x, y, width, height, commands):
        self.x, self.y, self.width, self.height, self.commands = x, y, width, height, commands


def tracks_of(lane, last):
    """The track of each command, the lowest that is free from its fetch to its post; and how many there are."""
    free, busy, tracks, count = [], [], [], 0
    for command in lane.commands:
        while busy and busy[0][0] < command.fetched:
            heapq.heappush(free, heapq.heappop(busy)[1])
        if free:
            track = heapq.heappop(free)
        else:
            track, count = count, count + 1
        tracks.append(track)
        heapq.heappush(busy, (command.posted or last + 1, track))
    return tracks, count


def is_drawn_singly(run, frame):
    """Whether each command has room for a bar of its own."""
    if frame.turn_width < LEAST_TURN:
        return False
    return all(tracks_of(lane, len(run.lines))[1] <= MOST_TRACKS for lane in run.lanes.values())


def bars(run, frame, lane, top):
    """A bar for each command from its fetch to its post: lines of SVG, boxes, and the height."""
    last = len(run.lines)
    tracks, count = tracks_of(lane, last)
    tall = max(5, min(15, TALL // max(count, 1) - 1))
    parts, boxes = [], []
    for command, track in zip(lane.commands, tracks):
        x, y = frame.inside(command.turn, command.fetched), top + track * (tall + 1)
        end = command.posted
        right = frame.inside(frame.turn_of(end), end) if end else frame.start(frame.turns + 1)
        width = max(right - x, 3)
        boxes.append(Box(x, y, width, tall, [command]))
        parts.append(svg.rect(x, y, width, tall, ("hollow " if command.failed else "") + command.kind))
        parts += label(command, x, y, width, tall)
    return parts, boxes, count * (tall + 1)


def label(command, x, y, width, tall):
    """The letter on a bar; on that of a failed command a cross, with letter and status where there is room."""
    letter = KINDS[command.kind][0]
    parts = []
    if not command.failed:
        if letter and tall >= 11 and width >= 14:
            style = f"letter on-{command.kind}"
            parts.append(svg.text(x + min(width / 2, 9), y + tall / 2 + 4, letter, style, "middle"))
        return parts
    size = max(4, min(7, tall - 4, width - 1))
    place = width / 2 if width < 30 else width - size / 2 - 4
    parts.append(svg.path([svg.cross(x + place, y + tall / 2, size)], "bad"))
    if tall >= 11 and width >= 30:
        words = f"{letter} {command.status}".lstrip()
        words = words if width > svg.width_of(words, 11) + 18 else letter
        parts.append(svg.text(x + 4, y + tall / 2 + 4, words, "small"))
    return parts


def by_column(frame, lane):
    """The commands of a lane by the column of their fetch."""
    found = {}
    for command in lane.commands:
        found.setdefault(frame.column_of[command.turn], []).append(command)
    return found


def stacks(frame, lane, top, most):
    """The commands of each column one above the other by their kind: lines of SVG, boxes, and the height."""
    shapes, boxes, failed = {kind: [] for kind in KINDS}, [], []
    unit = TALL * 0.6 / most
    foot = top + 8 + most * unit
    for index, commands in by_column(frame, lane).items():
        x, width = frame.column(index)
        y = foot
        by_kind = {}
        for command in commands:
            by_kind.setdefault(command.kind, []).append(command)
        for kind in KINDS:
            if kind in by_kind:
                tall = len(by_kind[kind]) * unit
                y -= tall
                shapes[kind].append(svg.box(x, y, width - 0.6, tall))
                boxes.append(Box(x, y, width, tall, by_kind[kind]))
        if any(command.failed for command in commands):
            failed.append(svg.box(x, top, width - 0.6, 5))
    parts = [svg.path(shape, kind) for kind, shape in shapes.items()] + [svg.path(failed, "fails")]
    parts.append(svg.text(LEFT - 6, top + 10, svg.grouped(most), "small muted", "end"))
    return parts, boxes, 8 + most * unit


def pieces(frame, lane, top, most):
    """The pieces a turn, as columns; of several turns the most of one."""
    found = {}
    for turn, count in lane.pieces.items():
        index = frame.column_of[turn]
        found[index] = max(found.get(index, 0), count)
    shape = []
    for index, count in found.items():
        x, width = frame.column(index)
        tall = PIECES * count / most
        shape.append(svg.box(x, top + PIECES - tall, max(width - 0.6, 1), tall))
    base = svg.line(LEFT, top + PIECES, RIGHT, top + PIECES, "axis")
    scale = svg.text(LEFT - 6, top + 9, svg.counted(most, "piece"), "small muted", "end")
    return [svg.path(shape, "pieces"), base, scale]


def band(run, frame, number, top, single, most):
    """A lane's band: lines of SVG, boxes, and where it ends. `most` has the most commands and pieces of a column."""
    lane = run.lanes[number]
    if single:
        parts, boxes, height = bars(run, frame, lane, top + 4)
    else:
        parts, boxes, height = stacks(frame, lane, top + 4, most[0])
    height = max(LEAST_BAND, height + 6)
    failed = sum(command.failed for command in lane.commands)
    parts = [*frame.ground(top, height + PIECES + 2), *parts]
    parts += pieces(frame, lane, top + height + 2, most[1])
    parts += [
        svg.text(12, top + 14, f"lane {number}", "head"),
        svg.text(12, top + 29, svg.counted(len(lane.commands), "command"), "small muted"),
    ]
    if failed:
        parts.append(svg.text(12, top + 43, f"{svg.grouped(failed)} failed", "small warning"))
    return parts, boxes, top + height + PIECES + 2


def most_of(run, frame):
    """The most commands of a column of a lane, and the most pieces of a turn, at least 1."""
    commands = [len(found) for lane in run.lanes.values() for found in by_column(frame, lane).values()]
    counts = [count for lane in run.lanes.values() for count in lane.pieces.values()]
    return max(commands, default=1), max(counts, default=1)


def legend(run, single):
    """What the bands' signs mean."""
    found = [command for lane in run.lanes.values() for command in lane.commands]
    kinds = {command.kind for command in found}
    items = []
    for kind, (letter, words, *_) in KINDS.items():
        if kind in kinds:
            items.append((kind, f"{letter} {words}" if single and letter else words))
    if any(command.failed for command in found):
        items.append(("cross", "failed") if single else ("fails", "some of the column failed"))
    return items + [("pieces", "pieces a turn")]
