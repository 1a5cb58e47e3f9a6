"""Where a turn lies on a picture: turns are equally wide, and a pause has a place of its own between two of them."""
import math

from . import svg

WIDTH = 1000
LEFT = 112
RIGHT = 984
PAUSE = 14
LEAST = 3


class Frame:
    """The time axis of a run. `columns` has the first and the last turn of each column, `group` the most turns of one."""

    def __init__(self, run):
        self.run = run
        self.turns = max(1, run.turns)
        self.gap = 0 if run.suspended is None else PAUSE
        self.turn_width = (RIGHT - LEFT - self.gap) / self.turns
        self.group = math.ceil(LEAST / self.turn_width)
        self.columns, self.column_of = [], [0]
        for turn in range(1, self.turns + 1):
            first = self.columns[-1][0] if self.columns else None
            if first is None or turn - first == self.group or turn - 1 == run.suspended:
                self.columns.append([turn, turn])
            self.columns[-1][1] = turn
            self.column_of.append(len(self.columns) - 1)

    def start(self, turn):
        """The left edge of a turn; of the turn after the last one, the right edge of all."""
        behind = self.run.suspended is not None and turn > self.run.suspended
        return LEFT + (turn - 1) * self.turn_width + (self.gap if behind else 0)

    def end(self, turn):
        """The right edge of a turn; of turn 0 the left edge of all."""
        return LEFT if turn == 0 and self.run.suspended != 0 else self.start(turn) + self.turn_width

    def pause(self):
        """The left edge of the pause."""
        return LEFT + self.run.suspended * self.turn_width

    def column(self, index):
        """The left edge and the width of a column."""
        first, last = self.columns[index]
        return self.start(first), self.end(last) - self.start(first)

    def inside(self, turn, line):
        """The place of a line in its turn, in equal steps from the turn's first event to its last."""
        first, last = self.run.spans[turn - 1]
        return self.start(turn) + self.turn_width * (line - first + 0.5) / (last - first + 1)

    def ticks(self):
        """The turns that have a number on the axis."""
        step = max(steps(self.turns, 24), steps(self.turns, (RIGHT - LEFT) // 44))
        return [turn for turn in range(1, self.turns + 1) if turn % step == 0 or (turn == 1 and step > 2)]

    def middle(self, turn):
        """The middle of a turn."""
        return self.start(turn) + self.turn_width / 2

    def bounds(self):
        """The places of the lines of a migration that stand between turns, without those of a pause."""
        run = self.run
        moved = [] if run.migrated is None or run.migrated == run.suspended else [self.end(run.migrated)]
        stopped = [self.end(run.ending[1])] if run.ending and run.suspended is None else []
        return moved + stopped

    def ground(self, top, height):
        """What lies behind a panel: its ground, the turns, and the migration's beginning, pause and end."""
        parts = [svg.rect(LEFT, top, RIGHT - LEFT, height, "panel")]
        parts += [svg.line(self.middle(turn), top, self.middle(turn), top + height, "grid") for turn in self.ticks()]
        parts += [svg.line(x, top, x, top + height, "mark") for x in self.bounds()]
        if self.gap:
            parts.append(svg.rect(self.pause(), top, self.gap, height, "stand"))
        if self.run.cut is not None:
            parts.append(svg.line(RIGHT, top, RIGHT, top + height, "cut"))
        return parts

    def turn_of(self, line):
        """The turn of a line behind a fetch; the last one where the run was cut before it."""
        return next((turn for turn in range(self.turns, 0, -1) if self.run.spans[turn - 1][0] <= line), 1)


def steps(most, wanted):
    """A step of 1, 2 or 5 times a power of ten that divides a range into about so many parts, at least 1."""
    rough = max(1, most / wanted)
    power = 10 ** math.floor(math.log10(rough))
    return int(next(power * digit for digit in (1, 2, 5, 10) if power * digit >= rough - 1e-9))
