"""A run as a picture shows it: its turns, the commands of its lanes, and its migration in rounds."""
from collections import deque

from .script import has_script, opcode_of, read_front
from .transcript import NoTranscript, numbered_lines

# Where an event stands in its turn: what a guest takes and does and its controller fetches; all pieces; all posts.
STAGES = {"reap": (0, 0), "act": (0, 1), "fetch": (0, 2), "piece": (1, 0), "post": (2, 0)}


class Command:
    """A command from its fetch on. `kind` names its opcode, or what the transcript alone tells of it."""

    __slots__ = ("lane", "cid", "kind", "turn", "fetched", "posted", "status", "lines", "pieces", "guess")

    def __init__(self, lane, cid, kind, turn, fetched, status, pieces):
        self.lane, self.cid, self.kind, self.turn, self.fetched, self.status = lane, cid, kind, turn, fetched, status
        self.pieces = pieces
        self.posted = self.guess = None
        self.lines = [fetched]

    @property
    def failed(self):
        """Whether its checks or its completion said something else than Success."""
        return self.status != "0 00"

    def see_piece(self, number, has_digest, differs):
        """A piece at a line; it may tell the opcode."""
        self.lines.append(number)
        self.guess = "read" if has_digest else "compare" if differs else self.guess or "other"

    def tell_kind(self):
        """What the transcript alone tells of the opcode, where no script stood in front."""
        if self.kind is None:
            self.kind = self.guess or ("unknown" if self.pieces else "none")


class Round:
    """A round: its turn, the blocks and pages that are owed after it, and whether copying began anew."""

    def __init__(self, turn, blocks, pages, restarted):
        self.turn, self.blocks, self.pages, self.restarted = turn, blocks, pages, restarted


class Lane:
    """A lane: its commands by their fetches, the pieces done by turn, and its queues while the transcript is read."""

    def __init__(self, acts):
        self.acts = acts
        self.commands = []
        self.pieces = {}
        self.submitted, self.running, self.posted = deque(), deque(), deque()


class Run:
    """A run. Turns are counted from 1; `spans` has the numbers of the first line and of the last event of each."""

    def __init__(self, script):
        self.script = script
        self.lanes = {}
        self.lines = [""]
        self.spans = []
        self.rounds = []
        self.migrated = self.suspended = self.pause = self.ending = self.cut = None
        self._last, self._acts, self._restarted, self._is_open = (), {}, False, False

    @property
    def turns(self):
        """The number of turns."""
        return len(self.spans)

    def lane(self, name):
        """The lane of a name."""
        number = int(name)
        if number not in self.lanes:
            self.lanes[number] = Lane(self.script.acts[number] if self.script else [])
        return self.lanes[number]

    def begin_turn(self, number):
        """A turn begins at this line."""
        self.spans.append([number, number])
        self._last, self._acts, self._is_open = (), {}, True

    def place(self, number, kind, name, act):
        """Puts an event into the turn that is open where it may follow there, and else into a new one."""
        stage, part = STAGES[kind]
        here = (stage, 0 if stage == 1 else int(name), part)
        done, has_idled = self._acts.get(name, (0, False))
        is_full = kind == "act" and self.script and (has_idled or done == self.script.sizes["burst"])
        if not self._is_open or here < self._last or is_full:
            self.begin_turn(number)
            done = 0
        self._last = here
        self.spans[-1][1] = number
        if kind == "act":
            self._acts[name] = (done + 1, act == ["idle"])

    def act(self, number, fields):
        """An act: with a script, what it submits is known from now on."""
        lane, order = self.lane(fields[0]), int(fields[1])
        act = None
        if self.script:
            if not 1 <= order <= len(lane.acts):
                raise NoTranscript(number, f"lane {fields[0]} has no act {order} in the script.")
            act = lane.acts[order - 1]
        self.place(number, "act", fields[0], act)
        kind = act and opcode_of(act)
        if kind:
            lane.submitted.append((number, kind))

    def reap(self, number, fields):
        """A completion is taken."""
        self.place(number, "reap", fields[0], None)
        posted = self.lane(fields[0]).posted
        if posted:
            posted.popleft().lines.append(number)

    def fetch(self, number, fields):
        """A command begins."""
        self.place(number, "fetch", fields[0], None)
        lane = self.lane(fields[0])
        act, kind = lane.submitted.popleft() if lane.submitted else (None, None)
        command = Command(int(fields[0]), fields[1], kind, self.turns, number, fields[2], int(fields[3]))
        if act:
            command.lines.insert(0, act)
        lane.commands.append(command)
        lane.running.append(command)

    def piece(self, number, fields):
        """A piece of the oldest running command of its identifier."""
        self.place(number, "piece", fields[0], None)
        lane = self.lane(fields[0])
        command = next((one for one in lane.running if one.cid == fields[1]), None)
        if command is None:
            raise NoTranscript(number, f"a piece of command {fields[1]} of lane {fields[0]}, which isn't running.")
        command.see_piece(number, fields[6] is not None, fields[7] is not None)
        lane.pieces[self.turns] = lane.pieces.get(self.turns, 0) + 1

    def post(self, number, fields):
        """The completion of the oldest running command."""
        self.place(number, "post", fields[0], None)
        lane = self.lane(fields[0])
        if not lane.running or lane.running[0].cid != fields[1]:
            words = f"a completion of command {fields[1]}, which isn't lane {fields[0]}'s oldest running one."
            raise NoTranscript(number, words)
        command = lane.running.popleft()
        command.posted, command.status = number, fields[2]
        command.lines.append(number)
        lane.posted.append(command)

    def step(self, number, kind, fields):
        """A line of the migration, or the cut."""
        if kind == "migrate":
            self.migrated, self._is_open = self.turns, False
        elif kind == "round":
            if not self._is_open:
                self.begin_turn(number)
            self.rounds.append(Round(self.turns, int(fields[0]), int(fields[1]), self._restarted))
            self._restarted = self._is_open = False
        elif kind == "restart":
            if not self._is_open:
                self.begin_turn(number)
            self._restarted = True
        elif kind == "suspend":
            self.suspended, self._is_open = self.turns, False
        elif kind == "pause":
            self.pause = int(fields[0]), int(fields[1])
        elif kind in ("resume to", "give up"):
            self.ending, self._is_open = (kind, self.turns), False
        elif kind == "cut":
            self.cut = number


def read_run(text):
    """The run of a transcript, with or without its script in front. Raises NoTranscript."""
    script = None
    if has_script(text):
        script, text = read_front(text)
    run = Run(script)
    for number in range(1, script.sizes.get("lanes", 0) + 1 if script else 1):
        run.lane(number)
    events = {"act": run.act, "reap": run.reap, "fetch": run.fetch, "piece": run.piece, "post": run.post}
    for number, kind, fields, line in numbered_lines(text):
        if kind in events:
            events[kind](number, fields)
        else:
            run.step(number, kind, fields)
        if kind != "cut":
            run.lines.append(line)
    for lane in run.lanes.values():
        for command in lane.commands:
            command.tell_kind()
    return run
