"""A run of a script on one thread with a migration in rounds, as the lines of its transcript.

The program runs no rounds yet, so this makes the transcripts of which pictures are shown and tried. It follows the rules
of turns and rounds to the byte, and no more: one array of blocks stands for both hosts. Once the program runs rounds, its
own output takes this file's place.
"""
import hashlib
from collections import deque

BLOCK, PAGE, MASK = 512, 4096, (1 << 64) - 1
KNOWN = {"flush": 0x00, "write": 0x01, "read": 0x02, "compare": 0x05, "zeroes": 0x08, "verify": 0x0C}


def words_of(seed):
    """The words of SplitMix64."""
    while True:
        seed = (seed + 0x9E3779B97F4A7C15) & MASK
        word = seed
        word = ((word ^ (word >> 30)) * 0xBF58476D1CE4E5B9) & MASK
        word = ((word ^ (word >> 27)) * 0x94D049BB133111EB) & MASK
        yield word ^ (word >> 31)


class Fault(Exception):
    """A call of a medium failed."""


class Medium:
    """The blocks of a side: its calls of a kind (get or put) fail at the numbers that it was told, counted from 1."""

    def __init__(self, blocks, fails):
        self.blocks, self.fails, self.calls = blocks, fails, {"get": 0, "put": 0}

    def call(self, kind):
        """Counts a call, and fails where it is due."""
        self.calls[kind] += 1
        if self.calls[kind] in self.fails.get(kind, ()):
            raise Fault


class Lane:
    """A queue pair with its guest."""

    def __init__(self, number, script):
        self.number = number
        self.sq, self.cq, pages = script.lanes[number]
        self.pages = [bytearray(PAGE) for _ in range(pages)]
        self.acts = script.acts[number]
        self.done = self.fetched = self.told = self.sent = self.completions = 0
        self.submitted, self.running, self.posted = deque(), deque(), deque()
        self.first_page = sum(script.lanes[lane][2] + 2 for lane in range(1, number))

    def is_complete(self):
        """Nothing is left to do or under way."""
        return self.done == len(self.acts) and not (self.submitted or self.running or self.posted)

    def address(self, page):
        """The guest address of a data page, and 0 for none."""
        return 0 if page == "-" else self.number * 16_777_216 + (int(page) + 2) * PAGE

    def page_at(self, address):
        """The number of the data page at an address; None where there is none."""
        place, rest = divmod(address - self.number * 16_777_216, PAGE)
        return place - 2 if not rest and 2 <= place < len(self.pages) + 2 else None


def entry_of(act, lane):
    """The submission entry of an act."""
    if act[0] == "raw":
        return bytes.fromhex(act[1])
    entry = bytearray(64)
    entry[0], entry[2:4], entry[4] = KNOWN[act[2]], int(act[1]).to_bytes(2, "little"), 1
    entry[24:32], entry[32:40] = (lane.address(page).to_bytes(8, "little") for page in act[5:7])
    entry[40:48], entry[48:52] = int(act[3]).to_bytes(8, "little"), (int(act[4]) - 1).to_bytes(4, "little")
    return bytes(entry)


class Command:
    """A fetched command: its opcode and blocks, its pages, its status, and the pieces that are left."""

    def __init__(self, entry):
        self.entry, self.opcode, self.cid = entry, entry[0], int.from_bytes(entry[2:4], "little")
        self.first, self.count = int.from_bytes(entry[40:48], "little"), int.from_bytes(entry[48:50], "little") + 1
        self.pages, self.status, self.pieces, self.at = [], "0 00", deque(), 0


def named_pages(command, lane):
    """The data pages that the pointers of an entry name, None for a bad one."""
    first, second = (int.from_bytes(command.entry[at : at + 8], "little") for at in (24, 32))
    needed = -(-command.count // 8)
    pages = [lane.page_at(first)]
    if needed == 2:
        pages.append(lane.page_at(second))
    elif needed > 2:
        table = lane.page_at(second)
        content = lane.pages[table] if table is not None else bytes(PAGE)
        pages += [lane.page_at(int.from_bytes(content[8 * i : 8 * i + 8], "little")) for i in range(needed - 1)]
    return pages


def refusal(command, lane, blocks):
    """The status of the first check that a command fails, or None."""
    space = int.from_bytes(command.entry[4:8], "little")
    if command.entry[1] & 0xC3:
        return "0 02"
    if any(command.cid == other.cid for other in lane.running):
        return "0 03"
    if command.opcode not in KNOWN.values():
        return "0 01"
    if space != 1 and not (command.opcode == 0 and space == 0xFFFFFFFF):
        return "0 0b"
    if command.opcode == 0:
        return None
    if command.count > 64:
        return "0 02"
    if command.first + command.count > blocks:
        return "0 80"
    if command.opcode in (0x01, 0x02, 0x05):
        command.pages = named_pages(command, lane)
        if None in command.pages:
            return "0 02"
    return None


class Migration:
    """What a migration owes, and what it was told of writes since it took them."""

    def __init__(self, blocks, pages):
        self.blocks, self.pages = set(range(blocks)), set(range(pages))
        self.due, self.taken, self.log, self.touched = deque(), set(), [], set()
        self.rounds, self.is_full, self.has_failed = 0, False, False


class Engine:
    """The run: `lines` are those of its transcript. `fails` has the failing calls of both sides' media."""

    def __init__(self, script, fails=None):
        fails = fails or {}
        self.script, self.sizes = script, script.sizes
        content = bytearray(self.sizes["blocks"] * BLOCK)
        self.source, self.destination = (Medium(content, fails.get(side, {})) for side in ("from", "to"))
        self.lanes = [Lane(number, script) for number in range(1, self.sizes["lanes"] + 1)]
        self.words = words_of(self.sizes["mix"])
        self.migration, self.has_begun, self.lines = None, False, ["nvmigrate transcript 1", "ready"]

    def touch(self, lane, page):
        """A window page of a lane is written."""
        if self.migration:
            self.migration.touched.add(lane.first_page + page)

    def run(self):
        """Runs to the end; answers the text of the transcript."""
        turn = 1
        while True:
            is_complete = all(lane.is_complete() for lane in self.lanes)
            if "migrate" in self.sizes and not self.has_begun and (is_complete or turn >= self.sizes["migrate"]):
                self.begin()
            elif is_complete and not self.migration:
                break
            if self.migration or not all(lane.is_complete() for lane in self.lanes):
                self.turn()
                turn += 1
        self.lines.append("end")
        return "\n".join(self.lines) + "\n"

    def turn(self):
        """One turn, with its round where a migration runs."""
        for lane in self.lanes:
            self.plan(lane)
        if self.migration:
            self.migration.due = deque(sorted(self.migration.blocks)[: self.sizes["slice"]])
        self.work()
        for lane in self.lanes:
            self.finish(lane)
        if self.migration:
            self.after_turn()

    def plan(self, lane):
        """The guest takes and acts, and the controller fetches."""
        while lane.posted:
            cid, status, head, phase = lane.posted.popleft()
            lane.told = head
            self.lines.append(f"reap {lane.number} {cid} {status} {head} {phase}")
        for _ in range(self.sizes["burst"]):
            if lane.done == len(lane.acts) or not self.may_do(lane):
                break
            act = lane.acts[lane.done]
            lane.done += 1
            self.lines.append(f"act {lane.number} {lane.done}")
            self.do(lane, act)
            if act == ["idle"]:
                break
        for _ in range(self.sizes["burst"]):
            if not lane.submitted or len(lane.running) + len(lane.posted) >= lane.cq - 1:
                break
            self.fetch(lane)

    def may_do(self, lane):
        """Whether the next act can be done."""
        act = lane.acts[lane.done]
        if act == ["wait"]:
            return not (lane.submitted or lane.running or lane.posted)
        return act[0] not in ("submit", "raw") or (lane.sent - lane.told) % lane.sq < lane.sq - 1

    def do(self, lane, act):
        """What an act does to memory, and what it submits."""
        if act[0] in ("submit", "raw"):
            lane.submitted.append(entry_of(act, lane))
            lane.sent += 1
            self.touch(lane, 0)
        elif act[0] in ("fill", "poke", "list"):
            page = int(act[1])
            if act[0] == "fill":
                lane.pages[page][:] = bytes.fromhex(act[2]) * PAGE
            elif act[0] == "poke":
                content = bytes.fromhex(act[3])
                lane.pages[page][int(act[2]) : int(act[2]) + len(content)] = content
            else:
                content = b"".join(lane.address(other).to_bytes(8, "little") for other in act[2:])
                lane.pages[page][: len(content)] = content
            self.touch(lane, page + 2)

    def fetch(self, lane):
        """The oldest submitted command is checked and cut in pieces."""
        command = Command(lane.submitted.popleft())
        command.status = refusal(command, lane, self.sizes["blocks"]) or "0 00"
        if command.status == "0 00" and command.opcode:
            first, end, shelf = command.first, command.first + command.count, self.sizes["shelf"]
            while first < end:
                count = min(end, (first // shelf + 1) * shelf) - first
                command.pieces.append((first, count))
                first += count
        lane.fetched += 1
        lane.running.append(command)
        self.lines.append(f"fetch {lane.number} {command.cid} {command.status} {len(command.pieces)}")

    def work(self):
        """All pieces and copies, in the order of `mix`."""
        def has_pieces(lane):
            return any(command.pieces for command in lane.running)

        moving = self.migration
        while True:
            left = [lane for lane in self.lanes if has_pieces(lane)] + ([moving] if moving and moving.due else [])
            if not left:
                return
            one = left[next(self.words) % len(left)] if self.sizes["mix"] else left[0]
            if one is moving:
                self.copy_in_turn()
            else:
                self.piece(one)

    def piece(self, lane):
        """The lane's next piece."""
        command = next(command for command in lane.running if command.pieces)
        first, count = command.pieces.popleft()
        done, stop, failure, read = 0, "ok", None, b""
        while done < count and failure is None:
            failure, stop, part = self.block(lane, command, first + done, command.at + done)
            read += part
            done += failure is None
        command.at += count
        digest = " " + hashlib.sha256(read).hexdigest() if command.opcode == 0x02 else ""
        outcome = f"{stop} {done}" if failure else stop
        self.lines.append(f"piece {lane.number} {command.cid} {first} {count} {outcome}{digest}")
        if failure and command.status == "0 00":
            command.status = failure
        if done and command.opcode in (0x01, 0x08) and self.migration:
            self.log(range(first, first + done))

    def block(self, lane, command, number, at):
        """One block of a piece: the failure or None, the word of the line, and what was read."""
        block = slice(BLOCK * number, BLOCK * (number + 1))
        place = slice(BLOCK * (at % 8), BLOCK * (at % 8 + 1))
        blocks = self.source.blocks
        page = command.pages[at // 8] if command.pages else None
        is_put = command.opcode in (0x01, 0x08)
        try:
            self.source.call("put" if is_put else "get")
        except Fault:
            return ("2 80" if is_put else "2 81"), "fault", b""
        if is_put:
            blocks[block] = lane.pages[page][place] if command.opcode == 0x01 else bytes(BLOCK)
        elif command.opcode == 0x02:
            lane.pages[page][place] = blocks[block]
            self.touch(lane, page + 2)
            return None, "ok", bytes(blocks[block])
        elif command.opcode == 0x05 and blocks[block] != lane.pages[page][place]:
            return "2 85", "differs", b""
        return None, "ok", b""

    def finish(self, lane):
        """The lane's commands are posted."""
        while lane.running:
            command = lane.running.popleft()
            phase = 1 - lane.completions // lane.cq % 2
            lane.completions += 1
            lane.posted.append((command.cid, command.status, lane.fetched % lane.sq, phase))
            self.touch(lane, 1)
            self.lines.append(f"post {lane.number} {command.cid} {command.status}")

    def log(self, blocks):
        """A change goes into the queue, or is lost where that is full."""
        moving = self.migration
        if len(moving.log) < self.sizes["change"] and not moving.is_full:
            moving.log.append(blocks)
        else:
            moving.is_full = True

    def copy(self):
        """One block goes to the destination. Raises Fault."""
        self.source.call("get")
        self.destination.call("put")

    def take(self, most):
        """Entries of the queue are taken."""
        moving = self.migration
        for blocks in moving.log[:most]:
            moving.taken.update(blocks)
        del moving.log[:most]

    def copy_in_turn(self):
        """A copy of a round."""
        moving = self.migration
        moving.blocks.discard(moving.due.popleft())
        try:
            self.copy()
        except Fault:
            moving.has_failed = True
            moving.due.clear()
            return
        self.take(self.sizes["change"])

    def begin(self):
        """A migration begins, and is cut over at once where little is owed."""
        self.has_begun = True
        self.lines.append("migrate")
        self.migration = Migration(self.sizes["blocks"], sum(len(lane.pages) + 2 for lane in self.lanes))
        if self.is_due():
            self.cut_over()

    def is_due(self):
        """Whether little enough is owed."""
        moving = self.migration
        return len(moving.blocks) <= self.sizes["small"] and len(moving.pages) <= self.sizes["pages"]

    def after_turn(self):
        """What the manager does after a turn."""
        moving = self.migration
        if moving.has_failed:
            return self.end("give up")
        self.take(len(moving.log))
        moving.blocks |= moving.taken
        moving.taken = set()
        if moving.is_full:
            moving.is_full = False
            moving.blocks = set(range(self.sizes["blocks"]))
            self.lines.append("restart")
        moving.pages |= moving.touched
        moving.touched = set()
        moving.pages -= set(sorted(moving.pages)[: self.sizes["pages"]])
        moving.rounds += 1
        self.lines.append(f"round {len(moving.blocks)} {len(moving.pages)}")
        if self.is_due() or moving.rounds == self.sizes["patience"]:
            self.cut_over()
        return None

    def cut_over(self):
        """The guests stand still, the rest is copied, and they go on."""
        moving = self.migration
        self.lines.append("suspend")
        try:
            for _ in moving.blocks:
                self.copy()
        except Fault:
            return self.end("give up")
        self.lines.append(f"pause {len(moving.blocks)} {len(moving.pages | moving.touched)}")
        self.source = self.destination
        return self.end("resume to")

    def end(self, line):
        """The migration is over."""
        self.migration = None
        self.lines.append(line)
