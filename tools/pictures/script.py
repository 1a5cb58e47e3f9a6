"""Reading the script that may stand in front of a transcript: what a picture needs of it, the sizes and the acts."""
import re

from .transcript import NoTranscript, shown

TITLE = "nvmigrate script 1"
END = "end"

NUMBER = r"(?:0|[1-9]\d{0,19})"
# The sizes of a head, with the least and the greatest number of each.
RANGES = {
    "blocks": (1, 131_072), "shelf": (1, 65_536), "lanes": (1, 8), "burst": (1, 64), "mix": (0, 4_294_967_295),
    "change": (2, 65_536), "slice": (1, 131_072), "small": (1, 131_072), "pages": (1, 2_064), "patience": (1, 65_535),
    "migrate": (1, 65_535),
}
HEAD = re.compile(rf"({'|'.join(RANGES)}) ({NUMBER})", re.ASCII)
LANE = re.compile(rf"lane ([1-8]) sq ({NUMBER}) cq ({NUMBER}) pages ({NUMBER})", re.ASCII)
ACT = re.compile(
    rf"[1-8] (?:wait|idle|fill {NUMBER} [0-9a-f]{{2}}|poke {NUMBER} {NUMBER} (?:[0-9a-f]{{2}}){{1,32}}"
    rf"|raw [0-9a-f]{{128}}|list {NUMBER}(?: {NUMBER}){{1,8}}"
    rf"|submit {NUMBER} (?:flush|write|read|compare|zeroes|verify) {NUMBER} {NUMBER} (?:-|{NUMBER}) (?:-|{NUMBER}))",
    re.ASCII,
)
OPCODES = {0x00: "flush", 0x01: "write", 0x02: "read", 0x05: "compare", 0x08: "zeroes", 0x0C: "verify"}


class Script:
    """A script: `sizes` by the words of its head, `lanes` with (sq, cq, pages), and `acts`, the words of each lane's acts."""

    def __init__(self):
        self.sizes = {}
        self.lanes = {}
        self.acts = {lane: [] for lane in range(1, 9)}

    def take(self, line):
        """Takes a line between the title and the end; answers whether it is one."""
        if ACT.fullmatch(line):
            words = line.split(" ")
            self.acts[int(words[0])].append(words[1:])
            return True
        head, lane = HEAD.fullmatch(line), LANE.fullmatch(line)
        if head:
            least, most = RANGES[head[1]]
            self.sizes[head[1]] = int(head[2])
            return least <= self.sizes[head[1]] <= most
        if lane:
            self.lanes[int(lane[1])] = (int(lane[2]), int(lane[3]), int(lane[4]))
        return bool(lane)


def opcode_of(act):
    """The name of the command that an act submits; None where it submits none."""
    if act[0] == "submit":
        return act[2]
    return OPCODES.get(int(act[1][:2], 16), "unknown") if act[0] == "raw" else None


def has_script(text):
    """Whether a text begins as a script does."""
    return text.startswith(TITLE + "\n")


def read_front(text):
    """The script at the front of a text, and the text behind it. Raises NoTranscript."""
    script = Script()
    start = len(TITLE) + 1
    number = 2
    while True:
        end = text.find("\n", start)
        line = text[start:] if end < 0 else text[start:end]
        if end < 0:
            raise NoTranscript(number, "the script has no line 'end', and no transcript is behind it.", "script line")
        if line == END:
            break
        if not script.take(line):
            raise NoTranscript(number, f"{shown(line)} is no line of a script.", "script line")
        start = end + 1
        number += 1
    if "blocks" not in script.sizes or "burst" not in script.sizes:
        raise NoTranscript(number, "the script ends without its lines 'blocks' and 'burst'.", "script line")
    return script, text[end + 1 :]
