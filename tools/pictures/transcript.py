"""Reading a transcript: its lines, their forms and their order, as docs/FORMATS.md has them."""
import re

TITLE = "nvmigrate transcript 1"
MOST = 4_294_967_295

NUMBER = r"(0|[1-9]\d{0,9})"
LANE = r"([1-8])"
IDENTIFIER = r"(0|[1-9]\d{0,4})"
STATUS = r"([0-7] [0-9a-f]{2})"

# The lines that have words behind their first one. What is missing here is one of PLAIN.
FORMS = {
    "act": re.compile(f"act {LANE} {NUMBER}", re.ASCII),
    "reap": re.compile(f"reap {LANE} {IDENTIFIER} {STATUS} {NUMBER} [01]", re.ASCII),
    "fetch": re.compile(f"fetch {LANE} {IDENTIFIER} {STATUS} {NUMBER}", re.ASCII),
    "piece": re.compile(
        f"piece {LANE} {IDENTIFIER} {NUMBER} {NUMBER} (?:(ok|fault {NUMBER})( [0-9a-f]{{64}})?|differs {NUMBER})",
        re.ASCII,
    ),
    "post": re.compile(f"post {LANE} {IDENTIFIER} {STATUS}", re.ASCII),
    "round": re.compile(f"round {NUMBER} {NUMBER}", re.ASCII),
    "pause": re.compile(f"pause {NUMBER} {NUMBER}", re.ASCII),
}
PLAIN = {TITLE, "ready", "migrate", "restart", "suspend", "resume to", "give up", "end"}
EVENTS = ("act", "reap", "fetch", "piece", "post")

# What may stand behind a line, and what is said where something else stands there. An event leads back to its place.
ORDER = {
    "start": ({TITLE: "title"}, f"a transcript begins with '{TITLE}'"),
    "title": ({"ready": "before"}, "the second line of a transcript is 'ready'"),
    "before": ({"migrate": "moving", "end": "end"}, "it comes only in a migration, and none is under way"),
    "moving": (
        {"round": "moving", "restart": "restart", "suspend": "suspend", "give up": "after"},
        "a migration that has begun goes on with events, 'round', 'restart', 'suspend' or 'give up'",
    ),
    "restart": ({"round": "moving"}, "directly behind 'restart' comes a 'round'"),
    "suspend": ({"pause": "pause", "give up": "after"}, "directly behind 'suspend' comes 'pause' or 'give up'"),
    "pause": ({"resume to": "after"}, "directly behind 'pause' comes 'resume to'"),
    "after": ({"end": "end"}, "a run has one migration, and it is over"),
    "end": ({}, "nothing comes behind the line 'end'"),
}
HOLDS_EVENTS = {"before", "moving", "after"}


class NoTranscript(Exception):
    """The text isn't a transcript: the number of a line, and a sentence on it."""

    def __init__(self, number, sentence, part="line"):
        super().__init__(f"{part} {number}: {sentence}")


def shown(text):
    """A line as a message quotes it: at most 40 characters, all of them printable."""
    quoted = ascii(text if len(text) <= 40 else text[:40] + "..")
    return quoted


def parsed(text):
    """A line's first word (or all of it, where it has no numbers) and its fields; None where no line has this form."""
    if text in PLAIN:
        return text, ()
    word = text.partition(" ")[0]
    found = word in FORMS and FORMS[word].fullmatch(text)
    return (word, found.groups()) if found else None


def is_in_range(kind, fields):
    """Whether the numbers of a line are: identifiers below 65,536, others of 32 bits."""
    if kind in EVENTS and kind != "act" and int(fields[1]) > 65_535:
        return False
    for field in fields:
        if field and len(field) == 10 and field.isdigit() and int(field) > MOST:
            return False
    return True


def next_place(place, kind):
    """Where a line leads in the order of lines; None where it may not stand there."""
    if kind in EVENTS:
        return place if place in HOLDS_EVENTS else None
    return ORDER[place][0].get(kind)


def numbered_lines(text):
    """The lines of a transcript in order, each as its number from 1 on, its first word, its fields and its text.

    Where the text ends before the line 'end', or within a line, the last one has the first word 'cut' and the number of
    the last whole line. Raises NoTranscript.
    """
    place = "start"
    lines = text.split("\n")
    rest = lines.pop()
    number = 0
    for number, line in enumerate(lines, 1):
        known = parsed(line)
        if known is None and place in ("start", "title"):
            raise NoTranscript(number, f"{ORDER[place][1]}, and here stands {shown(line)}.")
        if known is None or not is_in_range(*known):
            raise NoTranscript(number, f"{shown(line)} is no line of a transcript.")
        kind, fields = known
        place, before = next_place(place, kind), place
        if place is None:
            raise NoTranscript(number, f"{shown(line)} can't stand here: {ORDER[before][1]}.")
        yield number, kind, fields, line
    if place == "start":
        raise NoTranscript(number + 1, f"{ORDER[place][1]}, and the text ends before that.")
    if rest and place == "end":
        raise NoTranscript(number + 1, f"{ORDER[place][1]}, and here stands {shown(rest)}.")
    if place != "end":
        yield number, "cut", (), ""
