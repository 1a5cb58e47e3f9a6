"""Colours and words of a picture. The colours are those of Okabe and Ito, which colour-blind people tell apart."""

# What a command is: its letter on a bar, its words in the legend, and its colours in light and dark.
KINDS = {
    "write": ("W", "Write", "#0072b2", "#2f8fdb"),
    "read": ("R", "Read", "#56b4e9", "#a5d8ff"),
    "compare": ("C", "Compare", "#009e73", "#17b287"),
    "zeroes": ("Z", "Write Zeroes", "#cc79a7", "#e29bc3"),
    "verify": ("V", "Verify", "#e3d12f", "#f0e442"),
    "flush": ("F", "Flush", "#4a4f55", "#6b7480"),
    "unknown": ("?", "opcode not known", "#000000", "#e6edf3"),
    "other": ("", "Write, Write Zeroes, Compare or Verify", "#0072b2", "#2f8fdb"),
    "none": ("", "without pieces: a Flush, or refused", "#4a4f55", "#6b7480"),
}

# Other colours: a class, its property, and the colours in light and dark.
COLOURS = [
    ("ground", "fill", "#ffffff", "#0f141a"),
    ("panel", "fill", "#f5f6f8", "#181f27"),
    ("source", "fill", "#dfe5ec", "#2b3642"),
    ("moving", "fill", "#fbe3b0", "#5a4614"),
    ("paused", "fill", "#d55e00", "#ff7f3f"),
    ("there", "fill", "#c9ead9", "#1b4a3a"),
    ("fell", "fill", "#0072b2", "#2f8fdb"),
    ("rose", "fill", "#e69f00", "#f0b429"),
    ("pages", "fill", "#009e73", "#17b287"),
    ("again", "fill", "#a3457c", "#f29fd0"),
    ("pieces", "fill", "#7d8792", "#7f8b97"),
    ("fails", "fill", "#d55e00", "#ff7f3f"),
    ("grid", "stroke", "#d9dde2", "#2a333d"),
    ("axis", "stroke", "#8b949e", "#6b7681"),
    ("mark", "stroke", "#4a525a", "#b8c1ca"),
    ("cut", "stroke", "#d55e00", "#ff7f3f"),
    ("limit", "stroke", "#1c2128", "#e8ecf0"),
    ("stand", "fill", "#f6d5bf", "#5a2c12"),
    ("bad", "stroke", "#d55e00", "#ff7f3f"),
]
INK = ("#1c2128", "#e8ecf0")
MUTED = ("#57606a", "#a0abb6")
WARNING = ("#a84300", "#ff9a66")

FIXED = """text{font:12px system-ui,-apple-system,"Segoe UI","DejaVu Sans",sans-serif}
text.title{font-size:19px;font-weight:600}
text.head{font-size:13px;font-weight:600}
text.small{font-size:11px}
text.value{paint-order:stroke;stroke-width:3px;stroke-linejoin:round}
text.letter{font-size:11px;font-weight:600}
.grid,.axis,.mark,.cut,.bad{fill:none;stroke-width:1}
.mark{stroke-dasharray:4 3}
.cut{stroke-width:2;stroke-dasharray:3 3}
.bad{stroke-width:1.8}
.limit{fill:none;stroke-width:1.5;stroke-dasharray:6 3}
.hollow{stroke-width:1.5}"""


def rules(side):
    """The colours of light (0) or dark (1)."""
    yield f"text{{fill:{INK[side]}}}text.muted{{fill:{MUTED[side]}}}text.warning{{fill:{WARNING[side]}}}"
    for name, what, *colours in COLOURS:
        yield f".{name}{{{what}:{colours[side]}}}"
    ground, panel = COLOURS[0][2 + side], COLOURS[1][2 + side]
    yield f"text.value{{stroke:{panel}}}"
    for name, (_, _, *colours) in KINDS.items():
        yield f".{name}{{fill:{colours[side]}}}.hollow.{name}{{fill:{ground};stroke:{colours[side]}}}"
    yield "text.letter{fill:#101418}"
    yield f"text.letter.on-write,text.letter.on-flush,text.letter.on-unknown{{fill:{('#ffffff', '#101418')[side]}}}"


def sheet():
    """The style sheet: light, and dark where the reader asks for that."""
    light, dark = ("\n".join(rules(side)) for side in (0, 1))
    return f"<style>\n{FIXED}\n{light}\n@media (prefers-color-scheme:dark){{\n{dark}\n}}\n</style>"
