"""A page with a picture in which the command under the pointer says its lines."""
import json

from .style import KINDS

STYLE = """body{margin:0;font:14px system-ui,sans-serif;background:#fff;color:#1c2128}
svg{display:block;max-width:100%;height:auto}
#said{position:fixed;display:none;max-width:46em;padding:8px 10px;border-radius:6px;pointer-events:none;
background:#1c2128;color:#f2f4f6;box-shadow:0 2px 10px rgba(0,0,0,.4)}
#said pre{margin:4px 0 0;font:12px ui-monospace,monospace;white-space:pre-wrap;overflow-wrap:anywhere}
@media (prefers-color-scheme:dark){body{background:#0f141a;color:#e8ecf0}#said{background:#e8ecf0;color:#1c2128}}"""

# A box is [x, y, width, height, first command, number of commands]; a command [its words, its line numbers].
SCRIPT = """const picture = document.querySelector("svg"), said = document.getElementById("said");
function under(x, y) {
  for (const [left, top, width, height, first, count] of boxes)
    if (x >= left && x < left + width && y >= top && y < top + height)
      return commands[first + Math.min(count - 1, Math.floor((top + height - y) / height * count))];
}
picture.addEventListener("pointermove", event => {
  const at = new DOMPoint(event.clientX, event.clientY).matrixTransform(picture.getScreenCTM().inverse());
  const command = under(at.x, at.y);
  said.style.display = command ? "block" : "none";
  if (!command) return;
  const pre = document.createElement("pre");
  pre.textContent = command[1].map(number => number + "  " + lines[number]).join("\\n");
  said.replaceChildren(command[0], pre);
  const {clientWidth, clientHeight} = document.documentElement;
  said.style.left = Math.max(0, Math.min(event.clientX + 14, clientWidth - said.offsetWidth - 4)) + "px";
  said.style.top = Math.max(0, Math.min(event.clientY + 14, clientHeight - said.offsetHeight - 4)) + "px";
});
picture.addEventListener("pointerleave", () => said.style.display = "none");"""


def words_of(command):
    """What a command is, on one line."""
    end = f"status {command.status}" if command.posted else "not posted"
    return f"Lane {command.lane}, command {command.cid}, turn {command.turn}: {KINDS[command.kind][1]}, {end}"


def page(run, picture, boxes):
    """The text of the page."""
    commands, places = [], []
    for box in boxes:
        place = [round(value, 1) for value in (box.x, box.y, box.width, box.height)]
        places.append([*place, len(commands), len(box.commands)])
        commands += [[words_of(command), command.lines] for command in box.commands]
    data = {"boxes": places, "commands": commands, "lines": run.lines}
    values = "\n".join(f"const {name} = {json.dumps(value, separators=(',', ':'))};" for name, value in data.items())
    return f"""<!DOCTYPE html>
<html lang="en">
<meta charset="utf-8">
<meta name="color-scheme" content="light dark">
<title>A run of nvmigrate</title>
<style>
{STYLE}
</style>
{picture}<div id="said"></div>
<script>
{values}
{SCRIPT}
</script>
</html>
"""
