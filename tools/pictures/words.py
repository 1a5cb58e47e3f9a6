"""What a picture says of a run above it: a title, what was done, and what is left out."""
from . import svg


def title_of(run):
    """What the run was, in a few words."""
    rounds = svg.counted(len(run.rounds), "round")
    if run.migrated is None:
        return "A run without a migration" if run.cut is None else "A run, cut before its end and before any migration"
    if run.ending is None:
        return f"A migration that is still under way, after {rounds}"
    if run.ending[0] == "give up":
        return f"A migration that was given up after {rounds}"
    if not run.rounds:
        return "A migration in one step, without rounds"
    restarts = sum(one.restarted for one in run.rounds)
    return f"A migration in {rounds}" + (f" with {svg.counted(restarts, 'restart')}" if restarts else "")


def copied(run):
    """What was copied while the guests stood still."""
    return " and ".join(svg.counted(*pair) for pair in zip(run.pause, ("block", "page"))) + " copied"


def summary_of(run):
    """What was done, a line each."""
    commands = [command for lane in run.lanes.values() for command in lane.commands]
    failed = sum(command.failed for command in commands)
    lanes_words, commands_words = svg.counted(len(run.lanes), "lane"), svg.counted(len(commands), "command")
    failed_words = svg.grouped(failed) if failed else "none"
    lines = [f"{lanes_words} and {commands_words} in {svg.counted(run.turns, 'turn')}; {failed_words} failed."]
    if run.ending and run.ending[0] == "resume to":
        lines.append(f"{copied(run)} while the guests stood still; they went on at the destination.")
    elif run.ending:
        lines.append("A call of a medium failed, and the guests went on at the source.")
    return lines


def notes_of(run, frame, single):
    """What the picture leaves out or can't know, a line each with the classes of its words."""
    notes = []
    if run.cut is not None:
        words = f"Cut: the transcript ends behind line {svg.grouped(run.cut)}, without 'end'. It is drawn up to there."
        notes.append((words, "small warning"))
    if frame.group > 1:
        words = "It shows all their commands, and the most that was owed and the most pieces in one of them."
        notes.append((f"Thinned: a column stands for {frame.group} turns. {words}", "small muted"))
    if not single:
        words = "there is no room for bars from fetch to post, so commands are stacked where they were fetched."
        notes.append((f"Thinned: {words}", "small muted"))
    if run.script is None:
        words = "Without its script in front, opcodes and turns are told as far as the lines show them."
        notes.append((words, "small muted"))
    return notes
