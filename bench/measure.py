#!/usr/bin/env python3
"""Runs the proved program on large scripts of several sizes each, and prints what it needs, for docs/PERFORMANCE.md.

    bench/measure.py [PROGRAM ..]
    bench/measure.py --instructions [PROGRAM ..]

PROGRAM is a built program; without one it is `./nvmigrate` of this repository, which is built first where it isn't yet.
Each input is run three times by each program in turn: least user seconds, least processor seconds, least that passed, peak
memory, and writes. Where one program is measured it judges its transcripts too. With `--instructions` Valgrind counts the
instructions of one run each instead, of the inputs that show what a turn, an act and a shelf cost.
"""
import os
import re
import subprocess
import sys
import tempfile
import time

TOP = os.path.dirname(os.path.dirname(os.path.abspath(__file__)))

SHELVES = 64

RUNS = 3


def head(blocks, pages, move=None, lanes=1, mix=0, shelves=SHELVES):
    """The head of a script over so many shelves, with a suspended move where a turn is given."""
    small = blocks if move else 4
    lines = ["nvmigrate script 1", f"blocks {blocks}", f"shelf {blocks // shelves}", f"lanes {lanes}"]
    lines += [f"lane {lane} sq 64 cq 256 pages {pages}" for lane in range(1, lanes + 1)]
    lines += ["burst 64", f"mix {mix}", "change 4", "slice 4"]
    lines += [f"small {small}", "pages 2064" if move else "pages 4", "patience 8"]
    return lines + ([f"migrate {move}"] if move else [])


def many_acts(acts):
    """Writes and reads of one block all over 131,072 blocks, thirty of each before a wait."""
    lines, cid = head(131072, 2), 0
    while len(lines) < acts + 12:
        if (cid + 1) % 61 == 0:
            lines.append("1 wait")
        else:
            op, page = ("write", 0) if cid % 2 == 0 else ("read", 1)
            lines.append(f"1 submit {cid % 65536} {op} {cid * 2047 % 131072} 1 {page} -")
        cid += 1
    return lines


def eight_lanes(acts, mix):
    """Acts of eight lanes, one of each in turn: after a fill, writes and reads of two blocks, sixty of a lane before its
    wait, and one in four of them over the bound of two shelves. Lanes name the same blocks in one turn."""
    lines = head(131072, 2, lanes=8, mix=mix)
    for i in range(acts):
        lane, place = i % 8 + 1, i // 8
        if place == 0:
            lines.append(f"{lane} fill 0 {lane}{lane}")
        elif (place + 1) % 61 == 0:
            lines.append(f"{lane} wait")
        else:
            op, page = ("write", 0) if place % 2 == 0 else ("read", 1)
            lines.append(f"{lane} submit {place} {op} {i % 255 * 512 + 511} 2 {page} -")
    return lines


def long_transfers(commands):
    """Writes and reads of 64 blocks by a list page over 131,072 blocks, one in 32 of them over the bound of two shelves."""
    lines = head(131072, 10)
    lines += ["1 fill 0 5a", "1 list 9 1 2 3 4 5 6 7"]
    for i in range(commands):
        op = "write" if i % 2 == 0 else "read"
        lines.append(f"1 submit {i % 65536} {op} {(i * 64 + 32) % 131008} 64 0 9")
    return lines


def moved_blocks(blocks):
    """A move of a namespace while the guest is suspended."""
    return head(blocks, 1, move=1) + ["1 submit 1 write 0 1 0 -"]


def small_pieces(pieces):
    """Write Zeroes and Verifies of 64 blocks, which 64 shelves of one block cut into 64 pieces, sixty before a wait."""
    lines = head(64, 1)
    for i in range(pieces // 64):
        op = "zeroes" if i % 2 == 0 else "verify"
        lines.append(f"1 submit {i % 65536} {op} 0 64 - -")
        if i % 60 == 59:
            lines.append("1 wait")
    return lines


def read_pieces(pieces):
    """Reads of 64 blocks by a list page, which 64 shelves of one block cut into 64 pieces with a digest each, sixty before a
    wait."""
    lines = head(64, 10) + ["1 list 9 1 2 3 4 5 6 7"]
    for i in range(pieces // 64):
        lines.append(f"1 submit {i % 65536} read 0 64 0 9")
        if i % 60 == 59:
            lines.append("1 wait")
    return lines


def writes_of_turns(shelves):
    """64,000 writes of one block each, 59 in a turn, over so many shelves."""
    lines = head(64, 1, shelves=shelves)
    for i in range(64000):
        lines.append(f"1 submit {i % 65536} write {i % 64} 1 0 -")
        if i % 59 == 58:
            lines.append("1 wait")
    return lines


KINDS = [
    ("acts", many_acts, [16384, 32768, 65536]),
    ("eight lanes, mix 0", lambda acts: eight_lanes(acts, 0), [16384, 32768, 65536]),
    ("eight lanes, mix 3", lambda acts: eight_lanes(acts, 3), [16384, 32768, 65536]),
    ("transfers of 64 blocks", long_transfers, [4096, 16384, 65534]),
    ("blocks moved", moved_blocks, [32768, 65536, 131072]),
    ("pieces of one block", small_pieces, [500000, 1000000, 2000000]),
    ("pieces that are read", read_pieces, [150000, 300000, 600000]),
]

COUNTED = [
    ("writes over 1 shelf", lambda: writes_of_turns(1)),
    ("writes over 64 shelves", lambda: writes_of_turns(64)),
    *(
        (f"eight lanes, mix {mix}, {acts} acts", lambda mix=mix, acts=acts: eight_lanes(acts, mix))
        for mix in (0, 3)
        for acts in (16384, 32768, 65536)
    ),
]


def words_of(lines):
    """The words that run a script, over hosts of its sizes."""
    return ["run", "serial", lines[1].split()[1], lines[2].split()[1]]


def put_script(folder, lines):
    """A script as a file."""
    path = os.path.join(folder, "script")
    with open(path, "w", encoding="ascii") as file:
        file.write("\n".join(lines + ["end"]) + "\n")
    return path


def writes_of(pid):
    """The writes of a process that has ended and isn't waited for yet."""
    with open(f"/proc/{pid}/io", encoding="ascii") as file:
        return int(dict(line.split(": ") for line in file)["syscw"])


def run(program, words, source, sink):
    """User, processor and passed seconds, peak kilobytes, writes and exit status of one run."""
    with open(source, "rb") as given, open(sink, "wb") as got:
        start = time.monotonic()
        child = subprocess.Popen([program, *words], stdin=given, stdout=got)
        os.waitid(os.P_PID, child.pid, os.WEXITED | os.WNOWAIT)
        seconds, writes = time.monotonic() - start, writes_of(child.pid)
        _, status, usage = os.wait4(child.pid, 0)
    user, processor = usage.ru_utime, usage.ru_utime + usage.ru_stime
    return user, processor, seconds, usage.ru_maxrss, writes, os.waitstatus_to_exitcode(status)


def least(runs):
    """Of several runs the least seconds of each kind, as other work makes a run longer, and the most of the rest."""
    return [(min if place < 3 else max)(column) for place, column in enumerate(zip(*runs))]


def measure(programs, lines):
    """Runs of a script by each program in turn, and the judging of its transcript where there is one; and its bytes."""
    with tempfile.TemporaryDirectory() as folder:
        script = put_script(folder, lines)
        text, whole, said = (os.path.join(folder, name) for name in ("text", "whole", "said"))
        ran = [[run(program, words_of(lines), script, text) for program in programs] for _ in range(RUNS)]
        size = os.path.getsize(text)
        judged = []
        if len(programs) == 1:
            with open(whole, "wb") as both:
                for part in (script, text):
                    with open(part, "rb") as file:
                        both.write(file.read())
            judged.append(least([run(programs[0], ["check"], whole, said) for _ in range(RUNS)]))
        return [least(runs) for runs in zip(*ran)], judged, size


def instructions(program, lines):
    """The instructions of a run of a script, by Valgrind."""
    with tempfile.TemporaryDirectory() as folder, open(put_script(folder, lines), "rb") as source:
        words = ["valgrind", "--tool=callgrind", "--callgrind-out-file=/dev/null", program, *words_of(lines)]
        done = subprocess.run(words, stdin=source, stdout=subprocess.DEVNULL, stderr=subprocess.PIPE, check=True)
    return int(re.search(rb"Collected : (\d+)", done.stderr).group(1))


def print_seconds(programs):
    """A line for each input and program, and one for the judging of its transcript."""
    print(f"{'input':24} {'size':>7} {'user':>6} {'processor':>9} {'seconds':>8} {'peak KiB':>9} {'writes':>8} {'status':>6} transcript")
    for name, make, sizes in KINDS:
        for size in sizes:
            ran, judged, text = measure(programs, make(size))
            lines = [(name if len(programs) == 1 else f"{name}, {at}", numbers) for at, numbers in enumerate(ran, 1)]
            for title, numbers in lines + [("  judged", numbers) for numbers in judged]:
                user, processor, seconds, peak, writes, status = numbers
                print(f"{title:24} {size:7} {user:6.2f} {processor:9.2f} {seconds:8.2f} {peak:9} {writes:8} {status:6} {text:10}")


def print_instructions(programs):
    """A line for each input that is counted, with a column for each program."""
    for name, make in COUNTED:
        counts = (instructions(program, make()) for program in programs)
        print(f"{name:32}", *(f"{count:14,}" for count in counts), flush=True)


def main():
    words = sys.argv[1:]
    counted = words[:1] == ["--instructions"]
    programs = words[counted:]
    if not programs:
        subprocess.run([os.path.join(TOP, "nvmigrate"), "--version"], check=True, stdout=subprocess.DEVNULL)
        programs = [os.path.join(TOP, "crates", "nvmigrate", "out", "nvmigrate")]
    (print_instructions if counted else print_seconds)(programs)


if __name__ == "__main__":
    main()
