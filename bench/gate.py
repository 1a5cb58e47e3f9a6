#!/usr/bin/env python3
"""Runs the gate and prints what each crate costs it, in processor seconds, user and system, as tables for docs/GATE.md.

    bench/gate.py [COMMAND ..]

Without a COMMAND it is `.ci/run`. A fifth of a second apart it looks at the provers that run below this process, and counts
what each had used when it was seen last: those that build a crate are its proof, with `--test` that of its tests, and
those that check one try its edits. What the command printed goes to gate.log in the folder for temporary files.
"""
import collections
import os
import resource
import subprocess
import sys
import tempfile
import time

TOP = os.path.dirname(os.path.dirname(os.path.abspath(__file__)))
TICKS = os.sysconf("SC_CLK_TCK")


def words_of(pid):
    """The words of a process, or none where it is gone."""
    try:
        with open(f"/proc/{pid}/cmdline", "rb") as file:
            return file.read().decode("utf-8", "replace").split("\0")
    except OSError:
        return []


def seen(pid):
    """The parent of a process, when it began, and its processor seconds; nothing where it is gone."""
    try:
        with open(f"/proc/{pid}/stat", encoding="utf-8") as file:
            fields = file.read().rsplit(")", 1)[1].split()
    except OSError:
        return None
    return int(fields[1]), int(fields[19]), (int(fields[11]) + int(fields[12])) / TICKS


def below(top):
    """The processes below one."""
    parents = {int(name): seen(name) for name in os.listdir("/proc") if name.isdigit()}
    found, level = {}, {top}
    while level:
        level = {pid for pid, one in parents.items() if one and one[0] in level and pid not in found}
        found.update((pid, parents[pid]) for pid in level)
    return found


def kind_of(words):
    """The crate that a prover works on, and what for."""
    if "--crate-name" not in words or not words[0].endswith("rattle"):
        return None
    name = words[words.index("--crate-name") + 1]
    if "--test" in words:
        return name, "tests"
    return name, "edits" if words[1] == "check" else "proof"


def main():
    command = sys.argv[1:] or [os.path.join(TOP, ".ci", "run")]
    used, kinds = {}, {}
    began = time.time()
    log = os.path.join(tempfile.gettempdir(), "gate.log")
    with open(log, "w", encoding="utf-8") as out:
        gate = subprocess.Popen(command, cwd=TOP, stdout=out, stderr=subprocess.STDOUT, stdin=subprocess.DEVNULL)
        while gate.poll() is None:
            for pid, (_, start, seconds) in below(gate.pid).items():
                key = pid, start
                if not kinds.get(key):
                    kinds[key] = kind_of(words_of(pid))
                if kinds[key]:
                    used[key] = seconds
            time.sleep(0.2)
    whole = resource.getrusage(resource.RUSAGE_CHILDREN)
    sums = collections.Counter()
    for key, seconds in used.items():
        sums[kinds[key]] += seconds
    print("| crate | proof | tests | edits |")
    print("|---|---|---|---|")
    for name in sorted({name for name, _ in sums}):
        print(f"| {name} | " + " | ".join(f"{sums[name, kind]:.0f}" for kind in ("proof", "tests", "edits")) + " |")
    print("| all | " + " | ".join(f"{sum(n for (_, k), n in sums.items() if k == kind):.0f}" for kind in ("proof", "tests", "edits")) + " |")
    print(f"\n{whole.ru_utime:.0f} user and {whole.ru_stime:.0f} system seconds in {time.time() - began:.0f} seconds; status {gate.returncode}; {log}")


main()
