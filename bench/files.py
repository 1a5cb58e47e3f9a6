#!/usr/bin/env python3
"""Moves 131,072 blocks between two files by the proved program, and copies them by a plain one, block by block.

    bench/files.py [PROGRAM]

PROGRAM is a built program; without one it is `./nvmigrate` of this repository. The plain one is bench/copy_blocks.c,
compiled by `$CC` or `cc`. Both are run in turn, three times each; printed are the least processor seconds of either, and
how often the plain one's go into the program's, which is to be 1.3 at most.
"""
import os
import subprocess
import sys
import tempfile

import measure

BLOCKS = 131072


def processor_seconds(words, source):
    """The processor seconds of a command that ends well."""
    with open(source, "rb") as given:
        child = subprocess.Popen(words, stdin=given, stdout=subprocess.DEVNULL)
        _, status, usage = os.wait4(child.pid, 0)
    if status:
        sys.exit(f"{words[0]}: status {os.waitstatus_to_exitcode(status)}")
    return usage.ru_utime + usage.ru_stime


def main():
    program = sys.argv[1] if len(sys.argv) > 1 else os.path.join(measure.TOP, "nvmigrate")
    with tempfile.TemporaryDirectory() as folder:
        plain, start, moved, copied = (os.path.join(folder, name) for name in ("plain", "from", "moved", "copied"))
        source = os.path.join(measure.TOP, "bench", "copy_blocks.c")
        subprocess.run([os.environ.get("CC", "cc"), "-O2", source, "-o", plain], check=True)
        with open(start, "wb") as image:
            image.write(os.urandom(BLOCKS * 512))
        script = measure.put_script(folder, measure.moved_blocks(BLOCKS))
        words = [program, *measure.words_of(measure.moved_blocks(BLOCKS)), start, moved]
        seconds = [(processor_seconds(words, script), processor_seconds([plain, start, copied], script)) for _ in range(measure.RUNS)]
        ours, theirs = (min(column) for column in zip(*seconds))
        with open(start, "rb") as one, open(moved, "rb") as other:
            # The guest writes the first block after the move.
            if one.read()[512:] != other.read()[512:]:
                sys.exit("the two files differ after the move")
    print(f"{program}: {ours:.2f} processor seconds; a plain copy: {theirs:.2f}; {ours / theirs:.2f} times")


if __name__ == "__main__":
    main()
