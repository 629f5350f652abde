#!/usr/bin/env python3
"""Runs the threads of office_bench over disks in memory, disks that fail, disks that wait for one another, and files.

    tools/check_offices.py [PROGRAM]   another program instead of the proved one

Its last line is 'N passed, M failed', and it ends with status 1 where something failed.
"""
import os
import re
import subprocess
import sys
import tempfile

from program import proved, words_of

LINE = re.compile(r"(\d+) done, (\d+) refused, (\d+) failed; (\d+) frames; ([a-z ]+)\n")

# Six requests a bill: a SIGN, an ISSUE, a TRANSFER, a question for the start, the start, and its answer. All but the
# question write a frame.
REQUESTS, FRAMES = 6, 5


def run(program, *words):
    """The exit, and what the line says: how many were done, were refused and failed, the frames, and the verdict."""
    ended = subprocess.run([program, *words], stdout=subprocess.PIPE, stderr=subprocess.DEVNULL, text=True)
    line = LINE.fullmatch(ended.stdout)
    return ended.returncode, line and (*map(int, line.groups()[:4]), line[5])


def all_done(bills):
    return 0, (REQUESTS * bills, 0, 0, FRAMES * bills, "consistent")


def fails_alone(program):
    """Of twenty calls of one disk that fail, each is one reply at most."""
    code, told = run(program, "failing", "2", "420")
    return code == 0 and told is not None and 0 < told[2] <= 20 and told[4] == "consistent"


def checks(program):
    """(what, the run is as it should be) of each run."""
    yield "no words", run(program) == (2, None)
    yield "32 threads", run(program, "5", "1") == (2, None)
    yield "65,537 bills", run(program, "0", "65537") == (2, None)
    yield "one thread", run(program, "0", "100") == all_done(100)
    yield "sixteen threads", run(program, "4", "50") == all_done(16 * 50)
    yield "a disk that fails", fails_alone(program)
    yield "a write that waits for another shard", run(program, "gated") == all_done(2)
    with tempfile.TemporaryDirectory() as folder:
        yield "files", run(program, "1", "20", folder) == all_done(40)


def main():
    words = words_of(__doc__)
    words.add_argument("program", nargs="?")
    program = words.parse_args().program or proved("office_bench")
    ends = list(checks(program))
    for what, is_well in ends:
        if not is_well:
            print("%s: not as it should be" % what)
    failed = sum(not is_well for _, is_well in ends)
    print("%d passed, %d failed" % (len(ends) - failed, failed))
    return 1 if failed else 0


if __name__ == "__main__":
    sys.exit(main())
