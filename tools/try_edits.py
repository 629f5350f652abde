#!/usr/bin/env python3
"""Tries the wrong bodies of edits/ that the gate leaves out: the prover has to refuse each.

    tools/try_edits.py [CRATE ..]   those of these crates, of all otherwise

The gate's command goes over a copy of the crates and of those below, with these edits as their own: what the gate
proved on this machine isn't proved again, and an edit that was tried before and of which nothing changed isn't tried
again. A crate takes the time of its proof, and some 10 to 60 seconds an edit. A line for each edit; the last one is
'N refused, M not', and it ends with 1 where one wasn't or couldn't be tried.
"""
import os
import re
import shutil
import sys
import tempfile

from program import TOP, copied, crates_below, end_on_signals, gate, need_toolchain, words_of

EDITS = os.path.join(TOP, "edits")


def names(crate):
    return sorted(os.listdir(os.path.join(EDITS, crate)))


def tries(crates):
    """The gate's lines over a copy of the crates, each with its edits."""
    with tempfile.TemporaryDirectory(prefix="ebl-edits-") as top:
        copied(crates_below(*crates), top)
        for crate in crates:
            shutil.copytree(os.path.join(EDITS, crate), os.path.join(top, "crates", crate, "must-fail"))
        yield from gate(top)


def main():
    words = words_of(__doc__)
    every = sorted(os.listdir(EDITS))
    words.add_argument("crate", nargs="*", help="a crate with a folder in edits/")
    crates = words.parse_args().crate or every
    for crate in crates:
        if crate not in every:
            words.error("no folder edits/" + crate)
    need_toolchain()
    end_on_signals()
    wanted, refused = sum(len(names(crate)) for crate in crates), 0
    for line in tries(crates):
        if not isinstance(line, int) and re.match(r"rt: (must-fail|FAILED|\w+ NOT PROVED)", line):
            print(line[len("rt: "):], end="", flush=True)
            refused += bool(re.match(r"rt: must-fail \S+: refused, as it must be", line))
    print("%d refused, %d not" % (refused, wanted - refused))
    return 0 if refused == wanted else 1


if __name__ == "__main__":
    sys.exit(main())
