#!/usr/bin/env python3
"""Proves and builds a program, a line for each crate that is done, with the seconds since the start; the provers' own
output goes to out/program.log.

    tools/make_program.py [CRATE]   the program of that crate, of ebl_cli (the one to deploy) otherwise

The gate's command goes over a copy of the crates that the program is built from, without the edits that must fail, so
as many crates are proved side by side as there are processors and memory. What was proved before on this machine and
hasn't changed isn't proved again, neither here nor by the gate. Ends with 0, or with 1 where a crate isn't proved.
"""
import os
import re
import shutil
import sys
import tempfile
import time

from program import (PRODUCT, TOP, commit, copied, crates_below, end_on_signals, gate, need_toolchain, program_of,
                     words_of)

LOG = os.path.join(TOP, "out", "program.log")


def prove(top, crates, begun, log):
    """Whether the crates in a folder are all proved: a line for each that is."""
    done, status = 0, 1
    for line in gate(top):
        if isinstance(line, int):
            status = line
            continue
        log.write(line)
        log.flush()
        proved = re.match(r"rt: (\w+) (proved|is kept)", line)
        if proved:
            done += 1
            print("%d of %d  %-20s %5.0f s" % (done, len(crates), proved.group(1), time.monotonic() - begun), flush=True)
    return status == 0


def put(made, program):
    """Puts a program in its place, whole or not at all."""
    os.makedirs(os.path.dirname(program), exist_ok=True)
    shutil.copy(made, program + ".new")
    os.replace(program + ".new", program)


def build(crate, log):
    """Proves and builds the program of a crate; whether that was done."""
    begun, origin, crates = time.monotonic(), commit(), crates_below(crate)
    with tempfile.TemporaryDirectory(prefix="ebl-program-") as top:
        copied(crates, top)
        if not prove(top, crates, begun, log):
            return False
        put(os.path.join(top, "crates", crate, "out", crate), program_of(crate))
    print("proved and built in %.0f s: %s%s" % (time.monotonic() - begun, os.path.relpath(program_of(crate)),
                                                origin and ", from commit " + origin))
    return True


def end_of_log():
    with open(LOG, encoding="utf-8", errors="replace") as file:
        return "".join(file.readlines()[-12:])


def main():
    words = words_of(__doc__)
    words.add_argument("crate", nargs="?", default=PRODUCT, help="a crate of crates.txt that has a program")
    crate = words.parse_args().crate
    if not os.path.exists(os.path.join(TOP, "crates", crate, "src", "main.rt")):
        words.error("no crate %s with a program" % crate)
    need_toolchain()
    os.makedirs(os.path.dirname(LOG), exist_ok=True)
    end_on_signals()
    with open(LOG, "w", encoding="utf-8") as log:
        if build(crate, log):
            return 0
    print("%s isn't proved; the end of %s:\n%s" % (crate, os.path.relpath(LOG), end_of_log()), end="")
    return 1


if __name__ == "__main__":
    sys.exit(main())
