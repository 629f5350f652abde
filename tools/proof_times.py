#!/usr/bin/env python3
"""Where a check's time went: by the part of a proof, by function, and by module.

    tools/proof_times.py CRATE [COUNT]     crates/CRATE/out/incremental, the 20 dearest of each otherwise
    tools/proof_times.py FOLDER [COUNT]    the folder that a check was given as --incremental

A check writes each of its modules once it is done, so the times between tell how long each took. They tell it of one
check that began with nothing and had a processor to itself (in the crate's folder `rm -rf out/incremental`, then
`rt check --jobs 1`, which says so where it begins with what a check of another clone kept). What a check read before,
or waited for, counts to the module that is written next.
"""
import collections
import os
import re
import sys

from program import TOP, words_of


def modules(folder):
    """(seconds, bytes, name) of each module that was written, in order."""
    found = []
    for at, _, names in os.walk(folder):
        for name in names:
            told = os.stat(os.path.join(at, name))
            found.append((told.st_mtime, told.st_size, re.sub(r"(\.decls)?\.oantt$", "", name)))
    found.sort()
    return [(now - before, size, name) for (before, _, _), (now, size, name) in zip(found, found[1:])]


def part_of(name):
    """The last word of a module's name, without numbers: `Lts` has the steps of a function, with all its locals."""
    return re.sub(r"-?\d+", "#", re.sub(r"^Kinds.*", "Kinds", name.split(".")[-1]))


def function_of(name):
    found = re.match(r"Rattle-?.*?[-.](?:proofs|specs\.contracts|specs)\.(.*)\.[^.]+$", name)
    return found.group(1) if found else name


def table(head, rows, of, count):
    times, sizes = collections.Counter(), collections.Counter()
    for seconds, size, name in rows:
        times[of(name)] += seconds
        sizes[of(name)] += size
    print("%9s %8s  %s" % ("seconds", "MB", head))
    for name, seconds in times.most_common(count):
        print("%9.1f %8.1f  %s" % (seconds, sizes[name] / 1e6, name))


def main():
    words = words_of(__doc__)
    words.add_argument("folder", metavar="CRATE|FOLDER")
    words.add_argument("count", nargs="?", type=int, default=20)
    given = words.parse_args()
    own = os.path.join(TOP, "crates", given.folder, "out", "incremental")
    folder = own if os.path.isdir(own) else given.folder
    rows = modules(folder) if os.path.isdir(folder) else []
    if not rows:
        sys.exit("no check left anything in " + folder)
    table("part", rows, part_of, given.count)
    table("function", rows, function_of, given.count)
    table("module", rows, str, given.count)
    print("%9.0f %8.0f  all" % (sum(row[0] for row in rows), sum(row[1] for row in rows) / 1e6))


if __name__ == "__main__":
    sys.exit(main())
