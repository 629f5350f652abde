#!/usr/bin/env python3
"""How many turns a second 1, 2 and 4 threads take at one value and at 16, beside std's Mutex in stock Rust.

Runs turns_bench (the product's turns, proved) and turns_peer.rs (a Mutex for each value) in turn with the same words,
and prints turns a second and the ratio of the two in one round (median, least and greatest). A run with few turns is
taken off one with more, so that starts don't count.
"""
import os
import shutil
import statistics
import subprocess
import sys
import tempfile
import time

from measure import HERE, difference, proved, words_of

ROUNDS = 5
TURNS = 1_000_000


def seconds(program, levels, values, turns):
    words = [program, str(levels), str(values), str(turns)]
    begun = time.perf_counter()
    said = subprocess.run(words, check=True, stdout=subprocess.PIPE).stdout.split()
    taken = time.perf_counter() - begun
    if said != [str(turns << levels).encode()]:
        sys.exit("%s counted %s" % (program, said))
    return taken


def rate(program, levels, values, turns):
    few, many = (seconds(program, levels, values, count) for count in (turns // 10, turns))
    return ((turns - turns // 10) << levels) / difference(many, few, "%d threads" % (1 << levels))


def main():
    words = words_of(__doc__)
    words.add_argument("turns", nargs="?", type=int, default=TURNS, help="how many a thread takes (1,000,000 otherwise)")
    turns = words.parse_args().turns
    program = proved("turns_bench", ["0", "1", "1"])
    folder = tempfile.mkdtemp()
    try:
        peer = os.path.join(folder, "turns_peer")
        subprocess.run(["rustc", "-O", "-o", peer, os.path.join(HERE, "turns_peer", "turns_peer.rs")], check=True)
        print("| threads | values | turns, a second | Mutex, a second | ratio |")
        print("|---|---|---|---|---|")
        for values in (1, 16):
            for levels in (0, 1, 2):
                pairs = [(rate(program, levels, values, turns), rate(peer, levels, values, turns))
                         for _ in range(ROUNDS)]
                ratios = [ours / theirs for ours, theirs in pairs]
                print("| %d | %d | %.0f | %.0f | %.2f (%.2f to %.2f) |" % (
                    1 << levels, values,
                    statistics.median(ours for ours, _ in pairs), statistics.median(theirs for _, theirs in pairs),
                    statistics.median(ratios), min(ratios), max(ratios)))
    finally:
        shutil.rmtree(folder)


if __name__ == "__main__":
    main()
