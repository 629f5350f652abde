#!/usr/bin/env python3
"""How many durable requests a second 1, 4 and 16 threads have at two platforms' offices, on files and in memory.

Builds office_bench (the product's offices) and office_peer.rs (the same appends in stock Rust, without a rule, a
signature or an answer), and runs in turn: the offices; the peer, whose threads share as many files, each behind a
Mutex; and the peer with a file for each thread and no lock, which is the floor of two syncs a frame. Of each a run with
few bills is taken off one with more, so that starts don't count. Prints frames a second (medians of the rounds), and
the ratio to both in one round (median, least and greatest). In memory the offices run alone.
"""
import os
import shutil
import statistics
import subprocess
import tempfile

from measure import HERE, difference, proved, seconds, words_of

ROUNDS = 7
# So many bills have all threads together in the shorter run on files, and three times as many in the longer one.
BILLS = 512
IN_MEMORY = 2048
# Frames of a bill: signed, issued, handed over, taken, settled.
FRAMES = 5


def rate(run, bills):
    """Frames a second of run(bills), by the difference to one of three times as many."""
    few, many = run(bills), run(3 * bills)
    return 2 * bills * FRAMES / difference(many, few, "frames")


def cleared(folder):
    shutil.rmtree(folder, ignore_errors=True)
    os.makedirs(folder)
    return folder


def offices(program, levels, folder=None):
    def run(bills):
        words = [cleared(folder)] if folder else []
        return seconds([program, str(levels), str(bills >> levels), *words])
    return run


def frames(peer, word, levels, folder, size):
    def run(bills):
        return seconds([peer, word, cleared(folder), str(levels), str(bills * FRAMES >> levels), str(size)])
    return run


def frame_size(program, folder):
    """How many bytes a frame has on the average, by the files of a run."""
    subprocess.run([program, "0", "32", cleared(folder)], stdout=subprocess.DEVNULL, check=True)
    sizes = [os.path.getsize(os.path.join(folder, name)) - 2 for name in os.listdir(folder)]
    return sum(sizes) // (32 * FRAMES)


def spread(values):
    return "%.2f (%.2f to %.2f)" % (statistics.median(values), min(values), max(values))


def main():
    words = words_of(__doc__)
    words.add_argument("folder", nargs="?", help="where the files are made (the system's temporary folder otherwise)")
    top = tempfile.mkdtemp(dir=words.parse_args().folder)
    folder = os.path.join(top, "files")
    try:
        program = proved("office_bench", ["0", "1"])
        peer = os.path.join(top, "office_peer")
        subprocess.run(["rustc", "-O", "-o", peer, os.path.join(HERE, "office_peer", "office_peer.rs")], check=True)
        size = frame_size(program, folder)
        print("frames of %d bytes\n\n| threads | offices | peer with locks | two syncs alone | of the peer | of the syncs "
              "| offices in memory |\n|---|---|---|---|---|---|---|" % size)
        for levels in (0, 2, 4):
            rounds = [(rate(offices(program, levels, folder), BILLS),
                       rate(frames(peer, "locks", levels, folder, size), BILLS),
                       rate(frames(peer, "bare", levels, folder, size), BILLS)) for _ in range(ROUNDS)]
            memory = statistics.median(rate(offices(program, levels), IN_MEMORY) for _ in range(3))
            middle = [statistics.median(column) for column in zip(*rounds)]
            print("| %d | %.0f | %.0f | %.0f | %s | %s | %.0f |" % (
                1 << levels, *middle, spread([row[0] / row[1] for row in rounds]),
                spread([row[0] / row[2] for row in rounds]), memory), flush=True)
    finally:
        shutil.rmtree(top)


if __name__ == "__main__":
    main()
