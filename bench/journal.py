#!/usr/bin/env python3
"""How many appends a second a journal on a file makes, beside two bare syncs; and how long a full one takes to open.

Builds journal_bench (the product's journal on a file) and sync_floor.c (the same two writes and two syncs, in C), and
runs both in turn, many times and shortly, on files in one folder. Prints appends a second by the difference of runs of
few and of twice as many appends (medians), the ratio of these, the ratio of the longer runs as they are, starts
included (median, least and greatest of the rounds), and device flushes for each append where the system counts them.
Then it fills a journal to 14 MB and times opening it beside reading and hashing the same file.
"""
import hashlib
import os
import shutil
import statistics
import subprocess
import tempfile
import time

from measure import c_program, difference, proved, seconds, words_of

ROUNDS = 21
APPENDS = 500


def flushes(folder):
    """The device's count of flushes, if it can be told."""
    device = os.stat(folder).st_dev
    path = "/sys/dev/block/%d:%d/stat" % (os.major(device), os.minor(device))
    try:
        with open(path) as stat:
            return int(stat.read().split()[15])
    except (OSError, IndexError, ValueError):
        return None


def appends(program, folder, floor, size):
    """Rounds of four short runs in turn, ours and the floor's, of few appends and of twice as many."""
    file, bare = os.path.join(folder, "journal"), os.path.join(folder, "bare")

    def ours(count):
        if os.path.exists(file):
            os.remove(file)
        return seconds([program, "append", folder, file, str(size), str(count)])

    def theirs(count):
        return seconds([floor, bare, str(size + 5), str(count)])

    rounds, counted = [], []
    for _ in range(ROUNDS):
        few, bare_few = ours(APPENDS), theirs(APPENDS)
        before = flushes(folder)
        many = ours(2 * APPENDS)
        after = flushes(folder)
        rounds.append((few, many, bare_few, theirs(2 * APPENDS)))
        counted.append(None if before is None or after is None else (after - before) / (2 * APPENDS))
    few, many, bare_few, bare_many = (statistics.median(column) for column in zip(*rounds))
    what = "append of %d bytes" % size
    made, bared = APPENDS / difference(many, few, what), APPENDS / difference(bare_many, bare_few, "two bare syncs")
    ratios = sorted(row[3] / row[1] for row in rounds)
    each = "" if None in counted else "%.2f" % statistics.median(counted)
    print("| %s | %.0f | %.0f | %.2f | %.2f (%.2f to %.2f) | %s |" % (
        what, made, bared, made / bared, statistics.median(ratios), ratios[0], ratios[-1], each), flush=True)


def opening(program, folder):
    file = os.path.join(folder, "full")
    subprocess.run([program, "append", folder, file, "2000", "7300"], check=True)
    took = min(seconds([program, "open", folder, file]) for _ in range(7))
    read = []
    for _ in range(7):
        begun = time.perf_counter()
        with open(file, "rb") as full:
            hashlib.sha256(full.read()).digest()
        read.append(time.perf_counter() - begun)
    print("\nopening %d bytes: %.3f s; reading and hashing them: %.3f s" % (os.path.getsize(file), took, min(read)))


def main():
    words = words_of(__doc__)
    words.add_argument("folder", nargs="?", help="where the files are made (the system's temporary folder otherwise)")
    folder = tempfile.mkdtemp(dir=words.parse_args().folder)
    try:
        program = proved("journal_bench", ["append", folder, os.path.join(folder, "first"), "80", "1"])
        floor = c_program("sync_floor", folder)
        print("| what | journal, a second | two bare syncs, a second | ratio of these | ratio of whole runs "
              "| device flushes an append |")
        print("|---|---|---|---|---|---|")
        appends(program, folder, floor, 80)
        appends(program, folder, floor, 2000)
        opening(program, folder)
    finally:
        shutil.rmtree(folder)


if __name__ == "__main__":
    main()
