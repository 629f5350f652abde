#!/usr/bin/env python3
"""How many requests a second a shard on a file takes, beside two bare syncs; and how long a full journal takes to open.

Builds shard_trial (a shard of the product on a file) and sync_floor.c (two writes and two syncs, in C), and runs both
in turn, many times and shortly, on files in one folder: bills are signed, issued and sent to another platform, so a
request decides, signs if need be, appends its frame durably and answers. Prints requests a second by the difference of
runs of few and of twice as many requests (medians), and the ratio of the longer runs as they are, starts included
(median, least and greatest of the rounds). Then it fills a journal with documents of 2 MB, and two with small
frames, and times opening each beside reading and hashing the same file.
"""
import hashlib
import os
import shutil
import statistics
import subprocess
import tempfile
import time

from measure import c_program, difference, proved, seconds, words_of

ROUNDS = 21
REQUESTS = 300
# The bytes of the first write of an append, on the average over the three kinds of requests.
FRAME = 420
SMALL = 6000


def takes(program, folder, floor):
    file, bare = os.path.join(folder, "journal"), os.path.join(folder, "bare")

    def ours(count):
        if os.path.exists(file):
            os.remove(file)
        return seconds([program, "serve", folder, file, str(count)])

    def theirs(count):
        return seconds([floor, bare, str(FRAME), str(count)])

    rounds = [(ours(REQUESTS), ours(2 * REQUESTS), theirs(REQUESTS), theirs(2 * REQUESTS)) for _ in range(ROUNDS)]
    few, many, bare_few, bare_many = (statistics.median(column) for column in zip(*rounds))
    made = REQUESTS / difference(many, few, "requests")
    bared = REQUESTS / difference(bare_many, bare_few, "two bare syncs")
    ratios = sorted(row[3] / row[1] for row in rounds)
    print("| requests a second | two bare syncs | ratio | of whole runs |\n|---|---|---|---|")
    print("| %.0f | %.0f | %.2f | %.2f (%.2f to %.2f) |" % (
        made, bared, made / bared, statistics.median(ratios), ratios[0], ratios[-1]), flush=True)


def opening(program, folder, name, words):
    file = os.path.join(folder, name)
    subprocess.run([program, words[0], folder, file, *words[1:]], stdout=subprocess.DEVNULL, check=True)
    took = min(seconds([program, "serve", folder, file, "0"]) for _ in range(5))
    read = []
    for _ in range(5):
        begun = time.perf_counter()
        with open(file, "rb") as full:
            hashlib.sha256(full.read()).digest()
        read.append(time.perf_counter() - begun)
    print("| %s | %d | %.3f | %.3f | %.1f |" % (
        name, os.path.getsize(file), took, min(read), took / min(read)), flush=True)


def main():
    words = words_of(__doc__)
    words.add_argument("folder", nargs="?", help="where the files are made (the system's temporary folder otherwise)")
    folder = tempfile.mkdtemp(dir=words.parse_args().folder)
    try:
        program = proved("shard_trial", ["serve", folder, os.path.join(folder, "first"), "0"])
        takes(program, folder, c_program("sync_floor", folder))
        print("\n| journal | bytes | opening, s | reading and hashing, s | ratio |\n|---|---|---|---|---|")
        opening(program, folder, "documents", ["fill"])
        opening(program, folder, "bills", ["serve", str(SMALL)])
        opening(program, folder, "many", ["serve", str(4 * SMALL)])
    finally:
        shutil.rmtree(folder)


if __name__ == "__main__":
    main()
