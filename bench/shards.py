#!/usr/bin/env python3
"""What a request costs at a shard in memory, by how many bills its diary has.

Builds shard_trial, and for diaries of 10, 100 and 1,000 bills that were signed there counts the instructions that
callgrind sees in runs with more and more of the six requests by which eight bills go from one platform to another: the
difference of two runs is the cost of one kind of request. Then the shares of a whole row. Words: none.
"""
import os
import re
import subprocess
import tempfile

from measure import TUNABLES, difference, instructions, proved, words_of

REQUESTS = ("SIGN", "ISSUE", "ENDORSE", "TRANSFER", "START", "START_REPLY")
ROWS = 8
# Shares by the functions in which instructions are counted; the first pattern that is found decides.
SHARES = (("JSON", r"canonical_json|\bjson::"),
          ("register", r"title_register|btree|bill_diary|title_fold|bill_chain"), ("base64", r"base64"),
          ("memory", r"malloc|_int_free|\bfree\b|realloc|calloc|memmove|memcpy|memset|rattle_alloc|rattle_dealloc"))


def counts(words, inclusive):
    """Instructions by function: those counted in it, or with what it calls."""
    with tempfile.TemporaryDirectory() as folder:
        out = os.path.join(folder, "callgrind")
        subprocess.run(["valgrind", "--tool=callgrind", "--callgrind-out-file=" + out, *words],
                       stdout=subprocess.DEVNULL, stderr=subprocess.DEVNULL, check=True,
                       env=dict(os.environ, GLIBC_TUNABLES=TUNABLES))
        told = subprocess.run(["callgrind_annotate", "--threshold=100", "--inclusive=" + inclusive, out],
                              stdout=subprocess.PIPE, check=True).stdout
    found = re.findall(r"^\s*([\d,]+) \([ \d.]+%\)\s+\S*?:(\S.*?)(?: \[|$)", told.decode(errors="replace"), re.M)
    sums = {}
    for count, name in found:
        sums[name] = sums.get(name, 0) + int(count.replace(",", ""))
    return sums


def grown(program, bills, inclusive):
    """The same of eight rows, by function."""
    # Of one length, since a longer word moves the stack, and with it what memcpy takes.
    few, many = (counts([program, "requests", str(bills), "%02d" % rows, "6"], inclusive) for rows in (ROWS, 2 * ROWS))
    return {name: count - few.get(name, 0) for name, count in many.items()}


def shares(program, bills):
    own, whole = grown(program, bills, "no"), grown(program, bills, "yes")
    signing = sum(count for name, count in whole.items() if "KeyedRing::tag" in name)
    signed = sum(count for name, count in whole.items() if "digest_of_both" in name)
    hashed = sum(count for name, count in own.items() if "sha2" in name)
    sums = {"signing": signing, "hashing": hashed - signed}
    for name, count in own.items():
        if "sha2" in name or "test_signer" in name:
            continue
        kind = next((kind for kind, pattern in SHARES if re.search(pattern, name)), "the rest")
        sums[kind] = sums.get(kind, 0) + count
    total = sum(own.values())
    return ", ".join("%s %.0f" % (kind, 100 * part / total) for kind, part in sums.items())


def main():
    words_of(__doc__).parse_args()
    program = proved("shard_trial", ["requests", "1", "1", "6"])
    print("| bills | " + " | ".join(REQUESTS) + " | a row |")
    print("|---|" + "---|" * (len(REQUESTS) + 1))
    for bills in (10, 100, 1000):
        upto = [instructions([program, "requests", str(bills), str(ROWS), str(count)])
                for count in range(len(REQUESTS) + 1)]
        costs = [difference(upto[at + 1], upto[at], "%s with %d bills" % (request, bills)) // ROWS
                 for at, request in enumerate(REQUESTS)]
        print("| {:,} | ".format(bills) + " | ".join("{:,}".format(cost) for cost in costs)
              + " | {:,} |".format(sum(costs)), flush=True)
    for bills in (10, 1000):
        print("per cent of a row with %d bills: %s" % (bills, shares(program, bills)), flush=True)


if __name__ == "__main__":
    main()
