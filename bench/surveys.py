#!/usr/bin/env python3
"""What a survey costs, by how many bills the diaries of one shard have.

Builds library_bench, and for families of 400 to 6,400 bills counts the instructions that callgrind sees in a run with
one survey more than another. Words: none.
"""
from measure import difference, instructions, proved, words_of


def main():
    words_of(__doc__).parse_args()
    program = proved("library_bench", ["survey", "1", "1"])
    print("| bills | instructions | a bill | growth |")
    print("|---|---|---|---|")
    before = None
    for bills in (400, 1600, 6400):
        one, two = (instructions([program, "survey", str(bills), str(surveys)]) for surveys in (1, 2))
        cost = difference(two, one, "%d bills" % bills)
        growth = "" if before is None else "%.2f" % (cost / before)
        print("| {:,} | {:,} | {:,} | {} |".format(bills, cost, cost // bills, growth), flush=True)
        before = cost


if __name__ == "__main__":
    main()
