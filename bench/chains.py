#!/usr/bin/env python3
"""What checking a chain costs, by its length and by the transactions of its entries.

Builds library_bench, counts the instructions that callgrind sees in a run with few rounds and in one with more, and
prints instructions for each entry, and microseconds of the same difference in plain runs. The check is linear where
these stay alike down a column. Words: none.
"""
from measure import best, difference, instructions, proved, words_of


def main():
    words_of(__doc__).parse_args()
    program = proved("library_bench", ["chain", "1", "1", "1"])
    print("| entries | transactions an entry | instructions an entry | microseconds an entry |")
    print("|---|---|---|---|")
    for transactions in (1, 32):
        for entries in (1, 8, 64):
            rounds = max(2, 64 // entries)

            def words(times):
                return [program, "chain", str(entries), str(transactions), str(times)]

            what = "%d entries of %d transactions" % (entries, transactions)
            counted = difference(instructions(words(2 * rounds)), instructions(words(rounds)), what)
            more = 40 * rounds
            took = difference(best(words(2 * more)), best(words(more)), what)
            print("| %d | %d | %d | %.0f |" % (entries, transactions, counted // (rounds * entries),
                                              took * 1e6 / (more * entries)), flush=True)


if __name__ == "__main__":
    main()
