#!/usr/bin/env python3
"""What a register costs, by how many bills it has, and by how many entries a bill has.

Builds library_bench, and counts the instructions that callgrind sees in runs that add a frame more of each of ten
bills, or ask a look-up more of each of them: the difference of two runs is the cost of ten. First with 10, 100, 1,000
and 10,000 bills, whose chain has two entries when it comes back; then with 1,000 bills and chains of 2, 16 and 64
entries. Then the memory that a bill takes, its frames included, whose texts are empty.
"""
import subprocess
import sys

from measure import difference, instructions, proved, words_of

EVENTS = ("Acted", "Parted", "Settled", "Taken", "Acted after it")
ASKED = ("may_act", "title", "known", "parting", "since", "pieces", "partings", "signed", "parted", "came", "begun",
         "taken", "declined", "kept")
ROWS = 10
SIZES = (10, 100, 1000, 10000)
ENTRIES = (2, 16, 64)


def words(program, bills, rows, events, asked, entries):
    # The runs that are compared have words of one length: these move the stack, and memcpy takes more instructions for
    # some places of what it copies there, 333,000 of 209,000,000 with 10,000 bills.
    return [program, "register", str(bills), str(rows), str(events), "%02d" % asked, "%02d" % entries]


def costs(program, bills, entries):
    """What each frame and each look-up costs, by its name."""
    run = lambda events, asked: instructions(words(program, bills, ROWS, events, asked, entries))
    what = "%s with {} bills and {} entries".format(bills, entries)
    upto = [run(count, 0) for count in range(len(EVENTS) + 1)]
    found = {event: difference(upto[at + 1], upto[at], what % event) // ROWS for at, event in enumerate(EVENTS)}
    found.update({asked: difference(run(len(EVENTS), at + 1), upto[-1], what % asked) // ROWS
                  for at, asked in enumerate(ASKED)})
    return found


def table(heads, columns):
    print("| | " + " | ".join(heads) + " | from first to last |")
    print("|---|" + "---|" * (len(heads) + 1))
    for name in EVENTS + ASKED:
        row = [column[name] for column in columns]
        print("| %s | " % name + " | ".join("{:,}".format(cost) for cost in row)
              + " | {:.2f} times |".format(row[-1] / row[0]))
    print(flush=True)


def peak(given):
    """The most memory that a run had, in bytes."""
    told = subprocess.run([sys.executable, "-c", "import resource, subprocess, sys\nsubprocess.run(sys.argv[1:], "
                           "check=True)\nprint(resource.getrusage(resource.RUSAGE_CHILDREN).ru_maxrss)", *given],
                          stdout=subprocess.PIPE, check=True).stdout
    return 1024 * int(told)


def memory(program, events, entries):
    """What a bill takes of which so many of the frames were added."""
    few, many = (peak(words(program, bills, bills if events else 0, events, 0, entries)) for bills in (5000, 15000))
    return (many - few) // 10000


def main():
    asked = words_of(__doc__)
    asked.add_argument("program", nargs="?", help="a program that is built already; otherwise it is proved and built")
    program = asked.parse_args().program or proved("library_bench", ["register", "1", "1", "5", "14", "2"])
    table(["{:,} bills".format(bills) for bills in SIZES], [costs(program, bills, 2) for bills in SIZES])
    table(["%d entries" % entries for entries in ENTRIES], [costs(program, 1000, entries) for entries in ENTRIES])
    for what, events, entries in (("signed and issued", 0, 2), ("that went to another platform", 3, 2),
                                  *(("that came back with %d entries" % entries, 4, entries) for entries in ENTRIES)):
        print("memory of a bill {}: {:,} bytes".format(what, memory(program, events, entries)), flush=True)


if __name__ == "__main__":
    main()
