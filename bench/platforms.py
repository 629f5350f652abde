#!/usr/bin/env python3
"""How the cost of `drive` grows with the number of bills, on three platforms.

Makes scripts of 10 to 10,000 bills. Each bill has six events: it is signed, issued, endorsed and transferred to
another platform, and the start and its answer are delivered. For each script it prints instructions an event
(callgrind's) and how they have grown since the smallest script, nanoseconds an event (the best of five runs), and bytes
of memory a bill (the greatest size). A script of one bill is taken off, so that the program's start doesn't count.
"""
import json

from measure import best, difference, instructions, peak, product, words_of

SIZES = (10, 100, 1_000, 10_000)
EVENTS = 6
CARRIER, EXPORT, IMPORT = "ALPH/CARRIER", "ALPH/EXPORT", "BETA/IMPORT"
ROSTER = {"roster": {"platforms": ["ALPH", "BETA", "GAMM"], "parties": [CARRIER, EXPORT, IMPORT, "GAMM/AGENT"],
                     "carriers": [{"provider": "NMFTA", "code": "OCNL", "party": CARRIER}]}}


def bill(number):
    """The events of a bill. The messages of the bills before it are two each."""
    document = {"carrierCode": "OCNL", "carrierCodeListProvider": "NMFTA", "isToOrder": True,
                "transportDocumentReference": "OCNL%07d" % number, "transportDocumentTypeCode": "BOL"}
    yield {"at": "ALPH", "do": "SIGN", "document": document, "party": CARRIER}
    for deed, party, to in (("ISSUE", CARRIER, EXPORT), ("ENDORSE", EXPORT, IMPORT), ("TRANSFER", EXPORT, IMPORT)):
        yield {"at": "ALPH", "bill": number, "do": deed, "party": party, "recipient": to}
    yield {"deliver": 2 * number - 1}
    yield {"deliver": 2 * number}


def script(bills):
    events = [event for number in range(1, bills + 1) for event in bill(number)]
    return "".join(json.dumps(line, separators=(",", ":")) + "\n" for line in [ROSTER, *events]).encode()


def main():
    asked = words_of(__doc__)
    asked.add_argument("most", nargs="?", type=int, default=SIZES[-1], help="the most bills (10,000 otherwise)")
    asked.add_argument("program", nargs="?", help="another program than the proved one")
    asked = asked.parse_args()
    most, words = asked.most, [asked.program or product(), "drive"]
    start, first = script(1), None
    print("| bills | instructions an event | growth | ns an event | bytes a bill |")
    print("|---|---|---|---|---|")
    for bills in (it for it in SIZES if it <= most):
        given, events = script(bills), EVENTS * (bills - 1)

        def more(measure):
            return difference(measure(words, given), measure(words, start), "%d bills" % bills)

        count = more(instructions) / events
        first = first or count
        nanoseconds, memory = more(best) * 1e9 / events, more(peak) / (bills - 1)
        print("| %d | %.0f | %.2f | %.0f | %.0f |" % (bills, count, count / first, nanoseconds, memory), flush=True)


if __name__ == "__main__":
    main()
