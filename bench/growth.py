#!/usr/bin/env python3
"""How the cost of `drive` grows with the script, beside a stock program.

Makes scripts of 1,000, 10,000 and 100,000 lines, runs the proved program and drive_peer on each, compares what they
write, and prints for each line of the script: instructions (callgrind's), nanoseconds (the best of five runs) and
bytes of memory (the greatest size). A script of three lines is taken off, so that the programs' starts don't count;
below 10,000 lines they outweigh time and memory, which are left out there.
"""
import json
import tempfile

from measure import best, compare, difference, instructions, peak, peer, product, words_of

SIZES = (1_000, 10_000, 100_000)
ROSTER = {"roster": {"platforms": ["ALPH"], "parties": ["ALPH/BANK", "ALPH/CARRIER", "ALPH/EXPORT"],
                     "carriers": [{"provider": "NMFTA", "code": "OCNL", "party": "ALPH/CARRIER"}]}}

HOLDERS = ["ALPH/EXPORT", "ALPH/BANK"]
# With the SIGN and the ISSUE these are all the transactions that a bill may have on one platform.
TRANSFERS = 29


def sign(number):
    document = {"carrierCode": "OCNL", "carrierCodeListProvider": "NMFTA", "isToOrder": True,
                "transportDocumentReference": "OCNL%07d" % number, "transportDocumentTypeCode": "BOL"}
    return {"at": "ALPH", "do": "SIGN", "document": document, "now": number, "party": "ALPH/CARRIER"}


def act(bill, deed, party, recipient):
    return {"at": "ALPH", "bill": bill, "do": deed, "party": party, "recipient": recipient}


def signs(lines):
    """Each event signs another document."""
    return [ROSTER] + [sign(k) for k in range(1, lines)]


def transfers(lines):
    """Each bill goes to and fro as often as the limit on its transactions allows."""
    events, bill = [], 0
    while len(events) < lines - 1:
        bill += 1
        events += [sign(bill), act(bill, "ISSUE", "ALPH/CARRIER", "ALPH/EXPORT")]
        events += [act(bill, "TRANSFER", HOLDERS[k % 2], HOLDERS[(k + 1) % 2]) for k in range(TRANSFERS)]
    return [ROSTER] + events[:lines - 1]


def text(lines):
    return "".join(json.dumps(line, separators=(",", ":")) + "\n" for line in lines).encode()


def nanoseconds(words, given):
    return best(words, given) * 1e9


def a_line(measure, words, script, start, lines, what):
    return difference(measure(words, script), measure(words, start), what) / (lines - 3)


def main():
    words = words_of(__doc__)
    words.add_argument("most", nargs="?", type=int, default=SIZES[-1], help="the most lines (100,000 otherwise)")
    most = words.parse_args().most
    with tempfile.TemporaryDirectory() as folder:
        ours, theirs = [product(), "drive"], [peer("drive_peer", folder)]
        print("| script | lines | instructions a line | the peer's | ratio | ns a line | the peer's "
              "| bytes a line | the peer's |")
        print("|---|---|---|---|---|---|---|---|---|")
        for make in (signs, transfers):
            start = text(make(3))
            for lines in (it for it in SIZES if it <= most):
                script = text(make(lines))
                compare((ours, theirs), script, "%s of %d lines" % (make.__name__, lines))
                row = []
                for measure in (instructions, nanoseconds, peak) if lines >= 10_000 else (instructions,):
                    row += [a_line(measure, words, script, start, lines, make.__name__) for words in (ours, theirs)]
                row.insert(2, row[0] / row[1])
                cells = ["%.2f" % it if at == 2 else "%.0f" % it for at, it in enumerate(row)]
                cells += [""] * (7 - len(cells))
                print("| %s | %d | %s |" % (make.__name__, lines, " | ".join(cells)), flush=True)


if __name__ == "__main__":
    main()
