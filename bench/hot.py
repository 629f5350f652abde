#!/usr/bin/env python3
"""Single calls by instructions, beside a stock program that does the same.

Builds library_bench and hot_peer, and counts the instructions that callgrind sees in a run with few rounds of a call
and in one with more, so that starts don't count. Words: none.
"""
import os
import tempfile

from measure import difference, instructions, peer, proved, words_of
from samples import body, canonical, document, entry, manifest, name, signed

BILL = name(b"a bill")
ANSWER = {"bill": BILL, "last": BILL, "missing": [], "responseCode": "RECE", "standing": True}
ROWS = (
    ("checksum", "a text of 2 KB", lambda: b"x" * 2048),
    ("read", "a document of 2 KB", lambda: canonical(document(10))),
    ("write", "the same", lambda: canonical(document(10))),
    ("entry_decode", "32 transactions", lambda: canonical(entry(BILL, 0, 32))),
    ("entry_encode", "32 transactions", lambda: canonical(entry(BILL, 0, 32))),
    ("manifest_decode", "4 documents", lambda: canonical(manifest(BILL, BILL, 4))),
    ("verify", "an entry of 1 transaction", lambda: signed("ALPH", entry(BILL, 0))),
    ("verify", "an entry of 32", lambda: signed("ALPH", entry(BILL, 0, 32))),
    ("body_read", "2 entries, a small document", lambda: body(2)),
    ("body_read", "2 entries, a document of 10 KB", lambda: body(2, 50)),
    ("body_read", "64 entries, a small document", lambda: body(64)),
    ("body_read", "64 entries, a document of 40 KB", lambda: body(64, 200)),
    ("body_write", "2 entries, a small document", lambda: body(2)),
    ("body_write", "64 entries, a document of 40 KB", lambda: body(64, 200)),
    ("seal", "a short answer", lambda: canonical(ANSWER)),
    ("unseal", "the same", lambda: signed("ALPH", ANSWER)),
)


def main():
    words_of(__doc__).parse_args()
    with tempfile.TemporaryDirectory() as folder:
        path = os.path.join(folder, "input")
        stock = peer("hot_peer", folder)
        print("| call | of | bytes | instructions | the peer's | ratio |")
        print("|---|---|---|---|---|---|")
        for call, what, make in ROWS:
            given = make()
            with open(path, "wb") as file:
                file.write(given)
            counts = []
            for words in ([proved("library_bench", ["call", call, path, "1"]), "call"], [stock]):
                many, few = (instructions([*words, call, path, rounds]) for rounds in ("40", "20"))
                counts.append(difference(many, few, call) // 20)
            print("| %s | %s | %d | %d | %d | %.2f |" % (call, what, len(given), *counts, counts[0] / counts[1]),
                  flush=True)


if __name__ == "__main__":
    main()
