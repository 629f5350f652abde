#!/usr/bin/env python3
"""How fast `ebl canon` is beside the usual Rust crates, by instructions and by time.

Builds canon_peer, runs it and the proved program on documents of several sizes and shapes, compares what they write,
and prints the instructions that callgrind counts (an empty document's are taken off, so that the programs' starts
don't count), the best time of five runs, starts included, and the greatest memory of one. Words: none.
"""
import json
import tempfile

from measure import best, compare, difference, instructions, peak, peer, product, words_of
from samples import container


def document(size):
    """A transport document of about this many bytes."""
    made = {"transportDocumentTypeCode": "BOL", "transportDocumentReference": "OCNL0000001", "isToOrder": True,
            "carrierCodeListProvider": "NMFTA", "carrierCode": "OCNL", "utilizedTransportEquipments": []}
    each = len(json.dumps(container(1)))
    made["utilizedTransportEquipments"] = [container(k) for k in range(max(1, size // each))]
    return made


ROWS = (
    ("document, 1 KB", lambda: document(1_000)),
    ("document, 64 KB", lambda: document(64_000)),
    ("document, 4 MB", lambda: document(4_000_000)),
    ("one object of 50,000 members", lambda: {"member%06d" % (k * 7919 % 50_000): k for k in range(50_000)}),
    ("50,000 objects of two members", lambda: [{"a": k, "b": "x"} for k in range(50_000)]),
)


def main():
    words_of(__doc__).parse_args()
    with tempfile.TemporaryDirectory() as folder:
        programs = [product(), "canon"], [peer("canon_peer", folder)]
        start = [instructions(words, b"{}") for words in programs]
        print("| input | bytes | instructions a byte | the peer's | rate by instructions | MB/s | the peer's "
              "| MB of memory | the peer's |")
        print("|---|---|---|---|---|---|---|---|---|")
        for name, make in ROWS:
            text = json.dumps(make(), ensure_ascii=False).encode()
            compare(programs, text, name)
            counts = [difference(instructions(words, text), begun, name) for words, begun in zip(programs, start)]
            times = [best(words, text) for words in programs]
            peaks = [peak(words, text) / 1e6 for words in programs]
            size = len(text)
            print("| %s | %d | %.1f | %.1f | %.2f | %.0f | %.0f | %.1f | %.1f |" % (
                name, size, counts[0] / size, counts[1] / size, counts[1] / counts[0], size / times[0] / 1e6,
                size / times[1] / 1e6, *peaks), flush=True)


if __name__ == "__main__":
    main()
