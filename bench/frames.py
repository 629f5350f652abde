#!/usr/bin/env python3
"""What the frame of a Begun costs to write and to read, beside reading its body's JSON once and hashing it once.

Builds library_bench, makes Begun records whose chains have 1, 8 or 64 entries, and counts the instructions that
callgrind sees in a run with few rounds and in one with more. Words: none.
"""
import os
import struct
import tempfile

from measure import difference, instructions, proved, words_of
from samples import body


def main():
    words_of(__doc__).parse_args()
    with tempfile.TemporaryDirectory() as folder:
        print("| entries | bytes | read the frame | write it | read the body's JSON | hash the body "
              "| reading / (JSON + hash) |")
        print("|---|---|---|---|---|---|---|")
        for entries in (1, 8, 64):
            text = body(entries)
            paths = {"frame": os.path.join(folder, "frame"), "body": os.path.join(folder, "body")}
            with open(paths["body"], "wb") as file:
                file.write(text)
            with open(paths["frame"], "wb") as file:
                file.write(b"\x07" + struct.pack(">I", len(text)) + text)
            program = proved("library_bench", ["call", "frame_read", paths["frame"], "1"])

            def counted(call, path):
                many, few = (instructions([program, "call", call, paths[path], rounds]) for rounds in ("40", "20"))
                return difference(many, few, call) // 20

            read, write = counted("frame_read", "frame"), counted("frame_write", "frame")
            parse, hashed = counted("read", "body"), counted("checksum", "body")
            print("| %d | %d | %d | %d | %d | %d | %.2f |" % (entries, 5 + len(text), read, write, parse, hashed,
                                                              read / (parse + hashed)), flush=True)


if __name__ == "__main__":
    main()
