#!/usr/bin/env python3
"""Runs the built program on each script of examples/, on each good and bad line of bad_lines.py, on attachments and
documents at their limits, and tries each of its exits.

    tools/check_program.py [PROGRAM]   another program instead of the proved one

Its last line is 'N passed, M failed', and it ends with status 1 where something failed.
"""
import base64
import concurrent.futures
import json
import os
import subprocess
import sys

import bad_lines
import model
import rehearsal
from program import PROGRAM, TOP, is_built, words_of

EXAMPLES = os.path.join(TOP, "examples")

USAGE = "ebl: usage\nebl: the words are in ebl --help\n"
BAD_LINE = "ebl: line %d is not a script line\n"

# An exit for each script of examples/ that doesn't end by 0, and its line on standard error.
ENDS = {"bad_line": (3, BAD_LINE % 3)}

# Texts, and their canonical texts with the checksums of those by sha256sum of GNU coreutils. The names of the second
# are in the order of their UTF-16 code units, which RFC 8785 shows in section 3.2.3.
CANON = (
    (" { } \n", "{}\n44136fa355b3678a1146ad16f7e8649e94fb4fc21fe77e8310c060f61caaff8a\n"),
    (r'{"\ufb33":7,"\ud83d\ude00":6,"\u20ac":5,"\u00f6":4,"\u0080":3,"1":2,"\r":1}',
     '{"\\r":1,"1":2,"\u0080":3,"\u00f6":4,"\u20ac":5,"\U0001f600":6,"\ufb33":7}\n'
     "4bd52d82f332c2e5c7206abd57c74b45dd4f0fef63ab7af87b8bde4481e450e7\n"),
    ("9007199254740991", "9007199254740991\nf40b423c2dd95ff2b2f027e22208f438cf7242862e5e746860e697308c9add26\n"),
    ("24000.50", "24000.5\ne7c9432e4925b5d64f14b32a08da55fa53730e10a0e9af0932197a9a4e39f27f\n"),
    ("-0.00", "0\n5feceb66ffc86f38d952786c6d696c79c2dbc239dd4e91b46729d73a27fb57e9\n"),
)


def run(words, given=b"", out=subprocess.PIPE):
    ended = subprocess.run([PROGRAM, *words], input=given, stdout=out, stderr=subprocess.PIPE)
    return ended.returncode, ended.stdout, ended.stderr.decode()


def read(name):
    with open(os.path.join(EXAMPLES, name), "rb") as file:
        return file.read()


def examples():
    """(what, the run is as it should be) of each stored script."""
    for name in sorted(os.listdir(EXAMPLES)):
        if name.endswith(".jsonl"):
            stem = name[: -len(".jsonl")]
            code, line = ENDS.get(stem, (0, ""))
            yield "examples/" + name, run(["drive"], read(name)) == (code, read(stem + ".out"), line)


def exits():
    """(what, the run is as it should be) of each exit."""
    yield "no words", run([]) == (2, b"", USAGE)
    yield "an unknown word", run(["driven"]) == (2, b"", USAGE)
    yield "a word too many", run(["drive", "drive"]) == (2, b"", USAGE)
    yield "a word that is no text", run([b"\xff"]) == (2, b"", USAGE)
    yield "an empty script", run(["drive"]) == (3, b"", BAD_LINE % 1)
    roster = read("first_run.jsonl").split(b"\n")[0]
    yield "a roster alone", run(["drive"], roster) == (0, b"", "")
    yield "a second line feed at the end", run(["drive"], roster + b"\n\n") == (3, b"", BAD_LINE % 2)
    yield "100,001 lines", lines_too_many()
    yield "67,108,865 bytes", run(["drive"], b" " * 67_108_865) == (4, b"", "ebl: the input is too long\n")
    for text, wanted in CANON:
        yield "canon of " + text, run(["canon"], text.encode()) == (0, wanted.encode(), "")
    for text, why in (("", "NOT_JSON"), ("{", "NOT_JSON"), ("{\"a\":1e3,\"\\u0061\":2}", "REPEATED"),
                      ("24000.5e0", "FRACTION"), ("9007199254740992", "RANGE")):
        yield "canon of " + text, run(["canon"], text.encode()) == (5, b"", "ebl: JSON is refused: %s\n" % why)
    yield "a source that fails", source_fails()
    yield "a sink that fails", sink_fails()
    code, out, err = run(["--help"])
    yield "--help", (code, err) == (0, "") and out.startswith(b"ebl: ") and b"ebl drive" in out
    code, out, err = run(["--version"])
    yield "--version", (code, err) == (0, "") and out.startswith(b"ebl ")


def lines_too_many():
    lines = read("first_run.jsonl").split(b"\n")
    script = lines[0] + b"\n" + (lines[4] + b"\n") * 100_000
    code, out, err = run(["drive"], script)
    return (code, err) == (3, BAD_LINE % 100_001) and out.count(b"\n") == 99_999


def source_fails(words=("drive",), ends=(10, b"", b"ebl: read fault\n")):
    folder = os.open(EXAMPLES, os.O_RDONLY)
    ended = subprocess.run([PROGRAM, *words], stdin=folder, stdout=subprocess.PIPE, stderr=subprocess.PIPE)
    os.close(folder)
    return (ended.returncode, ended.stdout, ended.stderr) == ends


def sink_fails(words=("drive",)):
    with open("/dev/full", "wb") as full:
        code, _, err = run(words, read("first_run.jsonl"), out=full)
    return (code, err) == (11, "ebl: write fault\n")


# ---- lines

def is_told(script, number):
    """Whether a script ends at its line of this number, with nothing more written than the answers before it."""
    code, out, err = run(["drive"], b"\n".join(script))
    return (code, err) == (3, BAD_LINE % number) and out.count(b"\n") == max(0, number - 2)


def refused_lines():
    """(what, a script, the number of its bad line) of each line that is none."""
    roster = next(bad_lines.roster_rows())[1]
    good = b'{"show":1}'
    for what, line, is_good in bad_lines.later_rows():
        if not is_good:
            yield what, [roster, good, line, good], 3
    for what, line, is_good in bad_lines.roster_rows():
        if not is_good:
            yield what, [line, good], 1


def good_lines():
    """(what, a script, how many events it has) of all lines that are good."""
    roster = next(bad_lines.roster_rows())[1]
    events = [line for _, line, is_good in bad_lines.later_rows() if is_good]
    yield "all good lines", [roster, *events], len(events)
    for what, line, is_good in bad_lines.roster_rows():
        if is_good:
            yield what, [line, b'{"show":1}'], 1


def lines():
    for what, script, events in good_lines():
        code, out, err = run(["drive"], b"\n".join(script))
        told = [json.loads(row) for row in out.splitlines()]
        yield what, (code, err) == (0, "") and [row["event"] for row in told if "event" in row] == list(
            range(1, events + 1)) and out == model.text_of(b"\n".join(script))
    rows = list(refused_lines())
    with concurrent.futures.ThreadPoolExecutor(len(os.sched_getaffinity(0))) as pool:
        for (what, _, _), holds in zip(rows, pool.map(lambda row: is_told(*row[1:]), rows)):
            yield "a bad line: " + what, holds


# ---- limits of what is large

def limits():
    """(what, the run is as it should be) of scripts that are too large to be stored."""
    most = base64.b64encode(bytes(model.MOST_BYTES)).decode()
    other = base64.b64encode(b"1" + bytes(model.MOST_BYTES - 1)).decode()
    # sixteen documents with the first, which have all the bytes that they may have together
    small = [base64.b64encode(bytes([at])).decode() for at in range(13)] + [""]
    rest = base64.b64encode(b"1" + bytes(model.MOST_BYTES - 14)).decode()
    for what, files, wanted in (
            ("a document of 2,097,153 bytes", [base64.b64encode(bytes(model.MOST_BYTES + 1)).decode()],
             "LIMIT DOCUMENT_SIZE"),
            ("documents of 4,194,304 bytes together, twice", [most, other, most, ""], "DONE"),
            ("documents of 4,194,305 bytes together", [most, other, "MQ=="], "LIMIT DOCUMENT_BYTES"),
            ("sixteen documents of 4,194,304 bytes together", [most, rest, *small], "DONE"),
            ("a seventeenth document, which is past both limits", [most, rest, *small, "MQ=="], "LIMIT DOCUMENTS")):
        yield what, last_answer([attached(at, file) for at, file in enumerate(files)]) == wanted
    for length, wanted in ((model.MOST_DOCUMENT, "DONE"), (model.MOST_DOCUMENT + 1, "DOCUMENT TOO_LARGE")):
        yield "a bill of %d bytes" % length, last_answer([signed(length)]) == wanted
    for what, script in long_texts():
        yield what, run(["drive"], script) == (0, model.text_of(script), "")


def long_texts():
    """(what, a script) of texts at and past the limits of their lengths: entries and a document in a start, and answers
    to one."""
    lines = read("transfer_to_another_platform.jsonl").split(b"\n")[:5]
    world = model.World(model.roster_in(lines[0]))
    for line in lines[1:]:
        world.step(json.loads(line))
    body = json.loads(world.sent[0]["data"])
    name = model.checksum(body["chain"][0].encode())
    for text in around(model.verified(body["chain"][0])[1], "ALPH", model.MOST_TEXT):
        start = {"at": "BETA", "body": json.dumps(dict(body, chain=[text])), "foreign": "START"}
        yield "an entry's text of %d bytes" % len(text), b"\n".join([lines[0], json.dumps(start).encode()])
    long = dict(body, document=dict(body["document"], further="x" * model.MOST_DOCUMENT))
    start = {"at": "BETA", "body": json.dumps(long), "foreign": "START"}
    yield "a start whose document is too long", b"\n".join([lines[0], json.dumps(start).encode()])
    answer = {"last": name, "missing": [], "responseCode": "RECE", "standing": False}
    for text in around(answer, "BETA", model.MOST_RESPONSE):
        reply = {"at": "ALPH", "bill": 1, "foreign": "FINISH_REPLY", "text": text}
        yield "an answer's text of %d bytes" % len(text), b"\n".join([*lines, json.dumps(reply).encode()])


def around(payload, platform, most):
    """The longest signed text within a length and the shortest past it: a further member makes the payload long."""
    more = (most - len(model.sign(dict(payload, further=""), platform))) * 3 // 4
    texts = [model.sign(dict(payload, further="x" * at), platform) for at in range(more - 4, more + 5)]
    return [text for text in texts if len(text) <= most][-1], [text for text in texts if len(text) > most][0]


def attached(at, data):
    return {"at": "ALPH", "bill": 1, "bytes": data, "do": "ATTACH", "media": "text/plain", "name": "file %d" % at,
            "party": "ALPH/EXPORT"}


def signed(length):
    """A SIGN of a document whose canonical text has this many bytes."""
    document = json.loads(read("known_bill.jsonl").split(b"\n")[1])["document"]
    document["further"] = "x" * (length - len(model.canon(dict(document, further=""))))
    return {"at": "ALPH", "do": "SIGN", "document": document, "party": "ALPH/CARRIER"}


def last_answer(events):
    """The last answer's words to these events behind a bill that was issued."""
    script = read("first_run.jsonl").split(b"\n")[:3] + [json.dumps(event).encode() for event in events]
    code, out, _ = run(["drive"], b"\n".join(script))
    row = [row for row in map(json.loads, out.splitlines()) if "event" in row][-1]
    words = [row["reply"], *(row[name] for name in ("which", "fault") if name in row)]
    return " ".join(words) if code == 0 else "exit %d" % code


# ---- rehearsals

def rehearsals():
    """(what, the run is as it should be) of the word `rehearse`."""
    smallest = b'{"bills":1,"entries":0,"events":3,"forked":false,"replies":{"DONE":2,"NOT_HERE":1}}\n'
    yield "the smallest rehearsal", run(["rehearse", "7", "1", "1"]) == (0, smallest, "")
    for numbers in ((7, 50, 2_000), (2**63 - 1, 1, 300), (0, 200, 1)):
        words = ["rehearse", *map(str, numbers)]
        line = rehearsal.line_of(*numbers).encode()
        yield " ".join(words), run(words) == (0, line, "")
        yield " ".join(words) + ", once more", run(words) == (0, line, "")
    for words in ("7 1000 1", "7 1 20000"):
        code, out, err = run(["rehearse", *words.split()])
        yield "rehearse " + words, (code, err) == (0, "") and out.count(b"\n") == 1
    yield "a rehearsal reads nothing", source_fails(["rehearse", "7", "1", "1"], (0, smallest, b""))
    yield "a rehearsal into a sink that fails", sink_fails(["rehearse", "7", "1", "1"])
    for words in ("", "7", "7 1", "7 1 1 1", "7 0 1", "7 1001 1", "7 1 0", "7 1 20001", "9223372036854775808 1 1",
                  "18446744073709551623 1 1", "+7 1 1", "-7 1 1", "07 1 1", "7 01 1", "7 1 01", "7 1 1.0", "7 1 1e0",
                  "seven 1 1", "7 1 \u0661"):
        yield "rehearse " + words, run(["rehearse", *words.split()]) == (2, b"", USAGE)
    for words in (["7", "1", ""], ["7", "", "1"], ["", "1", "1"], [" 7", "1", "1"], ["7", "1", b"\xff"]):
        yield "rehearse %r" % words, run(["rehearse", *words]) == (2, b"", USAGE)


def main():
    global PROGRAM
    words = words_of(__doc__)
    words.add_argument("program", nargs="?")
    given = words.parse_args()
    if given.program:
        PROGRAM = given.program
    elif not is_built():
        sys.exit("no proved program of these sources: run make program first")
    passed = failed = 0
    for rows in (examples(), limits(), lines(), exits(), rehearsals()):
        for what, holds in rows:
            passed, failed = passed + bool(holds), failed + (not holds)
            if not holds:
                print("failed: " + what, flush=True)
    print("%d passed, %d failed" % (passed, failed))
    sys.exit(1 if failed else 0)


if __name__ == "__main__":
    main()
