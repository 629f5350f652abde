#!/usr/bin/env python3
"""Runs the built program on scripts of examples/, and a shard whose disk fails, with one allocation refused a run, each
in turn.

    tools/refused_memory.py [PROGRAM [TRIAL]]   other programs instead of the proved ones, ebl_cli and shard_trial

Each run of a script ends in one of these ways. It is out of memory (12), with nothing on standard output but a first
part of the answers. Or the allocation was one of a disk, which is in memory here: then the disk can't be opened (8),
and nothing is written, or one event is answered DISK, and those before it as ever. Or the run goes as with all memory,
where the allocation was another's than the program's own.

At the shard the gate of a Taken frame fails, with its byte written: a start that comes three times is answered DISK,
DUPE, DUPE. With an allocation refused, at most one answer more is NO_MEMORY, or DISK where the allocation was the
disk's. The others are RECE at most once, where the refusal came before the gate, and DUPE behind it; or the program
ends before it has them all (1).

Its last line is 'N runs, M failed', and it ends with status 1 where something failed. It wants gcc.
"""
import concurrent.futures
import os
import re
import subprocess
import sys
import tempfile

from program import PROGRAM, TOP, words_of

EXAMPLES = os.path.join(TOP, "examples")
SCRIPTS = ("first_run", "uploaded_documents", "restart_while_parting")
TRIAL = os.path.join(TOP, "crates", "shard_trial", "out", "shard_trial")
# A frame's gate: the third call of an append, behind the three of the opening of a blank disk.
GATE = "5"
AT_THE_GATE = b"DISK\nDUPE\nDUPE\n"
NO_MEMORY = (12, b"ebl: no memory\n")
NOT_OPENED = re.compile(rb"ebl: disk [0-9]+ cannot be opened\n")


def read(name):
    with open(os.path.join(EXAMPLES, name), "rb") as file:
        return file.read()


def library(folder):
    """What refuses an allocation of the program before which it is loaded."""
    made = os.path.join(folder, "refuse.so")
    source = os.path.join(TOP, "tools", "refuse", "refuse.c")
    subprocess.run(["gcc", "-O2", "-Wall", "-shared", "-fPIC", "-o", made, source], check=True)
    return made


def run(words, script, **told):
    ended = subprocess.run(words, input=script, capture_output=True, env={**os.environ, **told})
    return ended.returncode, ended.stdout, ended.stderr


def allocations(words, script, loaded, folder):
    """How many allocations the whole run asks for."""
    path = os.path.join(folder, "asked")
    run(words, script, LD_PRELOAD=loaded, ASKED=path)
    with open(path) as file:
        return int(file.read())


def first_fails(out, answers):
    """Whether the first answer that is another is that of the one event whose disk failed."""
    for given, wanted in zip(out.splitlines(), answers.splitlines()):
        if given != wanted:
            return b'"reply":"DISK"' in given and out.count(b'"reply":"DISK"') == 1
    return False


def is_right(ended, answers):
    code, out, err = ended
    if code == 0:
        return err == b"" and (out == answers or first_fails(out, answers))
    if code == 8:
        return out == b"" and NOT_OPENED.fullmatch(err) is not None
    return (code, err) == NO_MEMORY and answers.startswith(out)


def is_right_at_the_gate(ended):
    code, out, _ = ended
    told = out.split()
    taken = [word for word in told if word not in (b"DISK", b"NO_MEMORY")]
    once = taken[:1] in ([], [b"RECE"], [b"DUPE"]) and all(word == b"DUPE" for word in taken[1:])
    return once and len(told) - len(taken) <= 2 and code == (0 if len(told) == 3 else 1)


def refusals(words, script, is_right, folder):
    """(the number of the allocation that was refused, the run ended as it should) of each run."""
    loaded = os.path.join(folder, "refuse.so")
    count = allocations(words, script, loaded, folder)
    with concurrent.futures.ThreadPoolExecutor(len(os.sched_getaffinity(0))) as pool:
        ends = pool.map(lambda at: run(words, script, LD_PRELOAD=loaded, REFUSE=str(at)), range(1, count + 1))
        for at, ended in enumerate(ends, 1):
            yield at, is_right(ended)


def cases(program, trial):
    """(name, words, input, output with all memory, whether an end is right) of each run."""
    for name in SCRIPTS:
        answers = read(name + ".out")
        yield (name, [program, "drive"], read(name + ".jsonl"), answers,
               lambda ended, answers=answers: is_right(ended, answers))
    yield "a gate that fails", [trial, "fail", GATE], b"", AT_THE_GATE, is_right_at_the_gate


def main():
    words = words_of(__doc__)
    words.add_argument("program", nargs="?", default=PROGRAM)
    words.add_argument("trial", nargs="?", default=TRIAL)
    given = words.parse_args()
    for one, how in ((given.program, "make program builds it"),
                     (given.trial, "tools/make_program.py shard_trial builds it")):
        if not os.access(one, os.X_OK):
            sys.exit("refused_memory: no program at %s: %s" % (one, how))
    runs, failed = 0, 0
    with tempfile.TemporaryDirectory() as folder:
        library(folder)
        for name, words, script, answers, right_end in cases(given.program, given.trial):
            if run(words, script)[:2] != (0, answers):
                sys.exit("%s: it goes wrong with all memory" % name)
            for at, right in refusals(words, script, right_end, folder):
                runs += 1
                if not right:
                    failed += 1
                    print("%s: allocation %d was refused, and the run ended otherwise" % (name, at), flush=True)
    print("%d runs, %d failed" % (runs, failed))
    return 1 if failed else 0


if __name__ == "__main__":
    sys.exit(main())
