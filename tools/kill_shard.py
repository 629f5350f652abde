#!/usr/bin/env python3
"""Kills a shard on a file at random moments and starts it again: whatever it answered is found again.

Runs shard_trial, which serves a shard of ALPH from a file and writes each answer as it is given, kills it (SIGKILL) at
a random moment of its opening or its serving, and reads the file by its own rules (docs/journal.md). Each time the
frames that were there before are there still, byte for byte; there are as many as the last answer said, or one more,
whose answer was on its way; and the next start finds just these, so the diary is legal. Prints how often it was killed,
how many answers there were and how many frames had no answer; ends with 1 where anything else is found.

    tools/kill_shard.py PROGRAM [KILLS [SEED]]   200 kills otherwise; the random moments follow from SEED, otherwise 1
"""
import os
import random
import shutil
import subprocess
import tempfile
import time

from program import words_of

# With more frames than these a new file is begun, so that an opening stays short.
MOST_FRAMES = 1500
# The longest time from a start to a kill, in seconds.
LONGEST = 0.4


def frames_of(data):
    """The contents of a journal's frames, or a sentence on what is wrong."""
    if not data:
        return []
    if data[0] != 1:
        raise SystemExit("kill_shard: the version isn't 1")
    frames, at = [], 1
    while True:
        if at >= len(data):
            raise SystemExit("kill_shard: no gate at %d" % at)
        if data[at] != 1:
            return frames
        size = int.from_bytes(data[at + 1:at + 5], "big")
        content = data[at + 5:at + 5 + size]
        if len(content) < size:
            raise SystemExit("kill_shard: the frame at %d runs past the end" % at)
        frames.append(content)
        at += 5 + size


def read(path):
    try:
        with open(path, "rb") as file:
            return file.read()
    except FileNotFoundError:
        return b""


def lines_of(output):
    """The whole lines that were written; what stands behind the last line end was cut off."""
    return output.decode().split("\n")[:-1]


def main():
    words = words_of(__doc__)
    words.add_argument("program")
    words.add_argument("kills", nargs="?", type=int, default=200)
    words.add_argument("seed", nargs="?", type=int, default=1)
    given = words.parse_args()
    program, kills, moments = given.program, given.kills, random.Random(given.seed)
    folder = tempfile.mkdtemp()
    path, out = os.path.join(folder, "journal"), os.path.join(folder, "answers")
    before, answers, unanswered, unopened, files = [], 0, 0, 0, 1
    try:
        for number in range(kills):
            if len(before) > MOST_FRAMES:
                os.remove(path)
                before, files = [], files + 1
            with open(out, "wb") as answered:
                server = subprocess.Popen([program, "serve", folder, path, "1000000"], stdout=answered)
                time.sleep(moments.uniform(0, LONGEST))
                ended = server.poll()
                server.kill()
                server.wait()
            if ended is not None:
                raise SystemExit("kill_shard: start %d ended by itself with %d" % (number + 1, ended))
            lines, now = lines_of(read(out)), frames_of(read(path))
            if now[:len(before)] != before:
                raise SystemExit("kill_shard: start %d lost a frame" % (number + 1))
            if not lines:
                unopened += 1
                told = len(before)
                least = most = told
            else:
                if lines[0] != "opened %d" % len(before):
                    raise SystemExit("kill_shard: start %d found %s for %d frames" % (number + 1, lines[0], len(before)))
                wanted = ["%d DONE" % count for count in range(len(before) + 1, len(before) + len(lines))]
                if lines[1:] != wanted:
                    raise SystemExit("kill_shard: start %d answered otherwise" % (number + 1))
                least = len(before) + len(lines) - 1
                most = least + 1
            if not least <= len(now) <= most:
                raise SystemExit("kill_shard: start %d answered %d and has %d" % (number + 1, least, len(now)))
            answers += max(0, len(lines) - 1)
            unanswered += len(now) - least
            before = now
        last = subprocess.run([program, "serve", folder, path, "0"], stdout=subprocess.PIPE, check=True)
        if lines_of(last.stdout) != ["opened %d" % len(before)]:
            raise SystemExit("kill_shard: the last start found other frames")
    finally:
        shutil.rmtree(folder)
    print("%d kills, %d of them before the journal was open, on %d files: %d answers, each found again; %d frames more, "
          "whose answers were on their way" % (kills, unopened, files, answers, unanswered))


if __name__ == "__main__":
    main()
