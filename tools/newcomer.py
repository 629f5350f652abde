#!/usr/bin/env python3
"""Goes through a fresh clone of this checkout's last commit as a newcomer would, in a folder with a blank in its path.

    tools/newcomer.py             help, scripts and words by the unproved build: some minutes
    tools/newcomer.py --program   and then the proof, the program and its installation: an hour more

Prints each command with its seconds; the last line is 'N passed, M failed', and it ends with 1 where one failed.
"""
import os
import shlex
import shutil
import subprocess
import sys
import tempfile
import time

from program import crates_below, words_of

TOP = os.path.dirname(os.path.dirname(os.path.abspath(__file__)))
UNPROVED = "unproved build"
EMPTY = "{}\n44136fa355b3678a1146ad16f7e8649e94fb4fc21fe77e8310c060f61caaff8a\n"


class Visit:
    """A clone, and how many of the commands typed in it did what they should."""

    def __init__(self, clone):
        self.clone, self.passed, self.failed = clone, 0, 0

    def read(self, name):
        with open(os.path.join(self.clone, name), encoding="utf-8") as file:
            return file.read()

    def types(self, command, exit_code=0, out=None, says="", errors=None, path=None):
        """Types a command into a shell at the top of the clone, and compares its exit, its output, what it says, and
        how many lines it writes to standard error."""
        begun = time.monotonic()
        environment = dict(os.environ, **({"PATH": path} if path else {}))
        ended = subprocess.run(["sh", "-c", command], cwd=self.clone, env=environment, stdout=subprocess.PIPE,
                               stderr=subprocess.PIPE, stdin=subprocess.DEVNULL, text=True)
        whole = ended.stdout + ended.stderr
        is_well = ended.returncode == exit_code and out in (None, ended.stdout) and says in whole
        is_well = is_well and errors in (None, len(ended.stderr.splitlines()))
        print("%-6s %6.1f s  %s" % ("ok" if is_well else "FAILED", time.monotonic() - begun, command), flush=True)
        if not is_well:
            print("    it ended with %d and printed:\n%s" % (ended.returncode, whole[-2000:]))
        self.passed, self.failed = self.passed + is_well, self.failed + (not is_well)


def unproved(visit):
    visit.types("make help", says="make program")
    visit.types("make run", out=visit.read("examples/first_run.out"), says=UNPROVED, errors=1)
    visit.types("cp examples/refused_transfer.jsonl 'a script.jsonl'")
    visit.types("make run SCRIPT='a script.jsonl'", out=visit.read("examples/refused_transfer.out"), says=UNPROVED,
                errors=1)
    visit.types("make run SCRIPT=examples/bad_line.jsonl", exit_code=2, out=visit.read("examples/bad_line.out"),
                says="Error 3", errors=3)
    visit.types("tools/ebl drive < examples/bad_line.jsonl", exit_code=3, out=visit.read("examples/bad_line.out"),
                says="ebl: line 3 is not a script line", errors=2)
    visit.types("printf '{}' | tools/ebl canon", out=EMPTY, says=UNPROVED, errors=1)
    visit.types("make run SCRIPT=nowhere", exit_code=2, says="nowhere")


def without_toolchain(visit, folder):
    """The same with a PATH that has no rt."""
    for word in ("sh", "make", "git", "env", "python3"):
        os.symlink(os.path.realpath(shutil.which(word)), os.path.join(folder, word))
    for word in ("run", "program", "test"):
        visit.types("make " + word, exit_code=2, says="the Rattle toolchain isn't here", path=folder)


def proved(visit):
    crates = len(crates_below("ebl_cli"))
    visit.types("make program", says="%d of %d" % (crates, crates))
    visit.types("make program", says="proved and built")
    visit.types("make run", out=visit.read("examples/first_run.out"), errors=0)
    visit.types("make run SCRIPT='a script.jsonl'", out=visit.read("examples/refused_transfer.out"), errors=0)
    visit.types("tools/ebl drive < examples/bad_line.jsonl", exit_code=3, out=visit.read("examples/bad_line.out"))
    visit.types("make install PREFIX=" + shlex.quote(visit.clone + "/in stalled"), says="in stalled/bin/ebl")
    visit.types("printf '{}' | 'in stalled/bin/ebl' canon", out=EMPTY, errors=0)
    visit.types("python3 tools/check_program.py", says=" 0 failed")


def main():
    words = words_of(__doc__)
    words.add_argument("--program", action="store_true")
    given = words.parse_args()
    with tempfile.TemporaryDirectory(prefix="newcomer ") as room:
        clone = os.path.join(room, "a clone")
        bare = os.path.join(room, "no toolchain")
        os.mkdir(bare)
        subprocess.run(["git", "clone", "--quiet", TOP, clone], check=True)
        visit = Visit(clone)
        unproved(visit)
        without_toolchain(visit, bare)
        if given.program:
            proved(visit)
    print("%d passed, %d failed" % (visit.passed, visit.failed))
    return 1 if visit.failed else 0


if __name__ == "__main__":
    sys.exit(main())
