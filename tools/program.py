"""The program and the crates that it is built from, for the scripts of this folder."""
import argparse
import os
import re
import shutil
import signal
import subprocess
import sys

TOP = os.path.dirname(os.path.dirname(os.path.abspath(__file__)))
# The crate of the program to deploy.
PRODUCT = "ebl_cli"
CRATE = os.path.join(TOP, "crates", PRODUCT)
PROGRAM = os.path.join(CRATE, "out", PRODUCT)
NO_TOOLCHAIN = ("ebl: the Rattle toolchain isn't here: no command rt on the PATH. README.md says which kit it is;"
                " the kit's guide is its file START-HERE.md.")


def words_of(head):
    """A reader of a script's words, whose --help is what stands at the script's head."""
    return argparse.ArgumentParser(description=head, formatter_class=argparse.RawDescriptionHelpFormatter)


def libraries():
    """The crates that each crate of crates.txt names, its own repository's alone."""
    with open(os.path.join(TOP, "crates.txt"), encoding="utf-8") as file:
        rows = [line.split("#")[0].split(":") for line in file]
    named = {row[0].split()[0]: row[1].split() for row in rows if len(row) == 2}
    return {crate: [it for it in below if it in named] for crate, below in named.items()}


def crates_below(*crates):
    """The crates and those that they are built from, each behind its own libraries."""
    named, found = libraries(), []

    def add(it):
        for below in named[it]:
            add(below)
        if it not in found:
            found.append(it)

    for crate in crates:
        add(crate)
    return found


def copied(crates, top):
    """Copies crates to an empty folder, as a repository of its own that has no others: without edits that must fail."""
    os.mkdir(os.path.join(top, ".git"))
    shutil.copy(os.path.join(TOP, "HANDLES"), top)
    with open(os.path.join(TOP, "crates.txt"), encoding="utf-8") as file:
        rows = [line for line in file if re.split(r"[\s:]", line)[0] in crates]
    with open(os.path.join(top, "crates.txt"), "w", encoding="utf-8") as file:
        file.writelines(rows)
    for crate in crates:
        shutil.copytree(os.path.join(TOP, "crates", crate), os.path.join(top, "crates", crate),
                        ignore=shutil.ignore_patterns("out", "must-fail"))


def gate(top):
    """The lines that the gate's command prints in a folder; the last one is its status, a number."""
    prover = subprocess.Popen(["rt", "ci"], cwd=top, stdin=subprocess.DEVNULL, stdout=subprocess.PIPE,
                              stderr=subprocess.STDOUT, start_new_session=True, text=True, errors="replace")
    try:
        yield from prover.stdout
        yield prover.wait()
    finally:
        if prover.poll() is None:
            os.killpg(prover.pid, signal.SIGKILL)


def end_on_signals():
    """Lets a stopped script clean up: it removes its copies and ends its provers."""
    for number in (signal.SIGTERM, signal.SIGHUP):
        signal.signal(number, lambda number, _: sys.exit(128 + number))


def sources(crate):
    for part in ("src", "specs", "proofs"):
        for folder, _, names in os.walk(os.path.join(TOP, "crates", crate, part)):
            for name in names:
                yield os.path.join(folder, name)


def program_of(crate):
    """Where the proved program of a crate lies, once it is built."""
    return os.path.join(TOP, "crates", crate, "out", crate)


def is_built(crate=PRODUCT):
    """Whether a crate's proved program is here and newer than each file that it is made from."""
    if not os.path.exists(program_of(crate)):
        return False
    made = os.path.getmtime(program_of(crate))
    return all(os.path.getmtime(file) <= made for it in crates_below(crate) for file in sources(it))


def proved(crate):
    """A crate's proved program, which is built first where it isn't here; the script ends where it can't be."""
    if not is_built(crate):
        maker = os.path.join(TOP, "tools", "make_program.py")
        ended = subprocess.run([sys.executable, maker, crate], stdin=subprocess.DEVNULL, stdout=sys.stderr)
        if ended.returncode:
            sys.exit("%s isn't built" % crate)
    return program_of(crate)


def commit():
    """The commit of this checkout, with a mark where files differ from it; an empty text where git doesn't tell."""
    ended = subprocess.run(["git", "-C", TOP, "describe", "--always", "--dirty", "--exclude", "*"],
                           stdout=subprocess.PIPE, stderr=subprocess.DEVNULL, text=True)
    return ended.stdout.strip() if ended.returncode == 0 else ""


def need_toolchain():
    if shutil.which("rt") is None:
        sys.exit(NO_TOOLCHAIN)
