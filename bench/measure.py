"""What the benchmarks share: programs that are built or the run ends; counts, times and memory of a run; differences,
which are refused if they aren't above zero."""
import os
import re
import subprocess
import sys
import tempfile
import time

HERE = os.path.dirname(os.path.abspath(__file__))
TOP = os.path.dirname(HERE)
sys.path.insert(0, os.path.join(TOP, "tools"))
import program  # noqa: E402
from program import words_of  # noqa: E402,F401

REGISTRY = "/usr/share/cargo/registry"
# callgrind counts `rep stosb` and `rep movsb` once a byte, which the processor does many at a time.
TUNABLES = "glibc.cpu.x86_rep_stosb_threshold=2000000000:glibc.cpu.x86_rep_movsb_threshold=2000000000"


def product():
    """The proved program, which has to be there and newer than its sources."""
    if not program.is_built():
        sys.exit("no proved program of these sources: run make program first")
    return program.PROGRAM


def proved(crate, words):
    """A proved program for measuring, built first where it isn't here; a run with these words has to end with 0."""
    made = program.proved(crate)
    ended = subprocess.run([made, *words], stdin=subprocess.DEVNULL, stdout=subprocess.PIPE, stderr=subprocess.STDOUT)
    if ended.returncode:
        sys.exit("%s ends with %d:\n%s" % (crate, ended.returncode, ended.stdout.decode(errors="replace")[-2000:]))
    return made


def peer(name, folder):
    """A stock program, built in a folder by cargo from Debian's packages."""
    subprocess.run(["cargo", "build", "--quiet", "--release", "--offline",
                    "--manifest-path", os.path.join(HERE, name, "Cargo.toml"),
                    "--config", 'source.crates-io.replace-with="debian"',
                    "--config", 'source.debian.directory="%s"' % REGISTRY],
                   env=dict(os.environ, CARGO_TARGET_DIR=folder), check=True)
    return os.path.join(folder, "release", name)


def instructions(words, given=b""):
    """How many instructions a run takes by callgrind; it has to end with 0."""
    with tempfile.TemporaryDirectory() as folder:
        out = os.path.join(folder, "callgrind")
        ended = subprocess.run(["valgrind", "--tool=callgrind", "--callgrind-out-file=" + out, *words], input=given,
                               stdout=subprocess.DEVNULL, stderr=subprocess.PIPE,
                               env=dict(os.environ, GLIBC_TUNABLES=TUNABLES))
    counted = re.search(rb"Collected : (\d+)", ended.stderr)
    if ended.returncode or not counted:
        sys.exit("%s ended with %d under callgrind" % (words[0], ended.returncode))
    return int(counted.group(1))


def seconds(words, given=b""):
    """The wall time of one run, which has to end with 0."""
    begun = time.perf_counter()
    subprocess.run(words, input=given, stdout=subprocess.DEVNULL, check=True)
    return time.perf_counter() - begun


def best(words, given=b"", runs=5):
    return min(seconds(words, given) for _ in range(runs))


def c_program(name, folder):
    """A small C program of this folder, built by gcc."""
    program = os.path.join(folder, name)
    subprocess.run(["gcc", "-O2", "-Wall", "-o", program, os.path.join(HERE, name, name + ".c")], check=True)
    return program


def peak(words, given=b""):
    """The greatest memory of one run in bytes; it has to end with 0."""
    with tempfile.TemporaryDirectory() as folder:
        out = os.path.join(folder, "bytes")
        subprocess.run([c_program("peak", folder), out, *words], input=given, stdout=subprocess.DEVNULL, check=True)
        with open(out) as file:
            return int(file.read())


def compare(programs, given, what):
    """Ends the run if two programs write different bytes."""
    written = {subprocess.run(words, input=given, stdout=subprocess.PIPE, check=True).stdout for words in programs}
    if len(written) != 1:
        sys.exit("%s: the two write different bytes" % what)


def difference(many, few, what):
    """What the longer run took more than the shorter one."""
    if many <= few:
        sys.exit("%s: the longer run took no more than the shorter one; measure again on a free machine" % what)
    return many - few
