#!/usr/bin/env python3
"""Where a whole gate spends its time: by crate, the proof, the tests' proof, the must-fail edits and the runs.

    tools/gate_times.py              runs `rt ci` at the top of the repository, its output to out/gate.log
    tools/gate_times.py --pid N      watches a gate that runs already; what ended before isn't seen
    tools/gate_times.py --read FILE  prints the table of a record that an earlier call kept
    tools/gate_times.py --edits FILE prints the seconds of each must-fail edit in such a record

`rt ci` prints no times, so the provers that it starts are watched in /proc twice a second. The table has processor
seconds, which other work on the machine changes little, and after them the wall time of each part, which it does.
The record is out/gate_times.jsonl, one prover a line. Ends with the gate's status.
"""
import json
import os
import re
import subprocess
import sys
import time

from program import TOP, words_of

OUT = os.path.join(TOP, "out")
TICKS = os.sysconf("SC_CLK_TCK")
KINDS = ("proof", "tests", "edits", "runs")
PERIOD = 0.5


def processes():
    """(parent, processor seconds with those of the children that it waited for, start in seconds) by process."""
    found = {}
    for name in os.listdir("/proc"):
        if name.isdigit():
            try:
                with open("/proc/%s/stat" % name) as stat:
                    row = stat.read().rpartition(")")[2].split()
            except OSError:
                continue
            found[int(name)] = (int(row[1]), sum(map(int, row[11:15])) / TICKS, int(row[19]) / TICKS)
    return found


def tree(top, table):
    """The process and all below it."""
    below = {}
    for pid, row in table.items():
        below.setdefault(row[0], []).append(pid)
    found = [top]
    for pid in found:
        found += below.get(pid, [])
    return found


def what_of(pid):
    """(crate, kind) of a prover or of a run that the gate started; None of any other process."""
    try:
        with open("/proc/%d/cmdline" % pid, "rb") as line:
            words = line.read().decode(errors="replace").split("\0")
        folder = os.readlink("/proc/%d/cwd" % pid)
    except OSError:
        return None
    if words[0].endswith("/rattle") and "--crate-name" in words:
        crate = words[words.index("--crate-name") + 1]
        return crate, "edits" if "/rt-edit-" in folder else "tests" if "--test" in words else "proof"
    run = re.search(r"/rt-run-[^/]*/bin/(\w+)", " ".join(words))
    return (re.sub(r"_tests$", "", run.group(1)), "runs") if run and "/rt-run-" in folder else None


def watch(gate, is_running, record):
    """Notes each prover below the gate's process until the gate ends."""
    seen = {}
    while is_running():
        table = processes()
        now = time.clock_gettime(time.CLOCK_BOOTTIME)
        inside = set()
        for pid in tree(gate, table) if gate in table else ():
            key = pid, table[pid][2]
            if pid in inside:
                continue
            if key not in seen:
                what = what_of(pid)
                if what is None:
                    continue
                seen[key] = {"crate": what[0], "kind": what[1], "begun": table[pid][2], "seconds": 0.0}
            below = tree(pid, table)
            inside.update(below)
            seen[key]["ended"] = now
            seen[key]["seconds"] = max(seen[key]["seconds"], sum(table[it][1] for it in below))
        with open(record + ".new", "w") as file:
            file.writelines(json.dumps(it) + "\n" for it in seen.values())
        os.replace(record + ".new", record)
        time.sleep(PERIOD)


def order():
    """The crates in the order of crates.txt."""
    with open(os.path.join(TOP, "crates.txt")) as file:
        return [line.split(":")[0].split()[0] for line in file if ":" in line.split("#")[0]]


def span(rows):
    """The wall seconds from the first start to the last end."""
    return max(it["ended"] for it in rows) - min(it["begun"] for it in rows)


def print_table(record):
    with open(record) as file:
        rows = [json.loads(line) for line in file]
    by = {}
    for row in rows:
        by.setdefault((row["crate"], row["kind"]), []).append(row)

    def seconds(crates, kinds):
        return sum(row["seconds"] for row in rows if row["crate"] in crates and row["kind"] in kinds)

    crates = [it for it in order() if seconds([it], KINDS)]
    crates += sorted({row["crate"] for row in rows} - set(crates))
    print("%-20s" % "processor seconds" + "".join("%8s" % it for it in (*KINDS, "all"))
          + "   wall seconds: proof, tests, edits (checks)")
    for crate in sorted(crates, key=lambda it: -seconds([it], KINDS)):
        spans = []
        for kind in KINDS[:3]:
            found = by.get((crate, kind), [])
            spans.append("%.0f" % span(found) if found else "-")
        print("%-20s" % crate + "".join("%8.0f" % seconds([crate], [it]) for it in KINDS)
              + "%8.0f" % seconds([crate], KINDS) + "   %s, %s, %s (%d)" % (*spans, len(by.get((crate, "edits"), []))))
    whole = seconds(crates, KINDS)
    print("%-20s" % "all" + "".join("%8.0f" % seconds(crates, [it]) for it in KINDS) + "%8.0f" % whole)
    print("%-20s" % "part of 100" + "".join("%8.0f" % (100 * seconds(crates, [it]) / max(whole, 1e-9)) for it in KINDS))
    if rows:
        print("wall: %.0f minutes from the first prover's start to the last one's end" % (span(rows) / 60))


def print_edits(record):
    """The checks of a crate's edits, which come in the order of their names and share their work; the last one is of
    the crate as it is, and further ones are edits tried again from nothing."""
    with open(record) as file:
        rows = [row for row in map(json.loads, file) if row["kind"] == "edits"]
    for crate in sorted({row["crate"] for row in rows}):
        names = sorted(os.listdir(os.path.join(TOP, "crates", crate, "must-fail"))) + ["the crate as it is"]
        checks = sorted((row for row in rows if row["crate"] == crate), key=lambda row: row["begun"])
        for at, row in enumerate(checks):
            print("%6.0f  %s %s" % (row["seconds"], crate, names[at] if at < len(names) else "again"))


def main():
    words = words_of(__doc__)
    words.add_argument("--pid", type=int)
    words.add_argument("--read", metavar="FILE")
    words.add_argument("--edits", metavar="FILE")
    words.add_argument("--record", metavar="FILE", default=os.path.join(OUT, "gate_times.jsonl"))
    given = words.parse_args()
    if given.read:
        print_table(given.read)
        return 0
    if given.edits:
        print_edits(given.edits)
        return 0
    os.makedirs(OUT, exist_ok=True)
    status = 0
    if given.pid:
        watch(given.pid, lambda: os.path.exists("/proc/%d" % given.pid), given.record)
    else:
        with open(os.path.join(OUT, "gate.log"), "wb") as log:
            gate = subprocess.Popen(["rt", "ci"], cwd=TOP, stdin=subprocess.DEVNULL, stdout=log,
                                    stderr=subprocess.STDOUT)
            watch(gate.pid, lambda: gate.poll() is None, given.record)
            status = gate.returncode
        print("the gate ended with %d; its output is in out/gate.log" % status)
    print_table(given.record)
    return status


if __name__ == "__main__":
    sys.exit(main())
