#!/usr/bin/env python3
"""The times of the merge gate, crate by crate.

    times.py --run LOG [NAME..]    runs `rt ci` (of these crates) into LOG, and ends with its code
    times.py LOG                   prints a table of what that run checked: seconds for proofs, tests and edits

`rt ci` prints no times, so --run looks each half second which of its checks run, and adds a line to LOG for each one as soon
as it has ended. A time is that of the processors, whatever else runs beside. That of the edits is a sum over all of a crate
and the check that they begin with. What an earlier run kept takes no time, and isn't in the table.
"""
import os
import re
import subprocess
import sys
import time

ROOT = os.path.dirname(os.path.dirname(os.path.abspath(__file__)))
LINE = re.compile(r"^time: ([\d.]+) (proof|tests|edit) (\w+)$", re.M)
TICKS = os.sysconf("SC_CLK_TCK")


def processes():
    """Of each process its parent, its beginning in seconds since the machine's start, and the seconds that it and its children took."""
    found = {}
    for name in filter(str.isdigit, os.listdir("/proc")):
        try:
            with open("/proc/%s/stat" % name) as stat:
                parts = stat.read().rpartition(")")[2].split()
        except OSError:
            continue
        found[int(name)] = int(parts[1]), int(parts[19]) / TICKS, sum(map(int, parts[11:15])) / TICKS
    return found


def is_below(pid, top, found):
    while pid in found and pid != top:
        pid = found[pid][0]
    return pid == top


def check_of(pid):
    """What a process checks: the kind and the crate, or None."""
    try:
        with open("/proc/%d/cmdline" % pid, errors="replace") as line:
            words = line.read().split("\0")
        folder = os.readlink("/proc/%d/cwd" % pid)
    except OSError:
        return None
    if os.path.basename(words[0]) != "rattle" or "--crate-name" not in words:
        return None
    kind = "edit" if "/rt-edit-" in folder else "tests" if "--test" in words else "proof"
    return kind, words[words.index("--crate-name") + 1]


def look(top, seen):
    """Notes what each check below a process is and has taken so far, and returns those that have ended."""
    found = processes()
    for pid, (parent, began, taken) in found.items():
        if pid != top and is_below(pid, top, found):
            check = check_of(pid)
            # The jobs of one check are its children.
            if check and check_of(parent) != check:
                seen[pid, began] = check, taken
    ended = [key for key in seen if key[0] not in found or found[key[0]][1] != key[1]]
    return [seen.pop(key) for key in ended]


def run(log, names):
    seen = {}
    with open(log, "a") as out:
        gate = subprocess.Popen(["rt", "ci", *names], cwd=ROOT, stdin=subprocess.DEVNULL, stdout=out, stderr=subprocess.STDOUT)
        while True:
            is_over = gate.poll() is not None
            ended = look(gate.pid, seen)
            for (kind, crate), seconds in [*ended, *(seen.values() if is_over else [])]:
                out.write("time: %.1f %s %s\n" % (seconds, kind, crate))
            out.flush()
            if is_over:
                return gate.returncode
            time.sleep(0.5)


def order():
    with open(os.path.join(ROOT, "crates.txt")) as lines:
        return [line.split(":")[0].split()[0] for line in lines if ":" in line and not line.startswith("#")]


def table(log):
    with open(log, errors="replace") as source:
        lines = LINE.findall(source.read())
    times, tries = {}, {}
    for seconds, kind, crate in lines:
        times[kind, crate] = times.get((kind, crate), 0) + float(seconds)
        tries[crate] = tries.get(crate, 0) + (kind == "edit")
    cell = lambda kind, crate: "%.0f" % times[kind, crate] if (kind, crate) in times else ""
    print("| crate | proof, s | tests, s | edits, s |\n|---|---|---|---|")
    for crate in order():
        cells = [cell(kind, crate) for kind in ("proof", "tests", "edit")]
        if any(cells):
            print("| `%s` | %s |" % (crate, " | ".join(cells)))
    sums = [sum(seconds for (of, _), seconds in times.items() if of == kind) for kind in ("proof", "tests", "edit")]
    print("| all | %s |" % " | ".join("%.0f" % it for it in sums))


def main(words):
    if words[:1] == ["--run"] and len(words) > 1:
        return run(words[1], words[2:])
    if len(words) != 1 or words[0].startswith("-"):
        sys.stderr.write(__doc__)
        return 2
    table(words[0])
    return 0


if __name__ == "__main__":
    sys.exit(main(sys.argv[1:]))
