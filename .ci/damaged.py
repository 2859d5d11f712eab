#!/usr/bin/env python3
"""Runs the program on damaged copies of the example: each run ends with a named answer.

    damaged.py PROGRAM EXAMPLE

The example is cut to each length, and each of its bytes is set to 00 and to ff. `exec` runs each copy. Where `trim` is done
with a copy, what it wrote runs as the copy does.
"""
import os
import re
import subprocess
import sys
import tempfile
import threading
from concurrent.futures import ThreadPoolExecutor

PLACE = r"\S*:[0-9a-f]{8}:[0-9a-f]{8}"
WHY = (
    "NotPe NoCli NotIlOnly Native Truncated BadRva BadRoot BadStream BadHeap UnknownTable RowOutOfRange ListOrder SortOrder "
    "DuplicateAssembly CyclicTypes CyclicNesting DuplicateMember"
)
ANSWERS = {
    0: r"(ended -?\d+|done)",
    3: r"bad file a\.exe \d+ (%s)" % "|".join(WHY.split()),
    4: r"outside %s [A-Za-z]+" % PLACE,
    5: r"unresolved " + PLACE,
    8: r"limit \d \d+",
    12: r"no entry [0-9a-f]{8}",
    20: r"threw \S+: .*",
    21: r"spent 1000",
    22: r"stopped " + PLACE,
    23: r"stuck " + PLACE,
    30: r"not yet a\.exe",
}
REFUSALS = (3, 4, 5, 8, 12, 30)


class Fault(Exception):
    """A run that did not end as it should."""


def call(program, folder, *words):
    """What the program prints, its status line without the end of the line, and its code."""
    try:
        run = subprocess.run([program, *words], cwd=folder, stdin=subprocess.DEVNULL, capture_output=True, timeout=60)
    except subprocess.TimeoutExpired:
        raise Fault("%s gave no answer" % words[0])
    line = run.stderr.decode("utf-8", "replace")
    if not re.fullmatch(ANSWERS.get(run.returncode, "(?!)") + r"\n", line):
        raise Fault("%s: code %d, %r" % (words[0], run.returncode, line))
    if run.returncode in REFUSALS and run.stdout:
        raise Fault("%s: %r, and printed %r" % (words[0], line, run.stdout))
    return run.stdout, line[:-1], run.returncode


def check_cut(length, told):
    """A file that is cut has no byte behind its length, or isn't a PE file at all."""
    want = "bad file a.exe 0 NotPe" if length < 2 else "bad file a.exe %d Truncated" % length
    if told[1] != want:
        raise Fault("exec: %r, not %r" % (told[1], want))


def check_trim(program, folder, told):
    """Trims a copy; what is written runs as the copy does. A copy that `exec` refuses is refused in the same words."""
    out = os.path.join(folder, "o.exe")
    if os.path.exists(out):
        os.remove(out)
    printed, line, code = call(program, folder, "trim", "o.exe", "a.exe")
    if line.startswith("ended") or printed or os.path.exists(out) != (code == 0):
        raise Fault("trim: %r, printed %r" % (line, printed))
    if told[2] in (3, 12) and (line, code) != told[1:]:
        raise Fault("exec: %r, trim: %r" % (told[1], line))
    if code == 0:
        again = call(program, folder, "exec", "o.exe", "--steps", "1000")
        if again != told:
            raise Fault("exec: %r, and of what trim wrote: %r" % (told, again))


class Checks:
    """The copies, each with what is said of it, and the folders of the threads that try them."""

    def __init__(self, program, example, work):
        self.program, self.example, self.work = program, example, work
        self.here = threading.local()

    def folder(self):
        if not hasattr(self.here, "folder"):
            self.here.folder = tempfile.mkdtemp(dir=self.work)
        return self.here.folder

    def copies(self):
        for length in range(len(self.example)):
            yield "cut to %d" % length, self.example[:length], length
        for at in range(len(self.example)):
            for value in (0x00, 0xFF):
                yield "%d set to %02x" % (at, value), self.example[:at] + bytes([value]) + self.example[at + 1:], None

    def check(self, copy):
        """Nothing, or what is wrong with the answers for a copy."""
        what, data, length = copy
        folder = self.folder()
        with open(os.path.join(folder, "a.exe"), "wb") as out:
            out.write(data)
        try:
            told = call(self.program, folder, "exec", "a.exe", "--steps", "1000")
            if length is not None:
                check_cut(length, told)
            if length is None or length % 64 == 1:
                check_trim(self.program, folder, told)
        except Fault as fault:
            return "%s: %s" % (what, fault)
        return None


def main(words):
    if len(words) != 2:
        sys.stderr.write(__doc__)
        return 2
    with open(words[1], "rb") as example, tempfile.TemporaryDirectory() as work:
        checks = Checks(os.path.abspath(words[0]), example.read(), work)
        with ThreadPoolExecutor(os.cpu_count()) as pool:
            faults = [fault for fault in pool.map(checks.check, checks.copies(), chunksize=1) if fault]
    for fault in faults[:10]:
        sys.stderr.write("damaged: %s\n" % fault)
    return 1 if faults else 0


if __name__ == "__main__":
    sys.exit(main(sys.argv[1:]))
