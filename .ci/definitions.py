#!/usr/bin/env python3
"""Prints every definition by its file, with each file's first comment, in the order of crates.txt.

    definitions.py            prints them
    definitions.py --write    does nothing: no page has the list
"""
import os
import re
import sys

ROOT = os.path.dirname(os.path.dirname(os.path.abspath(__file__)))
HEADING = "# Every definition, by file"
# A public definition, also one of a family that stands inside another; fields of records aren't any.
PUBLIC = re.compile(
    r"^(?:(?:unfoldable |abbrev )?pub (?:(?:data|record) )?|  (?:unfoldable |abbrev )?pub (?:data|record) |  (?:unfoldable |abbrev )pub )"
    r"([^\s:({]+)",
    re.M,
)
WORDS = {"mod", "use", "ruleset", "data", "record"}


def crates():
    with open(os.path.join(ROOT, "crates.txt")) as lines:
        return [line.split(":")[0].split()[0] for line in lines if ":" in line and not line.startswith("#")]


def files(folder):
    """The files of a crate's specs, by their paths without the ending."""
    for path, folders, names in sorted(os.walk(folder)):
        folders[:] = [name for name in folders if name != "declared"]
        for name in sorted(names):
            if name.endswith(".antt") and name != "Lib.antt":
                yield os.path.relpath(os.path.join(path, name), folder)[: -len(".antt")]


def line(path, name):
    """A file's first comment, and the names that it defines; None where it defines none."""
    with open(path) as source:
        text = source.read()
    comment = re.sub(r"^--", "", re.match(r"(?:--.*\n)*", text).group(), flags=re.M).split()
    names = dict.fromkeys(found for found in PUBLIC.findall(text) if found not in WORDS)
    if not names:
        return None
    return "- **`%s`**: %s Defines %s." % (name, " ".join(comment), ", ".join("`%s`" % found for found in names))


def listing():
    parts = [HEADING]
    for crate in crates():
        folder = os.path.join(ROOT, "crates", crate, "specs")
        lines = [line(os.path.join(folder, name + ".antt"), name) for name in files(folder)]
        lines = [found for found in lines if found]
        if lines:
            parts += ["## `%s`" % crate, "\n".join(lines)]
    return "\n\n".join(parts) + "\n"


def main(words):
    if words == ["--write"]:
        return 0
    if words:
        sys.stderr.write(__doc__)
        return 2
    sys.stdout.write(listing())
    return 0


if __name__ == "__main__":
    sys.exit(main(sys.argv[1:]))
