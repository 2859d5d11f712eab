#!/usr/bin/env python3
"""The crates of crates.txt, in the order of the data: their order, and the table of docs/ARCHITECTURE.md.

    crates.py            names each crate that uses one of a later line, with code 1
    crates.py --table    prints the table: each crate, what it holds, what it uses, and how many crates are above it
    crates.py --write    writes that table into docs/ARCHITECTURE.md

What a crate holds is as the page has it, and of a new one as its README begins. A crate that another one of a row uses isn't
named beside that one. A crate is above another that it uses, itself or by way of others.
"""
import os
import re
import sys

ROOT = os.path.dirname(os.path.dirname(os.path.abspath(__file__)))
PAGE = os.path.join(ROOT, "docs", "ARCHITECTURE.md")
HEAD = "| crate | holds | uses | above |\n|---|---|---|---|\n"
TABLE = re.compile(r"^\| crate \|.*\n(?:\|.*\n)+", re.M)


def read(*path):
    with open(os.path.join(ROOT, *path)) as source:
        return source.read()


def listed():
    """The lines of crates.txt: the heading that each stands under, its crate, and the crates that this names."""
    family, found = "", []
    for text in read("crates.txt").split("\n"):
        if text.startswith("#"):
            family = text[1:].strip()
        elif ":" in text:
            name, _, used = text.partition(":")
            found.append((family, name.split()[0], used.split()))
    own = {name for _, name, _ in found}
    return [(family, name, [it for it in used if it in own]) for family, name, used in found]


def later(crates):
    """Each crate that uses one of a later line, or itself, with that one."""
    places = {name: place for place, (_, name, _) in enumerate(crates)}
    return [(name, it) for _, name, used in crates for it in used if places[it] >= places[name]]


def below(crates):
    """Of each crate all that it uses, also by way of others."""
    found = {}
    for _, name, used in crates:
        found[name] = {*used}.union(*(found.get(it, set()) for it in used))
    return found


def first_sentence(name):
    """How a crate's README begins, after its heading."""
    text = " ".join(read("crates", name, "README.md").partition("\n")[2].strip().split("\n\n")[0].split())
    return re.split(r"(?<=[a-z)`])\. ", text)[0].rstrip(".")


def table(crates, page):
    """The table, with the words that the page has for what each crate holds."""
    words = {}
    for row in re.findall(r"^\| (`.*) \|$", page, re.M):
        cells = row.split(" | ")
        for name in re.findall(r"`(\w+)`", cells[0]):
            words[name] = cells[1]
    all_below, rows, family = below(crates), [HEAD], None
    for heading, name, used in crates:
        if heading != family:
            family = heading
            rows.append("| **%s** | | | |\n" % family)
        nearest = [it for it in used if not any(it in all_below[other] for other in used)]
        above = sum(name in others for others in all_below.values())
        rows.append("| `%s` | %s | %s | %d |\n" % (name, words.get(name) or first_sentence(name), ", ".join(nearest), above))
    return "".join(rows)


def main(words):
    crates = listed()
    if not words:
        for name, it in later(crates):
            sys.stderr.write("crates: %s uses %s, which has no earlier line in crates.txt\n" % (name, it))
        return 1 if later(crates) else 0
    page = read("docs", "ARCHITECTURE.md")
    made = table(crates, TABLE.search(page).group())
    if words == ["--table"]:
        sys.stdout.write(made)
    elif words == ["--write"]:
        with open(PAGE, "w") as out:
            out.write(TABLE.sub(lambda _: made, page, count=1))
    else:
        sys.stderr.write(__doc__)
        return 2
    return 0


if __name__ == "__main__":
    sys.exit(main(sys.argv[1:]))
