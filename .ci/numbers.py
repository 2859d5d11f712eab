#!/usr/bin/env python3
"""Finds bare numbers of tables, tokens and flags in code and definitions, where ECMA-335 has names for them.

Looks at crates/*/src and crates/*/specs without tests, worked examples, texts and comments. Prints each place that it finds, and
ends with 1 if there is one.
"""
import glob
import os
import re
import sys

ROOT = os.path.dirname(os.path.dirname(os.path.abspath(__file__)))
NUMBER = r"(?:0x[0-2][0-9a-f]|[1-4]?[0-9])\b(?!\.)"
# What takes a table's number first, as `index_in 0x02` and `index_in(0x02`.
TAKES_TABLE = r"\b(?:index_in|token_of|wide_token|repeated_row|rows_of ts|rows_in tables|(?:number|text|blob|guid|token)_in m|all_rows m|run_end m|Index|IndexOrNone|Run)"
RULES = [
    ("a table has a name in il_base::table", rf"{TAKES_TABLE}(?: |\(){NUMBER}"),
    ("a table has a name in il_base::table", rf"\b(?:table_of\(?[ \w.]*\)?|TABLE(?:: u8)?) *(?:==?|!=|≡|≢) *{NUMBER}"),
    ("a table has a name in il_base::table", rf"\bfile\.\w+\((?:alloc, )?{NUMBER}"),
    ("a token is made by world_model::token_of, or is FIRST_TYPE_DEF", r"(?<!/ )\b0x(?:[0-2][0-9a-f]|70)00_?[0-9a-f]{4}\b"),
    ("a token is taken apart by world_model::table_of and row_of", r"\btoken\)* *[/%] *(?:0x100_?0000|16777216)\b"),
    ("flags are tested by il_base::has_flag and access_of", r"\b\w*flags\b\)* *[/%&](?!&)(?! *seen_flags::) *"),
]
# In what is on linking and types every number of one or two hexadecimal digits is a table's, a flag or an element type: the crates under
# these headings of crates.txt, and these modules of others.
NAMED = ("ECMA-335 has a name for it", r"\b0x[0-9a-f]{1,2}\b")
NAMED_HEADINGS = ("# link", "# types")
NAMED_MODULES = ("core_table", "link_rules", "link_laws", "type_rules", "type_laws", "walk_laws")
# Where they stand nevertheless, and why: patterns of whole paths.
EXCEPTIONS = {
    "crates/il_base/src/[a-z_]+.rt": "defines them",
    "crates/il_base/specs/(?:Bytes|Flags|formers.*).antt": "defines them",
    "crates/il_base/src/world_model/tokens.rt": "defines tokens",
    "crates/il_base/specs/world_model/Tokens.antt": "defines tokens",
    "crates/il_base/src/core_table/tokens.rt": "names the tokens of the core library",
    "crates/il_base/specs/blob_grammar/.*": "spells tokens in signatures (II.23.2.8), and has no world_model below it",
    "crates/sig_blobs/src/.*": "spells tokens in signatures (II.23.2.8), and has no world_model below it",
    "crates/il_base/specs/cli_format/Tokens.antt": "takes tokens apart for coded indices (II.24.2.6), and has no world_model below it",
    "crates/pe_image/src/image.rt": "tests the flags of the CLI header (II.25.3.3.1)",
    "crates/rules/specs/record_format/Texts.antt": "makes the tokens of texts (III.4.16)",
    "crates/world_reader/(?:src|specs)/user_strings.*": "makes the tokens of texts (III.4.16)",
}
# The writer's oldest crates name tables and tokens by their numbers.
OLD = re.compile(r"crates/file_laws/\w+/written_\w+[/.]")
SKIPPED = re.compile(r"^crates/\w+_tests/|/tests(?:/|\.rt$)|/(?:Sample|Examples)\.antt$")


def plain(path, line):
    """A line without texts and comments."""
    line = re.sub(r"b?\"(?:[^\"\\]|\\.)*\"|b?'(?:[^'\\]|\\.)'", '""', line)
    return line.split("--" if path.endswith(".antt") else "//")[0]


def named_crates():
    """The crates under the headings of linking and types in crates.txt."""
    heading, names = "", set()
    with open("crates.txt", encoding="utf-8") as lines:
        for line in lines:
            if line.startswith("#"):
                heading = line.strip()
            elif ":" in line and heading in NAMED_HEADINGS:
                names.add(line.split(":")[0].split()[0])
    return names


def files():
    for path in sorted(glob.glob("crates/*/src/**/*.rt", recursive=True) + glob.glob("crates/*/specs/**/*.antt", recursive=True)):
        excepted = any(re.fullmatch(name, path) for name in EXCEPTIONS)
        if not excepted and not OLD.match(path) and not SKIPPED.search(path):
            yield path


def main():
    os.chdir(ROOT)
    found = 0
    named = named_crates()
    for path in files():
        parts = re.split(r"[/.]", path)
        rules = RULES + [NAMED] if parts[1] in named or parts[3] in NAMED_MODULES else RULES
        with open(path, encoding="utf-8") as lines:
            for number, line in enumerate(lines, 1):
                for what, rule in rules:
                    if re.search(rule, plain(path, line)):
                        print(f"{path}:{number}: {what}: {line.strip()}")
                        found = 1
                        break
    return found


sys.exit(main())
