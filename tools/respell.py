#!/usr/bin/env python3
"""Turns the names of this repository's definitions, lemmas, fields and constructors to today's spelling, after the kit's port.py.

usage: python3 tools/respell.py      at the top, once, with everything committed

Words are in snake case; a dash stays where it joins the names of two functions, as in length-drop, in a name that is no sentence; types,
modules and the names of src/ keep their spelling. The names are those that stand in specs/ and not in the kit's library. They are turned in
specs/, proofs/, clauses, edits and, between backticks, in comments and pages.
"""
import collections
import glob
import os
import re
import subprocess
import sys

LIBRARY = ["core", "std", "std_alloc", "std_collections", "std_heap", "std_io", "io", "logic", "antt", "libc", "os"]
WORD = re.compile(r"[^\s(){}\[\],;.:=λ→↦|\"«»`]+")
FUNCTION = re.compile(r"^\s*(?:pub )?(?:abbrev|unfoldable) (?:pub )?([^\s(){}\[\],;.:=λ→↦|\"«»`]+) :(?: |$)", re.M)


def read(path):
    with open(path, encoding="utf-8") as f:
        return f.read()


def write(path, text):
    with open(path, "w", encoding="utf-8") as f:
        f.write(text)


def library_words():
    kit = os.path.dirname(subprocess.run(["rt", "doc"], capture_output=True, text=True, check=True).stdout.strip())
    words = set()
    for part in LIBRARY:
        for path in glob.glob(f"{kit}/rattle/{part}/**/*.antt", recursive=True):
            words.update(WORD.findall(read(path)))
    return words


def code(text):
    """The text without comments."""
    return re.sub(r"--.*|//.*", "", text)


def is_fact(word):
    return word[0].isupper()


def snake(word):
    """camelCase as snake_case; a fact keeps its capitals."""
    if is_fact(word):
        return word
    word = word.replace("getD", "get_or")
    return re.sub(r"(?<=[a-z0-9'])([A-Z])", lambda m: "_" + m.group(1).lower(), word)


def respelled(word, functions):
    """A name as it is spelled today; functions: what a dash may join."""
    parts = word.split("-")
    if any(p in SENTENCE for p in parts):
        return "_".join(map(snake, parts))
    out = last = snake(parts[0])
    for part in map(snake, parts[1:]):
        joins = last in functions and part in functions
        out += ("-" if joins else "_") + part
        last = part if joins else last + "_" + part
    return out


def main():
    library = library_words()
    specs = sorted(glob.glob("crates/*/specs/**/*.antt", recursive=True))
    proofs = sorted(glob.glob("crates/*/proofs/**/*.antt", recursive=True))
    sources = sorted(glob.glob("crates/*/src/**/*.rt", recursive=True))
    edits = sorted(glob.glob("crates/*/must-fail/*.edit") + glob.glob("crates/*/wrong/*.edit"))
    pages = sorted(["README.md"] + glob.glob("docs/**/*.md", recursive=True))
    rust = set()
    for path in sources:
        rust.update(WORD.findall(code(read(path))))
    words, functions = set(), set(LIST_WORDS)
    for path in specs:
        text = code(read(path))
        words.update(WORD.findall(text))
        functions.update(snake(w) for w in FUNCTION.findall(text))
    turnable = lambda w: w[0].isalpha() and not is_fact(w) and ("-" in w or re.search(r"[a-z0-9'][A-Z]", w)) and w not in library
    mine = {w for w in words if turnable(w)}
    plain = {w for w in words | rust if not turnable(w)}
    table, taken = {}, collections.defaultdict(list)
    for word in sorted(mine):
        new = respelled(word, functions)
        taken[new].append(word)
    for new, olds in taken.items():
        for old in olds:
            # a lemma that would have its function's name
            alone = len(olds) == 1 or "-" not in old
            table[old] = new if alone else new + "_lem"
            if len(olds) > 1 or new in plain or new in library:
                print(f"falls together: {old} with {[o for o in olds if o != old] or 'a name that stands'}: {table[old]}")
    for old, new in EXCEPTIONS.items():
        table[old] = new
    table = {o: n for o, n in table.items() if o != n}

    here = {}

    def turn(text):
        return WORD.sub(lambda m: here.get(m.group(0)) or table.get(m.group(0), m.group(0)), text)

    def turn_line(line, mark):
        at = line.find(mark)
        head, comment = (line, "") if at < 0 else (line[:at], line[at:])
        return turn(head) + re.sub(r"`[^`]*`", lambda m: turn(m.group(0)), comment)

    for paths, mark in ((specs, "--"), (proofs, "--"), (sources, "//")):
        for path in paths:
            text = read(path)
            here = next((names for place, names in PLACES.items() if path.startswith(place)), {})
            write(path, "".join(turn_line(l, mark) for l in text.splitlines(keepends=True)))
    here = {}
    for path in edits:
        text = read(path)
        write(path, "".join(turn(l) if l.startswith(("old:", "new:")) else l for l in text.splitlines(keepends=True)))
    for path in pages:
        text = read(path)
        write(path, re.sub(r"`[^`\n]*`", lambda m: turn(m.group(0)), text))
    print(f"respelled: {len(table)} names")
    if "--table" in sys.argv:
        for o in sorted(table):
            print(f"{o} {table[o]}")


# Words that only a sentence has.
SENTENCE = set(
    "a an and are as at be both by each either exactly every for from has have in is its may never no not of on only or others over same so"
    " some than that the there to too when where which with yes".split()
)
# Words of the library that names of lemmas begin with or end in.
LIST_WORDS = set("length take drop set map append reverse replicate filter sum get_or concat add mul sub div mod pow le lt min max zero suc dvd flat zip range".split())
# Names that would fall together with another.
EXCEPTIONS = {
    "tooShort": "is_too_short",
    "handedOut": "corners_handed_out",
    "in-column": "in_column_dec",
    "block-at": "block_at_lem",
    "up-to-counts": "same_up_to_counts",
}
# Names of one file or crate that would fall together with a function that is used there.
PLACES = {
    "crates/printing/specs/Orders.antt": {"in_rows": "in_rows_lem"},
    "crates/chains/specs/": {"last_byte": "last_byte_lem"},
}

if __name__ == "__main__":
    main()
