#!/usr/bin/env python3
"""The places of an older form of Rattle in crates/*/src, point by point as docs/DESIGN-PASS.md counts them.

    python3 tools/places.py [FOLDER] [--list]

prints how many places each kind has, with --list each place beside it. What a pattern cannot see (twins by shape, facts that
stand in several contracts) was found by reading and stands in docs/DESIGN-PASS.md alone.
"""
import re
import sys
from collections import defaultdict
from pathlib import Path

arguments = [a for a in sys.argv[1:] if a != "--list"]
root = Path(arguments[0] if arguments else ".")
files = {p: p.read_text() for p in sorted(root.glob("crates/*/src/*.rt"))}
found = defaultdict(list)


def code(text):
    """The text with comments and ghost lines blanked, so that places keep their lines."""
    text = re.sub(r"//[^\n]*", lambda m: " " * len(m.group()), text)
    return re.sub(r"(?m)^ *(ghost use|requires|ensures)\b[^\n]*", lambda m: " " * len(m.group()), text)


def place(path, text, at):
    return f"{path.relative_to(root)}:{text.count(chr(10), 0, at) + 1}"


def add(kind, path, text, match, what=None):
    found[kind].append(f"{place(path, text, match.start())}  {what or ' '.join(match.group().split())[:90]}")


defined = defaultdict(list)
for path, whole in files.items():
    text = code(whole)
    for m in re.finditer(r"\benum (\w+) \{(.*?)\n\}", text, re.S):
        bare = re.findall(r"(?m)^    (\w+)(?: = \d+)?,", m.group(2))
        filled = re.findall(r"(?m)^    (\w+)(?:\(| \{)", m.group(2))
        if (len(bare) == 1 and len(filled) == 1) or (len(filled) == 2 and not bare):
            add("1a own enum of the shape of Option or Result", path, text, m, "enum " + m.group(1))
    for m in re.finditer(r"\bstruct (\w+) \{(.*?)\n\}", text, re.S):
        if re.search(r"\b(ok|served|found): bool", m.group(2)):
            add("1b flag with a value beside it", path, text, m, "struct " + m.group(1))
        if re.search(r"\bnumber: u32", m.group(2)):
            add("1c number of a refusal beside a value", path, text, m, "struct " + m.group(1))
    for m in re.finditer(r"\bfn (\w+)[^{]*?-> u32\b.*?\n}", text, re.S):
        if re.search(r"return (1?\d|2[0-4]);|\b(check|check_order)\(", m.group()):
            add("1d number of a refusal as an answer", path, text, m, "fn " + m.group(1))
    for m in re.finditer(r"(?m)^.*\b(?:d|e|digit|last): u8\b.*$", text):
        add("1e digit for a direction", path, text, m)
    for m in re.finditer(r"(?m)^.*\bif (?:up|r|north|found|clear|number|fault|first|second) [!=]= 0 \{", text):
        add("1f 0 for none", path, text, m)
    for m in re.finditer(r"(?m)^(?:pub(?:\(crate\))? )?(?:fn|struct|enum) (\w+)", text):
        defined[m.group(1)].append(place(path, text, m.start()))
    for m in re.finditer(r"(?m)^ *while .*\{", text):
        add("3 while loop", path, text, m)
    for m in re.finditer(r"4 \* \(512 \* y \+ x\)", text):
        add("4a equality by packing", path, text, m)
    for m in re.finditer(r"(?m)^ *(\w+): (?:\w+\.)?\1,?$", text):
        add("4b field copied to one of its name", path, text, m)
    for m in re.finditer(r"48 \+|= \d{2,3};$", text, re.M):
        if "text[" in text[max(0, m.start() - 40):m.end()]:
            add("4c byte of a text as a number", path, text, m)
    for m in re.finditer(r"\bfn (\w+)(?:<[^>]*>)?\(([^{]*?)\)\s*(?:->[^{]*)?\n?\s*(?:requires|ensures|\{)", code(whole) + "\n", re.S):
        parameters = m.group(2)
        if re.search(r"codes: &", parameters) and re.search(r"levels: &", parameters):
            add("5a codes and levels, mostly with colours", path, text, m, "fn " + m.group(1))
        if re.search(r"owners: &", parameters) and re.search(r"ends: &", parameters):
            add("5b owners and ends, mostly with corners and areas", path, text, m, "fn " + m.group(1))
        if re.search(r"\bmap: &", parameters) and re.search(r"side: u(32|size)", parameters):
            add("5c map and side", path, text, m, "fn " + m.group(1))
        if re.search(r"table: &\[u16; 256\]", parameters):
            add("5d table of spread numbers", path, text, m, "fn " + m.group(1))
    for m in re.finditer(r"(?m)^ *(?:0|1|_) => \w+\(.*\d\),?$", text):
        add("7 switch on which step", path, text, m)
for name, places in sorted(defined.items()):
    if len(places) > 1:
        found["2 name defined in several modules"].append(f"{name}: {', '.join(places)}")
for kind in sorted(found):
    print(f"{len(found[kind]):4}  {kind}")
    if "--list" in sys.argv:
        for p in found[kind]:
            print(f"          {p}")
answers = [p for p in root.glob("crates/*/proofs/**/Answers.antt")]
print(f"{sum(len(re.findall(r'(?m)^pub ', p.read_text())) // 1 for p in answers):4}  8 answer, in {len(answers)} files")
