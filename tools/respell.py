#!/usr/bin/env python3
"""Brings the repository's own names to today's Rattle spelling: words in snake case, types and modules in camel case.

usage: python3 tools/respell.py [FOLDER]      once, at the top, right after the toolchain's port.py

port.py respells the names that its tables know. This turns the rest: in specs/ and proofs/ and in the clauses of src/ a name that is
no type and has a dash or a capital in it (first-of-run, maxTerms) is written with underscores (first_of_run, max_terms). Names that a
file imports from the toolchain's own libraries stay, and so do names that rattle generates (behind 'tie.' and 'goal.') and all names
of functions, modules and files. Where two names would fall together, FIXED says what the one becomes. An edit in must-fail/ of a
definition is turned by the same rules, and its projections are written tight. Nothing is proved here: rt check decides.
"""
import collections
import glob
import os
import re
import sys

root = sys.argv[1] if len(sys.argv) > 1 else "."
os.chdir(root)
TOKEN = r"[A-Za-zα-ωΓ-Ω_][A-Za-z0-9_'₀-₉]*(?:-[A-Za-z0-9_'₀-₉]+)*"
# names that would fall together with another: the law gets '_lem' behind the word that it speaks of, a test keeps its noun
FIXED = {
    "bit-and": "bit_and_lem",
    "bit-or": "bit_or_lem",
    "bit-xor": "bit_xor_lem",
    "four-selected": "four_selected_lem",
    "ones-in": "ones_in_lem",
    "is_digit": "is_digit_lem",
    "getD-low": "get_or_low",
    # port.py takes these for words of std
    "up_to_lem": "up_to",
}
crates = {l.split(":")[0].split()[0] for l in open("crates.txt") if ":" in l and not l.startswith("#")}
antt = sorted(glob.glob("crates/*/specs/**/*.antt", recursive=True) + glob.glob("crates/*/proofs/**/*.antt", recursive=True))
rust = sorted(glob.glob("crates/*/src/**/*.rt", recursive=True))
edits = sorted(glob.glob("crates/*/must-fail/*.edit"))
USE = re.compile(r"(?m)^(\s*(?:pub |ghost )?use )([^\n{;]*?)(?:\.\{([^}]*)\})?(\s*;?\s*)$")
DECLARED = re.compile(r"(?m)^\s*(?:(?:pub|abbrev|unfoldable)\s+)*(" + TOKEN + r"(?:[ ]+" + TOKEN + r")*)\s*:\s")


def turned(name):
    if name in FIXED:
        return FIXED[name]
    if not re.match(r"[a-zα-ω_]", name):
        return name.replace("-", "_")
    return re.sub(r"(?<=[a-z0-9])([A-Z])(?=[a-z])", lambda m: "_" + m.group(1).lower(), name).replace("-", "_").replace("GF2", "gf2")


def own(module):
    parts = module.strip().split(".")
    return parts[0] == "Rattle" and len(parts) > 1 and parts[1] in crates


def kit_names(text):
    kept = set()
    for m in USE.finditer(text):
        if m.group(3) is not None and not own(m.group(2)):
            for n in m.group(3).split(","):
                kept |= set(re.split(r"\s+as\s+", n.strip()))
    return kept


def code_and_comments(text):
    """The text in pieces: (is code, piece)."""
    at = 0
    for m in re.finditer(r"(?m)(^|(?<=\s))--(?=\s|$).*$", text):
        yield True, text[at : m.start()]
        yield False, m.group(0)
        at = m.end()
    yield True, text[at:]


declared = set()
for f in antt:
    code = "".join(p for c, p in code_and_comments(open(f).read()) if c)
    for m in DECLARED.finditer(code):
        declared |= set(m.group(1).split())


def names_in(code, kept, only=None):
    def one(m):
        name = m.group(0)
        if name in kept or (only is not None and name not in only):
            return name
        before = code[: m.start()]
        if before.endswith(("tie.", "goal.")):
            return name
        return turned(name)

    return re.sub(r"(?<![A-Za-z0-9_'₀-₉·-])" + TOKEN, one, code)


def imports(line_match, kept):
    head, module, names, end = line_match.groups()
    if names is None:
        return line_match.group(0)
    if not own(module):
        return line_match.group(0)
    return f"{head}{module}.{{{names_in(names, set())}}}{end}"


changed = 0
for f in antt:
    text = open(f).read()
    kept = kit_names(text)
    out = []
    for is_code, piece in code_and_comments(text):
        if not is_code:
            # in a comment a name of ours in capitals is turned, and so is one between backticks
            piece = re.sub(r"`[^`\n]*`", lambda m: names_in(m.group(0), kept, declared), piece)
            piece = names_in(piece, kept, {n for n in declared if re.match("[a-z]", n) and re.search("[a-z][A-Z][a-z]", n) and "-" not in n})
            out.append(piece)
            continue
        at = 0
        for m in USE.finditer(piece):
            out.append(names_in(piece[at : m.start()], kept))
            out.append(imports(m, kept))
            at = m.end()
        out.append(names_in(piece[at:], kept))
    new = "".join(out)
    if new != text:
        open(f, "w").write(new)
        changed += 1
ours = {n for n in declared if turned(n) != n} | {"maxTerms", "maxVars", "maxLists", "maxBoards", "maxBytes"}
for f in rust:
    text = open(f).read()
    kept = kit_names(text)
    lines = []
    for line in text.split("\n"):
        if not line.lstrip().startswith("//"):
            pieces = re.split(r'("(?:[^"\\]|\\.)*")', line)
            line = "".join(p if i % 2 else names_in(p, kept, ours) for i, p in enumerate(pieces))
        lines.append(line)
    new = "\n".join(lines)
    if new != text:
        open(f, "w").write(new)
        changed += 1
# words of the toolchain's library that an edit of a definition names
WORDS = {"bitAnd": "bit_and", "bitOr": "bit_or", "bitXor": "bit_xor", "getD": "get_or"}
for f in edits:
    text = open(f).read()
    if not re.search(r"(?m)^file: (specs|proofs)/", text):
        continue
    lines = []
    for line in text.split("\n"):
        if line.startswith(("old: ", "new: ")):
            line = re.sub(r"(?<=\S) \.(?=[a-z])", ".", line)
            line = re.sub(r"(?<![\w'-])(" + "|".join(WORDS) + r")(?![\w'-])", lambda m: WORDS[m.group(1)], line)
            line = line[:5] + names_in(line[5:], set(), ours).replace("′", "'")
        lines.append(line)
    new = "\n".join(lines)
    if new != text:
        open(f, "w").write(new)
        changed += 1
print(f"respell: {changed} files")
