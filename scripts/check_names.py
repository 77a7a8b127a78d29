#!/usr/bin/env python3
"""Checks docs/THEOREMS.md: every file that it names exists; every name in backticks is a word of the crates' code, definitions
or proofs, or the label of a must-fail edit; and every theorem of the table "Theorems" is declared in a file that its row
names. Prints what is missing and fails."""
import glob
import os
import re
import sys

ROOT = os.path.join(os.path.dirname(os.path.abspath(__file__)), "..")
os.chdir(ROOT)
TEXT = open("docs/THEOREMS.md").read()
WORDS = set()
for path in glob.glob("crates/**/*", recursive=True):
    if path.endswith((".rt", ".antt")):
        text = open(path).read()
        WORDS.update(re.findall(r"[^\s(){}\[\];,:.&<>|]+", text))
        # What the check calls an impl of a trait with a parameter: `SaidFromTotal` for `impl From<Total> for Said`.
        for trait, given, made in re.findall(r"^impl (\w+)<(.*)> for (\w+)", text, re.M):
            WORDS.add(made + trait + re.sub(r"\W", "", given))
    if path.endswith(".edit"):
        WORDS.add(os.path.basename(path)[:-5])
    if os.path.isdir(path):
        WORDS.add(os.path.basename(path))

missing = []
for path in re.findall(r"(?<![\w/])((?:crates|docs|scripts|tests)/[\w/.]+\.(?:antt|rt|py|md))", TEXT):
    if not os.path.exists(path):
        missing.append(path)
for quoted in re.findall(r"`([^`]+)`", TEXT):
    for name in re.split(r"[:.<>'\s/]+", quoted):
        if re.fullmatch(r"[A-Za-z][\w-]*", name) and name not in WORDS and name not in {"rt", "ci", "specs", "proofs", "must-fail", "a", "dequant", "edit", "NAME", "crates"}:
            missing.append(name)

table = TEXT[TEXT.index("\n## Theorems\n"):]
for row in table[:table.index("\n## ", 1)].splitlines():
    cells = [cell.strip() for cell in row.split("|")]
    if len(cells) != 5 or not cells[1].startswith("`"):
        continue
    texts, folder = [], ""
    for path in cells[2].split(", "):
        folder = os.path.dirname(path) or folder
        path = os.path.join(folder, os.path.basename(path))
        texts.append(open(path).read() if os.path.exists(path) else "")
    for name in re.findall(r"`([^`]+)`", cells[1]):
        declared = re.compile(r"^ *(?:pub )?(?:record )?" + re.escape(name) + r"(?: \(.*)? :", re.M)
        if not any(declared.search(text) for text in texts):
            missing.append(f"{name} in {cells[2]}")
if missing:
    sys.exit("docs/THEOREMS.md names what is not there: " + ", ".join(sorted(set(missing))))
print("docs/THEOREMS.md: every name and file is there")
