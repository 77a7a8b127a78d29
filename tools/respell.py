#!/usr/bin/env python3
"""Turns this repository's own names to the spelling of today's Rattle: a word, that is a function, a lemma, a field or a
constructor of specs/ and proofs/, is in snake case; types and modules keep their capitals; names of the source keep theirs.

usage: python3 tools/respell.py          at the top, once, right behind the toolchain's port.py
A lemma whose new name would be a definition's gets `_lem` behind it. Prints what would still fall together in a file, and leaves
it as it is; the names that it turned stand, old and new, in tools/respelled.txt.
"""
import collections
import glob
import os
import re
import sys

ROOT = os.path.join(os.path.dirname(os.path.abspath(__file__)), "..")
os.chdir(ROOT)
NAME = r"[^\W\d][\w'′₀-₉]*(?:-[\w'′₀-₉]+)*"
TOKEN = re.compile(NAME)
# Lemmas that port.py has turned already, and whose definition now takes the name.
LEMMAS = {
    "all_short": ["crates/matrix/proofs/Table.antt"],
    "raw_row": ["crates/matrix/proofs/OddLaws.antt", "crates/matrix/proofs/expand/expand_kind/Proof.antt", "crates/dequant/proofs/set/is_odd/Proof.antt"]
    + [f"crates/promises/proofs/{m}.antt" for m in ("Accepts", "FirstWeight", "DefaultsAccepted", "Denominators", "RawOnes")],
    "entry_row": ["crates/record/proofs/PartPlaces.antt", "crates/record/proofs/SetStores.antt"],
}
# Names that a file gives to what it imports.
ALIASES = {"expandedReply": "expanded_reply", "readReply": "read_reply"}
HEAD = r"(?:(?:pub|abbrev|unfoldable|opaque)\s+)*"
DECLARED = re.compile(r"^\s*" + HEAD + r"(" + NAME + r")((?:\s+" + NAME + r")*)\s*:(?!:)")
RULESET = re.compile(r"^\s*(?:pub )?ruleset\s+(" + NAME + r")\s*=")
USED = re.compile(r"use\s+Rattle\.(\w+)\.((?:specs|proofs)[\w.]*)\.\{([^}]*)\}", re.S)
BINDER = re.compile(r"[({]\s*(" + NAME + r"(?:\s+" + NAME + r")*)\s*:")
OWN = {line.split(":")[0].split()[0] for line in open("crates.txt") if line.strip() and not line.startswith("#")}


def spelled(name):
    """The name in snake case: a capital inside a word begins a word, a dash is an underscore."""
    word = re.sub(r"(?<=[a-z0-9])([A-Z])(?=[a-z])", lambda m: "_" + m.group(1).lower(), name.replace("-", "_"))
    word = re.sub(r"(?<=[a-z0-9])([A-Z])(?![a-z])", lambda m: "_" + m.group(1).lower(), word)
    if "-" in name:
        word = word[0].lower() + word[1:]
    return word


def turns(name):
    return name != spelled(name) and (name[0].islower() or "-" in name)


def named(name, definitions):
    word = spelled(name)
    return word + "_lem" if "-" in name and word in definitions else word


def split_comment(line, mark):
    at = line.find(mark)
    return (line, "") if at < 0 else (line[:at], line[at:])


def declared_in(text):
    """The names that a file declares, but for the answers to goals, whose names are the toolchain's."""
    names = set()
    lines = text.split("\n")
    for line in lines:
        code = split_comment(line, "--")[0]
        if code.lstrip().startswith(("use ", "let ", "in ", "λ", "(", "∙", "where")):
            continue
        m = DECLARED.match(code)
        if m and not re.search(r":\s*(?:tie|stated|goal)\.", code):
            names.update([m.group(1)] + m.group(2).split())
        m = RULESET.match(code)
        if m:
            names.add(m.group(1))
    return names


def paths():
    return sorted(p for p in glob.glob("crates/*/**/*", recursive=True) if p.endswith((".antt", ".rt")) and "/out/" not in p)


def constructors(text):
    return set(re.findall(r"^\s*\|?\s*(" + NAME + r")\s*:", text, re.M))


def main():
    texts = {p: open(p, encoding="utf-8").read() for p in paths()}
    for lemma, files in LEMMAS.items():
        for p in files:
            texts[p] = re.sub(r"(?<![\w-])" + lemma + r"(?![\w-])", lemma + "_lem", texts[p])
    declares = {p: declared_in(t) for p, t in texts.items() if p.endswith(".antt")}
    exported = collections.defaultdict(set)
    for p, names in declares.items():
        for name in names:
            exported[name].add(p)
    fields = set()
    for p, t in texts.items():
        if p.endswith(".antt"):
            for block in re.findall(r"^\s*(?:pub )?record [^\n]* where\n((?:[ \t]+[^\n]*\n|\n)*)", t, re.M):
                fields.update(m.group(1) for m in (DECLARED.match(l) for l in block.split("\n")) if m)
    whole, kept = {}, []
    # the names that each file sees, and of these the ones that turn
    seen = {}
    for p, t in texts.items():
        names = set(declares.get(p, ()))
        for crate, _, listed in USED.findall(t):
            if crate in OWN:
                for item in listed.split(","):
                    names.add(item.strip().split(" as ")[0].strip())
        if p.endswith(".antt"):
            names |= fields
        seen[p] = {n for n in names if n in exported and turns(n)}
    # a lemma whose new name is a definition's gets `_lem`; a name is left where its new spelling still stands in a file that sees it
    everyone = {n for names in seen.values() for n in names}
    definitions = {spelled(n) for n in everyone if "-" not in n} | {n for n in exported if not turns(n)}
    clash = set()
    for p, t in texts.items():
        rt = p.endswith(".rt")
        lines = [split_comment(l, "//" if rt else "--")[0] for l in t.split("\n")]
        lines = [re.sub(r"^.*\buse\s+[\w.]+", "", l) for l in lines if not rt or "fn " not in l]
        words = set(re.findall(r"(?<![.\w-])" + NAME, "\n".join(lines)))
        new = collections.defaultdict(set)
        for n in seen[p] & words:
            new[named(n, definitions)].add(n)
        for s, olds in new.items():
            if len(olds) > 1 or (s in words and not rt):
                clash |= olds
                kept.append(f"{p}: {', '.join(sorted(olds))} -> {s}")
    with open("tools/respelled.txt", "w") as said:
        for p, t in texts.items():
            turn = {n: named(n, definitions) for n in seen[p] if n not in clash}
            # a definition by a module's name, and in a comment: no name with a capital inside stands for two things
            turn.update(ALIASES)
            turn.update({n: named(n, definitions) for n in everyone if "-" not in n and n not in clash})
            comment = "--" if p.endswith(".antt") else "//"

            def one(m):
                return turn.get(m.group(0), m.group(0))

            lines = []
            for line in t.split("\n"):
                code, rest = split_comment(line, comment)
                # (a text in quotes stays as it is)
                code = "".join(part if n % 2 else TOKEN.sub(one, part) for n, part in enumerate(re.split(r'("[^"]*")', code)))
                rest = re.sub(r"`[^`]*`", lambda q: TOKEN.sub(one, q.group(0)), rest)
                rest = re.sub(r"\b[a-z]+[a-z0-9]*[A-Z]\w*\b", one, rest)
                lines.append(code + rest)
            made = "\n".join(lines)
            if made != open(p, encoding="utf-8").read():
                open(p, "w", encoding="utf-8").write(made)
            whole.update(turn)
        for old, new in sorted(whole.items()):
            said.write(f"{old} {new}\n")
    print("\n".join(kept))
    print(f"{len(whole)} names turned, {len(clash)} left; old and new stand in tools/respelled.txt")
    # the pages and the wrong programs: what stands in backticks, and the ghost text of an edit
    for p in glob.glob("docs/*.md") + ["README.md"] + glob.glob("crates/*/must-fail/*.edit"):
        if p == "docs/PORT.md":
            continue
        t = open(p, encoding="utf-8").read()

        def word(m):
            return whole.get(m.group(0), m.group(0))

        if p.endswith(".edit"):
            made = re.sub(r"\b[a-z]+[a-z0-9]*[A-Z]\w*\b", word, t)
        else:
            made = re.sub(r"`[^`]*`", lambda q: q.group(0) if "/" in q.group(0) and "." in q.group(0) else TOKEN.sub(word, q.group(0)), t)
        if made != t:
            open(p, "w", encoding="utf-8").write(made)


if __name__ == "__main__":
    sys.exit(main())
