#!/usr/bin/env python3
"""Writes three tables of docs/THEOREMS.md from the sources, or with `--check` compares them with what stands there.

Of each public function, the product's and the programs' own: the comment above it, its file, the definitions that its contract
cites with theirs, the theorem that two results which the contract allows coincide, and its wrong programs, two or more, in the words of the
edits' lines `# fn CRATE::PATH: what is wrong`. Of each private function that an edit names: what is wrong there.
In docs/THEOREMS.md a table stands between the lines `<!-- NAME -->` and `<!-- end -->`.
"""
import re
import sys

from check_coincide import PROGRAMS, functions, named
from check_refused import FN, ROOT

TABLE = re.compile(r"<!-- (\w+) -->\n(.*?)<!-- end -->", re.S)


def defined():
    """The file of each definition in a crate's specs/."""
    files = {}
    for path in sorted((ROOT / "crates").glob("*/specs/*.antt")):
        for name in re.findall(r"^(?:(?:abbrev|unfoldable) )?pub (?:record |data )?(\w+)", path.read_text(), re.M):
            files.setdefault((path.parts[-3], name), path.relative_to(ROOT))
    return files


def cited(path, contract, files, parameters):
    """The definitions of specs/ that a contract names, each with its file; their crate is read from the `ghost use` lines.
    A parameter hides the definition of its name."""
    origin = {}
    for line in re.findall(r"^ghost use Rattle\.(\w+)\.\S*?\.\{([^}]*)\};", path.read_text(), re.M):
        for name in line[1].split(","):
            origin[name.strip()] = line[0]
    found, said = [], {p.split(":")[0] for p in parameters}
    for name in re.findall(r"[A-Za-z]\w*", contract):
        file = files.get((origin.get(name), name))
        if file and name not in said:
            said.add(name)
            found.append((name, file))
    groups = {}
    for name, file in found:
        groups.setdefault(file, []).append(f"`{name}`")
    return "; ".join(f"{', '.join(names)} ({file})" for file, names in groups.items())


def told(crate, module, owner, name):
    """The file of a public function, the comment above it, and its contract."""
    path = ROOT / "crates" / crate / "src" / f"{module or 'lib'}.rt"
    text, at, here = path.read_text(), 0, ""
    for line in text.splitlines(keepends=True):
        if m := re.match(r"impl(?:<[^>]*>)? (\w+)", line):
            here = m[1]
        elif line.startswith("}"):
            here = ""
        if re.match(rf"\s*pub (extern \"C\" )?fn {name}\b", line) and here == owner:
            above = re.search(r"((?:^ *//.*\n)*)(?:^ *#\[.*\n)?\Z", text[:at], re.M)[1]
            words = " ".join(re.sub(r"^ *// ?", "", l) for l in above.splitlines())
            signature = text[at:text.index("\n{\n" if not owner else "\n    {\n", at)]
            contract = re.sub(r"\bensures \w+ \{", "ensures {", signature[signature.index("ensures"):] if "ensures" in signature else "")
            return path, words, contract
        at += len(line)
    sys.exit(f"{crate}::{name}: not found")


def wrong_programs():
    """For each function that an edit names, by its path: what is wrong, in the order of the table's columns."""
    wrong = {}
    for crate in re.findall(r"^(\w+)[^:#\n]*:", (ROOT / "crates.txt").read_text(), re.M):
        edits = sorted((ROOT / "crates" / crate / "must-fail").glob("*.edit"), key=lambda e: ("another" in e.stem, e.stem))
        for edit in edits:
            for m in map(FN.fullmatch, edit.read_text().splitlines()):
                if m:
                    wrong.setdefault(m[1], []).append(m[2])
    return wrong


def table(head, rows):
    lines = ["| " + " | ".join(head) + " |", "|---" * len(head) + "|"]
    return "\n".join(lines + ["| " + " | ".join(cells) + " |" for cells in rows]) + "\n"


def tables():
    files, wrong, rows, shown = defined(), wrong_programs(), {True: [], False: []}, set()
    for crate, module, owner, name, parameters, _ in functions():
        full = "::".join(filter(None, (crate, module, owner, name)))
        shown.add(full)
        path, words, contract = told(crate, module, owner, name)
        says = f"{words} {path.relative_to(ROOT)}; {cited(path, contract, files, parameters)}".rstrip("; ")
        seen = "::".join(filter(None, (crate, owner, name)))
        one, *more = wrong.get(full, [""])
        rows[crate in PROGRAMS].append((f"`{seen}`", says, f"`{named(owner, name)}`", one, "; ".join(more)))
    hidden = [(f"`{path}`", words) for path in wrong if path not in shown for words in wrong[path]]
    head = ["function", "its contract", "two results coincide", "wrong program 1", "wrong program 2, and more"]
    return {
        "functions": table(head, rows[False]),
        "programs": table(head, rows[True]),
        "private": table(["function that no table above has", "wrong program"], hidden),
    }


def main():
    page = ROOT / "docs/THEOREMS.md"
    text, made = page.read_text(), tables()
    stands = dict(TABLE.findall(text))
    if set(stands) != set(made):
        sys.exit(f"docs/THEOREMS.md: has the tables {sorted(stands)}, not {sorted(made)}")
    if sys.argv[1:] != ["--check"]:
        page.write_text(TABLE.sub(lambda m: f"<!-- {m[1]} -->\n{made[m[1]]}<!-- end -->", text))
    elif bad := [name for name in made if stands[name] != made[name]]:
        sys.exit(f"docs/THEOREMS.md: not what scripts/functions_table.py writes: {', '.join(bad)}")
    print("docs/THEOREMS.md: the tables of functions are what the sources say")


if __name__ == "__main__":
    main()
