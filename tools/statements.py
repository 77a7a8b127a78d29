#!/usr/bin/env python3
"""Compares the statements of the lemmas and theorems in crates/*/proofs/*.antt with those of another folder of this repository.

usage: python3 tools/statements.py OTHER      at the top: what is gone, what is new, and each statement whose words differ, old and new
OTHER is an earlier commit in the same spelling (port.py and tools/respell.py have run there).
"""
import glob
import os
import re
import sys

NAME = r"[^\W\d][\w'′₀-₉]*(?:-[\w'′₀-₉]+)*"
SIG = re.compile(r"^(\s*)((?:(?:pub|abbrev|unfoldable|opaque|record)\s+)*)(" + NAME + r")((?:\s+[({][^:]*:.*)?)\s*:\s(.*)$")


def statements(root):
    found = {}
    for path in sorted(glob.glob(os.path.join(root, "crates/*/proofs/*.antt"))):
        module = os.path.relpath(path, root)
        lines = open(path, encoding="utf-8").read().split("\n")
        scope = []
        i = 0
        while i < len(lines):
            line = re.sub(r"--.*", "", lines[i])
            indent = len(line) - len(line.lstrip())
            if line.strip():
                while scope and indent <= scope[-1][0]:
                    scope.pop()
            m = re.match(r"\s*module _ (.*) where", line)
            if m:
                scope.append((indent, " ".join(m.group(1).split())))
            m = re.match(r"^(\s*)(?:(?:pub|abbrev|unfoldable)\s+)*(" + NAME + r")((?: " + NAME + r")*) : (.*)$", line)
            if m and not line.lstrip().startswith(("use ", "let ", "in ", "(", "λ")):
                text = [m.group(4)]
                j = i + 1
                while j < len(lines) and len(lines[j]) - len(lines[j].lstrip()) > indent and lines[j].strip() and not re.match(r"\s*--", lines[j]):
                    text.append(lines[j].strip())
                    j += 1
                words = " ".join(" ".join(text).split())
                where = " ".join(s for _, s in scope)
                for name in [m.group(2)] + m.group(3).split():
                    if indent <= (scope[-1][0] + 2 if scope else 0):
                        found.setdefault((module, name), f"[{where}] {words}")
            i += 1
    return found


def main(other):
    old, new = statements(other), statements(".")
    bynew = {}
    for (module, name), text in new.items():
        bynew.setdefault(name, []).append(module)
    gone = [k for k in old if k not in new]
    print(f"{len(old)} statements there, {len(new)} here; the same {sum(old[k] == new.get(k) for k in old)}")
    for module, name in gone:
        print(f"gone: {module} {name}" + (f" (now in {', '.join(bynew[name])})" if name in bynew else ""))
    for k in new:
        if k not in old:
            print(f"new: {k[0]} {k[1]}")
    for k in old:
        if k in new and old[k] != new[k]:
            print(f"differs: {k[0]} {k[1]}\n    - {old[k]}\n    + {new[k]}")


if __name__ == "__main__":
    main(sys.argv[1])
