#!/usr/bin/env python3
"""Sheds answers that the check refuses, and says which of them it then misses.

usage: python3 tools/shed.py CRATE        at the top
Runs `rt check` in the crate; takes out each answer of proofs/F/Answers.antt at which it reports an error, for the search may find
that goal by itself, and checks again. An answer that was needed after all is put back. What is left is for the hand.
"""
import os
import re
import subprocess
import sys

ROOT = os.path.join(os.path.dirname(os.path.abspath(__file__)), "..")
NAME = r"[^\W\d][\w'′₀-₉]*(?:-[\w'′₀-₉]+)*"


def check(where):
    r = subprocess.run(["rt", "check"], cwd=where, capture_output=True, text=True, errors="replace")
    return r.stdout + r.stderr


def items(text):
    out, now = [], []
    for line in text.split("\n"):
        if line.strip() and not line[0].isspace() and now and not now[-1].strip():
            out.append(now)
            now = []
        now.append(line)
    out.append(now)
    return out


def main(argv):
    where = os.path.join(ROOT, "crates", argv[0])
    log = check(where)
    taken = {}
    for path, line in re.findall(r"^\./(proofs/\S+/Answers\.antt):(\d+):\d+: error(?!: \d+ declarations? that depends?)", log, re.M):
        taken.setdefault(path, set()).add(int(line))
    held = {}
    for path, lines in taken.items():
        text = open(os.path.join(where, path), encoding="utf-8").read()
        kept, n = [], 1
        for it in items(text):
            span = range(n, n + len(it))
            n += len(it)
            m = next((re.match(r"pub (" + NAME + r") : goal\.", l) for l in it if l.startswith("pub ") and ": goal." in l), None)
            if m and any(l in span for l in lines):
                held[(path, m.group(1))] = it
            else:
                kept.append(it)
        open(os.path.join(where, path), "w", encoding="utf-8").write("\n".join("\n".join(it) for it in kept))
        if not any(": goal." in l for it in kept for l in it):
            os.remove(os.path.join(where, path))
            held[(path, None)] = kept
    log = check(where)
    missing = set()
    for m in re.finditer(r"expected answers in \./(proofs/\S+/Answers\.antt); `search` did not prove ([^\n]*)", log):
        for g in re.findall(r"`(" + NAME + r")`", m.group(2)):
            missing.add((m.group(1), g))
    proved = {m.replace("::", "/") for m in re.findall(r"^fn \w+::(\S+): proved", log, re.M)}
    told = {path for path, _ in missing}
    back = {}
    for (path, goal), it in held.items():
        function = path[len("proofs/"):-len("/Answers.antt")]
        if goal and ((path, goal) in missing or (function not in proved and path not in told)):
            back.setdefault(path, []).append(it)
    for path, its in back.items():
        file = os.path.join(where, path)
        if not os.path.exists(file):
            head = held.get((path, None), [])
            open(file, "w", encoding="utf-8").write("\n".join("\n".join(i) for i in head))
        with open(file, "a", encoding="utf-8") as f:
            f.write("\n" + "\n".join("\n".join(i) for i in its))
    for d, _, files in os.walk(os.path.join(where, "proofs"), topdown=False):
        if not os.listdir(d):
            os.rmdir(d)
    print(f"shed: {len([k for k in held if k[1]])} answers taken out, {sum(len(v) for v in back.values())} put back")
    for path, goal in sorted(missing):
        print("open:", path, goal, "" if (path, goal) in held else "(no answer was there)")
    for line in log.split("\n"):
        if re.match(r"(fn|struct|enum|impl) .*(not proved|no proof)", line):
            print(line[:260])
    print(log.strip().split("\n")[-1][:200] if "logic=proved" not in log else "proved")


if __name__ == "__main__":
    sys.exit(main(sys.argv[1:]))
