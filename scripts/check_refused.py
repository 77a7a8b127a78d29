#!/usr/bin/env python3
"""Tries the must-fail edits once more, each in a copy of the repository, and reads what the check says.

An edit holds one wrong program for each of several functions, told by lines `# fn CRATE::PATH: what is wrong`. `rt ci` says only that
the whole was refused; here each function has to be refused by itself: at a fact of its own proof, not because one that it calls was
refused, and not because its shape changed. And each public function that has a contract has to be named by two edits.

usage: scripts/check_refused.py [--say] [CRATE..]      (no name: every crate of crates.txt; --say: the goals at which each is refused)
"""
import pathlib
import re
import shutil
import subprocess
import sys
import tempfile
from concurrent.futures import ThreadPoolExecutor
from queue import Queue

from check_coincide import functions

ROOT = pathlib.Path(__file__).resolve().parent.parent
FN = re.compile(r"# fn (\S+): (.+)")
# How many copies of the repository are tried side by side: a check takes up to two processors.
COPIES = 2
NOT_OWN = re.compile(r"error: \d+ declarations? that depends? on|was not admitted")
SHAPE = ("can be named from here", "has no field", "has no `", "is not in scope")


def told(edit):
    """The functions that an edit says are wrong."""
    return [m.group(1) for m in map(FN.fullmatch, edit.read_text().splitlines()) if m]


def fault(log, path):
    """Why the log does not refuse the function at a fact, or None."""
    crate, *inner = path.split("::")
    heads = [line for line in log if re.match(r"(?:so far: )?fn " + re.escape(path) + ": ", line)]
    verdict = heads[-1].split(f"{path}: ", 1)[1] if heads else "not in the log"
    if verdict.startswith("proved"):
        return "it is proved"
    if verdict.startswith("no proof") and "`search` did not prove" in verdict:
        return None
    place = re.compile("/proofs/" + "/".join(inner[:-1] + [r"\+?" + inner[-1]]) + r"(\+\w+)*/(Answers|Invariants|Proof)\.antt:\d+:\d+: error: ")
    own = [line for line in log if place.search(line) and not NOT_OWN.search(line)]
    if any(words in line for line in own for words in SHAPE):
        return "its shape changed"
    return None if own else f"no error of its own ({verdict[:80]})"


def goals(log, path):
    """The goals of the function at which the log refuses it: those that the search leaves open, and those whose answers fail."""
    crate, *inner = path.split("::")
    found = []
    for line in log:
        if re.match(r"fn " + re.escape(path) + ": ", line) and "`search` did not prove" in line:
            found += re.findall(r"`([^`]+)`", line.split("did not prove", 1)[1].split(";")[0])
        m = re.match(r"\./proofs/" + "/".join(inner[:-1] + [r"\+?" + inner[-1]]) + r"/(?:Answers|Invariants|Proof)\.antt:\d+:\d+: error: `([^`]+)`", line)
        if m and not NOT_OWN.search(line):
            found.append(m[1])
    return list(dict.fromkeys(found))


def public():
    """The public functions by their full names."""
    return ["::".join(filter(None, (crate, module, owner, name))) for crate, module, owner, name, _, _ in functions()]


def edited(room, text):
    """The files that an edit changes, by their paths in the crate: each `old:` stands there once."""
    made, path, old = {}, None, None
    for line in text.splitlines():
        if line.startswith("file: "):
            path = line[len("file: "):].strip()
            made.setdefault(path, (room / path).read_text())
        elif line.startswith("old: "):
            old = line[len("old: "):]
        elif line.startswith("new:"):
            if made[path].count(old) != 1:
                raise ValueError(f"{path} has {made[path].count(old)} times: {old}")
            made[path] = made[path].replace(old, line[len("new:"):].removeprefix(" "))
    return made


def tried(room, crate, edit):
    """The lines that the check of a crate with the edit prints, in a copy of the repository, which is then as before."""
    folder = room / "crates" / crate
    made = edited(folder, edit.read_text())
    was = {path: (folder / path).read_text() for path in made}
    try:
        for path, text in made.items():
            (folder / path).write_text(text)
        ran = subprocess.run(["rt", "check"], cwd=folder, stdin=subprocess.DEVNULL, stdout=subprocess.PIPE, stderr=subprocess.STDOUT, text=True, errors="replace")
        return ran.stdout.splitlines()
    finally:
        for path, text in was.items():
            (folder / path).write_text(text)


def copied(to):
    """A copy of what a check reads."""
    shutil.copytree(ROOT / "crates", to / "crates", ignore=shutil.ignore_patterns("out"))
    for name in ("crates.txt", "HANDLES", ".gitignore"):
        if (ROOT / name).exists():
            shutil.copy(ROOT / name, to / name)
    return to


def main():
    bad, seen, count, asked = [], {}, 0, set(sys.argv[1:]) - {"--say"}
    listed = re.findall(r"^(\w+)[^:#\n]*:", (ROOT / "crates.txt").read_text(), re.M)
    edits = [(crate, edit) for crate in listed if not asked or crate in asked for edit in sorted((ROOT / "crates" / crate / "must-fail").glob("*.edit"))]
    with tempfile.TemporaryDirectory() as top:
        rooms = Queue()
        for n in range(COPIES):
            rooms.put(copied(pathlib.Path(top) / str(n)))

        def one(task):
            room = rooms.get()
            try:
                return tried(room, *task)
            except ValueError as error:
                return [str(error)]
            finally:
                rooms.put(room)

        with ThreadPoolExecutor(COPIES) as pool:
            logs = list(pool.map(one, edits))
    for (crate, edit), lines in zip(edits, logs):
        names = told(edit)
        if not names:
            bad.append(f"{crate}/{edit.stem}: names no function")
        for path in names:
            count += 1
            seen[path] = seen.get(path, 0) + 1
            if why := fault(lines, path):
                bad.append(f"{crate}/{edit.stem}: {path}: {why}")
            elif "--say" in sys.argv:
                print(f"{crate}/{edit.stem}: {path}: {', '.join(goals(lines, path))}")
    if not asked:
        bad += [f"{path}: {seen.get(path, 0)} wrong programs, not two" for path in public() if seen.get(path, 0) < 2]
    for line in bad:
        print("refused:", line, file=sys.stderr)
    print(f"refused: {count} wrong programs, each at a fact of its own" if not bad else f"refused: {len(bad)} faults")
    return bool(bad)


if __name__ == "__main__":
    sys.exit(main())
