#!/usr/bin/env python3
"""Turns the older proofs by hand, `Proof.antt` with one answer for each need, into Invariants.antt and Answers.antt of today's form.

usage: python3 tools/convert.py CRATE [PATH..]     at the top; the crates below CRATE must be proved. PATH: only these functions, as kinds/parts_at
It asks the check for the names of each function's goals, old and new, drops what the search finds by itself, and leaves the rest
to `rt check`. A function that it can't turn keeps its Proof.antt. `turn:` lines want a look.
"""
import json
import os
import re
import subprocess
import sys
import tempfile

ROOT = os.path.join(os.path.dirname(os.path.abspath(__file__)), "..")
NAME = r"[^\W\d][\w'′₀-₉]*(?:-[\w'′₀-₉]+)*"


def plain(name):
    name = re.sub(r"_lem$", "", name)
    return re.sub(r"[-_]", "", name)


def bare(need):
    """A need's name without what port.py put before it."""
    return plain(re.sub(r"^(overflow|nonzero|bounds|offset)[-_]", "", need))


def chunks(text):
    """The top-level items, each with the comment above it."""
    out, now = [], []
    for line in text.split("\n"):
        starts = line and not line[0].isspace() and (not now or not now[-1].strip() or line.startswith(("use ", "pub use ")) or (now and now[0].startswith(("use ", "pub use "))))
        if starts and now and any(l.strip() and not l.startswith("--") for l in now):
            out.append(now)
            now = []
        now.append(line)
    if now:
        out.append(now)
    return ["\n".join(c).rstrip() for c in out]


def head(chunk):
    for line in chunk.split("\n"):
        if line.strip() and not line.startswith("--"):
            return line
    return ""


class Function:
    def __init__(self, crate, path, facts, said):
        self.crate, self.path, self.facts, self.said = crate, path, facts, said
        self.parent = {p[0]: p[1] for p in facts["places"]}
        self.step = {p[0]: p[2] for p in facts["places"]}
        self.newname = dict(zip([p[0] for p in facts["places"]], facts["places_by_name"]))
        self.byplain = {plain(p): p for p in self.parent}

    def up(self, place, n):
        for _ in range(n):
            place = self.parent.get(place)
        return place

    def steps(self, place, n, field):
        """The new name of a step that the old text calls by n times .before and .field at a place."""
        field = {"well-formed": "well_formed", "pre": "requires"}.get(field, field)
        if field in ("args", "requires", "ranges", "well_formed", "utf8"):
            return field
        at = self.up(place, n)
        if at and plain(self.step[at][0]) == plain(field):
            return self.step[at][1]
        q = at or place
        while q:
            if plain(self.step[q][0]) == plain(field):
                return self.step[q][1]
            q = self.parent[q]
        q = place
        while q:
            if plain(self.step[q][0]) == plain(field):
                return self.step[q][1]
            q = self.parent[q]
        return None

    def turn_paths(self, text, places):
        """Turns c.before.before.step to c.step, for each variable of places (variable -> old place)."""
        known = dict(places)
        for m in re.finditer(r"\blet (" + NAME + r") = (" + NAME + r")((?:\.before)+) in", text):
            if m.group(2) in known:
                known[m.group(1)] = self.up(known[m.group(2)], m.group(3).count(".before"))

        def one(m):
            var, befores, field = m.group(1), m.group(2).count(".before"), m.group(3)
            if var not in known or not known[var]:
                return m.group(0)
            new = self.steps(known[var], befores, field)
            if new is None:
                self.said.append(f"turn: {self.path}: no step for {m.group(0)}")
                return m.group(0)
            return f"{var}.{new}"

        text = re.sub(r"(?<![\w.'-])(" + NAME + r")((?:\.before)*)\.(?!before)(" + NAME + r")", one, text)
        text = re.sub(r"\btie\.(Start|After|Then|Else|In|At|Joined)([\w-]*)((?: invariant[\w-]*)*)((?: decreases[\w-]*)*)", lambda m: "PLACE." + self.newname.get(self.byplain.get(plain(m.group(1) + m.group(2)), ""), m.group(1) + m.group(2)), text)
        return text


def trivial(body):
    left = re.sub(r"\bsearch( rules)?\b|\bomega arith\b|\brecord\b|\b\w+ =|refl\b", "", body)
    return not re.search(r"[^\s(),{};]", left)


def split_equation(chunk, name):
    """Comment, signature, unfolding lines, parameters and body of a declaration."""
    lines = chunk.split("\n")
    i = 0
    while lines[i].startswith("--") or not lines[i].strip():
        i += 1
    comment, rest = lines[:i], lines[i:]
    sig = [rest[0]]
    j = 1
    while j < len(rest) and rest[j].startswith((" ", "\t")):
        sig.append(rest[j])
        j += 1
    body = "\n".join(rest[j:])
    return comment, sig, body


def convert(crate, folder, path, facts, said):
    fn = Function(crate, path, facts, said)
    file = os.path.join(folder, "Proof.antt")
    text = open(file, encoding="utf-8").read()
    items = chunks(text)
    spec = next((c for c in items if re.search(r"tie\.spec", c)), None)
    if spec is None:
        said.append(f"turn: {path}: no tie.spec, kept")
        return False
    inner = spec[spec.index("tie.spec") + len("tie.spec"):]
    args = re.findall(NAME + r"|\([^()]*\)", re.sub(r"\)\s*$", "", inner.strip()))
    loops = {plain(l[0][0]): l for l in facts["loops"]}
    changed = {plain(l[0][0]): c for l, c in zip(facts["loops"], facts["changed"])}
    names = [a for a in args if not a.startswith(("invariant", "decreases"))]
    needs = facts["needs"]
    goals = {}
    if len(names) == len(needs):
        for n, (need, at) in zip(names, zip(needs, facts["asked_at"])):
            goals[n] = (need[1], at[0])
    else:
        said.append(f"turn: {path}: {len(names)} answers, {len(needs)} goals: {' '.join(names)} / {' '.join(n[0] for n in needs)}")
        bynames = {bare(need[0]): (need[1], at[0]) for need, at in zip(needs, facts["asked_at"])}
        for n in names:
            if bare(n) in bynames:
                goals[n] = bynames[bare(n)]
    comment_top, uses, invs, answers = [], [], [], []
    declared = set()
    for c in items:
        h = head(c)
        if not h:
            comment_top += [l for l in c.split("\n") if l.strip()]
            continue
        if h.startswith(("use ", "pub use ")):
            top = [l for l in c.split("\n") if l.startswith("--")]
            comment_top += top
            line = "\n".join(l for l in c.split("\n") if not l.startswith("--"))
            if not re.search(r"\.(Statement\.\{|Tie as)", line):
                uses.append(line)
            continue
        if c is spec or re.match(r"(abbrev )?pub " + NAME + r"_spec :", h):
            continue
        m = re.match(r"(?:abbrev |unfoldable )?(?:pub )?(invariant|decreases)-(" + NAME + r") : tie\.", h)
        if m:
            invs.append((m.group(1), m.group(2), c))
            continue
        m = re.match(r"(?:pub )?(" + NAME + r") : tie\.Need-", h)
        if m:
            name = m.group(1)
            if name not in goals:
                said.append(f"turn: {path}: no goal for {name}")
                goals[name] = (name, None)
            goal, place = goals[name]
            comment, sig, body = split_equation(c, name)
            eq = re.match(r"((?:unfolding [^\n]*\n)*)" + re.escape(name) + r"((?: " + NAME + r")*) =(.*)$", body, re.S)
            if not eq:
                said.append(f"turn: {path}: {name} is no single equation")
                answers.append((comment, goal, "", "c", "?\n-- " + body.replace("\n", "\n-- ")))
                continue
            unf, params, term = eq.group(1), eq.group(2).split(), eq.group(3)
            if trivial(term) and not unf:
                continue
            var = params[0] if params else "c"
            term = fn.turn_paths(term, {var: place})
            answers.append((comment, goal, unf, var, term))
            continue
        # a helper: its parameters of a place's type
        places = {}
        for p in re.finditer(r"\((" + NAME + r") : tie\.(" + NAME + r")", c):
            places[p.group(1)] = fn.byplain.get(plain(p.group(2)))
        answers.append(("helper", fn.turn_paths(c, places) if places else c))
    goal_of = f"Rattle.{crate}.proofs.{path.replace('/', '.')}"
    made = []
    if invs:
        lines = []
        for kind, loop, c in invs:
            facts_of = loops.get(plain(loop))
            comment, sig, body = split_equation(c, "")
            eq = re.match(r"((?:unfolding [^\n]*\n)*)" + NAME + r"((?: [^\s=]+)*) =(.*)$", body, re.S)
            if not facts_of or not eq:
                said.append(f"turn: {path}: loop {loop} is not known")
                lines.append("-- " + c.replace("\n", "\n-- "))
                continue
            (_, new), variables = facts_of
            flags = changed[plain(loop)]
            params = eq.group(2).split()
            # what changes only through other names (rows lent) counts as the check says
            turning = [v for v, f in zip(variables, flags) if f]
            if len(params) != len(variables) + len(turning):
                said.append(f"turn: {path}: loop {loop}: {len(params)} parameters for {variables} {flags}")
            subst = {}
            for p, v, f in zip(params, variables, flags):
                subst[p] = f"l.initial.{v}" if f else f"l.{v}"
            for p, v in zip(params[len(variables):], turning):
                subst[p] = f"l.{v}"
            term = re.sub(r"(?<![\w.'-])(" + NAME + r")", lambda m: subst.get(m.group(1), m.group(1)), eq.group(3))
            if kind == "invariant" and re.sub(r"\s", "", term) in ("Unit", "⊤", "Unit{0}"):
                continue
            lines += comment + [f"abbrev pub {kind}-{new} : goal.{kind}-{new}"] + ([eq.group(1).rstrip()] if eq.group(1) else []) + [f"{kind}-{new} l ={term}", ""]
        made.append(("Invariants.antt", "\n".join(comment_top + uses + [f"use {goal_of}.Given as goal", ""] + lines)))
    if any(a[0] != "helper" for a in answers):
        lines = []
        for a in answers:
            if a[0] == "helper":
                lines += [a[1], ""]
            else:
                comment, goal, unf, var, term = a
                lines += comment + [f"pub {goal} : goal.{goal}"] + ([unf.rstrip()] if unf else []) + [f"{goal} {var} ={term}", ""]
        body = "\n".join(lines)
        places = sorted(set(re.findall(r"PLACE\.(" + NAME + r")", body)))
        body = body.replace("PLACE.", "")
        more = [f"use {goal_of}.Goals.{{{', '.join(places)}}}"] if places else []
        made.append(("Answers.antt", "\n".join(comment_top + uses + [f"use {goal_of}.Goals as goal"] + more + [""]) + "\n" + body))
    os.remove(file)
    for name, text in made:
        if ".given" in text or ".branch" in text or "tie." in text:
            said.append(f"turn: {path}/{name}: look at .given, .branch or tie.")
        open(os.path.join(folder, name), "w", encoding="utf-8").write(text.rstrip() + "\n")
    return True


def main(argv):
    crate, only = argv[0], set(argv[1:])
    where = os.path.join(ROOT, "crates", crate)
    with tempfile.TemporaryDirectory() as d:
        out = os.path.join(d, "names")
        r = subprocess.run(["rt", "check", "--generated", out, "--old-names"], cwd=where, capture_output=True, text=True)
        if not os.path.exists(out):
            print(r.stdout[-3000:], r.stderr[-2000:])
            return 1
        names = json.load(open(os.path.join(out, "names.json")))
    said = []
    for key, facts in sorted(names.items()):
        m = re.fullmatch(r"Rattle-" + crate + r"-proofs\.(.*)\.Lts", key)
        if not m:
            continue
        path = m.group(1).replace(".", "/")
        folder = os.path.join(where, "proofs", path)
        if os.path.exists(os.path.join(folder, "Proof.antt")) and (not only or path in only):
            convert(crate, folder, path, facts, said)
    print("\n".join(said))
    return 0


if __name__ == "__main__":
    sys.exit(main(sys.argv[1:]))
