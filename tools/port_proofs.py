#!/usr/bin/env python3
"""Turns the proofs of functions of one crate from an older Rattle's Proof.antt, which answers each need at a state, to Answers.antt and
Invariants.antt, which answer goals by the names of today.

usage: tools/port_proofs.py CRATE NAMES

NAMES is the names.json that 'rattle check --generated DIR --old-names' writes for the crate. An answer that only calls the search, or omega with
arith, is left out: the check tries both. A Proof.antt that is turned goes; one that walks the code by hand stays. What has no new name is told.
"""
import json
import os
import re
import sys

WORD = r"[^\s(){};,.:@\"«»\[\]|]+"


def norm(name):
    name = name.replace("-", "_")
    name = re.sub(r"^slice_bounds_", "part_", name)
    return re.sub(r"^(overflow|nonzero|bounds)_", "", name)


class Function:
    def __init__(self, made):
        self.needs = made["needs"]
        self.steps, self.arms, self.places, self.kinds = {}, [], {}, {}
        for (old, _, (step, new), _, _), by_name in zip(made["places"], made["places_by_name"]):
            self.places[norm(old)] = by_name
            if step:
                self.steps.setdefault(norm(step), new)
        for typed in made["typed"]:
            for variable, step in typed:
                self.kinds[norm(step)] = variable
        for arm in made["arms"]:
            if arm:
                for field, step, path in arm[2]:
                    if not field.endswith("-own") and path:
                        self.arms.append((norm(step), tuple(path), f"{arm[0]}.{field}"))
        self.arms.sort(key=lambda a: -len(a[1]))
        self.loops = made["loops"]
        self.changed = made["changed"]

    def goals(self, asked):
        """Of each need that the old proof answered the goal's name, or None: by its name, and between those by its kind in order."""
        left = {norm(o): n for o, n in self.needs}
        found = {a: left.get(norm(a)) for a in asked}
        used = {n for n in found.values() if n}
        order = [norm(o) for o, _ in self.needs]
        at = 0
        for a in asked:
            if found[a]:
                at = order.index(norm(a)) + 1
                continue
            kind = re.split(r"[_-]", norm(a))[0]
            for i in range(at, len(order)):
                n = left[order[i]]
                if n not in used and order[i].split("_")[0] == kind:
                    found[a] = n
                    used.add(n)
                    at = i + 1
                    break
        return found

    def path(self, m):
        """A step of a state with the fields behind it, in today's spelling."""
        words = m.split(".")[1:]
        step = norm(words[0])
        for s, path, new in self.arms:
            if s == step and tuple(words[1 : 1 + len(path)]) == path:
                return "." + ".".join([new, *words[1 + len(path) :]])
        if step == "match" and words[1:2] == ["rest"]:
            return "." + ".".join(["in_default.in_default-own", *words[1:]])
        if step in self.kinds and words[1:2] == ["given"]:
            return "." + ".".join(["type_inv", self.kinds[step], *words[2:]])
        if step in self.steps:
            return "." + ".".join([self.steps[step], *words[1:]])
        return m

    def text(self, text, own="c"):
        """All that was known at a state is known at those behind it, so there is one state: what leads back from one to another goes."""
        text = re.sub(r"(?:\.before)+(?![\w'-])", "", text)
        if own != "c":
            text = re.sub(rf"(?<![\w'.-]){re.escape(own)}(?![\w'-])", "c", text)
        while True:
            m = re.search(r"let (\w+) = c in\s*", text)
            if not m:
                break
            text = text[: m.start()] + re.sub(rf"(?<![\w'.-]){m[1]}(?![\w'-])", "c", text[m.end() :])
        return re.sub(rf"(?:(?<![\w'.-])c|(?<=\(c\)))((?:\.{WORD})+)", lambda m: m[0][: m.start(1) - m.start()] + self.path(m[1]), text)


def blocks(text):
    """The declarations of a file, each with its comments, and the use lines before them."""
    head, rest, uses = [], [], []
    for part in re.split(r"\n\s*\n", text.strip("\n")):
        lines = part.split("\n")
        while lines and (lines[0].startswith("use ") or uses and uses[-1].count("{") > uses[-1].count("}")):
            if uses and uses[-1].count("{") > uses[-1].count("}"):
                uses[-1] += " " + lines.pop(0).strip()
            else:
                uses.append(lines.pop(0))
        comments = []
        while lines and lines[0].startswith("--"):
            comments.append(lines.pop(0))
            while lines and (lines[0].startswith("use ") or uses and uses[-1].count("{") > uses[-1].count("}")):
                if uses and uses[-1].count("{") > uses[-1].count("}"):
                    uses[-1] += " " + lines.pop(0).strip()
                else:
                    uses.append(lines.pop(0))
        if lines:
            rest.append((comments, lines))
        else:
            head += comments
    return head, uses, rest


def declaration(lines):
    """Name, marks, type, unfolding line and clauses."""
    m = re.match(rf"^((?:(?:abbrev|unfoldable|pub) )*)({WORD})(?: (\{{[^}}]*\}}))? :(.*)$", lines[0])
    if not m:
        return None
    kind, i = m[4], 1
    while i < len(lines) and lines[i].startswith(" ") :
        kind += "\n" + lines[i]
        i += 1
    unfolding = ""
    if i < len(lines) and lines[i].startswith("unfolding"):
        unfolding = lines[i]
        i += 1
        while i < len(lines) and lines[i].startswith(" "):
            unfolding += "\n" + lines[i]
            i += 1
    return m[2], m[1], kind, unfolding, "\n".join(lines[i:])


def turned(path, crate, goal_path, made):
    with open(path, encoding="utf-8") as f:
        text = f.read()
    if ".Tie as tie" not in text:
        return None
    fn = Function(made)
    head, uses, rest = blocks(text)
    said, answers, invariants, helpers, plain = [], [], [], {}, []
    needs = []
    for comments, lines in rest:
        d = declaration(lines)
        if d:
            m = re.search(r"tie\.Need-([^\s]+)", d[2])
            if m and not re.search(r"→", d[2].split("tie.Need-")[0]):
                needs.append(m[1])
    goals = fn.goals(needs)
    for comments, lines in rest:
        d = declaration(lines)
        if not d:
            said.append(f"not read: {lines[0]}")
            continue
        name, marks, kind, unfolding, body = d
        if "statement M" in kind:
            continue
        m = re.match(r"^\s*tie\.Need-([^\s]+)", kind)
        if m:
            new = goals[m[1]]
            if new is None:
                said.append(f"no goal for {m[1]}: {body[:80]!r}")
                continue
            b = re.match(rf"^{re.escape(name)}((?: [^\s=]+)*) =(.*)$", body, re.S)
            if not b:
                said.append(f"many clauses: {name}")
                continue
            answers.append((comments, new, unfolding, b[2], b[1].split()))
            continue
        m = re.match(r"^\s*tie\.(invariant|decreases)-(loop\d*)", kind)
        if m:
            b = re.match(rf"^{re.escape(name)}((?: [^\s=]+)*) =(.*)$", body, re.S)
            i = next((i for i, l in enumerate(fn.loops) if norm(l[0][0]) == norm(m[2])), None)
            if not b or i is None:
                said.append(f"no loop for {name}")
                continue
            new = fn.loops[i][0][1]
            variables, changed = fn.loops[i][1], fn.changed[i]
            given = b[1].split()
            again = [v for v, c in zip(variables, changed) if c]
            if len(given) != len(variables) + len(again):
                said.append(f"{name} has {len(given)} parameters, and {len(variables)} + {len(again)} are made: {variables} {again} {given}")
            where = {}
            for g, v, c in zip(given, variables, changed):
                where[g] = f"l.initial.{v}" if c else f"l.{v}"
            for g, v in zip(given[len(variables) :], again):
                where[g] = f"l.{v}"
            t = re.sub(rf"(?<![^\s(){{}};,@\[\]|]){WORD}", lambda m: where.get(m[0], m[0]), b[2])
            invariants.append((comments, m[1], new, unfolding, t))
            continue
        if "tie." in kind:
            b = re.match(rf"^{re.escape(name)}((?: [^\s=]+)*) =(.*)$", body, re.S)
            p = re.match(r"^\s*\((\w+) : tie\.[^)]*\)\s*→(.*)$", kind, re.S)
            if b and p and b[1].split() == [p[1]] and not unfolding:
                helpers[name] = (p[2].strip(), b[2].strip(), p[1])
                continue
            s = re.match(r"^\s*tie\.\S+(?: invariant-\S+ decreases-\S+)*\s*→\s*(.*)$", kind, re.S)
            if b and s and len(b[1].split()) == 1 and not unfolding:
                own = b[1].split()[0]
                if s[1].startswith("tie."):
                    helpers[name] = (None, own, own)
                    continue
                if "→" not in s[1]:
                    helpers[name] = (s[1].strip(), b[2].strip(), own)
                    continue
            said.append(f"by hand: {name} :{kind}")
            plain.append((comments, "\n".join(lines)))
            continue
        plain.append((comments, "\n".join(lines)))

    def placed(t, own):
        """Without the helpers that lead from state to state, and with those that show a fact by their names."""
        if own != "c":
            t = re.sub(rf"(?<![\w'.-]){re.escape(own)}(?![\w'-])", "c", t)
        t = re.sub(r"(?:\.before)+(?![\w'-])", "", t)
        for _ in range(4):
            for h, (kind, _, _) in helpers.items():
                arg = r"(?:\((?:[\w'.-]+)\)|c(?![\w'-]))"
                if kind is None:
                    t = re.sub(rf"\({re.escape(h)} {arg}\)|(?<![\w'.-]){re.escape(h)} {arg}", "c", t)
                else:
                    t = re.sub(rf"\({re.escape(h)} {arg}\)|(?<![\w'.-]){re.escape(h)} {arg}", f"\x01{h}\x01", t)
            t = t.replace("(c)", "c")
        t = fn.text(t.replace("\x01", ""))
        # What a test of a negation says is told of what is negated.
        return re.sub(r"\bnot-(?:true|false) (?:_|[\w.-]+|\([^()]*\)) (c\.(?:if|loop)-not-[\w.-]+\.(?:true|false))", r"\1", t)

    def with_helpers(t):
        lets, seen = [], set()

        def need(text):
            for h, (kind, body, own) in helpers.items():
                if kind is not None and h not in seen and re.search(rf"(?<![\w'.-]){re.escape(h)}(?![\w'-])", text):
                    seen.add(h)
                    k, b = placed(kind, own), placed(body, own)
                    need(k + " " + b)
                    lets.append(f"    let {h} : {k} = {b} in")

        need(t)
        return lets

    out = []
    for comments, name, unfolding, body, params in answers:
        t = placed(body, params[0] if params else "c").strip()
        if not unfolding and t in ("search rules", "omega arith"):
            continue
        lets = with_helpers(t)
        new = comments + [f"pub {name} : goal.{name}"] + ([unfolding] if unfolding else [])
        if lets or "\n" in t:
            new += [f"{name} c =", *lets, ("    " + t) if not body.startswith("\n") else "    " + t]
        else:
            new += [f"{name} c = {t}"]
        out.append("\n".join(new))
    inv = []
    for comments, kind, name, unfolding, t in invariants:
        inv.append("\n".join(comments + [f"abbrev pub {kind}-{name} : goal.{kind}-{name}"] + ([unfolding] if unfolding else []) + [f"{kind}-{name} l ={t}"]))
    lemmas = ["\n".join(c + [l]) for c, l in plain]

    def imports(body):
        kept = []
        for u in uses:
            if ".Statement." in u or ".Tie as" in u:
                continue
            m = re.match(r"^use (.*?)\.?\{(.*)\}(.*)$", u, re.S)
            if m:
                words = [w.strip() for w in m[2].split(",") if w.strip()]

                def stands(w):
                    n = w.split(" as ")[-1].strip()
                    if "◌" in n:
                        n = n.strip("◌")
                        return n in body
                    return re.search(rf"(?<![\w'-]){re.escape(n)}(?![\w'-])", body)

                words = [w for w in words if stands(w)]
                if words:
                    kept.append(f"use {m[1]}.{{{', '.join(words)}}}{m[3]}")
            else:
                n = u.split(" as ")[-1].split(".")[-1].strip()
                if re.search(rf"(?<![\w'-]){re.escape(n)}(?![\w'-])", body):
                    kept.append(u)
        return kept

    files = {}
    note = [h for h in head if h.strip() != "-- Assumes nothing."]
    if inv:
        body = "\n\n".join(inv)
        extra = [l for l in lemmas if re.search(rf"(?<![\w'-]){re.escape(declaration(l.split(chr(10)) if not l.startswith('--') else [x for x in l.split(chr(10)) if not x.startswith('--')])[0])}(?![\w'-])", body)] if lemmas else []
        whole = "\n\n".join(extra + inv)
        files["Invariants.antt"] = "\n".join((note if not out else []) + imports(whole) + [f"use {goal_path}.Given as goal"]) + "\n\n" + whole + "\n"
    if out:
        whole = "\n\n".join(lemmas + out)
        files["Answers.antt"] = "\n".join(note + imports(whole) + [f"use {goal_path}.Goals as goal"]) + "\n\n" + whole + "\n"
    return files, said


def main():
    crate, names = sys.argv[1:3]
    only = sys.argv[3:]
    with open(names, encoding="utf-8") as f:
        made = json.load(f)
    root = os.path.join("crates", crate, "proofs")
    for folder, _, found in os.walk(root):
        if "Proof.antt" not in found:
            continue
        inner = os.path.relpath(folder, root).replace("/", ".")
        if only and inner not in only:
            continue
        key = f"Rattle-{crate}-proofs.{inner}.Lts"
        if key not in made:
            print(f"{inner}: no such function is made")
            continue
        path = os.path.join(folder, "Proof.antt")
        got = turned(path, crate, f"Rattle.{crate}.proofs.{inner}", made[key])
        if got is None:
            print(f"{inner}: stays")
            continue
        files, said = got
        for s in said:
            print(f"{inner}: {s}")
        os.remove(path)
        for n, t in files.items():
            with open(os.path.join(folder, n), "w", encoding="utf-8") as f:
                f.write(t)


if __name__ == "__main__":
    sys.exit(main())
