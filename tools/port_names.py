#!/usr/bin/env python3
"""Brings the repository's own names to today's spelling, right after port.py: words of antt in snake case.

usage: tools/port_names.py, at the top of the repository, once

- The crate csv is called csv_table, since Rattle has a library csv.
- specs/Contracts.antt is called specs/Clauses.antt, since Rattle makes a module specs.contracts.
- A definition, lemma or label that specs/ or proofs/ declare goes from camel case, or from words joined by dashes, to snake case. It keeps its
  dashes where the new name is another's already, or where a library has the old one.

Functions and types of src/, exported names, strings and files that are no Rattle stay. What was renamed is written to tools/port_names.tsv.
"""
import collections
import os
import re
import subprocess
import sys

CRATE = {"csv": "csv_table"}
DECLARED = re.compile(
    r"^( *)((?:(?:abbrev|unfoldable|pub|private|record|data|ruleset|opaque|instance) +)*)([^\s(){};,.:@\"«»]+)(?: +[({][^\n]*?[)}])*(?: *:(?= |$))", re.M
)
TOKEN = re.compile(r"[^\s(){};,.:@\"«»\[\]|]+")
USE = re.compile(r"^(?:pub )?(?:ghost )?use ([^\s;{]+?)\.?(?:\{([^}]*)\})?(?: as \S+)?;?$", re.M)
# The names that Rattle makes for goals and steps.
MADE = re.compile(r"(returns|loop|in|if|else|then|overflow|bounds|slice_bounds|nonzero|invariant|decreases|the)-|.*-(requires|holds|init|preserved|smaller)(-\d+)?$")
# Lemmas, labels and locals that port.py gave a definition's new name: they get their dashes back.
DASHED = ["comes_back", "first_part", "from_zero", "in_order", "lies_within", "named_here", "out_of_range", "record_of"]
OF_FUNCTIONS = ("Proof.antt", "Answers.antt", "Invariants.antt")


def files(root):
    for folder, dirs, names in os.walk(os.path.join(root, "crates")):
        dirs[:] = sorted(d for d in dirs if d != "out")
        for n in sorted(names):
            if n.endswith((".antt", ".rt", ".edit")):
                yield os.path.join(folder, n)


def read(path):
    with open(path, encoding="utf-8") as f:
        return f.read()


def snake(name):
    return re.sub(r"(?<=[a-z0-9])[A-Z]", lambda m: "_" + m[0].lower(), name)


def move_files(root):
    for old, new in CRATE.items():
        if os.path.isdir(os.path.join(root, "crates", old)):
            subprocess.run(["git", "mv", f"crates/{old}", f"crates/{new}"], cwd=root, check=True)
            path = os.path.join(root, "crates.txt")
            text = re.sub(rf"(?<![\w.]){old}(?![\w.])", new, read(path))
            with open(path, "w", encoding="utf-8") as f:
                f.write(text)
    for c in sorted(os.listdir(os.path.join(root, "crates"))):
        if os.path.isfile(os.path.join(root, "crates", c, "specs", "Contracts.antt")):
            subprocess.run(["git", "mv", f"crates/{c}/specs/Contracts.antt", f"crates/{c}/specs/Clauses.antt"], cwd=root, check=True)


def paths_of(text):
    for old, new in CRATE.items():
        text = re.sub(rf"\bRattle\.{old}\.", f"Rattle.{new}.", text)
        text = re.sub(rf"(?m)^((?:pub )?use ){old}::", rf"\g<1>{new}::", text)
    text = re.sub(r"\b(Rattle\.\w+\.specs\.)Contracts\b", r"\1Clauses", text)
    text = re.sub(r"(?m)^(pub mod |mod )Contracts$", r"\1Clauses", text)
    return re.sub(r"(?m)^file: specs/Contracts\.antt", "file: specs/Clauses.antt", text)


def dashed(path, text):
    """In a function's proof a name behind a dot is a step, which has the function's own name, but not where the dot stands behind a term."""
    if path.endswith(".antt"):
        for n in DASHED:
            before = r"(?:(?<=\)\.)|(?<![\w.'-]))" if os.path.basename(path) in OF_FUNCTIONS else r"(?<![\w'-])(?<!proofs\.)"
            text = re.sub(rf"{before}{n}(?![\w'-])", n.replace("_", "-"), text)
    return text


def renamed(root):
    """Each name with its new spelling."""
    own, foreign, tokens = set(), set(), collections.Counter()
    for p in files(root):
        if p.endswith(".edit"):
            continue
        text = read(p)
        for m in USE.finditer(text):
            if m[2] is not None and not re.match(r"Rattle\.(?!std|core)", m[1]):
                foreign.update(x.strip().split(" as ")[0] for x in m[2].split(","))
        if p.endswith(".rt"):
            continue
        bare = re.sub(r"--[^\n]*", "", text)
        if os.path.basename(p) not in OF_FUNCTIONS:
            own.update(m[3] for m in DECLARED.finditer(text))
            tokens.update(TOKEN.findall(bare))
    new = {}
    for n in sorted(own):
        if not re.fullmatch(r"[a-z][A-Za-z0-9_'-]*", n) or n in foreign or MADE.match(n):
            continue
        if snake(n) != n:
            new[n] = snake(n)
    taken = set(tokens) | set(new.values()) | foreign
    for n in sorted(own):
        if "-" not in n or not re.fullmatch(r"[a-z][a-z0-9_'-]*", n) or n in foreign or MADE.match(n):
            continue
        to = n.replace("-", "_")
        if to not in taken:
            new[n] = to
            taken.add(to)
    met = [(a, b) for a, b in new.items() if snake(a) == b and b in tokens]
    if met:
        print("names that are taken already, look at each:", met)
    return new


def in_comment(text, new):
    """A comment names a definition in camel case, in backticks or behind the name of a file: a word with a dash may be plain English."""
    text = TOKEN.sub(lambda m: new.get(m[0], m[0]) if snake(m[0]) != m[0] else m[0], text)
    text = re.sub(r"`([a-z][a-z0-9'-]*)`", lambda m: f"`{new.get(m[1], m[1])}`", text)
    return re.sub(
        r"(\.antt: )([a-z0-9'-]+(?:, [a-z0-9'-]+)*)", lambda m: m[1] + ", ".join(new.get(w, w) for w in m[2].split(", ")), text
    )


def turned(path, text, new):
    """The text with its names respelled. Strings of Rust stay."""
    mark, parts = ("--", r"(--[^\n]*)") if path.endswith(".antt") else ("//", r'(//[^\n]*|b?"(?:[^"\\\n]|\\.)*")')
    done = []
    for piece in re.split(parts, text):
        if piece.startswith(mark):
            done.append(in_comment(piece, new))
        elif path.endswith(".rt") and piece[-1:] == '"' and len(piece) > 1:
            done.append(piece)
        else:
            done.append(TOKEN.sub(lambda m: new.get(m[0], m[0]), piece))
    return "".join(done)


def main():
    root = subprocess.run(["git", "rev-parse", "--show-toplevel"], capture_output=True, text=True, check=True).stdout.strip()
    move_files(root)
    for p in files(root):
        old = read(p)
        text = dashed(p, paths_of(old))
        if text != old:
            with open(p, "w", encoding="utf-8") as f:
                f.write(text)
    new = renamed(root)
    for p in files(root):
        old = read(p)
        if p.endswith(".edit"):
            text = "".join(
                line if not line.startswith(("old: ", "new: ")) else line[:5] + turned("x.antt" if "file: specs" in old else "x.rt", line[5:], new)
                for line in old.splitlines(keepends=True)
            )
        else:
            text = turned(p, old, new)
        if text != old:
            with open(p, "w", encoding="utf-8") as f:
                f.write(text)
    with open(os.path.join(root, "tools", "port_names.tsv"), "w", encoding="utf-8") as f:
        f.writelines(f"{a}\t{b}\n" for a, b in sorted(new.items()))
    print(f"{len(new)} names respelled")


if __name__ == "__main__":
    sys.exit(main())
