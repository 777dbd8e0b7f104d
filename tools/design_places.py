#!/usr/bin/env python3
"""usage: python3 tools/design_places.py [COMMIT] [--list POINT]

Counts the places of docs/DESIGN-PASS.md in crates/*/src (and, for point 8, crates/*/proofs), in the work tree or at a commit. With --list each place
of a point is printed, with its file.
"""
import difflib
import re
import subprocess
import sys
from pathlib import Path

ROOT = Path(__file__).resolve().parent.parent


def files(commit, pattern):
    """The files of the work tree or of a commit whose paths fit, each with its text."""
    if commit is None:
        paths = [p.relative_to(ROOT).as_posix() for p in ROOT.glob("crates/**/*") if p.is_file()]
        return [(p, (ROOT / p).read_text()) for p in sorted(paths) if re.fullmatch(pattern, p)]
    git = lambda *words: subprocess.run(["git", "-C", str(ROOT), *words], stdout=subprocess.PIPE, check=True, text=True).stdout
    paths = [p for p in git("ls-tree", "-r", "--name-only", commit, "crates").split("\n") if re.fullmatch(pattern, p)]
    return [(p, git("show", f"{commit}:{p}")) for p in paths]


def bare(text):
    """A text without its comments."""
    return re.sub(r"//[^\n]*", "", text)


def functions(source):
    """Each function: its file, name, parameters, contract and body."""
    found = []
    for path, text in source:
        text = bare(text)
        for m in re.finditer(r"\bfn ([a-z_0-9]+)(?:<[^>{]*>)?\(", text):
            depth, i = 1, m.end()
            while depth:
                depth += {"(": 1, ")": -1}.get(text[i], 0)
                i += 1
            params, start = text[m.end() : i - 1], i
            body = re.search(r"\n(\s*)\{\n|[^\n]*\{\n", text[start:])
            if not body:
                continue
            inner = start + body.end()
            depth, j = 1, inner
            while depth and j < len(text):
                depth += {"{": 1, "}": -1}.get(text[j], 0)
                j += 1
            found.append((path, m.group(1), params, text[start : start + body.start()], text[inner : j - 1]))
    return found


def enums(source):
    """Own enums of one or two variants of which one has a value: the shape of Option and of Result."""
    for path, text in source:
        for m in re.finditer(r"\benum ([A-Za-z]+) \{(.*?)\n\}", bare(text), re.S):
            variants = re.findall(r"^    ([A-Z][A-Za-z]*)(.?)", m.group(2), re.M)
            if len(variants) <= 2 and any(mark in "( {" and mark for _, mark in variants):
                yield f"{path}: enum {m.group(1)} {{ {', '.join(v for v, _ in variants)} }}"


def lines(source, pattern, not_=None):
    for path, text in source:
        for number, line in enumerate(bare(text).split("\n"), 1):
            if re.search(pattern, line) and not (not_ and re.search(not_, line)):
                yield f"{path}:{number}: {line.strip()}"


def twins(source):
    """Pairs of functions that are one but for names, types and numbers: eight tenths of their words alike, thirty words at least."""
    words = []
    for path, name, params, contract, body in functions(source):
        if "milecopper" in path:
            continue
        text = re.sub(r"\b\d[\d_]*\b", "0", body)
        token = re.findall(r"\w+|[^\w\s]", text)
        if len(token) >= 30:
            words.append((path, name, token))
    for i, (path, name, token) in enumerate(words):
        for other, twin, more in words[i + 1 :]:
            if min(len(token), len(more)) * 10 < max(len(token), len(more)) * 8:
                continue
            match = difflib.SequenceMatcher(None, token, more, autojunk=False)
            if match.quick_ratio() >= 0.8 and match.ratio() >= 0.8:
                yield f"{path}: {name} | {other}: {twin}"


def together(source):
    """Functions whose parameters hold one of the groups that travel together."""
    groups = [("tariff", "counts"), ("file", "editions"), ("bytes", "stops"), ("trip", "stops"), ("statement", "place"), ("book", "current")]
    for path, name, params, contract, body in functions(source):
        names = re.findall(r"([a-z_]+):", params)
        for group in groups:
            if all(word in names for word in group):
                yield f"{path}: {name}({', '.join(group)})"


def facts(source):
    """Facts that three or more contracts ask for."""
    asked = {}
    for path, name, params, contract, body in functions(source):
        for clause in re.findall(r"requires\*? (?:[a-z_]+ )?\{(.*?)\}", contract, re.S):
            for fact in re.split(r"\s×\s", clause):
                fact = re.sub(r"^\(+|\)+$", "", " ".join(fact.split()))
                if re.match(r"[A-Z]", fact):
                    asked.setdefault(fact.split(" ")[0], []).append(f"{path}: {name}")
    for fact, where in sorted(asked.items()):
        if len(where) >= 3:
            yield f"{fact}: in {len(where)} contracts"


def answers(source):
    for path, text in source:
        for m in re.finditer(r"^pub ([\w+-]+) : goal", text, re.M):
            yield f"{path}: {m.group(1)}"


def points(commit):
    source = files(commit, r"crates/[a-z_]+/src/[a-z_]+\.rt")
    proofs = files(commit, r"crates/[a-z_]+/proofs/.*/Answers\.antt")
    return [
        ("1a", "own enums of the shape of Option or Result", list(enums(source))),
        ("1b", "flags beside a value in a struct", list(lines(source, r"^\s+pub [a-z_]+: bool"))),
        ("1c", "values that stand for none", list(lines(source, r"const (NO|NEVER)_(AREA|CLASS|LIMIT|RIDER|FOUND|DAY_CAP)"))),
        ("1d", "numbers for record kinds", list(lines(source, r"const ([A-Z]+_)?KIND: u16"))),
        ("1e", "numbers for refusals", list(lines(source, r"\bFaulty\(\d\)|Refused\((u8|u64|\d)|\b(number|refusal): u(8|64)\b|const (WRONG|NO|BROKEN|OTHER|OUT)_[A-Z_]+: u8", r"NO_AREA|NO_CLASS|put_marked|_in\("))),
        ("1f", "numbers for class, level, sort and mark", list(lines(source, r"\b(class|level|sort|mark|town): u8"))),
        ("2", "pairs of functions alike in eight of ten words", list(twins(source))),
        ("3a", "loops by while and loop", list(lines(source, r"^\s*(while|loop)\b"))),
        ("3b", "loops over a range of numbers", list(lines(source, r"^\s*for [a-z_]+ in .*\.\."))),
        ("4a", "comparisons through a unit's number", list(lines(source, r"\.0 (==|!=|<=|<|>=|>) |(==|!=|<=|<|>=|>) [a-z_.]+\.0\b"))),
        ("4b", "conversions, copies and equality by hand", list(lines(source, r"fn (number|same_bytes|clear|move_to|keep|longer_of|shorter_of|smaller|marked|encoded|refuse)\("))),
        ("5a", "functions whose parameters travel together", list(together(source))),
        ("5b", "facts that three or more contracts ask for", list(facts(source))),
        ("6", "buffers with a place or an end beside them", list(lines(source, r"^\s*(pub(\(crate\))? )?fn [a-z_]+\(.*(out|lines|text|fields|statement|room): &mut \[u8\], (place|end|at): usize"))),
        ("7", "switches on which step to run", list(lines(source, r"for _ in 0\.\.2|if tag ==|match (next|take_turn|take_step|flowed)\b"))),
        ("8", "answers to goals", list(answers(proofs))),
    ]


def main(words):
    wanted = words[words.index("--list") + 1] if "--list" in words else None
    rest = [w for w in words if w not in ("--list", wanted)]
    for point, what, places in points(rest[0] if rest else None):
        if wanted is None:
            print(f"{point:3} {len(places):5}  {what}")
        elif wanted == point:
            print("\n".join(places))


main(sys.argv[1:])
