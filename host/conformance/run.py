#!/usr/bin/env python3
"""usage: run.py COMMAND [WORDS]: has the command answer every case, and tells those that it answers otherwise (README.md)."""
import json, os, subprocess, sys

folder = os.path.dirname(os.path.abspath(__file__))
lines = lambda name: map(json.loads, open(os.path.join(folder, name), encoding="utf-8"))
tariffs = {line["tariff"]: line["bytes"] for line in lines("tariffs.jsonl")}

def patched(text, pieces):  # in hexadecimal: the text with these pieces at their offsets
    for at, piece in pieces.items():
        text = text[:2 * int(at)] + piece + text[2 * int(at) + len(piece):]
    return text

def word(name, value):  # what a function is given, as it is said to the command
    if isinstance(value, dict):
        return patched("00" * value["bytes"], value["pieces"])
    return tariffs[value] if name == "tariff" else str(value)

cases, wrong = list(lines("cases.jsonl")), 0
given = [{name: word(name, value) for name, value in case["given"].items()} for case in cases]
asked = [case["function"] + "".join(f" {name}={value}" for name, value in words.items()) for case, words in zip(cases, given)]
told = subprocess.run(sys.argv[1:], input="\n".join(asked) + "\n", stdout=subprocess.PIPE, text=True).stdout.splitlines()
for case, words, line in zip(cases, given, told + [""] * (len(cases) - len(told))):
    answer, *slices = line.split(" ")
    found = {**words, **dict(slice.partition("=")[::2] for slice in slices)}
    due = {**words, **{name: patched(words[name], pieces) for name, pieces in case["written"].items()}}
    faults = ["answer"] * (answer != str(case["answer"])) + [name for name in due if found[name] != due[name]]
    wrong += bool(faults)
    if faults:
        print(f"case {case['case']}, {case['function']}: another {', '.join(faults)}; due is {case['answer']}, found {answer or 'nothing'}")
print(f"{len(cases)} cases, {wrong} answered otherwise")
sys.exit(wrong > 0)
