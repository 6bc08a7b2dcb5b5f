#!/usr/bin/env python3
"""Counts the places of docs/DESIGN-PASS.md in crates/*/src: python3 tools/places.py [FOLDER] [--list POINT].

Each count is of what a pattern finds in the text, so it is a way of counting and no judgement of a place."""
import glob, os, re, sys
from collections import Counter, defaultdict

root = next((a for a in sys.argv[1:] if os.path.isdir(a)), ".")
listed = sys.argv[sys.argv.index("--list") + 1] if "--list" in sys.argv else None
sources = {p[len(root) + 1:]: open(p).read() for p in sorted(glob.glob(f"{root}/crates/*/src/**/*.rt", recursive=True))}
found = defaultdict(list)


def functions(text):
    """(name, parameters, contract, body) of each function."""
    for m in re.finditer(r"(?m)^( *)(?:pub(?:\(\w+\))? )?(?:extern \"C\" )?fn (\w+)", text):
        open_brace = re.compile(r"(?m)^" + m.group(1) + r"\{$|\{$").search(text, m.end())
        end = re.compile(r"(?m)^" + m.group(1) + r"\}").search(text, m.end())
        if not open_brace or not end:
            continue
        head, body = text[m.end():end.start()], ""
        at = re.search(r"(?m)(^" + m.group(1) + r"\{$| \{$)", head)
        if at:
            head, body = head[:at.start()], head[at.end():]
        close = head.find(")\n") if ")\n" in head else head.find(")")
        yield m.group(2), head[:close], head[close:], body


def note(point, path, what):
    found[point].append(f"{path}: {what}")


shape = {"Refused", "Bad", "None", "Congruence", "Ends", "Ended", "Absent"}
bodies = []
facts = Counter()
groups = Counter()
for path, text in sources.items():
    code = re.sub(r"//.*", "", text)
    for m in re.finditer(r"enum (\w+) \{(.*?)\n\}", code, re.S):
        names = set(re.findall(r"(?m)^    (\w+)", m.group(2)))
        if names & shape and len(names) <= 7:
            note("1 enums of the shape of Option or Result", path, m.group(1))
    for m in re.finditer(r"(?m)^\s*(?:pub )?(code|answer): u32", code):
        note("1 a code beside a value", path, m.group(1))
    for m in re.finditer(r"Refused\(\d+\)|code: [1-9]\d*|(?m:^\s*return (?:[1-9]|1[0-2]);)|if \w+(?:\.code)? != 0 \{", code):
        note("1 refusals by number", path, m.group(0).strip())
    for m in re.finditer(r"\bkind(?:_of)?\([^()]*(?:\[[^\]]*\])?[^()]*\) (?:==|!=) \w+|of_kind_unchecked\([^()]*, \d|match (?:k|kind|fields::kind\([^()]*\)) \{\n\s*\d|(?:make_text|append_text|make_sides|put_term_unchecked|find_text_unchecked|has_text)\([^()]*\b[1-5],", code):
        note("1 kinds by number", path, " ".join(m.group(0).split()))
    for name, params, contract, body in functions(code):
        for m in re.finditer(r"while ([^{]*)\{(.*?)(?=\n    \}|\Z)", body, re.S):
            counter = re.search(r"\b(\w+)\b(?: as usize\))? (?:<|<=|!=|>) |0 < (\w+)", m.group(1))
            counter = counter and (counter.group(1) or counter.group(2))
            if counter and re.search(r"\b" + counter + r" [+-]= \d", m.group(2)):
                note("3 loops that count an index", path, f"{name}: while {m.group(1).strip()}")
        for m in re.finditer(r"\b(\w+): \1\b,", body):
            note("4 fields written twice", path, f"{name}: {m.group(0)}")
        if re.search(r"if (\w+) < (\w+) \{\s*return (?:\1|\2);\s*\}\s*(?:\1|\2)\s*$", body):
            note("4 the lower or higher of two by hand", path, name)
        for m in re.finditer(r"while (\w+) < [^{]*\{\s*\w+\[[^\]]*\] = \w+\[[^\]]*\];\s*\1 \+= 1;", body):
            note("4 copying by hand", path, name)
        names = re.findall(r"(\w+): ", params)
        if {"terms", "cells", "chars", "reasons", "keys"} <= set(names):
            note("5 the five slices as parameters", path, name)
        for m in re.finditer(r"requires(?: \w+)? \{(.*?)\}\n", contract, re.S):
            facts[" ".join(m.group(1).split())] += 1
        for a, b in zip(names, names[1:]):
            if a in {"list", "out", "name", "table", "pairs", "to", "from", "one", "other"} and b in {"count", "n", "len", "k", "at"}:
                note("6 a buffer with a length beside it", path, f"{name}: {a}, {b}")
        for n in re.findall(r"(\w+): bool", params):
            note("7 a flag as a parameter", path, f"{name}: {n}")
        tokens = re.findall(r"\w+|[^\w\s]", body)
        if len(tokens) > 12:
            bodies.append((path, name, tokens))
        ladder = re.findall(r"if [^{}]*\{\s*return (?:true|false);\s*\}", body)
        if len(ladder) >= 1 and "while" not in body and "for " not in body:
            note("4 tests as ladders of returns", path, name)
for fact, n in facts.items():
    if n >= 3:
        note("5 facts in three contracts or more", f"{n} times", fact)
for i, (path, name, a) in enumerate(bodies):
    for other, second, b in bodies[:i]:
        if len(a) == len(b) and sum(x != y for x, y in zip(a, b)) <= max(2, len(a) // 12):
            note("2 bodies that differ in a few words", path, f"{name} and {second} of {other}")
answers = Counter()
for p in glob.glob(f"{root}/crates/*/proofs/**/Answers.antt", recursive=True):
    answers[p.split("/crates/")[1].split("/")[0]] += len(re.findall(r"(?m)^pub \S+ : goal\.", open(p).read()))
found["8 answers"] = [f"{k}: {v}" for k, v in sorted(answers.items())]
for point in sorted(found):
    n = sum(answers.values()) if point == "8 answers" else len(found[point])
    print(f"{point}: {n}")
    if listed and point.startswith(listed):
        print("".join(f"    {line}\n" for line in found[point]), end="")
