#!/usr/bin/env python3
"""Spells the repository's own definitions, fields, constructors and lemmas as Rattle's rule has it.

usage: python3 tools/names.py [--list]     at the top of the repository; --list prints old and new names, and writes nothing

The rule: snake case, with types, facts and modules in camel case; in a lemma's name a dash joins two names, and a plain word is added with `_`; a lemma that
would have another's name gets `_lem`. Names are those that specs/ and proofs/ declare, files of one function's proof aside. Each is turned as a whole word
in every .antt file, in the clauses, ghost items and comments of every .rt file, and in every must-fail edit; in a comment a name with a dash only between
backticks. Functions of src/, exported names, strings, inputs and outputs keep theirs. Run once, after port.py: it stops where the names are turned already.
"""
import os
import re
import subprocess
import sys

LETTER = r"[A-Za-z0-9_'\u2080-\u2089-]"
STD = """suc zero length take drop append map reverse get_or set sum eqb ltb leb not and or zip last all any none some cons nil fst snd filter concat join
replicate index true false refl sym cong ap cond""".split()


# names that would fall together with another's, by hand
OWN = {
    "standing-of": "standing_of_lem",
    "explain-pair": "explain_pair_call",
    "deep-form": "deep_form_call",
    "empty-parts": "empty_parts_call",
    "forced-length": "forced_length_call",
    "set-mark": "set_mark_call",
    "go-back": "go_back_call",
    "old-root": "root_of_old",
    "one-term": "one_term_more",
    "length-is": "length_is_lem",
    "length-of": "length_of_term",
    "first-of": "first_of_lem",
    "one_more": "one_appended",
    "put_first": "put_first_lem",
    "alike_at": "alike_at_lem",
    "first_below": "first_below_lem",
    "orElse": "or_else",
}


def files(end):
    out = []
    for d, ds, fs in os.walk("crates"):
        ds[:] = sorted(x for x in ds if x != "out")
        out += [os.path.join(d, f) for f in sorted(fs) if f.endswith(end)]
    return out


def read(p):
    with open(p, encoding="utf-8") as f:
        return f.read()


def of_function(p):
    return "/proofs/" in p and os.path.basename(p) in ("Proof.antt", "Answers.antt", "Invariants.antt")


def snake(n):
    return re.sub(r"(?<=[a-z0-9'])([A-Z])", lambda m: "_" + m.group(1).lower(), n)


def declared():
    """The names that are declared: in specs/ or as a field, constructor or definition (words), and the lemmas of proofs/."""
    words, lemmas = set(), set()
    for p in files(".antt"):
        if of_function(p):
            continue
        inside = False
        for l in read(p).split("\n"):
            l = re.sub(r"--.*", "", l)
            if re.match(r"\s*(?:pub )?(?:record|data) ", re.sub(r"abbrev |unfoldable ", "", l)):
                inside = True
            elif l.strip() and not l.startswith((" ", "\t")):
                inside = False
            m = re.match(r"\s*((?:abbrev |unfoldable |pub |ruleset )*)((?:" + LETTER + r"+ )*?" + LETTER + r"+) :(?=\s|$)", l)
            if m:
                is_word = "/specs/" in p or "abbrev" in m.group(1) or "unfoldable" in m.group(1) or inside
                (words if is_word else lemmas).update(n for n in m.group(2).split() if re.match("[A-Za-z]", n))
    return words, lemmas - words


def brought_in():
    out = set()
    for p in files(".antt") + files(".rt"):
        for m in re.finditer(r"use ([\w.+'-]+)\.\{([^}]*)\}", read(p)):
            if not re.match(r"Rattle\.(?:" + "|".join(os.listdir("crates")) + r")\.", m.group(1)):
                out.update(x.strip().split(" as ")[0] for x in m.group(2).split(","))
    return out


def table():
    words, lemmas = declared()
    if "termsView" not in words:
        raise SystemExit("names: the names are turned already")
    new = {}
    for n in words:
        if "-" in n or (n[0].islower() and re.search("[A-Z]", n)):
            new[n] = "_".join(p if p[:1].isupper() else snake(p) for p in n.split("-"))
    names = {new.get(n, n) for n in words} | set(STD)
    taken = {new.get(n, n) for n in words} | {n for n in lemmas if "-" not in n and not (n[0].islower() and re.search("[A-Z]", n))}

    def parts(n):
        """The parts of a lemma's name, put together again where several make one name."""
        ps, out = [p if p[:1].isupper() else snake(p) for p in n.split("-")], []
        while ps:
            for k in range(len(ps), 0, -1):
                whole = "_".join(ps[:k])
                if k == 1 or whole in names:
                    out.append(whole)
                    ps = ps[k:]
                    break
        return out

    for n in sorted(lemmas):
        if "-" not in n and not (n[0].islower() and re.search("[A-Z]", n)):
            continue
        ps = parts(n)
        r = ps[0]
        for a, b in zip(ps, ps[1:]):
            r += ("-" if (a in names or a[0].isupper()) and b in names else "_") + b
        if r in taken:
            r += "_lem"
        while r in taken:
            r += "'"
        taken.add(r)
        if r != n:
            new[n] = r
    new.update((n, r) for n, r in OWN.items() if n in words | lemmas or n == "orElse")
    # a lemma in snake case already that has a word's new name
    for n in lemmas - set(new):
        if n in {new[w] for w in words if w in new}:
            new[n] = n + "_lem"
    twice = {}
    for n, r in new.items():
        twice.setdefault(r, []).append(n)
    for r, ns in twice.items():
        if len(ns) > 1 or (r in words | lemmas and r not in new):
            print(f"names: {' and '.join(ns)} fall together as {r}", file=sys.stderr)
    for n in sorted(set(new) & brought_in()):
        print(f"names: {n} is also a name of a library, and stays", file=sys.stderr)
        del new[n]
    return new


def main():
    os.chdir(subprocess.run(["git", "rev-parse", "--show-toplevel"], capture_output=True, text=True, check=True).stdout.strip())
    new = table()
    if "--list" in sys.argv:
        print("\n".join(f"{n} {new[n]}" for n in sorted(new)))
        return
    word = re.compile(r"(?<!" + LETTER + r")" + "[A-Za-z]" + LETTER + r"*")

    def turn(t):
        # behind a point a name in snake case is a field or a function's
        return word.sub(lambda m: m.group(0) if "-" not in m.group(0) and "_" in m.group(0) and t[: m.start()].endswith(".") else new.get(m.group(0), m.group(0)), t)

    def prose(t):
        t = re.sub(r"`[^`]*`", lambda m: turn(m.group(0)), t)
        return word.sub(lambda m: new.get(m.group(0), m.group(0)) if "-" not in m.group(0) else m.group(0), t)

    def lines(t, mark):
        out = []
        for l in t.split("\n"):
            k = l.find(mark)
            out.append(turn(l) if k < 0 else turn(l[:k]) + prose(l[k:]))
        return "\n".join(out)

    snakes = {n for n in new if "_" in n and "-" not in n}
    for p in files(".antt") + files(".edit") + files(".rt"):
        t = read(p)
        if p.endswith(".rt"):
            # there a name in snake case is a function's or a clause's
            for n in snakes:
                new.pop(n, None)
        u = lines(t, "//" if p.endswith(".rt") else "\0" if p.endswith(".edit") else "--")
        if u != t:
            with open(p, "w", encoding="utf-8") as f:
                f.write(u)


main()
