#!/usr/bin/env python3
"""tools/spell.py: brings the names of definitions and lemmas to the language's spelling; run once, at the top, right after port.py.

Words are in snake case: isDriver becomes is_driver, kept-well kept_well. A dash stays only between two names of list functions, as in
length-tabulate. Names of the library, of generated modules and of src/ keep theirs. Goes over specs/, lemmas, proofs, the clauses of src/,
the must-fail edits, tests/wrong-answers.d and the pages."""
import collections
import glob
import re
import sys

TOKEN = re.compile(r"[A-Za-z_][\w'₀-₉]*(?:-[\w'₀-₉]+)*")
LISTS = {"length", "get_or", "getD", "tabulate", "drop", "take", "set", "append"}
HEAD = re.compile(r"^\s*(?:(?:abbrev|unfoldable|pub|record)\s+)*(" + TOKEN.pattern + r")(?=[^=]*:)")


# lemmas that stood beside a definition of their new name, by crate
BESIDE = {
    "alone": ["by_hand"],
    "store": ["given_by", "kept_by", "place_ok"],
    "stream": ["goes_on"],
    "text": ["is_digit"],
}


def camel(word):
    return bool(re.match(r"[a-z][a-z0-9']*[A-Z]", word)) or word in ("getD",)


def snake(part):
    if part == "getD":
        return "get_or"
    return re.sub(r"([a-z0-9'])([A-Z])", lambda m: m[1] + "_" + m[2].lower(), part)


def spelled(name):
    parts = name.split("-")
    new = snake(parts[0])
    for a, b in zip(parts, parts[1:]):
        new += ("-" if a in LISTS and b in LISTS else "_") + snake(b)
    return new


def read(p):
    with open(p, encoding="utf-8") as f:
        return f.read()


def main():
    antt = [p for p in glob.glob("crates/*/specs/**/*.antt", recursive=True) + glob.glob("crates/*/proofs/*.antt")]
    names = {}
    for p in antt:
        for line in read(p).split("\n"):
            if line.startswith(("use ", "--", "pub use")):
                continue
            m = HEAD.match(line)
            if m and ("-" in m[1] or camel(m[1])):
                names[m[1]] = spelled(m[1])
    names["code-of"] = "code_of_lem"
    for n in [n for n, s in names.items() if "-" in n and s in {t for m, t in names.items() if "-" not in m}]:
        names[n] += "_lem"
    library = set()
    for p in glob.glob("crates/*/**/*.antt", recursive=True) + glob.glob("crates/*/src/*.rt"):
        for line in read(p).split("\n"):
            m = re.match(r"(?:ghost |pub )*use (Rattle\.std|mathlib|lib|borrow|native|Prim)\S*\{(.*)\}", line)
            if m:
                library |= set(TOKEN.findall(m[2]))
    for n in sorted(set(names) & library):
        print("also in the library, kept:", n)
        del names[n]
    # names that fall together
    back = collections.defaultdict(set)
    for n, s in names.items():
        back[s].add(n)
    for s, ns in sorted(back.items()):
        if len(ns) > 1:
            print("two names become one:", s, sorted(ns))
    files = sorted(
        glob.glob("crates/*/**/*.antt", recursive=True)
        + glob.glob("crates/*/src/*.rt")
        + glob.glob("crates/*/must-fail/*.edit")
        + glob.glob("tests/wrong-answers.d/*/*.edit")
        + ["README.md"]
        + glob.glob("docs/*.md")
    )
    for p in files:
        old = text = read(p)
        if p.endswith(".antt"):
            for n in BESIDE.get(p.split("/")[1], []):
                text = re.sub(r"(?<![\w'.-])" + n + r"(?![\w'-])", n + "_lem", text)
        tokens = set(TOKEN.findall(text))
        for n in sorted(tokens & set(names)):
            if names[n] in tokens and names[n] != n and "/src/" not in p:
                print(f"stands already: {p}: {n} -> {names[n]}")

        code = p.endswith(".rt")

        def turn(m):
            t = m[0]
            if t in names and not (code and "-" in t and not ghost):
                return names[t]
            return t

        out = []
        for line in text.split("\n"):
            ghost = not code or bool(re.search(r"ghost use|requires|ensures|invariant|[≡×→λ⊎]", line))
            out.append(TOKEN.sub(turn, line))
        new = "\n".join(out)
        if new != old and "--dry" not in sys.argv:
            with open(p, "w", encoding="utf-8") as f:
                f.write(new)
    print(len(names), "names")


main()
