#!/usr/bin/env python3
"""Spells the repository's own definitions and lemmas as today's Rattle does: words in snake case. It runs once, on what port.py leaves.

usage: tools/respell.py [--check] [--table FILE]      at the top of the repository

A name that a file of specs/ or proofs/ declares, or binds by `let`, is turned: goodTable becomes good_table, refused-keeps refused_keeps, getD-tab
get_or_tab. Types keep their capital, names that Rattle makes for goals and proofs keep their spelling, and so does a name that a file takes from a library.
Where two names of one file would fall together, nothing is written and the places are printed. FILE gets a line for each name: old, a tab, new.
"""
import collections
import pathlib
import re
import sys

NAME = r"[^\s(){}.;,@\"«»⟨⟩]+"
TOKEN = re.compile(rf"(?<![^\s(){{}}.;,@\"«»]){NAME}")
DECLARED = re.compile(
    rf"(?m)^ *(?:(?:abbrev|unfoldable|pub|data|record|ruleset) +)*(?P<name>{NAME})(?: +[({{][^\n]*?[)}}])* :(?P<type>(?: [^\n]*)?$)"
)
# Names bound by `let`, as parameters, or by `as` of an import.
BOUND = re.compile(rf"\blet ({NAME})(?= (?:[:=]|\())|[({{]((?:{NAME} )+):(?= )| as ({NAME})(?=[,}}])|λ ((?:{NAME} ?)+)\.|\blet \(([^()]*)\) =")
LIBRARY = re.compile(r"^\s*(?:ghost )?use (?:Rattle\.std|mathlib|native|lib|borrow|mir|Prim)\b[\w.·ᴰ]*\.\{([^}]*)\}", re.M)
MADE = re.compile(r" (?:tie|goal)\.| statement M| \{M : Type 1\}")

# Lemmas that would have the name of a definition; the lemma gets `_lem`.
LEMMAS = """all-zero bytes_after bytes-in chosen-table count-in directory-after first-bytes first-line found_in goes_on good-code good-width hits-below is-bad
is_word length_from one-read right-before right-line roll-after same-roll start-at symbols-taken text-after total-for word-hits""".split()


def spelled(name):
    if name in LEMMAS:
        return name.replace("-", "_") + "_lem"
    if not re.fullmatch(r"[A-Za-z0-9_'₀-₉ℕᴰ-]+", name):
        return name
    if name[:1].isupper():
        # A fact or a type, maybe with words after it.
        return name.replace("-", "_")
    name = re.sub(r"(?<![A-Za-z])getD(?![A-Za-z])", "get_or", name)
    name = re.sub(r"(?<=[a-z0-9])[A-Z]", lambda m: "_" + m[0].lower(), name)
    return name.replace("-", "_")


def files():
    return sorted(p for p in pathlib.Path("crates").rglob("*") if p.suffix in (".antt", ".rt") and "out" not in p.parts)


def bare(text):
    return re.sub(r"--[^\n]*", "", text)


def main(argv):
    texts = {p: p.read_text(encoding="utf-8") for p in files()}
    table = {}
    for p, t in texts.items():
        if p.suffix != ".antt":
            continue
        t = bare(t)
        found = [m["name"] for m in DECLARED.finditer(t) if not MADE.match(m["type"])]
        for name in found + [w for groups in BOUND.findall(t) for g in groups for w in g.replace(",", " ").split()]:
            if spelled(name) != name:
                table[name] = spelled(name)
    library = {p: {w.strip().split(" as ")[-1] for m in LIBRARY.finditer(t) for w in m[1].split(",")} for p, t in texts.items()}
    clash = []
    out = {}
    for p, t in texts.items():
        def turn(m, p=p):
            w = m[0]
            if w not in table or w in library[p]:
                return w
            if m.string[: m.start()].endswith(".") and ("-" in w or "_" in w):
                return w
            if ("-" in w or "_" in w) and p.suffix == ".rt":
                return w
            return table[w]
        new = TOKEN.sub(turn, t)
        here = collections.defaultdict(set)
        if p.suffix == ".antt":
            t = bare(t)
            for m in TOKEN.finditer(t):
                if not t[: m.start()].endswith("."):
                    here[turn(m)].add(m[0])
        for w, olds in here.items():
            if len(olds) > 1:
                clash.append(f"{p}: {' '.join(sorted(olds))} -> {w}")
        out[p] = new
    if clash:
        print("\n".join(clash))
        print(f"respell: {len(clash)} places where names fall together")
    if "--table" in argv:
        pathlib.Path(argv[argv.index("--table") + 1]).write_text("".join(f"{a}\t{b}\n" for a, b in sorted(table.items())), encoding="utf-8")
    if clash and "--force" not in argv or "--check" in argv:
        return bool(clash)
    changed = [p for p in out if out[p] != texts[p]]
    for p in changed:
        p.write_text(out[p], encoding="utf-8")
    print(f"respell: {len(table)} names, {len(changed)} files")
    return 0


if __name__ == "__main__":
    raise SystemExit(main(sys.argv[1:]))
