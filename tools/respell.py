#!/usr/bin/env python3
"""Brings the repository's own definitions and lemmas to snake case, once, after the kit's port.py.

usage: python3 tools/respell.py [--dry] [TOP]

A name that an .antt file of specs/ or proofs/ declares (a definition, lemma, field or constructor) and that has a capital or a dash inside is
written with underscores: `countAt` becomes `count_at`, `value-slot` becomes `value_slot`. Types and modules keep their capitals, and a name that
begins with one keeps its dash (`P1-room`). A lemma that would have its function's name ends in `_lem`. Names that Rattle makes (in proofs/F/) keep
their dashes. It renames what declares and what cites, in .antt, .rt and .edit files, outside texts in quotes, and says where two names would fall
together or a new name is already there. It also moves the module Contracts of the crate tight to FromContracts.
"""

import collections
import os
import re
import sys

MODS = r"(?:(?:pub|abbrev|unfoldable|syntax)\s+)*"
DECLARES = re.compile(r"\s*" + MODS + r"((?:[^\s(){}:.,;=]+\s+)*?[^\s(){}:.,;=]+)(?:\s+\{[^{}]*\})*\s+:(?=\s|$)")
DATA = re.compile(r"\s*" + MODS + r"(?:data|record|open data)\s+(\S+)")
TOKEN = re.compile(r"\"(?:\\.|[^\"\\\n])*\"|[^\s(){}\[\].,;\"`|:@]+")
# a module of specs/ may not be called contracts
MOVED = ("crates/tight/specs/Contracts.antt", "crates/tight/proofs/Contracts.antt")


def files(top, *ends):
    for folder, dirs, names in os.walk(os.path.join(top, "crates")):
        dirs[:] = sorted(d for d in dirs if d != "out")
        for n in sorted(names):
            if n.endswith(ends):
                yield os.path.join(folder, n)


def text(path):
    with open(path, encoding="utf-8") as f:
        return f.read()


def declared(path):
    found = set()
    for line in text(path).splitlines():
        code = line.split("-- ")[0]
        m = DECLARES.match(code)
        if m:
            found |= set(m.group(1).split())
        m = DATA.match(code)
        if m:
            found.add(m.group(1))
    return found


def snake(name):
    name = name.replace("-", "_")
    name = re.sub(r"(?<=[a-z0-9₀-₉'])([A-Z])", lambda m: "_" + m.group(1), name)
    return "".join(p if not re.match(r"^[A-Z]", p) else p.lower() for p in re.split(r"(?<=_)", name)) if not name[0].isupper() else name


def move(top):
    for path in MOVED:
        path = os.path.join(top, path)
        if os.path.exists(path):
            os.rename(path, path.replace("Contracts", "FromContracts"))
    for p in files(os.path.join(top), ".antt"):
        if "/crates/tight/" in "/" + os.path.relpath(p, top):
            old = text(p)
            turned = re.sub(r"((?:specs|proofs)[./])Contracts\.", r"\1FromContracts.", re.sub(r"(?m)^pub mod Contracts$", "pub mod FromContracts", old))
            if turned != old:
                with open(p, "w", encoding="utf-8") as f:
                    f.write(turned)


def main(argv):
    dry = "--dry" in argv
    rest = [a for a in argv if a != "--dry"]
    top = rest[0] if rest else "."
    if not dry:
        move(top)
    own = collections.defaultdict(set)
    every = set()
    for p in files(top, ".antt"):
        names = declared(p)
        every |= names
        if os.path.basename(p) != "Proof.antt":
            for n in names:
                own[n].add(p)
    new = {}
    for n in own:
        if n[0].isupper() or not re.match(r"^[a-z◌]", n):
            continue
        s = snake(n)
        if s != n:
            new[n] = s
    bad = 0
    back = collections.defaultdict(set)
    for n, s in new.items():
        back[s].add(n)
    for s, ns in sorted(back.items()):
        # a lemma beside its function: the function has the name
        lemmas = {n for n in ns if "-" in n} | ({s} if s in own else set())
        if len(ns | lemmas) > 1:
            rest = (ns | lemmas) - lemmas
            if len(rest) == 1 and len(lemmas) == 1 and s + "_lem" not in own and s + "_lem" not in back:
                new[lemmas.pop()] = s + "_lem"
            elif not rest and len(lemmas) == 2 and s in lemmas:
                new[(lemmas - {s}).pop()] = s + "_lem"
            else:
                print(f"fall together: {' '.join(sorted(ns | lemmas))}")
                bad += 1
    changed = 0
    # a function and the definition that says what it returns may have one name
    functions = set()
    for p in files(top, ".rt"):
        functions |= set(re.findall(r"\bfn (\w+)", text(p)))
    for p in files(top, ".antt", ".rt", ".edit"):
        old = text(p)
        proof = os.path.basename(p) == "Proof.antt"
        local = declared(p) if proof else set()
        tokens = set(TOKEN.findall(old))
        use = {t: new[t] for t in tokens if t in new and t not in local}
        if not use:
            continue
        for t, s in use.items():
            if s in tokens and s not in use and s not in functions:
                print(f"already there: {os.path.relpath(p, top)}: {t} -> {s}")
                bad += 1

        def put(m):
            t = m.group(0)
            if t not in use:
                return t
            before = old[: m.start()]
            if proof and before.endswith(".") and "-" in t and not before.endswith(".{"):
                # a step or a goal that Rattle named
                return t
            return use[t]

        turned = TOKEN.sub(put, old)
        if turned != old:
            changed += 1
            if not dry:
                with open(p, "w", encoding="utf-8") as f:
                    f.write(turned)
    print(f"{len(new)} names, {changed} files, {bad} to look at")
    return 1 if bad else 0


if __name__ == "__main__":
    raise SystemExit(main(sys.argv[1:]))
