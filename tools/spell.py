#!/usr/bin/env python3
"""Brings the repository's own definitions and lemmas to snake case: `isLetter` is `is_letter`, `digits-high` is `digits_high`.

usage: python3 tools/spell.py [--map FILE]     at the top of the repository; --map writes 'old<TAB>new' lines

Types and modules keep their capital, and names that a check makes of the code (the answers in proofs/F/) stay as they are.
A name whose new spelling is taken keeps its old one, and is listed.
"""
import os
import re
import sys

WORD = re.compile(r"[A-Za-z_][\w'₀-₉-]*")
DECLARED = re.compile(r"^(\s*)(?:abbrev |unfoldable |pub )*(?:record |data )?([A-Za-z_][\w'₀-₉-]*)((?:\s*[({][^(){}]*(?:\([^()]*\)[^(){}]*)*[)}])*)\s*:(?!:)", re.M)
IMPORT = re.compile(r"^(?:pub |ghost )*use ([^\s{]+?)\.?\{([^}]*)\}", re.M)


def files(top, ending, folders):
    for crate in sorted(os.listdir(os.path.join(top, "crates"))):
        for folder in folders:
            for at, dirs, names in os.walk(os.path.join(top, "crates", crate, folder)):
                dirs.sort()
                for name in sorted(names):
                    if name.endswith(ending):
                        yield os.path.join(at, name)


def of_a_function(path):
    """A file of answers: proofs/F/NAME.antt."""
    return "/proofs/" in path and os.path.basename(os.path.dirname(path)) != "proofs"


def snake(name):
    name = re.sub(r"(?<=[a-z0-9'])([A-Z])", r"_\1", name)
    return re.sub(r"[A-Z]", lambda m: m.group(0).lower(), name).replace("-", "_")


def own_names(top):
    """The names declared in specs/, those declared in proofs/ alone, those that come from elsewhere, and the fields of records."""
    defined, proved, taken, parts = set(), set(), set(), set()
    for path in files(top, ".antt", ("specs", "proofs")):
        text = open(path, encoding="utf-8").read()
        for m in IMPORT.finditer(text):
            if not m.group(1).startswith("Rattle.") or m.group(1).startswith("Rattle.std"):
                taken.update(n.strip().split(" as ")[0] for n in m.group(2).split(","))
        if not of_a_function(path):
            own = {m.group(2) for m in DECLARED.finditer(text)}
            parts.update(m.group(2) for m in DECLARED.finditer(text) if m.group(1).strip("\n"))
            # several constructors or fields may share a line
            for m in re.finditer(r"^\s+(?:pub )?((?:[A-Za-z_][\w'₀-₉-]* )+):(?!:)", text, re.M):
                own.update(m.group(1).split())
            (proved if "/proofs/" in path else defined).update(own)
    return defined, proved - defined, taken, parts


def respellings(top):
    """Old names and new ones: a definition has the plain spelling, and a lemma of the same name gets `_lem`."""
    defined, proved, taken, parts = own_names(top)
    own = {n for n in defined | proved if re.match(r"[a-z]", n) and n not in taken}
    table, kept = {}, []
    used = set(taken) | {n for n in defined if snake(n) == n}
    order = sorted(own, key=lambda n: (n not in defined, snake(n) != n and not re.search(r"[A-Z]", n), n))
    for name in order:
        for new in (snake(name), snake(name) + "_lem"):
            if new == name and (name in defined or name in parts):
                break
            if new not in used:
                used.add(new)
                if new != name:
                    table[name] = new
                break
        else:
            kept.append((name, snake(name)))
    return table, kept


def respell(text, table, words):
    def one(m):
        w = m.group(0)
        if w not in words:
            return w
        if snake(w) == w and m.start() and text[m.start() - 1] == "." and not text[m.end():].startswith("}"):
            return w
        return table[w]

    return WORD.sub(one, text)


def main(argv):
    top = os.getcwd()
    if not os.path.isdir(os.path.join(top, "crates")):
        print("spell: run it at the top of the repository", file=sys.stderr)
        return 2
    table, kept = respellings(top)
    everywhere = set(table)
    for path in files(top, ".antt", ("specs", "proofs")):
        text = open(path, encoding="utf-8").read()
        words = everywhere
        if of_a_function(path):
            local = set(re.findall(r"^([A-Za-z_][\w'-]*)\s*:", text, re.M))
            words = everywhere - {w for w in local if "-" in w}
        new = respell(text, table, words)
        if new != text:
            open(path, "w", encoding="utf-8").write(new)
    for path in files(top, ".rt", ("src",)):
        text = open(path, encoding="utf-8").read()
        cited = {n.strip() for m in IMPORT.finditer(text) for n in m.group(2).split(",")}
        words = {w for w in table if snake(w) != w and (w in cited or re.search(r"[A-Z]", w))}
        new = "".join(part if part.startswith('"') else respell(part, table, words) for part in re.split(r'("(?:[^"\\\n]|\\.)*")', text))
        if new != text:
            open(path, "w", encoding="utf-8").write(new)
    if "--map" in argv:
        with open(argv[argv.index("--map") + 1], "w", encoding="utf-8") as out:
            out.writelines(f"{a}\t{b}\n" for a, b in sorted(table.items()))
    for name, new in kept:
        print(f"kept: {name}, since {new} is taken")
    print(f"spell: {len(table)} names respelled, {len(kept)} kept")
    return 0


if __name__ == "__main__":
    raise SystemExit(main(sys.argv[1:]))
