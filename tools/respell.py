#!/usr/bin/env python3
"""Gives the repository's own definitions and lemmas today's spelling: words in snake case, no middle dot, no alias that only kept a definition apart
from a function of its name.

usage: python3 tools/respell.py          in the repository, once, right after the kit's port.py

Functions of src/, exported C names, strings, inputs and outputs keep their names. It goes by text, over the .rt, .antt and .edit files of crates/, and
says which names fall together.
"""

import collections
import os
import re
import sys

WORD = re.compile(r"[A-Za-z0-9_'₀-₉·◌-]+")
STRING = re.compile(r'(?m)^[ ]*(?:--|//).*$|b?"(?:[^"\\\n]|\\.)*"')
# a lemma's name in a definition: `pub NAME : ..` at the head of a line
DECLARED = re.compile(r"^[ ]*(?:(?:abbrev|unfoldable|record|data|pub)\s+)*([^\s:(){}]+)(?:\s*(?:\{[^}]*\}|\([^)]*\)))*\s*:(?=\s)", re.M)
# names of the library that are known as names beside a dash
LIBRARY = set("length take drop set replicate get_or map cond append sum min max ones slice bit_and bit_or".split())
# names that Rattle makes for a function's proof, or that only a proof's skeleton has
MADE = re.compile(r"^(returns|loop|invariant|decreases|overflow|bounds|offset_bounds|slice_bounds|then|else|in_ok|in_err)(-|$)|-spec$|-requires(-|$)")
# what a contract calls by another name than its definition has, since a parameter of the function hides that
DOTTED = {
    "AnyOrder·later": "AnyOrderLater",
    "Demand3·more": "Demand3More",
    "Demand3·whole": "Demand3Whole",
    "any-order·later": "any_order_later",
    "demand3·more": "demand3_more",
    "demand3·whole": "demand3_whole",
}


def files(*ends):
    for folder, dirs, names in os.walk("crates"):
        dirs[:] = sorted(d for d in dirs if d != "out")
        for name in sorted(names):
            if name.endswith(ends):
                yield os.path.join(folder, name)


def read(path):
    with open(path, encoding="utf-8") as f:
        return f.read()


def snake(part):
    part = re.sub(r"(?<![A-Za-z])get(D|_d)(?![A-Za-z])", "get_or", part)
    if re.match(r"[a-z]", part):
        part = re.sub(r"(?<=[a-z0-9])([A-Z])(?![A-Z])", lambda m: "_" + m.group(1).lower(), part)
    return part


def camel(word):
    """A word with each part between dashes in snake case."""
    if word in DOTTED:
        return DOTTED[word]
    return "-".join(snake(p) for p in word.split("-"))


def dashes(word, known):
    """A dash stays between two known names, and is `_` elsewhere."""
    parts = word.split("-")
    units = []
    i = 0
    while i < len(parts):
        for j in range(len(parts), i, -1):
            unit = "_".join(parts[i:j])
            if unit in known or j == i + 1:
                units.append((unit, unit in known or bool(re.match(r"[A-Z]", unit))))
                i = j
                break
    out = units[0][0]
    for (a, ka), (b, kb) in zip(units, units[1:]):
        out += ("-" if ka and kb else "_") + b
    return out


def aliases(text):
    """Takes out `x as M·x` where nothing else has the name x, else writes `x as the_x`."""
    said = []
    for x, alias in re.findall(r"([a-z][A-Za-z_]*) as ([A-Z][A-Za-z]*·[A-Za-z_]+)", text):
        new = camel(x)
        rest = text.replace(f"{x} as {alias}", "").replace(alias, "")
        hidden = re.search(rf"(?<![\w·.-]){re.escape(new)}\s*:(?!:)|[λ∀]\s*\(?{re.escape(new)}\b|let {re.escape(new)}\b", rest)
        imported = re.search(rf"[{{,]\s*{re.escape(x)}\s*[,}}]", rest)
        to = new
        if hidden or imported:
            to = "the_" + new
            said.append(f"{x} as {to}")
        text = text.replace(f"{x} as {alias}", x if to == new else f"{x} as {to}").replace(alias, to)
    return text, said


def main():
    own_crates = set(os.listdir("crates"))
    specs, lemmas, functions = set(), set(), set()
    for path in files(".antt", ".rt"):
        text = read(path)
        if path.endswith(".rt"):
            functions |= set(re.findall(r"\bfn (\w+)", text))
            continue
        found = {m for m in DECLARED.findall(text) if not m.startswith("--")}
        if "/specs/" in path:
            specs |= found
        else:
            # of a function's own proof only what is no goal
            own = "as tie" in text
            lemmas |= {m for m in found if not (own and (MADE.search(m) or re.search(rf"^{re.escape(m)} : tie\.", text, re.M)))}
    fields = set()
    for path in files(".antt"):
        for block in re.findall(r"record [^\n]* where\n((?:[ ]+[^\n]*\n|\n(?=[ ]))+)", read(path)):
            fields |= set(re.findall(r"^[ ]+(?:pub )?(\S+) :", block, re.M))
    known = {camel(s) for s in specs if not s.startswith("◌")} | functions | LIBRARY
    names = {}
    for name in sorted(specs | lemmas):
        new = camel(name)
        if "-" in new and not MADE.search(new):
            new = dashes(new, known)
        if new != name:
            names[name] = new
    # names that fall together: of a definition and a lemma the lemma gets `_lem`, and of two others the one that is in snake case already
    back = collections.defaultdict(set)
    for old in specs | lemmas:
        back[names.get(old, old)].add(old)
    for new, olds in sorted(back.items()):
        if len(olds) > 1:
            others = sorted(olds, key=lambda old: (old not in specs, camel(old) == old, old))[1:]
            for old in others:
                names[old] = new + "_lem"
            print(f"together: {' '.join(sorted(olds))} -> {new}, but {' '.join(others)} -> {new}_lem")

    for path in files(".antt", ".rt", ".edit"):
        text = before = read(path)
        if path.endswith((".rt", ".edit")) or "·" in text:
            text, said = aliases(text)
            for each in said:
                print(f"alias: {path}: {each}")
        words = set(WORD.findall(text))
        # what the file has from the library
        library = set()
        for module, group in re.findall(r"^\s*(?:ghost )?use ([\w.]+)\.\{([^}]*)\}", text, re.M):
            if not (module.startswith("Rattle.") and module.split(".")[1] in own_crates):
                library |= {w.strip() for w in re.split(r",| as ", group)}

        def turn(m):
            word = m.group(0)
            start = m.start()
            if text[start - 1 : start] == "." and word in fields and word in names:
                return names[word]
            if text[start - 1 : start] == "." and ("-" in word or camel(word) == word):
                return word
            if path.endswith(".rt") and names.get(word, "").endswith("_lem"):
                return word
            if word in library:
                return word
            if word in names:
                return names[word]
            if re.search(r"(^|-)[a-z][a-z0-9_]*[A-Z]", word) and "-" not in word:
                return camel(word)
            return word

        held = []

        def keep(m):
            if not m.group(0).endswith('"') or re.match(r"[ ]*(--|//)", m.group(0)):
                return m.group(0)
            held.append(m.group(0))
            return f"\x00{len(held) - 1}\x00"

        text = STRING.sub(keep, text)
        turned = WORD.sub(turn, text)
        for w in sorted(words):
            new = names.get(w) or (camel(w) if re.search(r"^[a-z][a-z0-9_]*[A-Z]", w) and "-" not in w else w)
            if new != w and new in words:
                print(f"clash: {path}: {w} -> {new}")
        turned = re.sub("\x00(\\d+)\x00", lambda m: held[int(m.group(1))], turned)
        if turned != before:
            with open(path, "w", encoding="utf-8") as f:
                f.write(turned)
    # a function's parameter or local that hides a definition which its clauses cite
    for path in files(".rt"):
        text = read(path)
        imports = set()
        for group in re.findall(r"^\s*ghost use [^{;]*\{([^}]*)\}", text, re.M):
            imports |= {w.strip().split(" as ")[-1] for w in group.split(",")}
        for m in re.finditer(r"\bfn (\w+)[^(]*\(([^)]*)\)([^{]*(?:\{(?:[^{}]|\{[^{}]*\})*\}\s*(?:requires|ensures)?[^{]*)*)", text):
            parameters = set(re.findall(r"(\w+):", m.group(2)))
            for hidden in sorted(parameters & imports):
                print(f"hidden: {path}: parameter {hidden} of {m.group(1)}")
    return 0


if __name__ == "__main__":
    sys.exit(main())
