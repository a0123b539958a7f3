#!/usr/bin/env python3
"""Brings the names of this repository's own definitions and lemmas to snake case, once, after the kit's port.py.

usage: tools/respell.py [--map]     at the top of the repository; --map prints the names and changes nothing

A definition in camel case (isVisible) and a lemma with dashes (pile-start) become is_visible and pile_start. Where a lemma would then have its definition's
name, the lemma gets _lem behind it. A name that a library has keeps its dashes (bit-and), and so does one that ends in a type's name (true-T).
Names of goals and steps, which a Proof.antt cites, are not touched: another tool turns those files.
"""
import collections
import os
import re
import sys

WORD = re.compile(r"[^\s()\[\]{},;.:\"⦃⦄⟨⟩λ`]+")
MODS = r"(?:pub|abbrev|unfoldable|opaque|data|record)"
DECLARED = re.compile(r"^\s*(?:%s\s+)*([^\s:(){},;=]+(?:\s+[^\s:(){},;=]+)*)\s+:(?:\s|$)" % MODS)
# lemmas that port.py had already turned to the name that their definition gets here
TAKEN = ["free_of", "head_at", "in_order", "last_up", "one_less", "step_right", "too_short", "first_run"]
KEPT = {"bit-and", "bit-or", "bit-xor", "true-T", "either-T"}


def files(ending):
    for folder, dirs, names in os.walk("crates"):
        dirs[:] = sorted(d for d in dirs if d != "out")
        for n in sorted(names):
            if n.endswith(ending):
                yield os.path.join(folder, n)


def is_walk(path):
    return path.endswith("/Proof.antt")


def snake(name):
    name = re.sub(r"(?<=[a-z0-9])([A-Z])", lambda m: "_" + m.group(1).lower(), name)
    name = re.sub(r"-([A-Z])", lambda m: "_" + m.group(1).lower(), name)
    return re.sub(r"(?<=[\w'])-(?=[\w'])", "_", name)


def table():
    declared, camel = set(), set()
    for p in files(".antt"):
        if is_walk(p):
            continue
        for line in open(p, encoding="utf-8"):
            m = DECLARED.match(re.split(r"(?:^|\s)--(?:\s|$)", line)[0])
            if m:
                declared |= set(m.group(1).split())
    names = {n: snake(n) for n in declared if re.match(r"[a-z_]", n) and snake(n) != n and n not in KEPT}
    definitions = {v for k, v in names.items() if re.search(r"[a-z0-9][A-Z]", k)} | (declared & set(names.values()))
    out = {}
    for k, v in names.items():
        if re.search(r"[a-z0-9][A-Z]", k):
            out[k] = v
        else:
            out[k] = v + "_lem" if v in definitions else v
    return out


def turn_word(word, before, path, names, ghost):
    if path.endswith(".antt") and word in TAKEN and before != "." and not (before == "" and False):
        return word + "_lem"
    if word in names:
        if is_walk(path) and before == "." and "-" in word:
            return word
        return names[word]
    return word


def turn(path, names):
    text = open(path, encoding="utf-8").read()
    out = []
    for line in text.split("\n"):
        mark = "--" if path.endswith(".antt") else "//"
        m = re.search(r"(?:^|\s)%s(?:\s|$)" % re.escape(mark), line)
        code, comment = (line[: m.start()], line[m.start():]) if m else (line, "")
        pieces, at = [], 0
        for w in WORD.finditer(code):
            if path.endswith(".rt") and in_string(code, w.start()):
                continue
            pieces += [code[at: w.start()], turn_word(w.group(), code[w.start() - 1: w.start()], path, names, True)]
            at = w.end()
        pieces.append(code[at:])
        comment = WORD.sub(lambda w: names[w.group()] if w.group() in names and re.search(r"[a-z][A-Z]", w.group()) else w.group(), comment)
        comment = re.sub(r"`([^`\s]+)`", lambda w: "`" + names.get(w.group(1), w.group(1)) + "`", comment)
        out.append("".join(pieces) + comment)
    new = "\n".join(out)
    if new != text:
        open(path, "w", encoding="utf-8").write(new)


def in_string(code, at):
    return code[:at].count('"') % 2 == 1


def main():
    if not os.path.isdir("crates"):
        print("run it at the top of the repository", file=sys.stderr)
        return 2
    names = table()
    if "--map" in sys.argv:
        for k in sorted(names):
            print(k, names[k])
        return 0
    for ending in (".antt", ".rt"):
        for p in list(files(ending)):
            turn(p, names)
    clash = collections.Counter(names.values())
    print(f"{len(names)} names", [n for n, c in clash.items() if c > 1])
    return 0


if __name__ == "__main__":
    raise SystemExit(main())
