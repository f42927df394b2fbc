#!/usr/bin/env python3
"""Turns the names that this repository's own specs/ and proofs/ declare to the library's spelling.

usage: python3 tools/respell.py [--list]      at the top of the repository, once, right after the kit's own script

- a word in camel case becomes one in snake case: `newTalk` is `new_talk`, `length-blockOf` is `length-block_of`;
- a dash in a definition, a field or a constructor of specs/ becomes `_`, and so does one in a lemma, unless it joins names: `was-put` is `was_put`,
  `none-above` is `none_above`, and `fresh_talk-lives`, which says what `lives` gives of `fresh_talk`, stays;
- names of src/, of the library, of goals and of what Rattle makes stay, and so does all text in strings.
It goes by whole words, over the sources, the definitions, the proofs, the must-fail edits and the pages. --list prints the names and writes nothing.
"""
import collections
import os
import re
import sys

ROOT = os.getcwd()
WORD = re.compile(r"[^\s(){}\[\];,.:λ→\"@«»|`&*/\\]+")
MADE = re.compile(r"^(in|then|else|if|loop|returns|invariant|decreases|overflow|bounds|slice_bounds|offset_bounds|nonzero|ghost|match|index|After|Start|In|Then|Else)[-_]|-(requires|init|preserved|smaller|clause-.*)$")
# names that would fall together with another one, and what they become instead
INSTEAD = {"lets-in": "let_in", "entry_read": "entry_read_lem", "same_tag": "same_tag_lem", "in-getD": "in-get_or"}


def files(root, ends):
    for folder, dirs, names in os.walk(root):
        dirs[:] = sorted(d for d in dirs if d not in ("out", ".git", "target"))
        for n in sorted(names):
            if n.endswith(ends):
                yield os.path.join(folder, n)


def read(p):
    with open(p, encoding="utf-8") as f:
        return f.read()


def snake(word):
    return re.sub(r"([a-z0-9'])([A-Z])", lambda m: m.group(1) + "_" + m.group(2).lower(), word)


def declared(text):
    """The names that a file declares: at the left of a signature, and after record or data. With each, its type's text."""
    for line in text.split("\n"):
        if line.lstrip().startswith(("--", "use ")):
            continue
        m = re.match(r"^\s*(?:unfoldable |abbrev )?(?:pub )?(?:record |data )(\S+)", line)
        if m:
            yield m.group(1), "type"
            continue
        m = re.match(r"^\s*(?:unfoldable |abbrev )?(?:pub )?((?:[^\s(){}:.,;λ→]+ )+): (.*)$", line)
        if m:
            for n in m.group(1).split():
                yield n, m.group(2)


def imported(text):
    """The names that a file takes from the library."""
    for m in re.finditer(r"use (Rattle\.std|lib|mathlib|Prim|borrow|denote|Rattle\.core)[\w.'-]*\.\{([^}]*)\}", text):
        for n in m.group(2).split(","):
            yield n.strip().split(" as ")[0]


def names():
    specs, proofs, kept, sources = set(), set(), set(), set()
    for p in files(os.path.join(ROOT, "crates"), (".antt",)):
        t = read(p)
        kept.update(imported(t))
        for n, ty in declared(t):
            if ty.startswith(("goal.", "need.", "Goals.", "Given.")):
                kept.add(n)
            elif "/specs/" in p:
                specs.add(n)
            else:
                proofs.add(n)
    for p in files(os.path.join(ROOT, "crates"), (".rt",)):
        t = read(p)
        kept.update(imported(t))
        sources.update(re.findall(r"\bfn (\w+)", t))
    used = set()
    for p in files(os.path.join(ROOT, "crates"), (".antt", ".rt")):
        for part in parts_of(re.sub(r"(--|//).*", "", read(p)), os.path.splitext(p)[1])[::2]:
            used.update(w for w in WORD.findall(part) if re.match(r"^[a-z]", w) and re.search(r"[a-z0-9][A-Z]", w))
    turned = {}
    joined = {snake(n) for n in specs | sources | kept} | {"suc", "zero", "cons", "nil", "refl", "true", "false", "length", "append", "add", "mul", "sub", "div", "mod", "take", "drop", "set", "map", "cond", "some", "none", "ok", "err"}
    for n in sorted(specs | proofs | used):
        if n not in INSTEAD and (n in kept or MADE.search(n)) or re.match(r"^[A-Z]", n) or not re.match(r"^[a-z]", n):
            continue
        new = n if re.search(r"(^|-)[A-Z]|_[A-Z]", n) else snake(n)
        parts = new.split("-")
        if len(parts) > 1 and (n in specs or not all(x in joined for x in parts)):
            new = "_".join(parts)
        new = INSTEAD.get(n, new)
        if new != n:
            turned[n] = new
    # a lemma that would get the name of what it is about, or of another one, says that it is one
    taken = collections.Counter(turned.values())
    for n in sorted(proofs - specs):
        new = turned.get(n)
        if new and "-" in n and n not in INSTEAD and (taken[new] > 1 or new in specs | proofs):
            turned[n] = new + "_lem"
    return turned


def parts_of(text, kind):
    """The text cut into runs that are turned, at even places, and runs that stay: a source's strings, and what a page has outside of backquotes."""
    if kind == ".antt":
        return [text]
    if kind == ".md":
        return [""] + re.split(r"(`[^`\n]*`)", text)
    return re.split(r'("(?:[^"\\\n]|\\.)*")', text)


def turn(text, kind, turned):
    out = []
    for i, part in enumerate(parts_of(text, kind)):
        out.append(part if i % 2 else WORD.sub(lambda m: turned.get(m.group(), m.group()), part))
    return "".join(out)


def clashes(turned):
    """Files in which the old and the new name both stand."""
    for p in files(os.path.join(ROOT, "crates"), (".antt", ".rt")):
        t = read(p)
        words = set()
        for part in parts_of(t, os.path.splitext(p)[1])[::2]:
            words.update(WORD.findall(part))
        by = collections.defaultdict(list)
        for w in words:
            if w in turned:
                by[turned[w]].append(w)
        for new, olds in sorted(by.items()):
            if new in words or len(olds) > 1:
                yield os.path.relpath(p, ROOT), olds, new


def main():
    turned = names()
    if "--list" in sys.argv:
        for a, b in sorted(turned.items()):
            print(a, b)
        for c in clashes(turned):
            print("both:", *c)
        return
    for p in list(files(os.path.join(ROOT, "crates"), (".antt", ".rt", ".edit"))) + list(files(ROOT, (".md",))):
        t = read(p)
        new = turn(t, os.path.splitext(p)[1], turned)
        if new != t:
            with open(p, "w", encoding="utf-8") as f:
                f.write(new)
    print(f"respell: {len(turned)} names")


if __name__ == "__main__":
    main()
