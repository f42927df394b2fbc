#!/usr/bin/env python3
"""Lists places in src/ that may be written better, by eight points; reading decides of each.

    python3 tools/places.py            counts, a row for each point
    python3 tools/places.py -v         each place, too
    python3 tools/places.py -v 3 5     of these points only

1 values that stand for none, flags, numbers for kinds; 2 twins; 3 loops by an index; 4 conversions,
comparisons and printing by hand; 5 facts and parameters that come together; 6 parallel arrays, lengths
beside buffers, index tests; 7 enums that only say which test to run; 8 answers and lemmas (counted only).
"""
import difflib
import itertools
import pathlib
import re
import sys
from collections import defaultdict

TOP = pathlib.Path(__file__).resolve().parent.parent
WORD = re.compile(r"b?\"(?:[^\"\\]|\\.)*\"|b?'(?:[^'\\]|\\.)'|'\w+|0x[0-9a-f_]+|\d[\d_]*(?:[ui]\w+)?|\w+|[^\s\w]")


def sources():
    for path in sorted(TOP.glob("crates/*/src/**/*.rt")):
        yield path.relative_to(TOP), path.read_text()


def bare(text):
    """The text with comments blanked."""
    return re.sub(r"//[^\n]*", "", text)


def line_of(text, at):
    return text.count("\n", 0, at) + 1


def closing(text, at):
    """Where the bracket that opens at `at` is closed."""
    pairs = {"{": "}", "(": ")"}
    opened, closed = text[at], pairs[text[at]]
    depth = 0
    for place in range(at, len(text)):
        if text[place] == opened:
            depth += 1
        elif text[place] == closed:
            depth -= 1
            if depth == 0:
                return place
    return len(text)


def functions(text):
    """Name, line, parameters, clauses and body of each function with a body."""
    code = bare(text)
    for found in re.finditer(r"\bfn (\w+)(?:<[^(]*?>)?\(", code):
        end = closing(code, found.end() - 1)
        params = code[found.end():end]
        at = end + 1
        clauses = []
        body = None
        result = re.match(r"[^{;]*?(?=\n\s*(?:requires|ensures)|\{|;)", code[at:])
        at += result.end() if result else 0
        while True:
            clause = re.match(r"\s*(requires|ensures)\*?(?: \w+)? (?=\{)", code[at:])
            if clause:
                opened = at + clause.end()
                closed = closing(code, opened)
                clauses.append((clause.group(1), " ".join(code[opened + 1:closed].split())))
                at = closed + 1
                continue
            start = re.match(r"\s*\{", code[at:])
            if start:
                opened = at + start.end() - 1
                body = code[opened:closing(code, opened) + 1]
            break
        if body is not None:
            yield found.group(1), line_of(code, found.start()), params, clauses, body


def matches(pattern, flags=0, text_of=bare):
    for path, text in sources():
        code = text_of(text)
        for found in re.finditer(pattern, code, flags):
            yield f"{path}:{line_of(code, found.start())}", " ".join(found.group(0).split())[:100]


def point_1():
    yield from matches(r"\bNOBODY\b(?=[^;\n]*=\s*\d)|\bNOBODY\b(?! *:)")
    yield from matches(r"//[^\n]*(?:, or 0\b|0 where there is none|0 before the first|number that stands for)[^\n]*", text_of=lambda t: t)
    yield from matches(r"\b\w+\(u8\),|\bErr\(_\) => 1\b|^\s+(?:pub(?:\(crate\))? )?\w+: bool,", re.M)
    yield from matches(r"\b[A-Z]\w*(?:::\w+)? \{(?:\s*\w+: 0,?){3,}\s*\}")
    for path, text in sources():
        code = bare(text)
        for found in re.finditer(r"\benum (\w+)[^{]*\{", code):
            inside = code[found.end():closing(code, found.end() - 1)]
            variants = re.findall(r"^    (\w+)[ ({,]", inside, re.M)
            if len(variants) == 2 and ("(" in inside or "{" in inside):
                yield f"{path}:{line_of(code, found.start())}", f"enum {found.group(1)} of two: {variants}"


def shape(body):
    """The body with names of locals, constants, variants and literals taken out."""
    out, seen = [], {}
    words = WORD.findall(body)
    for place, word in enumerate(words):
        after = words[place + 1] if place + 1 < len(words) else ""
        if re.match(r"b?[\"']|\d", word):
            out.append("L")
        elif re.match(r"[A-Z]", word):
            out.append("T")
        elif re.match(r"\w", word) and word not in KEYWORDS and after != "(":
            out.append(seen.setdefault(word, f"v{len(seen)}"))
        else:
            out.append(word)
    return out


KEYWORDS = set("let mut if else for in while loop match return break continue self fn as ref move true false Some None Ok Err usize u8 u16 u32 u64".split())


def point_2():
    known = []
    for path, text in sources():
        crate = path.parts[1]
        for name, line, _, _, body in functions(text):
            form = shape(body)
            if len(form) >= 9 and name not in ("fmt", "main"):
                known.append((crate, f"{path}:{line}", name, form))
    for one, other in itertools.combinations(known, 2):
        if one[0] != other[0] and one[2] != other[2]:
            continue
        small = min(len(one[3]), len(other[3]))
        if small / max(len(one[3]), len(other[3])) < 0.8:
            continue
        alike = difflib.SequenceMatcher(None, one[3], other[3], autojunk=False).ratio()
        if alike >= (1.0 if small < 14 else 0.93 if small < 30 else 0.85):
            yield one[1], f"{one[2]} and {other[2]} ({other[1]}), {alike:.2f}"


def point_3():
    yield from matches(r"\bwhile\b[^{]*|\bfor \w+ in [^{\n]*\.\.[^{\n]*|\b\w+ \+= \w+;")


def point_4():
    yield from matches(r"\bimpl (?:Partial)?(?:Eq|Ord)\b[^{]*|\bfn fmt_\w+|\bfn (?:same|is)\(")
    yield from matches(r"\bfn \w+\((?:&?self|\w+: [A-Z]\w*)\) -> (?:&'static str|u8|u16|u32|\[u\w+; \w+\])(?=[^}]*?\{\s*match)")
    yield from matches(r"\bfn (?:of_|from_|as_|to_)\w+\([^)]*\)[^{]*")
    yield from matches(r"\bErr\(\w+\) => (?:return )?Err\([^\n]*|\.is_err\(\)[^{]*\{\s*return Err[^\n]*|\bSome\((\w+)\) => Some\([^\n]*|\bOk\((\w+)\) => Ok\(\2\)[^\n]*")
    yield from matches(r"let \[a, b, c, d\] = [^\n]*|\blet (?:Some|Ok)\(\w+\) = [^;]*? else \{\s*return None;")


def facts(kind, text):
    text = re.sub(r"\b(self|result)\b", "self", text)
    if kind == "requires":
        return [part.strip(" (){}") for part in re.split(r" × ", text)]
    return [part.strip(" (){}") for part in re.split(r" → ", text)[:-1] if not re.match(r"^\(\w[\w ]* : [^)]*\)$", part.strip())]


def point_5():
    where, together, alone = defaultdict(set), defaultdict(list), defaultdict(set)
    for path, text in sources():
        crate = path.parts[1]
        for name, line, params, clauses, _ in functions(text):
            for kind, clause in clauses:
                for fact in facts(kind, clause):
                    fact = re.sub(r"\b(\w+)\.(?:now|old|new|entry\.now)\b", r"\1", fact)
                    fact = re.sub(r"\([a-z ]+ : [^)]*\) (?:→ )?", "", fact)
                    fact = re.sub(r"^\(?[a-z]\w*( m| key)?: .*$", "", fact)
                    if len(fact) > 6:
                        where[(crate, fact)].add(f"{name}:{line}")
            names = sorted(re.findall(r"(?:^|,)\s*(?:mut )?(\w+):", params))
            for one in names:
                alone[(crate, one)].add(name)
            for pair in itertools.combinations(names, 2):
                together[(crate, pair)].append(name)
    for (crate, fact), places in sorted(where.items()):
        if len(places) >= 3:
            yield crate, f"fact in {len(places)}: {fact}"
    for (crate, (one, other)), places in sorted(together.items()):
        least = min(len(alone[(crate, one)]), len(alone[(crate, other)]))
        if len(places) >= 3 and len(set(places)) >= 0.75 * least:
            yield crate, f"parameters in {len(places)}: {one}, {other}"


def point_6():
    for path, text in sources():
        code = bare(text)
        for found in re.finditer(r"\bstruct (\w+)[^{;(]*\{", code):
            inside = code[found.end():closing(code, found.end() - 1)]
            arrays = re.findall(r"(\w+): \[[^;\]]+; (\w+)\]", inside)
            counts = re.findall(r"\b(length|len|count|gates|total|used): u\w+", inside)
            sizes = [size for _, size in arrays]
            if any(sizes.count(size) > 1 for size in sizes):
                yield f"{path}:{line_of(code, found.start())}", f"{found.group(1)}: arrays of one size {arrays}"
            if arrays and counts:
                yield f"{path}:{line_of(code, found.start())}", f"{found.group(1)}: {counts} beside {arrays}"
    yield from matches(r"\bif \w+ < [\w.]+(?:\.len\(\)|MAX_GATES|\b32) \{[^}]*\[\w+\][^}]*\}|\.rotate_left\(count\)|\.truncate\(")


def point_7():
    for path, text in sources():
        code = bare(text)
        for found in re.finditer(r"\benum (\w+) \{", code):
            inside = code[found.end():closing(code, found.end() - 1)]
            if "(" in inside or "{" in inside:
                continue
            if re.search(r"impl " + found.group(1) + r" \{[^}]*fn \w+\(self, \w+: \w+\) -> bool", code):
                yield f"{path}:{line_of(code, found.start())}", f"enum {found.group(1)} says which test to run"
    yield from matches(r"\bdyn \w+|: fn\(")


def point_8():
    for crate in sorted(TOP.glob("crates/*")):
        answers = lemmas = 0
        for path in crate.glob("proofs/**/*.antt"):
            text = path.read_text()
            if path.name == "Answers.antt":
                answers += len(re.findall(r"^pub [\w-]+ :", text, re.M))
            elif path.name not in ("Invariants.antt",):
                lemmas += len(re.findall(r"^(?:abbrev |unfoldable )?(?:pub )?[\w'-]+ :", text, re.M))
        if answers or lemmas:
            yield crate.name, f"{answers} answers, {lemmas} lemmas"


def main():
    asked = [int(arg) for arg in sys.argv[1:] if arg.isdigit()] or range(1, 9)
    for point in asked:
        found = list(dict.fromkeys(globals()[f"point_{point}"]()))
        if point == 8:
            answers = sum(int(text.split()[0]) for _, text in found)
            lemmas = sum(int(text.split()[2]) for _, text in found)
            print(f"8: {answers} answers, {lemmas} lemmas")
        else:
            print(f"{point}: {len(found)}")
        if "-v" in sys.argv:
            for place, text in found:
                print(f"   {place}  {text}")


main()
