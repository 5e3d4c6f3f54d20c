#!/usr/bin/env python3
"""Lists what docs/DESIGN-PASS.md counts: the places of each point that the sources have, found by their shape.

usage: tools/places.py [FOLDER] [-v]    FOLDER: a checkout (default: this one); -v: each place by file and line
A shape finds candidates; the page says which of them are places and what became of each.
"""
import re
import sys
from collections import defaultdict
from pathlib import Path

ITEM = re.compile(r'^(?P<indent> *)(?:pub(?:\([a-z]+\))? )?(?:const )?(?:extern "C" )?fn (?P<name>\w+)', re.M)


def sources(top):
    return sorted(top.glob("crates/*/src/**/*.rt"))


def code_of(text):
    return re.sub(r"//[^\n]*", "", text)


def line_of(text, at):
    return text.count("\n", 0, at) + 1


def closing(text, at):
    """The place behind the bracket that closes the one at `at`."""
    depth = 0
    pairs = {"(": ")", "{": "}", "[": "]"}
    for i in range(at, len(text)):
        if text[i] in pairs:
            depth += 1
        elif text[i] in pairs.values():
            depth -= 1
            if depth == 0:
                return i + 1
    return len(text)


def functions(text):
    """Each function: name, line, parameters, contract, body."""
    for m in ITEM.finditer(text):
        open_at = text.index("(", m.end())
        params_end = closing(text, open_at)
        at, contract = params_end, []
        body = None
        # clauses are braces behind requires or ensures; the body is the brace that stands alone
        while at < len(text):
            c = re.compile(r"\s*(?:requires|ensures)(?: \w+)? *(?=\{)|[^{;]*?\b(?:requires|ensures)(?: \w+)? *(?=\{)").match(text, at)
            if c and "\n{" not in text[at:c.end()]:
                end = closing(text, c.end())
                contract.append(text[c.end() + 1:end - 1].strip())
                at = end
                continue
            brace = text.find("{", at)
            semi = text.find(";", at)
            if brace < 0 or (0 <= semi < brace):
                break
            body = text[brace:closing(text, brace)]
            break
        yield m["name"], line_of(text, m.start()), text[open_at + 1:params_end - 1], contract, body or ""


def split_params(params):
    out, depth, cur = [], 0, ""
    for ch in params:
        if ch in "([<{":
            depth += 1
        if ch in ")]>}":
            depth -= 1
        if ch == "," and depth == 0:
            out.append(cur.strip())
            cur = ""
        else:
            cur += ch
    if cur.strip():
        out.append(cur.strip())
    return [re.sub(r"\s+", " ", p) for p in out if p]


def own_shapes(path, text):
    """Point 1: enums of the shape of Option or Result, a flag or an answer beside a value, codes by number, sentinels."""
    for m in re.finditer(r"\benum (\w+)[^{;]*\{", text):
        body = text[m.end():closing(text, m.end() - 1) - 1]
        variants = re.findall(r"^\s*([A-Z]\w*)\s*(\([^)]*\)|\{[^}]*\})?", body, re.M)
        carrying = [v for v, held in variants if held]
        if re.search(r"\bRefused\b|\bNone\b|\bNo\b", body) and len(variants) <= 3:
            yield line_of(text, m.start()), f"enum {m[1]} of the shape of Result"
        if not carrying and re.search(r"\bDone\b", body):
            yield line_of(text, m.start()), f"enum {m[1]} with a variant for what is no refusal"
    for m in re.finditer(r"\bstruct (\w+)[^{;(]*\{", text):
        fields = re.findall(r"(\w+)\s*:\s*([\w<>\[\]; &']+)", text[m.end():closing(text, m.end() - 1) - 1])
        kinds = [t.strip() for _, t in fields]
        if len(fields) in (2, 3) and ("bool" in kinds or "Answer" in kinds):
            yield line_of(text, m.start()), f"struct {m[1]}: a flag or an answer beside a value"
    for m in re.finditer(r"setting::number\([^()]*\) [!=]= 0", text):
        yield line_of(text, m.start()), "an answer tested by its number"
    for m in re.finditer(r"return ROWS;|== ROWS\b|^\s*ROWS$", text, re.M):
        yield line_of(text, m.start()), "the table's length for no row"
    for m in re.finditer(r"\bmatch ([\w.\[\]:()]+) \{\s*(?:[\d|. =]+)=>", text):
        yield line_of(text, m.start()), f"a match of numbers: {m[1]}"
    for m in re.finditer(r"\bmatch \w+ \{\s*\w+::\w+ => \d+,", text):
        yield line_of(text, m.start()), "a number for each variant by hand"


def shape_of(body):
    body = re.sub(r"\s+", " ", body)
    body = re.sub(r"\b[ui](?:8|16|32|64)\b", "T", body)
    body = re.sub(r"\b0x[0-9a-f_]+\b|\b\d[\d_]*(?:[ui]\d+)?\b", "N", body)
    body = re.sub(r"\b(true|false)\b", "B", body)
    body = re.sub(r"([a-z_])\d+\b", r"\1N", body)
    return body


def twins(texts):
    """Point 2: functions of a crate that are one, once numbers, number types, truth values and digits in names are taken out."""
    found = defaultdict(list)
    for path, text in texts:
        crate = path.parts[path.parts.index("crates") + 1]
        for name, line, params, contract, body in functions(text):
            if len(body) < 40 or body.strip() == "{}":
                continue
            found[(crate, shape_of(params), shape_of(body))].append((path, line, name))
    for (crate, _, _), group in found.items():
        if len(group) > 1:
            yield crate, group


def loops(path, text):
    """Point 3: a loop that counts by hand."""
    for m in re.finditer(r"^\s*(?:'\w+: )?(while|loop)\b[^\n]*", text, re.M):
        yield line_of(text, m.start(1)), m[0].strip()


BY_HAND = [
    (r"fn (minimum|maximum|saturating_sub|at_most)\b", "the lesser, the greater or a difference by hand"),
    (r"fn (glyph|text_of|digit_of|value_of)\b", "printing or parsing by hand"),
    (r"fn (joined|high|low|product|times|wide|bit)\b", "a conversion by hand"),
    (r"fn (number_of_two|number_of_four|get[248]|put[248]|pair|word)\b", "bytes as a number by hand"),
    (r"\bstd::num::wrapping_", "a library function in place of its method"),
    (r"fn (to_signed|within|shifted)\w*", "a conversion or a clamp by hand"),
    (r"fn (minus|power|where_so|select)\b", "arithmetic or a choice by hand"),
    (r"match \w+ \{\s*\w+::\w+ => \d+,", "a number for each variant by hand"),
    (r"fn (luti4c|luti4s|narrow|pext|psel)\(o: \w+Operands\)", "a conversion of fields by hand"),
]


def by_hand(path, text):
    """Point 4."""
    for pattern, what in BY_HAND:
        for m in re.finditer(pattern, text):
            yield line_of(text, m.start()), f"{what}: {m[0].split('{')[0].strip()}"


def together(texts):
    """Point 5: four parameters or more that three functions or more of a crate share, and a fact in the contracts of three."""
    sets, facts = defaultdict(list), defaultdict(list)
    for path, text in texts:
        crate = path.parts[path.parts.index("crates") + 1]
        for name, line, params, contract, _ in functions(text):
            names = tuple(p for p in split_params(params) if "self" not in p)
            if len(names) >= 4:
                sets[crate].append((frozenset(names), f"{path.name}:{line} {name}"))
            for clause in set(re.findall(r"\b([A-Z]\w*[a-z]\w*)\b(?= [A-Za-z(])", " ".join(contract))):
                facts[(crate, clause)].append(f"{path.name}:{line} {name}")
    for crate, rows in sets.items():
        best = {}
        for i, (a, _) in enumerate(rows):
            for b, _ in rows[i + 1:]:
                common = a & b
                if len(common) >= 4:
                    best[common] = sorted(w for s, w in rows if common <= s)
        kept = [(c, w) for c, w in best.items() if len(w) >= 3]
        kept = [(c, w) for c, w in kept if not any(c < d and set(w) <= set(v) for d, v in kept)]
        for common, who in kept:
            yield crate, "parameters " + ", ".join(sorted(common)), who
    for (crate, fact), who in sorted(facts.items()):
        if len(who) >= 3 and fact not in ("Claims",):
            yield crate, f"fact {fact}", who


def buffers(path, text):
    """Point 6: parallel arrays, and a buffer with a length beside it."""
    arrays = re.findall(r"(\w+): &?(?:mut )?\[(\w+); ([\w *]+)\]", text)
    by_length = defaultdict(set)
    for name, kind, length in arrays:
        by_length[length].add(name)
    for length, names in by_length.items():
        if len(names) > 1:
            yield 1, f"arrays of one length {length}: {', '.join(sorted(names))}"
    for m in re.finditer(r"let mut (\w+) = \[[^;\]]{1,200}; ([A-Z0-9]\w*)\];", text):
        yield line_of(text, m.start()), f"a buffer: {m[1]}"


def switches(path, text):
    """Point 7: function pointers, dyn, and a match on a place or a task that runs a step."""
    for m in re.finditer(r"\bdyn \w+|: fn\(|\benum Task\b|match (?:place|task|question\[0\]) \{", text):
        yield line_of(text, m.start()), m[0]


def main():
    args = [a for a in sys.argv[1:] if a != "-v"]
    verbose = "-v" in sys.argv[1:]
    top = Path(args[0]) if args else Path(__file__).resolve().parent.parent
    texts = [(p.relative_to(top), code_of(p.read_text())) for p in sources(top)]
    proofs = sorted(top.glob("crates/*/proofs/**/*.antt"))

    def show(point, rows):
        rows = list(rows)
        print(f"point {point}: {len(rows)}")
        if verbose:
            for row in rows:
                print("   ", row)

    each = lambda f: [f"{p}:{line} {what}" for p, t in texts for line, what in f(p, t)]
    show(1, each(own_shapes))
    groups = list(twins(texts))
    print(f"point 2: {sum(len(g) for _, g in groups)} functions in {len(groups)} groups")
    if verbose:
        for crate, group in groups:
            print("   ", crate, ", ".join(f"{p.name}:{line} {name}" for p, line, name in group))
    show(3, each(loops))
    show(4, each(by_hand))
    show(5, (f"{crate}: {what}: {len(who)} functions ({'; '.join(who)})" for crate, what, who in together(texts)))
    show(6, each(buffers))
    show(7, each(switches))
    answers = [p for p in proofs if p.name == "Answers.antt"]
    invariants = [p for p in proofs if p.name == "Invariants.antt"]
    lines = sum(len(p.read_text().splitlines()) for p in proofs)
    print(f"point 8: {len(answers)} files of answers, {len(invariants)} of invariants, {lines} lines of proofs")


if __name__ == "__main__":
    main()
