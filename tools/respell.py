#!/usr/bin/env python3
"""Respells this repository's own definitions and lemmas as today's Rattle does, by the table spelling.tsv beside this script.

usage: python3 tools/respell.py [FOLDER]     once, right after port.py, at the top of the repository (or of FOLDER)

Words go to snake case (`stepOf` to `step_of`, `back-a` to `back_a`), facts to camel case (`noRow`, which port.py makes `no_row`, to `NoRow`);
a lemma that would have its definition's name gets `_lem`.
Types, modules, functions of src/, exported C names, strings, inputs and outputs keep their names.
In crates/ the code of .antt files, the clauses and comments of .rt files and the texts of .edit files turn; in README.md and docs/ (not in
docs/landings/, which is history) code spans turn.
"""

import os
import re
import sys

WORD = re.compile(r'[^\s(){}.;,@"«»`]+')
SPAN = re.compile(r"`[^`\n]+`")
HERE = os.path.dirname(os.path.realpath(__file__))

# A field of a `Claims` record and the lemma that proves it had one name; the definition that both speak of has the lemma's snake case too.
FIELDS = {
    "top-bit": "top_bit",
    "predicate-words": "predicate_words",
    "predicate-readings": "predicate_readings",
    "narrow-touches": "narrow_touches",
}
# Names that mean something else in other files: only in these.
ONLY_IN = {
    "is_read": ("crates/stretch/proofs/",),
    "all_read": ("crates/stretch/proofs/permitted/",),
    # The check has a name spelled so for a call in `listing`.
    "form-place": ("crates/decoder/",),
    # A fact of a list is a type; `machine` has a lemma of the name.
    "no_row": ("crates/encoding/",),
    # The lemma; its crate's definition keeps the name.
    "chunks_of": ("crates/narrow/proofs/Accepted.antt",),
}


def table():
    with open(os.path.join(HERE, "spelling.tsv"), encoding="utf-8") as f:
        return dict(line.rstrip("\n").split("\t") for line in f if line.strip())


def turn(text, words, path):
    def one(m):
        w = m[0]
        new = words.get(w)
        if new is None or (w in ONLY_IN and not path.startswith(ONLY_IN[w])):
            return w
        if w in FIELDS:
            before, behind = text[: m.start()], text[m.end() :]
            if before.endswith(".") or re.search(r"(?m)^ +(pub )?$", before[-12:]) and behind.startswith(" :") or re.search(r"[{;]\s*$", before[-40:]) and behind.startswith(" ="):
                return FIELDS[w]
        return new

    return WORD.sub(one, text)


def turn_code(mark):
    """Code turns whole; of a comment, which begins with the mark, its code spans, and words in camel case, which no English word is."""

    def turn_lines(text, words, path):
        camel = {w: n for w, n in words.items() if re.match(r"[a-z]+[0-9a-z]*[A-Z]", w)}
        out = []
        for line in text.split("\n"):
            m = re.match(r"^(\s*" + mark + r")(.*)$", line)
            if m:
                spans = SPAN.sub(lambda s: turn(s[0], words, path), m[2])
                out.append(m[1] + turn(spans, camel, path))
            else:
                out.append(turn(line, words, path))
        return "\n".join(out)

    return turn_lines


def turn_md(text, words, path):
    return SPAN.sub(lambda s: turn(s[0], words, path), text)


def main(argv):
    root = argv[0] if argv else "."
    words = table()
    turned = 0
    for folder, dirs, files in os.walk(root):
        dirs[:] = sorted(d for d in dirs if d not in ("out", ".git", "target", "landings"))
        for f in sorted(files):
            full = os.path.join(folder, f)
            path = os.path.relpath(full, root)
            kind = None
            if path.startswith("crates/"):
                if f.endswith(".antt") or f.endswith(".edit"):
                    kind = turn_code("--")
                elif f.endswith(".rt"):
                    kind = turn_code("//")
            elif f.endswith(".md") and (path == "README.md" or path.startswith("docs/")):
                kind = turn_md
            if kind is None:
                continue
            with open(full, encoding="utf-8") as it:
                old = it.read()
            new = kind(old, words, path)
            if new != old:
                turned += 1
                with open(full, "w", encoding="utf-8") as it:
                    it.write(new)
    print(f"respell: {turned} files turned, by {len(words)} names")
    return 0


if __name__ == "__main__":
    raise SystemExit(main(sys.argv[1:]))
