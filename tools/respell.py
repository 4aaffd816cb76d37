#!/usr/bin/env python3
"""Respells the names of this repository's own definitions, lemmas, fields and constructors of antt: words in snake case (`rowLength` is
`row_length`, the lemma `read-back` is `read_back`), facts and types as they are. Functions of src/, exports, strings, inputs and outputs keep
their names: only names that specs/ and proofs/ declare turn, and only as whole words.

usage: tools/respell.py [--list]     at the top of the repository, once, right after port.py; --list shows the table and what falls together
"""
import collections
import glob
import os
import re
import sys

WORD = re.compile(r"[^\s(){}.;,@\"«»\[\]`:/|+*=<>&?!#\\%$~^]+")
HEAD = re.compile(r"^\s*(?:(?:pub|abbrev|unfoldable|opaque|private|instance)\s+)*([^\s:(){}|.]+)\s+:(?:\s|$)")
DATA = re.compile(r"^\s*(?:(?:pub|abbrev|unfoldable|private)\s+)*(?:record|data|ruleset)\s+([^\s:(){}]+)")
# Words that the programs print and pages name.
SPOKEN = {"clause-layout"}
# Fields that would be spelled as the definition that they are about.
FIELDS = {
    "all-granted": "names_are_granted",
    "is-end": "is_an_end",
    "is-fetch": "is_a_fetch",
    "number-taken": "number_is_taken",
    "right-length": "length_is_right",
}
SKIP = ("--", "use ", "mod ", "pub mod", "unfolding", "module ")


def own_files(*parts):
    return sorted(f for p in parts for f in glob.glob("crates/*/" + p, recursive=True))


def declared(path):
    """The names that a file of specs/ or a lemma file declares: at the margin, in a module, a record or a data type."""
    inside = False
    with open(path, encoding="utf-8") as f:
        for line in f:
            text = line.strip()
            if not text or text.startswith(SKIP):
                inside = inside and not text.startswith("module ")
                if text.startswith("module "):
                    inside = True
                continue
            if not line[0].isspace():
                found = DATA.match(line)
                inside = bool(found)
                if found:
                    yield found[1]
                    continue
            elif not (line.startswith("  ") and line[2:3].strip()):
                continue
            found = HEAD.match(line)
            if found and not found[1].startswith("λ"):
                yield found[1]


def snake(name):
    if re.search(r"[A-Z]", name[:1]):
        return name if "-" not in name else name.replace("-", "_")
    s = re.sub(r"(?<=[a-z0-9])([A-Z])", lambda m: "_" + m[1].lower(), name)
    s = re.sub(r"(?<=_in)(64)$", r"_\1", s)
    s = re.sub(r"^of(32|64)_", r"of_\1_", s)
    return s.replace("-", "_")


def turns(name):
    return re.match(r"[A-Za-z]", name) and "◌" not in name and not re.search(r"[^\w'-]", name)


def table():
    """The rows old to new, and the rows that turn in proofs/ alone: a lemma that would have its definition's name ends in _lem."""
    definitions = {n for f in own_files("specs/**/*.antt") for n in declared(f) if turns(n)}
    lemmas = {n for f in own_files("proofs/*.antt") for n in declared(f) if turns(n)} - definitions
    camel = {n for n in lemmas if re.search(r"[a-z0-9][A-Z]", n)}
    definitions |= camel
    lemmas -= camel
    rows = {n: FIELDS.get(n) or snake(n) for n in definitions}
    taken = set(rows.values())
    proofs = {}
    for n in sorted(lemmas):
        new = snake(n)
        other = new != n and new in lemmas
        if new in taken or other:
            new += "_lem"
        (rows if new != n and n != snake(n) else proofs)[n] = new
    return {o: n for o, n in rows.items() if o != n}, {o: n for o, n in proofs.items() if o != n}


def imported_elsewhere(rows):
    """Names that some file imports from the kit: those stay."""
    kept = set()
    for f in own_files("**/*.antt", "src/**/*.rt"):
        if "/out/" in f:
            continue
        with open(f, encoding="utf-8") as it:
            for m in re.finditer(r"use ([\w'.◌-]+)\.\{([^}]*)\}", it.read()):
                ours = m[1].startswith("Rattle.") and os.path.isdir("crates/" + m[1].split(".")[1])
                if not ours:
                    kept.update(w.split(" as ")[0].strip() for w in m[2].split(","))
    return kept & set(rows)


def texts():
    for f in own_files("**/*.antt", "src/**/*.rt", "must-fail/*.edit"):
        if "/out/" not in f:
            yield f
    yield from sorted(glob.glob("*.md") + glob.glob("docs/**/*.md", recursive=True))


# Text that is left as it is: strings, and characters of src/.
QUIET = {".rt": r"b?'(?:\\.|[^'\\\n])'|\"(?:\\.|[^\"\\\n])*\"", ".antt": r"\"(?:\\.|[^\"\\\n])*\""}
COMMENT = {".rt": r"//[^\n]*", ".antt": r"(?<![^\s(){};,])--[^\n]*"}


def turn_prose(text, rows):
    """A comment or a page: what stands in backquotes, but for a path; in a comment also a name with a capital inside."""

    def span(m):
        return m[0] if "/" in m[0] or " " in m[0] else turn(m[0], rows, {})

    return re.sub(r"`[^`\n]+`", span, text)


def turn_comment(text, rows):
    inside = {o: n for o, n in rows.items() if re.search(r"[a-z0-9][A-Z]", o)}
    return turn(turn_prose(text, rows), inside, {})


def turn_code(text, rows, alone, kind):
    parts = re.split(f"({QUIET[kind]}|{COMMENT[kind]})", text)
    for i, part in enumerate(parts):
        if i % 2 == 0:
            parts[i] = turn(part, rows, alone)
        elif part.startswith(("//", "--")):
            parts[i] = turn_comment(part, rows)
    return "".join(parts)


def turn_edit(text, rows, alone):
    """A must-fail edit: its lines old and new as the file that they change, the rest as a comment."""
    kind = ".antt" if re.search(r"(?m)^file:.*\.antt *$", text) else ".rt"
    lines = text.split("\n")
    for i, line in enumerate(lines):
        lines[i] = turn_code(line, rows, alone, kind) if line.startswith(("old:", "new:")) else turn_comment(line, rows)
    return "\n".join(lines)


def turn_file(path, text, rows, proofs):
    alone = proofs if "/proofs/" in path else {}
    if path.endswith(".md"):
        words = {o: n for o, n in rows.items() if o not in SPOKEN}
        return turn_prose(text, words)
    if path.endswith(".edit"):
        return turn_edit(text, rows, proofs if "file: proofs/" in text else {})
    return turn_code(text, rows, alone, os.path.splitext(path)[1])


def turn(text, rows, alone):
    """rows anywhere; alone, the names that a function of src/ may have too, where no dot stands beside them."""

    def word(m):
        if m[0] in rows:
            return rows[m[0]]
        if m[0] in alone and text[m.start() - 1 : m.start()] != "." and text[m.end() : m.end() + 1] != ".":
            return alone[m[0]]
        return m[0]

    return WORD.sub(word, text)


def main(argv):
    rows, proofs = table()
    for n in imported_elsewhere(rows):
        del rows[n]
    together = collections.defaultdict(set)
    for old, new in rows.items():
        together[new].add(old)
    said = []
    for f in texts():
        with open(f, encoding="utf-8") as it:
            text = it.read()
        words = set(WORD.findall(text))
        hit = sorted(old for old in words & set(rows) if rows[old] in words)
        if hit:
            said.append(f"{f}: " + " ".join(f"{o}>{rows[o]}" for o in hit))
        if "--list" not in argv:
            new = turn_file(f, text, rows, proofs)
            if new != text:
                with open(f, "w", encoding="utf-8") as it:
                    it.write(new)
    if "--list" in argv:
        for old in sorted(rows):
            print(old, rows[old])
        for old in sorted(proofs):
            print("in proofs/", old, proofs[old])
        for new, olds in sorted(together.items()):
            if len(olds) > 1:
                print("together:", new, *sorted(olds))
        print("\n".join(said))
    print(f"{len(rows)} names")
    return 0


if __name__ == "__main__":
    raise SystemExit(main(sys.argv[1:]))
