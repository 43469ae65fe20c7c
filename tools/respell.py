#!/usr/bin/env python3
"""Spells the repository's own definitions and lemmas in snake case: `operandOf` is `operand_of`, `none-above` is `none_above`.

usage: python3 tools/respell.py [--check] [FOLDER]     (at the top of the repository; FOLDER is `crates` if left out)

It was run once, right after the toolchain's own port.py, so that a reader can turn an older commit the same way and see what differs in
more than spelling. It turns the names that the .antt files of specs/ and proofs/ declare, types and facts left out, wherever a file
declares or imports them: in .antt files, in clauses and `ghost use` items of .rt files, and in must-fail edits. Variables and fields of
.antt files turn too, where they have a capital inside. A dash stays where it joins two names of functions, as `map_at-length`. A lemma
that would meet the function of its name gets `_lem`. Functions of src/, exported names, strings and inputs keep their spelling.
--check writes nothing and prints the table of names.
"""

import collections
import os
import re
import sys

NAME = r"[^\s(){}.;,@\"«»]+"
DECLARED = re.compile(r"^( *)((?:(?:pub|abbrev|unfoldable|record|data|mutual|infixl|infixr|infix) +)*)(" + NAME + r")((?: +\{[^{}\n]*\})*) :(?= |$)")
HEAD = re.compile(r"^((?:(?:pub|abbrev|unfoldable) +)+)(" + NAME + r")(?: |$)")
USE = re.compile(r"\b(?:ghost +)?use +([^\s;{]+)(\{[^}]*\})?(?: as ([^\s;]+))?", re.S)
# Functions of the library that a name of ours may be joined to by a dash.
LIBRARY = {"length", "set", "append", "take", "drop", "concat", "replicate", "get_or", "slice_index", "slice_set", "map", "reverse", "ones", "zero", "nil", "cons"}
# What Rattle itself makes in a function's proof file keeps its spelling.
WALK = "Proof.antt"


def snake(name, functions):
    def words(part):
        part = part.replace("getD", "get_or")
        part = re.sub(r"(?<=[a-z0-9])(?=[A-Z])", "_", part)
        return part.lower() if not re.match(r"^[A-Z]", part) else part

    parts = name.split("-")
    out = words(parts[0])
    for i, part in enumerate(parts[1:], 1):
        before, after = "-".join(parts[:i]), "-".join(parts[i:])
        joins = (before in functions or words(before) in LIBRARY) and (after in functions or words(after) in LIBRARY)
        out += ("-" if joins else "_") + words(part)
    return out


def files(root, *ends):
    for folder, dirs, names in os.walk(root):
        dirs[:] = sorted(d for d in dirs if d not in ("out", "target", ".git"))
        for n in sorted(names):
            if n.endswith(ends):
                yield os.path.join(folder, n)


def text_of(path):
    with open(path, encoding="utf-8") as f:
        return f.read()


def is_lemma_file(path):
    return path.endswith(".antt") and os.path.basename(path) not in (WALK, "Lib.antt", "Answers.antt", "Invariants.antt")


def module_of(path, root):
    parts = os.path.relpath(path, root)[: -len(".antt")].split(os.sep)
    return "Rattle." + ".".join(parts)


def declared_in(text):
    """The names that a lemma file declares, with whether each is a definition (a function) or a lemma, and its indentation."""
    found = {}
    kind = None
    for line in text.split("\n"):
        if line.lstrip().startswith("--"):
            continue
        m = DECLARED.match(line)
        if not m:
            m = HEAD.match(line)
            if not m:
                continue
            name, mark, indent = m[2], m[1], 0
        else:
            name, mark, indent = m[3], m[2], len(m[1])
        if name in ("use", "where", "let", "in", "elim", "ruleset", "→"):
            continue
        if re.match(r"^[A-Z]", name) or re.search(r"[()→λ◌≡=:]", name):
            continue
        if not re.match(r"^[A-Za-z+][\w+'′-]*$", name):
            continue
        found.setdefault(name, not indent and ("abbrev" in mark or "unfoldable" in mark))
    return found


def words_of(text):
    return set(re.split(r"[\s(){}.;,@\"«»`]+", text))


def fields_in(text):
    """The fields of the records that a file declares."""
    found, inside = set(), None
    for line in text.split("\n"):
        m = re.match(r"^( *)(?:pub |abbrev )*record ", line)
        if m:
            inside = len(m[1])
        elif inside is not None and line.strip() and len(line) - len(line.lstrip()) <= inside:
            inside = None
        elif inside is not None:
            m = DECLARED.match(line)
            if m:
                found.add(m[3])
    return found


def main():
    args = [a for a in sys.argv[1:] if a != "--check"]
    check = "--check" in sys.argv
    root = args[0] if args else "crates"
    lemma_files = [p for p in files(root, ".antt") if is_lemma_file(p)]
    own = {}  # module -> {name: is a function}
    for p in lemma_files:
        own[module_of(p, root)] = declared_in(text_of(p))
    fields = set()
    for p in lemma_files:
        fields |= fields_in(text_of(p))
    functions = {n for names in own.values() for n, is_function in names.items() if is_function}
    functions_new = {snake(n, functions) for n in functions}
    lemmas = {n for names in own.values() for n, is_function in names.items() if not is_function} - functions
    table = {}
    for n in sorted(functions | lemmas):
        new = snake(n, functions)
        table[n] = new
    # variables and fields with a capital inside, but for names of the libraries
    lent = set()
    for p in files(root, ".antt"):
        for m in USE.finditer(text_of(p)):
            if m[2] and not any(m[1].startswith("Rattle" + dot + c) for dot in ".·" for c in os.listdir(root)):
                lent |= {part for it in m[2].strip("{}").split(",") for part in it.strip().split(" as ")}
    camel = re.compile(r"(?<![^\s(){};,.@])[a-z][a-z0-9]*(?:[A-Z][A-Za-z0-9]*)+(?![^\s(){}.;,@'′₀-₉])")
    inside = set()
    for p in files(root, ".antt"):
        inside |= set(camel.findall(text_of(p)))
    variables = {n for n in inside if n not in lent and n not in table}
    for n in sorted(variables):
        table[n] = snake(n, functions)
    # a lemma that would meet a function, or a name that stands already
    taken = collections.defaultdict(set)
    for n, new in table.items():
        if n not in variables and n not in fields:
            taken[new].add(n)
    for new, olds in sorted(taken.items()):
        if len(olds) == 1:
            continue
        keep = [o for o in olds if o in functions] or [o for o in olds if o == new] or sorted(olds)[:1]
        if len(keep) > 1:
            print(f"look: {keep} would all be {new}", file=sys.stderr)
        for o in olds:
            if o not in keep[:1]:
                table[o] = new + "_lem"
                print(f"look: {o} would meet {keep[0]}: {new}_lem", file=sys.stderr)
    table = {o: n for o, n in table.items() if o != n}
    if check:
        for o, n in sorted(table.items()):
            print(f"{o}\t{n}")
        return
    word = re.compile(r"(?<![^\s(){};,@\"«».`])(" + "|".join(sorted(map(re.escape, table), key=len, reverse=True)) + r")(?![^\s(){}.;,@\"«»`'′₀-₉])") if table else None

    def turned(text, names, walk):
        def one(m):
            field = m[1] in fields and not walk and (text[m.start() - 1 : m.start()] == "." or re.match(r" [=:]\s", text[m.end() : m.end() + 3]))
            if m[1] not in names and not field or walk and "-" in m[1] and text[m.start() - 1 : m.start()] == ".":
                return m[0]
            return table[m[1]]

        return word.sub(one, text)

    for p in files(root, ".antt", ".rt", ".edit"):
        text = text_of(p)
        names = set()
        if p.endswith(".edit"):
            names = {n for n in table if re.search(r"[a-z0-9][A-Z]|-", n)}
        else:
            for m in USE.finditer(text):
                path, items = m[1], m[2]
                if items:
                    if path.startswith("Rattle.") or path.startswith("Rattle·"):
                        for it in items.strip("{}").split(","):
                            names.add(it.strip().split(" as ")[0].strip())
                elif path.startswith("Rattle."):
                    names.add(path.rsplit(".", 1)[1])
            if is_lemma_file(p):
                names |= set(own[module_of(p, root)])
            if p.endswith(".antt"):
                names |= variables | {n for n in table if re.search(r"[a-z0-9][A-Z]", n)}
        names &= set(table)
        if os.path.basename(p) == WALK:
            # what the file itself declares is a name of Rattle's or of one proof
            names -= {m[3] for m in map(DECLARED.match, text.split("\n")) if m}
        new = turned(text, names, os.path.basename(p) == WALK)
        for n in names:
            if table[n] in words_of(text) and n in words_of(text):
                print(f"look: {p}: {n} and {table[n]} both stand here", file=sys.stderr)
        if new != text:
            with open(p, "w", encoding="utf-8") as f:
                f.write(new)


main()
