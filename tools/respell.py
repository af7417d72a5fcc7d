#!/usr/bin/env python3
"""Brings this repository's own antt names to today's spelling, once, behind the kit's port.py.

usage: python3 tools/respell.py [--dry]     at the top of the repository

Definitions and lemmas that specs/ and proofs/*.antt declare are in snake case: `liesBeneath` becomes `lies_beneath`. A dash stays in a
lemma's name only where it joins two names, as in `splice-table`; a plain word is added with `_`, as in `all_at`. A lemma that would have
its function's name gets `_lem`. Names of src/, exported names, strings, inputs and outputs stay. Types and modules are in camel case already.
--dry changes nothing and prints the map, and the names that fall together.
"""

import collections
import os
import re
import sys

TOKEN = re.compile(r"(?<![\w'′₀-₉+-])[A-Za-zα-ω_][\w'′₀-₉]*(?:-[\w'′₀-₉]+)*")
SIGNED = re.compile(r"^(\s*)((?:unfoldable |abbrev |pub )*)([A-Za-zα-ω_][\w'′₀-₉-]*)\s+:(?:\s|$)")

# names of the library that stand in names of lemmas
LIBRARY = {
    "length", "take", "drop", "append", "concat", "map", "reverse", "get_or", "set", "sum", "filter", "not", "cond", "suc",
}

# where the rule alone would let two names fall together, or hide one behind a parameter, a field or a local name
GIVEN = {
    "aB": "a_upper_b",
    "links-fit": "link_room",
    "rows_fit": "field_room",
    "enum_row": "enum_row_lem",
    "field_fits": "field_fits_lem",
    "fields_in": "fields_in_lem",
    "found_below": "found_below_lem",
    "goes_on": "goes_on_lem",
    "in_order": "in_order_lem",
    "item_in": "item_in_lem",
    "laid_out": "laid_out_lem",
    "range_at": "range_at_lem",
    "row_words": "row_words_lem",
    "token_end": "token_end_lem",
    "word_room": "word_room_lem",
}

# words that are names of definitions and stand in lemmas' names as plain words
PLAIN = {
    "at", "below", "bit", "by", "end", "first", "found", "gone", "has", "hit", "is", "kept", "last", "left", "more", "name", "none", "of", "part", "rest", "right", "row",
    "same", "some", "start", "table", "value", "words", "bytes", "file", "files", "fields", "message", "enum", "said", "all",
}


def snake(word):
    word = re.sub(r"([a-z0-9])([A-Z])", r"\1_\2", word)
    word = re.sub(r"([A-Z])([A-Z][a-z])", r"\1_\2", word)
    return word.lower()


def is_camel(name):
    return name[0].islower() and re.search(r"[a-z0-9][A-Z]", name) is not None


def files(ending):
    for folder, dirs, names in os.walk("crates"):
        dirs[:] = sorted(d for d in dirs if d not in ("out", "data"))
        for name in sorted(names):
            if name.endswith(ending):
                yield os.path.join(folder, name)


def is_shared(path):
    """Whether what the file declares is a definition or a lemma of the repository, and not a part of one function's proof."""
    parts = path.split(os.sep)
    return parts[2] == "specs" or (parts[2] == "proofs" and len(parts) == 4)


def code_of(line):
    return re.sub(r"(^|\s)--.*", "", line.rstrip("\n"))


def declared():
    """name -> files, for definitions (no dash) and lemmas alike; and the fields of records."""
    found = collections.defaultdict(set)
    fields = set()
    for path in files(".antt"):
        if not is_shared(path):
            continue
        record = None
        for line in open(path, encoding="utf-8"):
            code = code_of(line)
            if not code.strip():
                continue
            indent = len(code) - len(code.lstrip())
            if record is not None and indent <= record:
                record = None
            if re.match(r"\s*(abbrev |unfoldable )*(pub )?(data|record) \S+.* where$", code):
                record = indent
                continue
            m = SIGNED.match(code)
            if m is None:
                continue
            if record is not None and indent > record:
                fields.add(m.group(3))
            found[m.group(3)].add(path)
    return found, fields


def joined(parts, names):
    """The parts of a lemma's name, with a dash only between two names."""
    out, i = [], 0
    while i < len(parts):
        for j in range(len(parts), i, -1):
            run = "_".join(parts[i:j])
            if run in names:
                out.append([run, True])
                i = j
                break
        else:
            if out:
                out[-1][0] += "_" + parts[i]
            else:
                out.append([parts[i], False])
            i += 1
    text = out[0][0]
    for k in range(1, len(out)):
        text += ("-" if out[k - 1][1] else "_") + out[k][0]
    return text


def spelling():
    found, fields = declared()
    plain = {}
    for name in found:
        if "-" not in name and is_camel(name):
            plain[name] = GIVEN.get(name, snake(name))
    defined = {plain.get(n, GIVEN.get(n, n)) for n in found if "-" not in n and not n[0].isupper()}
    stated = {plain.get(n, n) for n, where in found.items() if "-" not in n and not n[0].isupper() and any("/specs/" in p for p in where)}
    names = LIBRARY | (stated - PLAIN)
    to = dict(plain)
    for name in GIVEN:
        if name in found:
            to[name] = GIVEN[name]
    for name in found:
        if "-" not in name or name in GIVEN:
            continue
        parts = []
        for part in name.split("-"):
            word = "get_or" if part == "getD" else part if part[0].isupper() else (plain.get(part) or (snake(part) if is_camel(part) else part))
            parts.append(word)
        new = joined(parts, names)
        if new in defined:
            new += "_lem"
        if new != name:
            to[name] = new
    return to, found, fields


def respell_code(text, to):
    return TOKEN.sub(lambda m: to.get(m.group(0), m.group(0)), text)


def respell_antt(path, to, fields):
    text = open(path, encoding="utf-8").read()

    def one(m):
        name = m.group(0)
        before = text[m.start() - 1] if m.start() else ""
        if before == "." and name not in fields and not is_camel(name):
            return name
        return to.get(name, name)

    return TOKEN.sub(one, text)


def respell_rt(path, to):
    out = []
    for line in open(path, encoding="utf-8"):
        pieces = re.split(r'("(?:[^"\\]|\\.)*")', line)
        out.append("".join(p if p.startswith('"') else respell_code(p, to) for p in pieces))
    return "".join(out)


def clashes(to, found, fields):
    said = []
    back = collections.defaultdict(list)
    for old, new in to.items():
        back[new].append(old)
    for new, olds in back.items():
        if len(olds) > 1:
            said.append(f"{new}: from {', '.join(sorted(olds))}")
    tokens = collections.defaultdict(set)
    for path in files(".antt"):
        for line in open(path, encoding="utf-8"):
            code = code_of(line)
            for m in TOKEN.finditer(code):
                if m.start() and code[m.start() - 1] == ".":
                    continue
                tokens[m.group(0)].add(path)
    for new in back:
        if new in tokens:
            said.append(f"{new} (from {back[new][0]}): a name already, in {', '.join(sorted(tokens[new])[:3])}")
    for path in files(".rt"):
        text = open(path, encoding="utf-8").read()
        for m in re.finditer(r"fn (\w+)(?:<[^>]*>)?\(([^)]*)\)([^{]*(?:\{[^\n]*\}\n[^{]*)*)", text):
            params = set(re.findall(r"(\w+):", m.group(2)))
            clause = m.group(3)
            for name in TOKEN.findall(clause):
                if to.get(name) in params:
                    said.append(f"{path}: {m.group(1)}: parameter {to[name]} hides {name}")
        for m in re.finditer(r"^\s+(?:pub )?(\w+): ", text, re.M):
            if m.group(1) in back:
                said.append(f"{path}: field or parameter {m.group(1)} is spelled as {back[m.group(1)][0]} would be")
    return sorted(set(said))


def main():
    to, found, fields = spelling()
    if "--dry" in sys.argv:
        for old, new in sorted(to.items()):
            print(f"{old} -> {new}")
        print("----")
        for line in clashes(to, found, fields):
            print(line)
        return
    plain = {old: new for old, new in to.items() if is_camel(old) and "-" not in old}
    for path in list(files(".antt")):
        new = respell_antt(path, to, fields)
        open(path, "w", encoding="utf-8").write(new)
    for path in list(files(".rt")):
        new = respell_rt(path, plain)
        open(path, "w", encoding="utf-8").write(new)
    for folder, dirs, names in os.walk("."):
        dirs[:] = [d for d in dirs if d not in (".git", "crates", "out", "target", "tools")]
        for name in names:
            if name.endswith(".md"):
                path = os.path.join(folder, name)
                text = open(path, encoding="utf-8").read()
                open(path, "w", encoding="utf-8").write(respell_code(text, plain))


if __name__ == "__main__":
    main()
