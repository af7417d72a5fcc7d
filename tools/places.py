#!/usr/bin/env python3
"""Counts the places of docs/DESIGN-PASS.md in crates/*/src.

    tools/places.py          the counts, crate by crate
    tools/places.py POINT    the places of one of the points below, a line each
"""
import collections
import pathlib
import re
import sys

ROOT = pathlib.Path(__file__).resolve().parent.parent
SIGNATURE = re.compile(r"^[ \t]*(?:pub(?:\([a-z]+\))? )?(?:extern \"C\" )?fn (\w+)(?:<[^(]*>)?\(([^{;]*?)\)\s*(?:->[^{;]*?)?(?=\n|\{|ensures|requires)", re.M | re.S)
REQUIRES = re.compile(r"^\s*requires (?:\w+ )?\{ (.*) \}$", re.M)


def sources():
    for crate in sorted((ROOT / "crates").iterdir()):
        for path in sorted((crate / "src").glob("**/*.rt")):
            yield crate.name, path.relative_to(ROOT), path.read_text()


def lines(pattern):
    seek = re.compile(pattern)
    for crate, path, text in sources():
        for number, line in enumerate(text.splitlines(), 1):
            if not line.lstrip().startswith("//") and seek.search(line):
                yield crate, f"{path}:{number}: {line.strip()}"


def signatures(*names):
    """Functions that take parameters of all these names."""
    for crate, path, text in sources():
        for m in SIGNATURE.finditer(text):
            taken = re.findall(r"(\w+)\s*:", m[2])
            if all(n in taken for n in names):
                yield crate, f"{path}:{text[:m.start()].count(chr(10)) + 1}: fn {m[1]}({', '.join(taken)})"


def repeated():
    """Clauses `requires` that stand in three or more contracts."""
    found = collections.defaultdict(list)
    for crate, path, text in sources():
        for m in REQUIRES.finditer(text):
            found[m[1]].append((crate, f"{path}:{text[:m.start(1)].count(chr(10)) + 1}: {m[1]}"))
    for places in found.values():
        if len(places) >= 3:
            yield from places


POINTS = {
    "1-enums": lambda: lines(r"\benum [A-Z]"),
    "1-flags": lambda: lines(r"^\s*(pub )?(verdict|opening|naming|whole|changed|way|state|expect): "),
    "1-numbers": lambda: lines(r"\b(t|kind|shape|label|mode|number|version)\b (==|!=|<=) [0-9]+|word_at\(\w+, (1|3|4|5|6|12)\) (==|!=) [0-9]+|trailer_word\(image, 5\)|link\[8\] == 0|f\[3\] == 2"),
    "2-twins": lambda: lines(r"fn (find_(message|enum)|(message|enum)_(name|row|up|link_row|path|exists|full_name|by_full_name)|is_(message|enum)_path|(messages|enums)_(short|owned)|(values|oneofs|all_fields)_owned|(image|links|pool)_by|front_(bytes|words)|put_(bytes|words|front)|(field|value)_by_(name|number|name_or_json)|(words|bytes)_part|part_of|same_(bytes|words)|(read|split)_(signed|unsigned)|(signed|unsigned)_default|clear|file_(image|links|pool)|read_full)\("),
    "3-loops": lambda: lines(r"^\s*(while|loop)\b"),
    "4-by-hand": lambda: lines(r"fn (same_\w+|is_prefix_of|ends_with|to_upper|number|value|word_of|bytes_of|type_of|from_proto_type|split_\w+|tell_\w+|reason|cause_of|cause_from|answer_\w+|verdict_number|flat_number|answered|is_missing|put_bytes|put_words)\("),
    "5-image": lambda: signatures("image", "pool"),
    "5-shelf": lambda: signatures("words", "bytes", "p"),
    "5-facts": repeated,
    "6-buffers": lambda: lines(r"\[0u(8|32); [A-Za-z0-9_:]+\]|^\s*pub \w+: \[u(8|32); "),
    "7-switches": lambda: lines(r"match (kind|wanted|mode|query|number)\b"),
}


def main(argv):
    if len(argv) > 1:
        for _, place in POINTS[argv[1]]():
            print(place)
        return
    crates = sorted({crate for crate, _, _ in sources()})
    print("| Point | all | " + " | ".join(crates) + " |")
    print("|" + "---|" * (len(crates) + 2))
    for name, find in POINTS.items():
        counts = collections.Counter(crate for crate, _ in find())
        print(f"| {name} | {sum(counts.values())} | " + " | ".join(str(counts[c]) if counts[c] else "" for c in crates) + " |")


main(sys.argv)
