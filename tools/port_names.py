#!/usr/bin/env python3
"""Respells this repository's own definitions and lemmas by tools/port_names.tsv: words in snake case. The crate json,
which has the name of a library of the toolchain, becomes json_text.

Run once at the top, after the toolchain's own script. In .antt files each name of the table is respelt outside strings;
in .rt files and edits, which have Rust names beside them, only those with a dash or in camel case; in documents, those
between backquotes. In comments a name in camel case is respelt, a word with a dash is left.
"""

import pathlib
import re
import sys

TABLE = dict(
    line.split("\t")
    for line in pathlib.Path(__file__).with_suffix(".tsv").read_text().splitlines()
    if not line.startswith("#")
)
CAMEL = {old: new for old, new in TABLE.items() if "-" not in old and "_" not in old}
SPELT = {old: new for old, new in TABLE.items() if "-" in old or old in CAMEL}
NAME = re.compile(r'[^\s(){},;.":«»@|`]+')
PART = re.compile(r'"(?:[^"\\\n]|\\.)*"|\'"\'')


def respell(text, table):
    return NAME.sub(lambda m: table.get(m[0], m[0]), text)


def outside_strings(text, table):
    at, out = 0, []
    for m in PART.finditer(text):
        out += [respell(text[at : m.start()], table), m[0]]
        at = m.end()
    return "".join(out) + respell(text[at:], table)


def crate(text):
    return re.sub(r"\bRattle\.json\b", "Rattle.json_text", text)


def code(text, table, mark):
    lines = []
    for line in text.split("\n"):
        m = re.search(r"(?:^|\s)" + mark + r"(?:\s|$)", line)
        cut = m.start() if m else len(line)
        lines.append(outside_strings(line[:cut], table) + respell(line[cut:], CAMEL))
    return crate("\n".join(lines))


def document(text):
    text = re.sub(r"`json(?=[`/])", "`json_text", text)
    return re.sub(r"`[^`\n]+`", lambda m: respell(m[0], SPELT), text)


def main(root):
    if (root / "crates/json").is_dir():
        (root / "crates/json").rename(root / "crates/json_text")
        crates = root / "crates.txt"
        crates.write_text(re.sub(r"(?<![\w.])json\b", "json_text", crates.read_text()))
    for path in sorted(root.rglob("*")):
        parts = path.relative_to(root).parts
        if not path.is_file() or parts[0] in (".git", "target") or "out" in parts:
            continue
        if path.suffix == ".antt":
            change = lambda text: code(text, TABLE, "--")
        elif path.suffix in (".rt", ".edit"):
            change = lambda text: code(text, SPELT, "//")
        elif path.suffix == ".md" and "changes" not in parts:
            change = document
        else:
            continue
        old = path.read_text()
        new = change(old)
        if new != old:
            path.write_text(new)


main(pathlib.Path(sys.argv[1] if len(sys.argv) > 1 else "."))
