#!/usr/bin/env python3
"""Carries Rattle and antt files that were written against the base over the renames and moves of house.tsv.

    house.py CRATE FILE..

rewrites the files, which belong to the crate CRATE. `use` lines are split and follow their names to the modules where
these are now. A name that changed is replaced in the file's text; so are a function's crate and name, a declared type,
and a field. Calls of writers get what they write first, then the buffer and the place. A name that the table does not
have stays as it is; the checker reports it if it is gone. Paths in proofs are not touched: they depend on the code."""

import collections
import pathlib
import re
import sys

EDGE = r"(?<![\w\-?′·.«])%s(?![\w\-?′·])"
USE = re.compile(
    r"^((?:pub |ghost )?use )Rattle·(\w+)(?:·specs\.specs|\.specs)\.([\w·]+)(?:\.\{([^}]*)\}| as (\S+?))(;?)$", re.M
)


def read_table(path):
    table = collections.defaultdict(dict)
    for line in path.read_text().splitlines():
        if line and not line.startswith("#"):
            kind, old, new = line.split("\t")
            if kind == "name":
                home, folder, rest = new.split(".", 2)
                table[kind][tuple(old.split(".", 2))] = (home, folder, *rest.rsplit(".", 1))
            else:
                table[kind][old] = new
    return table


def path_of(crate, home, folder, module):
    own = f"·{folder}.{folder}" if home == crate else f".{folder}"
    return f"Rattle·{home}{own}.{module}"


def follow_names(text, crate, names):
    renamed, aliased = {}, {}

    def follow(match):
        lead, home, module, items, alias, end = match.groups()
        if alias:
            moved = {new[:3] for old, new in names.items() if old[:2] == (home, module)}
            aliased.update({(alias, old[2]): new[3] for old, new in names.items() if old[:2] == (home, module)})
            place = path_of(crate, *moved.pop()) if len(moved) == 1 else path_of(crate, home, "specs", module)
            return f"{lead}{place} as {alias}{end}"
        groups = collections.OrderedDict()
        for item in re.split(r",\s*", items.strip()):
            name, _, other = item.partition(" as ")
            *place, new = names.get((home, module, name), (home, "specs", module, name))
            if new != name and not other:
                renamed[name] = new
            groups.setdefault(tuple(place), []).append(f"{new} as {other}" if other else new)
        return "\n".join(f"{lead}{path_of(crate, *p)}.{{{', '.join(g)}}}{end}" for p, g in groups.items())

    text = USE.sub(follow, text)
    # all at once: a new name may be another's old one
    if renamed:
        text = re.sub(EDGE % f"({'|'.join(map(re.escape, renamed))})", lambda m: renamed[m[1]], text)
    for (alias, old), new in aliased.items():
        text = re.sub(EDGE % re.escape(f"{alias}.{old}"), f"{alias}.{new}", text)
    return text


def follow_functions(text, functions):
    for old, new in functions.items():
        imported = re.search(rf"^use {old};", text, re.M)
        text = re.sub(rf"\b{old}\b", new, text)
        if imported:
            text = re.sub(rf"(?<![\w.:]){old.split('::')[1]}\(", new.split("::")[1] + "(", text)
    return text


def follow_types(text, types):
    for old, new in types.items():
        if re.search(rf"declared\.{old}\b|::{old};", text):
            text = re.sub(rf"(?<![\w\-′·]){old}(?![\w\-′])", new, text)
    return text


def arguments(text, start):
    """The arguments of the call whose parenthesis is at `start`, and the offset after it."""
    found, depth, begin, i, quote = [], 0, start + 1, start, ""
    while True:
        c = text[i]
        if quote:
            i += c == "\\"
            quote = "" if c == quote else quote
        elif c == '"' or (c == "'" and text[i - 1] == "b"):
            quote = c
        elif c in "([{":
            depth += 1
        elif c in ")]}":
            depth -= 1
        if not quote and (depth == 0 or (depth == 1 and c == ",")):
            found.append(text[begin:i].strip())
            begin = i + 1
            if depth == 0:
                return [a for a in found if a], i + 1
        i += 1


def follow_writers(text, writers):
    """`put(out, to, b)` is `put(b, out, to)`; a parameter list is turned in the same way."""
    place = 0
    while call := re.compile(rf"(?<![\w.:])({'|'.join(writers)})\((?=out\b)").search(text, place):
        args, end = arguments(text, call.end() - 1)
        text = text[:call.end()] + ", ".join(args[2:] + args[:2]) + text[end - 1:]
        place = call.end()
    return text


crate, files = sys.argv[1], sys.argv[2:]
table = read_table(pathlib.Path(__file__).with_suffix(".tsv"))
for path in map(pathlib.Path, files):
    old = path.read_text()
    new = follow_types(follow_functions(follow_names(old, crate, table["name"]), table["function"]), table["type"])
    for field, now in table["field"].items():
        new = re.sub(rf"(?<=\.){field}\b(?!-)", now, new)
    if path.suffix == ".rt":
        new = follow_writers(new, table["writer"])
    if new != old:
        path.write_text(new)
        print(path)
