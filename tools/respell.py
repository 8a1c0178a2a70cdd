#!/usr/bin/env python3
"""Spells the names of specs/ and proofs/ as today's Rattle does: words in snake case, types in camel case.

usage: python3 tools/respell.py            at the top of the repository, after port.py, once

It turns each name that an .antt file declares with a small first letter and a capital within, as ofKey to of_key, wherever the name
stands: in .antt and .rt files, in must-fail edits, and in the pages of docs/ between backticks. A name with a dash keeps it, and each part is turned.
It stops, and writes nothing, where two names of one file would fall together.
"""
import os
import re
import sys

# Names whose turning is no plain snake case.
TABLE = {
    "every-getD": "every-get_or",
    "◌orElse◌": "◌or_else◌",
}
# Types and lemmas that share a word with other names: turned only in the files named.
HERE = {
    "total": ("Total", ("crates/laws/proofs/set/Sound.antt",)),
    "spanned": ("Spanned", ("crates/run/",)),
    # lemmas whose name a turned word would take
    "bits_key": ("bits_key-is", ("crates/gf/proofs/",)),
    "fit_of": ("fit_of-is", ("crates/pages/proofs/", "crates/set_questions/proofs/")),
    "in_order": ("in_order-is", ("crates/normal_form/proofs/",)),
    "lent_is": ("lent-is", ("crates/resolver/proofs/", "crates/lent_questions/proofs/", "crates/pages/proofs/", "crates/set_questions/proofs/")),
    "moved_at": ("moved_at-is", ("crates/set_changes/proofs/",)),
    "too_long": ("too_long-is", ("crates/set_changes/proofs/",)),
}
DECLARED = re.compile(r"^\s*(?:(?:pub|abbrev|unfoldable|private|opaque|record|data|inline)\s+)*([^\s(){}:;,\[\]]+)\s*:(?:\s|$)")
TYPED = re.compile(r"^\s*(?:pub )?(?:record|data) ([^\s(){}:;,\[\]]+)\s")
TOKEN = re.compile(r"[^\s(){}\[\],;.:`\"]+")
HUMP = re.compile(r"(?:^|(?<=-))[a-z][a-z0-9_]*[A-Z]")


def snake(name):
    parts = []
    for part in name.split("-"):
        if re.match(r"[a-z]", part):
            part = re.sub(r"(?<=[a-z0-9])([A-Z])", lambda m: "_" + m.group(1).lower(), part)
        parts.append(part)
    return "-".join(parts)


def files(ends):
    for top, folders, names in os.walk("crates"):
        folders[:] = sorted(f for f in folders if f != "out")
        for n in sorted(names):
            if n.endswith(ends):
                yield os.path.join(top, n)


def read(path):
    with open(path, encoding="utf-8", newline="") as f:
        return f.read()


def here(name, path):
    return name in HERE and path.startswith(HERE[name][1])


def main():
    turned = dict(TABLE)
    declared = {}
    for path in files(".antt"):
        own = set()
        for line in read(path).split("\n"):
            if line.lstrip().startswith("--"):
                continue
            m = DECLARED.match(line)
            if m:
                own.add(m.group(1))
        declared[path] = own
        for name in own:
            if HUMP.search(name) and name not in turned:
                turned[name] = snake(name)
    turned = {a: b for a, b in turned.items() if a != b}
    clash = [(path, a, turned[a]) for path, own in declared.items() for a in own if turned.get(a) in own and not here(turned[a], path)]
    by_new = {}
    for a, b in turned.items():
        by_new.setdefault(b, []).append(a)
    clash += [("two names", *v) for v in by_new.values() if len(v) > 1]
    every = set().union(*declared.values())
    shared = sorted(b for a, b in turned.items() if b in every)
    for c in clash:
        print("respell: fall together:", *c, file=sys.stderr)
    print("respell: names that exist already elsewhere:", " ".join(shared))
    if clash:
        return 1

    def turn(text, table):
        return TOKEN.sub(lambda m: table.get(m.group(0), m.group(0)), text)

    count = 0
    for path in files((".antt", ".rt", ".edit")):
        table = dict(turned)
        for a, (b, _) in HERE.items():
            if here(a, path):
                table[a] = b
        old = read(path)
        new = turn(old, table)
        if new != old:
            count += 1
            with open(path, "w", encoding="utf-8", newline="") as f:
                f.write(new)
    for top in ["README.md", "docs"]:
        for folder, _, names in os.walk(top) if os.path.isdir(top) else [("", [], [top])]:
            for n in names:
                path = os.path.join(folder, n)
                if path.endswith(".md"):
                    old = read(path)
                    new = re.sub(r"`[^`\n]*`", lambda m: turn(m.group(0), turned), old)
                    if new != old:
                        count += 1
                        with open(path, "w", encoding="utf-8", newline="") as f:
                            f.write(new)
    print(f"respell: {len(turned)} names in {count} files")
    return 0


if __name__ == "__main__":
    sys.exit(main())
