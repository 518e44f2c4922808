#!/usr/bin/env python3
"""Brings the repository's own definitions and lemmas to one spelling: words in snake case.

usage: python3 tools/snake_names.py     at the top of the repository, once, after the kit's port.py

It renames what specs/ and proofs/*.antt of the crates declare and nothing else: no name of a
library, no function of src/, no must-fail edit. A name in camel case or with a dash gets
underscores; names that would then fall together have one of their own in OWN. It stops, and
writes nothing, where a new name is in use already.
"""

import os
import re
import sys

# Names that the rule would let fall together, or leave unread.
OWN = {
    "nearIn": "near_end",
    "farIn": "far_end",
    "inOrder": "order_voltages",
    "wayB": "has_way",
    "wayB-is": "has_way_is",
    "is-got": "was_got",
    "isnt-got": "was_not_got",
    "may-end": "end_allowed",
    "may-cut": "not_the_source",
    "mayCut": "may_cut",
    "get_d_sets": "get_or-sets",
}

# A definition may have the name of the function of src/ that answers it, as `gain` and `turn` have.
MIRRORS = {"bad_plan", "bad_tail", "bad_node", "bad_link", "missed_by"}

TOKEN = re.compile(r"[^\s(){}\[\].;,:\"`⌜⌝⌟«»]+")
NAME = re.compile(r"^\s*(?:(?:abbrev|unfoldable|pub|data|record)\s+)*([^\s(){}:;,.=λ→]+)(?:\s+[({].*?|\s+[^=→λ(){};,]*?)?\s*:(?:\s|$)")
ROW = re.compile(r"^\s+((?:[^\s(){}:;,.=λ→]+ )+):\s")


def files(suffixes):
    for top in ("crates", "docs"):
        for folder, dirs, names in os.walk(top):
            dirs[:] = sorted(d for d in dirs if d not in ("out", "must-fail"))
            for name in sorted(names):
                if name.endswith(suffixes):
                    yield os.path.join(folder, name)


def read(path):
    with open(path, encoding="utf-8") as f:
        return f.read()


def snake(name):
    return re.sub(r"(?<=[a-z0-9])([A-Z])", lambda m: "_" + m.group(1).lower(), name).replace("-", "_")


def declared():
    """What specs/ and the lemma files declare: names at the head of a line before a colon."""
    found = set(OWN)
    for path in files((".antt",)):
        if re.search(r"/proofs/[^/]+/", path):
            continue
        for line in read(path).splitlines():
            if line.strip().startswith("--"):
                continue
            one, row = NAME.match(line), ROW.match(line)
            found |= {one.group(1)} if one else set()
            found |= set(row.group(1).split()) if row else set()
    return {n for n in found if n in OWN or n[0].islower() and ("-" in n or re.search(r"[a-z0-9][A-Z]", n))}


def main():
    new = {n: OWN.get(n, snake(n)) for n in declared()}
    used = set()
    for path in files((".antt",)):
        used |= {t for line in read(path).splitlines() if not line.strip().startswith("--") for t in TOKEN.findall(line)}
    wrong = [f"{o} -> {n}: in use" for o, n in new.items() if n in used and n not in MIRRORS and n not in OWN]
    seen = {}
    for o, n in sorted(new.items()):
        if n in seen:
            wrong.append(f"{o} and {seen[n]} -> {n}")
        seen[n] = o
    if wrong:
        print("\n".join(wrong))
        return 1
    for path in files((".antt", ".rt", ".md")):
        text = read(path)
        turned = TOKEN.sub(lambda m: new.get(m.group(0), m.group(0)), text)
        if turned != text:
            with open(path, "w", encoding="utf-8") as f:
                f.write(turned)
    print(f"{len(new)} names")
    return 0


sys.exit(main())
