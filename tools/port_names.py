#!/usr/bin/env python3
"""Brings the repository's own definitions and lemmas to today's spelling: words in snake case.

usage: python3 tools/port_names.py [--dry]     at the top, after the kit's port.py, once

A name is turned where specs/ or proofs/ declare it in camel case or with dashes (`decodeOf`, `low-more`). Types, modules, facts and
Arm's own names (`ZeroExtend`, `X`) keep their capitals. A name of a library that has the same spelling keeps its own in the files
that import it. A lemma that would get its definition's name ends in _lem. --dry only tells what falls together.
"""

import os
import re
import sys
from collections import defaultdict

# What the plain turn would spell badly, or would take a definition's name.
NAMED = {"step_in": "step_in_lem", "getD-behind": "get_or_behind", "setSP": "set_sp"}
# Names that are already in today's spelling, and take that of a definition, in these files alone: functions are called so too.
NAMED_IN = {"pair_code": ("crates/encoder/proofs/There.antt", "crates/instruction/proofs/Codes.antt")}
STRICT = re.compile(r"^\s*(?:(?:abbrev|unfoldable|pub) )*([^\s:(){}.,;=|]+) : ")
WORD = r"[\w'\-]"


def files(ends):
    for top in ("crates",):
        for folder, dirs, names in os.walk(top):
            dirs[:] = sorted(d for d in dirs if d not in ("out", "data"))
            for n in sorted(names):
                if n.endswith(ends):
                    yield os.path.join(folder, n)


def read(p):
    with open(p, encoding="utf-8") as f:
        return f.read()


def snake(name):
    s = re.sub(r"([a-z0-9])([A-Z])", lambda m: m.group(1) + "_" + m.group(2).lower(), name)
    return re.sub(r"(?<=[\w'])-(?=[\w'])", "_", s)


def is_ours(name):
    """Whether a name is one to turn: begins small, and has a capital inside or a dash between words."""
    if not re.match(r"[a-z+μσ]", name):
        return False
    return bool(re.search(r"[a-z0-9][A-Z]", name) or re.search(r"[\w']-[\w']", name))


def declared():
    """The names to turn, each with the files that declare it, and all names that are declared."""
    found, all_names = defaultdict(set), set()
    for p in files(".antt"):
        for line in read(p).splitlines():
            m = STRICT.match(line.split(" -- ")[0])
            if m and not line.lstrip().startswith(("--", "let ")):
                all_names.add(m.group(1))
                if is_ours(m.group(1)):
                    found[m.group(1)].add(p)
    return found, all_names


def imports(text):
    """The names that a file takes from libraries, and from crates here."""
    foreign, own = set(), set()
    for m in re.finditer(r"^\s*(?:pub )?(?:ghost )?use ([^\n{]*)\.\{([^}]*)\}", text, re.M):
        names = {n.strip().split(" as ")[0].strip() for n in m.group(2).split(",")}
        crate = m.group(1).split(".")
        ours = crate[0] == "Rattle" and os.path.isdir(os.path.join("crates", crate[1]))
        (own if ours else foreign).update(names)
    return foreign, own


def main(argv):
    dry = "--dry" in argv
    names, all_names = declared()
    taken = {n for n in all_names if n not in names} | {snake(n) for n in names if "-" not in n}
    turned = {n: snake(n) + ("_lem" if "-" in n and snake(n) in taken else "") for n in names} | NAMED
    pattern = re.compile(rf"(?<!{WORD})(" + "|".join(sorted(map(re.escape, turned), key=len, reverse=True)) + rf")(?!{WORD})")
    back = defaultdict(set)
    for n, t in turned.items():
        back[t].add(n)
    for p in list(files((".antt", ".rt"))):
        text = before = read(p)
        foreign, own = imports(text)
        kept = {n for n in foreign if n in turned and n not in own}
        here = set()

        def turn(m):
            n = m.group(1)
            if n in kept:
                return n
            if m.string[max(m.start() - 1, 0)] == "." and m.start():
                return snake(n)  # a field, or a step that is called after a function
            here.add(n)
            return turned[n]

        for n, where in NAMED_IN.items():
            if p in where:
                text = re.sub(rf"(?<![.\w'\-]){n}(?!{WORD})", n + "_lem", text)
        out = []
        for line in text.splitlines(keepends=True):
            cut = re.search(r"(^|\s)(--|//)", line)
            code, rest = (line[: cut.start()], line[cut.start() :]) if cut else (line, "")
            parts = re.split(r'("(?:[^"\\]|\\.)*")', code)
            code = "".join(x if i % 2 else pattern.sub(turn, x) for i, x in enumerate(parts))
            # in a comment a word with a dash may be plain English
            rest = pattern.sub(lambda m: m.group(1) if "-" in m.group(1) else turned[m.group(1)], rest)
            out.append(code + rest)
        new = "".join(out)
        # what falls together
        for n in sorted(here):
            t = turned[n]
            others = {o for o in back[t] if o != n and o in here}
            if others:
                print(f"together: {p}: {n} and {sorted(others)} -> {t}")
            elif re.search(rf"(?<!{WORD}){re.escape(t)}(?!{WORD})", text):
                print(f"taken: {p}: {n} -> {t}")
        if not dry and new != before:
            with open(p, "w", encoding="utf-8") as f:
                f.write(new)
    print(f"{len(turned)} names", file=sys.stderr)
    return 0


if __name__ == "__main__":
    raise SystemExit(main(sys.argv[1:]))
