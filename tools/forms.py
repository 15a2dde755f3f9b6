#!/usr/bin/env python3
"""Lists the places in crates/*/src where an older form may stand in place of one that the language has: a count for each
kind of place, and the places themselves with --list. It goes by the text alone, so a place is one to look at.

usage: tools/forms.py [--list] [--crate NAME] [POINT..]     POINT is 1 to 8; all where none is named"""

import collections
import pathlib
import re
import sys

TOP = pathlib.Path(__file__).resolve().parent.parent

# What a function's head looks like, its parameters up to the closing bracket.
HEAD = re.compile(r"^ *(?:pub(?:\([a-z]+\))? )?fn (\w+)(?:<[^(]*>)?\(", re.M)


def files(crate):
    for path in sorted(TOP.glob("crates/*/src/**/*.rt")):
        name = path.relative_to(TOP / "crates").parts[0]
        if crate in (None, name):
            yield name, path, path.read_text()


def line_of(text, at):
    return text.count("\n", 0, at) + 1


def functions(text):
    """Name, place, parameters, clauses and body of each function with a body, tests left out."""
    text = text.split("#[cfg(test)]")[0]
    for head in HEAD.finditer(text):
        depth, at = 1, head.end()
        while depth:
            depth += {"(": 1, ")": -1}.get(text[at], 0)
            at += 1
        parameters = text[head.end() : at - 1]
        opening = re.compile(r"\s\{(?=\n|\}\n)").search(text, at)
        start, depth = opening.end() - 1, 0
        end = start
        while end == start or depth:
            depth += {"{": 1, "}": -1}.get(text[end], 0)
            end += 1
        yield head.group(1), line_of(text, head.start()), parameters, text[at:start], text[start:end]


def named(parameters):
    return [" ".join(p.split()) for p in re.split(r",(?![^\[\(<]*[\]\)>])", parameters) if ":" in p]


def shape(body):
    """A body with its names, types and numbers taken out, names of the language and marks left."""
    words = {"if", "else", "match", "while", "for", "in", "return", "let", "mut", "true", "false", "as"}
    body = re.sub(r"//.*", "", body)
    return " ".join(t if t in words or not re.match(r"\w", t) else "_" for t in re.findall(r"\w+|[^\w\s]", body))


def point_1(crate):
    for name, path, text in files(crate):
        for m in re.finditer(r"^ *(?:pub )?enum (\w+) \{(.*?)\n *\}", text, re.M | re.S):
            yield "an enum of one's own", path, line_of(text, m.start()), m.group(1)
        for m in re.finditer(r"^ *(?:pub )?struct (\w+)(?:<[^>]*>)? \{(.*?)\n *\}", text, re.M | re.S):
            if re.search(r": (?:Answer|bool),", m.group(2)):
                yield "a struct with an answer or a flag beside values", path, line_of(text, m.start()), m.group(1)
        for m in re.finditer(r"answer_number\(.*\) *[!=]= |\bnumber == \d", text):
            yield "an answer compared by its number", path, line_of(text, m.start()), m.group(0).strip()
        for where, line, parameters, clauses, body in functions(text):
            if len(re.findall(r"^ +(?:0[xb][0-9a-f_]+|[0-9]+) =>", body, re.M)) > 1:
                yield "a match on numbers", path, line, where
            if re.search(r"-> (?:Answer|u64|usize|u32|u8)\b", clauses) and re.search(r"\b(?:16|256|0x1_0000_0000)\b;", body) and "return" in body:
                yield "a number for none", path, line, where


def point_2(crate):
    groups = collections.defaultdict(list)
    for name, path, text in files(crate):
        for where, line, parameters, clauses, body in functions(text):
            if len(body) > 60:
                groups[shape(body)].append((path, line, where))
    for group in groups.values():
        if len(group) > 1:
            for path, line, where in group:
                yield "a function whose body has another's shape", path, line, where


def point_3(crate):
    for name, path, text in files(crate):
        for m in re.finditer(r"^ *while .*\{", text, re.M):
            yield "a while loop", path, line_of(text, m.start()), m.group(0).strip()


def point_4(crate):
    for name, path, text in files(crate):
        for where, line, parameters, clauses, body in functions(text):
            inner = body.strip("{} \n")
            if re.fullmatch(r"[\w.()% ]+ as \w+", inner):
                yield "a cast in a function of its own", path, line, where
            if re.fullmatch(r"match [^{]*\{(?:\s*(?://.*)?\s*[^=]+=> (?:true|false),)+\s*\}?", inner):
                yield "a match for true or false", path, line, where
            if re.match(r"(?:is_)?(?:same|equal)", where):
                yield "equality by hand", path, line, where
        for m in re.finditer(r"\[(\w+)(?: \+ \d)?\] = \(?\w+(?: % 256)?\)? as u8", text):
            yield "a byte of a number put by hand", path, line_of(text, m.start()), m.group(0)


def point_5(crate):
    runs = collections.defaultdict(list)
    facts = collections.defaultdict(list)
    for name, path, text in files(crate):
        for where, line, parameters, clauses, body in functions(text):
            got = named(parameters)
            if len(got) > 4:
                yield "a function of more than four parameters", path, line, f"{where} ({len(got)})"
            for i in range(len(got) - 2):
                runs[name, tuple(got[i : i + 3])].append((path, line, where))
            for fact in re.findall(r"requires \{ (.*) \}", clauses):
                for part in fact.split(" × "):
                    facts[name, part.strip("() ")].append((path, line, where))
    seen = set()
    for (crate_name, run), places in runs.items():
        if len(places) > 2:
            for path, line, where in places:
                if (path, line) not in seen:
                    seen.add((path, line))
                    yield "three parameters that three functions take together", path, line, where
    for (crate_name, fact), places in facts.items():
        if len(places) > 2:
            for path, line, where in places:
                yield "a fact that three contracts ask for", path, line, f"{where}: {fact}"


def point_6(crate):
    for name, path, text in files(crate):
        for m in re.finditer(r"^ *(?:pub )?struct (\w+)(?:<[^>]*>)? \{(.*?)\n *\}", text, re.M | re.S):
            arrays = re.findall(r": (\[\w+; \w+\]),", m.group(2))
            if len(arrays) != len(set(arrays)):
                yield "parallel arrays", path, line_of(text, m.start()), m.group(1)
            if arrays and re.search(r"(?:count|length|end|len): \w+,", m.group(2)):
                yield "a buffer with a length beside", path, line_of(text, m.start()), m.group(1)
        for where, line, parameters, clauses, body in functions(text):
            if re.search(r": &mut \[u8\],\s*(?:at|end): usize", parameters):
                yield "a buffer with a place beside", path, line, where
            if re.search(r"let mut \w+ = \[0u?8?; ?\w+\]|large_buffer\(\)", body):
                yield "a buffer of fixed size in a function", path, line, where


def point_7(crate):
    for name, path, text in files(crate):
        for m in re.finditer(r"^ *while (?:turns > 0|number < u64).*\{", text, re.M):
            yield "a driver of a program's cases", path, line_of(text, m.start()), m.group(0).strip()
        for where, line, parameters, clauses, body in functions(text):
            if re.search(r"match (?:what|kind|step|reach|decision)\b", body):
                yield "a switch on a kind of step", path, line, where


def point_8(crate):
    for path in sorted(TOP.glob("crates/*/proofs/**/*.antt")):
        if crate not in (None, path.relative_to(TOP / "crates").parts[0]):
            continue
        text = path.read_text()
        if path.name == "Answers.antt":
            yield "a file of answers", path, 1, f"{path.parent.name} ({text.count(chr(10))} lines)"
        elif path.name not in ("Invariants.antt", "Lib.antt"):
            yield "a file of laws", path, 1, f"{path.stem} ({text.count(chr(10))} lines)"


def main(arguments):
    listed = "--list" in arguments
    crate = arguments[arguments.index("--crate") + 1] if "--crate" in arguments else None
    points = [int(a) for a in arguments if a.isdigit()] or range(1, 9)
    for point in points:
        places = list(globals()[f"point_{point}"](crate))
        print(f"{point}: {len(places)}")
        for kind, count in sorted(collections.Counter(p[0] for p in places).items()):
            print(f"   {count:4} {kind}")
            if listed:
                for _, path, line, what in (p for p in places if p[0] == kind):
                    print(f"        {path.relative_to(TOP)}:{line}: {what}")


main(sys.argv[1:])
