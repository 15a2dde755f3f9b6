#!/usr/bin/env python3
"""Brings the must-fail edits of an older Rattle to today's spelling, each with the meaning it had.

usage: python3 tools/port_edits.py turn OLD AFTER NAMES WORK    each edit's old variant, respelled in clones in the folder WORK
       python3 tools/port_edits.py write OLD NAMES WORK         the edits written anew from what `turn` left in WORK
       python3 tools/port_edits.py look                         whether each edit applies to the files as they stand

OLD is the commit before the kit's port.py, AFTER the one that holds what it wrote, and NAMES the one that holds what
tools/port_names.py wrote after it. Both scripts have to be as they were for that.

`turn` applies each edit to OLD's files, puts the variants where the originals stood, and lets port.py and port_names.py turn them: so
a variant is spelled by the same scripts as the real file. Variants of one file share a clone where their lines are some lines apart.
`write` sets each variant beside the original, both respelled, and writes the lines that differ as the edit's new pairs, cut to the
fragment that the old pair had. Edits whose text was mended by hand afterwards are on docs/PORT.md.
"""

import os
import re
import subprocess
import sys
from collections import defaultdict
from concurrent.futures import ThreadPoolExecutor
from difflib import SequenceMatcher

# The kit's folder, where `rt doc` has its first page.
KIT = os.path.dirname(subprocess.run(["rt", "doc"], capture_output=True, text=True).stdout.strip())
APART = 4  # lines between variants that share a file
# Edits that are written by hand: their lines fall together with others when they are respelled, or a pair reads better so.
HANDS = {
    "crates/turns/must-fail/refused_turn_ends_all.edit": [
        "file: specs/Turns.antt",
        "old: -- starts from what the plugin's own last turn left.",
        "new: use Rattle.bits.specs.Choice.{pick}",
        "old: use Rattle.std.specs.Prelude.{ℕ,",
        "new: use Rattle.std.specs.Prelude.{eqb, ℕ,",
        "old: play_of turn r (theirs ws l ∷ ts) w = play_of turn r ts (after_theirs w (turn (swapped r) ws (other_machine w) l).machine)",
        "new: play_of turn r (theirs ws l ∷ ts) w = pick (eqb (turn (swapped r) ws (other_machine w) l).steps 0) (record { world = w; reports = [] }) (play_of turn r ts (after_theirs w (turn (swapped r) ws (other_machine w) l).machine))",
    ],
    "crates/host/must-fail/steps_one_more.edit": [
        "file: specs/Hosting.antt",
        "old:       steps = t.steps;",
        "new:       steps = suc t.steps;",
        "old: use Rattle.std.specs.Prelude.{ℕ,",
        "new: use Rattle.std.specs.Prelude.{ℕ, suc,",
    ],
    "crates/lending/must-fail/record_handed_in.edit": [
        "file: src/lib.rt",
        "old: lent_outcome result.state result.reply",
        "new: lent_outcome state result.reply",
    ],
    "crates/session/must-fail/record_said_to_stay.edit": [
        "file: src/lib.rt",
        "old: lent_outcome state.new result",
        "new: lent_outcome state.old result",
    ],
    # two lines that change places: the second blank makes the later pair's text stand once, as it did before
    "crates/image/must-fail/type_before_checksum.edit": [
        "file: specs/Import.antt",
        "old: refusal BadChecksum (not (eqb (sum_in l) 0)) 0",
        "new: refusal BadRecordType (bad_type  (type_in l)) 0",
        "old: refusal BadRecordType (bad_type (type_in l)) 0",
        "new: refusal BadChecksum (not (eqb (sum_in l) 0)) 0",
    ],
    "crates/why/must-fail/end_before_trace.edit": [
        "file: specs/Reply.antt",
        "old: refusal BadTrace (wrong_trace w len g.words g.log steps) 0",
        "new: refusal AfterEnd (nat_lt steps  step) 0",
        "old: refusal AfterEnd (nat_lt steps step) 0",
        "new: refusal BadTrace (wrong_trace w len g.words g.log steps) 0",
    ],
}
TOKEN = re.compile(r"[^\W\d]\w*'*|\d\w*|\s+|.", re.S)


def git(where, *words):
    r = subprocess.run(["git", *words], cwd=where, capture_output=True, text=True)
    if r.returncode:
        raise SystemExit(f"git {words}: {r.stderr[-500:]}")
    return r.stdout


class Tree:
    """The files of a commit."""

    def __init__(self, commit):
        self.commit, self.kept = commit, {}
        self.names = git(".", "ls-tree", "-r", "--name-only", commit, "crates").splitlines()

    def read(self, path):
        if path not in self.kept:
            self.kept[path] = git(".", "show", f"{self.commit}:{path}")
        return self.kept[path]

    def edits(self):
        return [n for n in self.names if re.fullmatch(r"crates/\w+/must-fail/[^/]+\.edit", n)]


def parse(text):
    """The comment lines of an edit, and its pairs: (file, old, new)."""
    said, pairs, file, old = [], [], None, None
    for line in text.splitlines():
        if line.startswith("#"):
            said.append(line)
        elif line.startswith("file: "):
            file = line[6:]
        elif line.startswith("old: "):
            old = line[5:]
        elif line.startswith("new: ") or line == "new:":
            pairs.append((file, old, line[5:]))
        else:
            raise ValueError(f"a line that is none of an edit: {line!r}")
    return said, pairs


def applied(tree, name):
    return applied_as(tree, name, tree.read(name))


def applied_as(tree, name, edit):
    """The files that an edit changes: path -> (before, after). A pair that does not apply is a ValueError."""
    crate = "/".join(name.split("/")[:2])
    out = {}
    for file, old, new in parse(edit)[1]:
        path = f"{crate}/{file}"
        if path not in out:
            out[path] = [tree.read(path)] * 2
        n = out[path][1].count(old)
        if n != 1:
            raise ValueError(f"{name}: {n} times: {old}")
        out[path][1] = out[path][1].replace(old, new)
    return out


def changed_lines(before, after):
    a, b = before.split("\n"), after.split("\n")
    assert len(a) == len(b)
    return [i for i in range(len(a)) if a[i] != b[i]]


def batches(tree):
    """Edits in as few groups as may share a clone. A group: path -> {line: (edit, text)}."""
    groups = []
    for name in tree.edits():
        try:
            files = applied(tree, name)
        except ValueError as e:
            print(f"not applied to {tree.commit}: {e}")
            continue
        lines = {p: changed_lines(*t) for p, t in files.items()}
        for g in groups:
            if all(abs(i - j) > APART for p, here in lines.items() for i in here for j in g[p]):
                break
        else:
            g = defaultdict(dict)
            groups.append(g)
        for p, here in lines.items():
            after = files[p][1].split("\n")
            for i in here:
                g[p][i] = (name, after[i])
    return groups


def put(path, text):
    with open(path, "w", encoding="utf-8") as f:
        f.write(text)


def turn_one(old, names, work, k, group, tree):
    where = os.path.abspath(f"{work}/{k}")
    git(".", "clone", "-q", ".", where)
    git(where, "checkout", "-q", "--detach", old)
    for p, here in group.items():
        lines = tree.read(p).split("\n")
        for i, (_, text) in here.items():
            lines[i] = text
        put(f"{where}/{p}", "\n".join(lines))
    git(where, "-c", "user.name=x", "-c", "user.email=x@x", "commit", "-qam", "variants")
    # port.py keeps what its scripts say in one folder: a folder for each run
    code = f"import sys; sys.dont_write_bytecode = True; sys.path.insert(0, {KIT + '/port'!r}); import port; port.SAID = {where + '.said'!r}; raise SystemExit(port.main([]) or 0)"
    said = subprocess.run([sys.executable, "-c", code], cwd=where, stdout=subprocess.PIPE, stderr=subprocess.STDOUT, text=True).stdout
    git(where, "add", "-A", "crates")
    git(where, "-c", "user.name=x", "-c", "user.email=x@x", "commit", "-qm", "port.py")
    put(f"{where}/port_names.py", git(".", "show", f"{names}:tools/port_names.py"))
    said += subprocess.run([sys.executable, f"{where}/port_names.py"], cwd=where, stdout=subprocess.PIPE, stderr=subprocess.STDOUT, text=True).stdout
    put(where + ".log", said)
    git(where, "add", "-A", "crates")
    git(where, "-c", "user.name=x", "-c", "user.email=x@x", "commit", "-qm", "port_names.py")
    return where


def turn(old, after, names, work):
    tree = Tree(old)
    groups = batches(tree)
    print(len(groups), "clones,", [sum(len(v) for v in g.values()) for g in groups], "lines", flush=True)
    os.makedirs(work, exist_ok=True)
    with ThreadPoolExecutor(4) as pool:
        done = list(pool.map(lambda kg: turn_one(old, names, work, kg[0], kg[1], tree), enumerate(groups)))
    alike(groups, done, after, names)


def alike(groups, clones, after, names):
    """Says whether the clones' other files got the text of the real ones."""
    for k, (where, g) in enumerate(zip(clones, groups)):
        for step, commit in (("HEAD~1", after), ("HEAD", names)):
            other = [p for p in git(where, "diff", "--name-only", commit, step, "--", "crates").splitlines() if p not in g and p.endswith((".rt", ".antt"))]
            print(f"clone {k}, {step} against {commit}: {len(other)} files without a variant differ", *other[:9])


def spots(tree, name):
    """The pairs of an edit with their places: (path, line, line before the pair, start of `old` in it, old, new)."""
    crate = "/".join(name.split("/")[:2])
    now, out = {}, []
    for file, old, new in parse(tree.read(name))[1]:
        path = f"{crate}/{file}"
        text = now.setdefault(path, tree.read(path))
        at = text.index(old)
        line = text.count("\n", 0, at)
        start = text.rfind("\n", 0, at) + 1
        out.append((path, line, text.split("\n")[line], at - start, old, new))
        now[path] = text.replace(old, new)
    return out


def carried(a, b, at, end):
    """The place in b of the place `at` in a, both one line."""
    x, y = TOKEN.findall(a), TOKEN.findall(b)
    heads = lambda ts: [sum(map(len, ts[:i])) for i in range(len(ts) + 1)]
    hx, hy = heads(x), heads(y)
    i = next(k for k in range(len(hx)) if hx[k] >= at) if end else max(k for k in range(len(hx)) if hx[k] <= at)
    for tag, i1, i2, j1, j2 in SequenceMatcher(None, x, y, autojunk=False).get_opcodes():
        if tag == "equal" and i1 <= i <= i2:
            return hy[j1 + i - i1]
        if i1 <= i < i2 or (i == i2 and end):
            return hy[j2] if end else hy[j1]
    return len(b) if end else 0


def same_head(a, b):
    n = 0
    while n < min(len(a), len(b)) and a[n] == b[n]:
        n += 1
    return n


def fragment(text, b, v, s, e):
    """The pair that turns the line b of text into v, cut to b[s:e] or a little more; whether it is more."""
    cuts = [0]
    for t in TOKEN.findall(b):
        cuts.append(cuts[-1] + len(t))
    head = same_head(b, v)
    tail = min(same_head(b[::-1], v[::-1]), min(len(b), len(v)) - head)
    want = (s, e)
    s = max(c for c in cuts if c <= min(s, head))
    e = min(c for c in cuts if c >= max(e, len(b) - tail))
    while text.count(b[s:e]) != 1 and (s, e) != (0, len(b)):
        if e < len(b):
            e = min(c for c in cuts if c > e)
            if text.count(b[s:e]) == 1 and b[e - 1] != " ":
                break
        if s > 0:
            s = max(c for c in cuts if c < s)
    while s and b[s] == " ":
        s += 1
    return b[s:e], v[s : len(v) - (len(b) - e)], (s, e) != want


def hunks(a, b):
    x, y = a.split("\n"), b.split("\n")
    return [(x[i1:i2], y[j1:j2]) for tag, i1, i2, j1, j2 in SequenceMatcher(None, x, y, autojunk=False).get_opcodes() if tag != "equal"]


def respelled(base, variant, lines):
    """The changed lines, respelled: for each of `lines` (before, after), or None where the two texts can't be set side by side there."""
    x, y = base.split("\n"), variant.split("\n")
    if len(x) == len(y):
        found = [(b, v) for b, v in zip(x, y) if b != v]
        if len(found) == len(lines):
            return found
    parts = hunks(base, variant)
    odd = [n for n, (b, v) in enumerate(parts) if len(b) != len(v)]
    even = sum(len(b) for b, v in parts if len(b) == len(v))
    if len(lines) - even < len(odd) or (len(odd) != 1 and len(lines) - even != len(odd)):
        return [None] * len(lines)
    out = []
    for n, (b, v) in enumerate(parts):
        # lines that rt fmt broke otherwise, or imports that fell together
        out += [None] * ((len(lines) - even) // len(odd)) if n in odd else list(zip(b, v))
    return out


def write(old, names, work):
    tree, now = Tree(old), Tree(names)
    by_edit = defaultdict(dict)  # edit -> (path, old line) -> (line before, line after), respelled
    for k, group in enumerate(batches(tree)):
        for path, here in group.items():
            with open(f"{work}/{k}/{path}", encoding="utf-8") as f:
                found = respelled(now.read(path), f.read(), sorted(here))
            for i, bv in zip(sorted(here), found):
                by_edit[here[i][0]][path, i] = bv
    for name in tree.edits():
        said, _ = parse(tree.read(name))
        places = spots(tree, name)
        if name in HANDS:
            put(name, "\n".join(said + HANDS[name]) + "\n")
            continue
        if not all(by_edit[name][p, i] for p, i, *_ in places):
            # code that rt fmt would break otherwise: the words are the same where the old pairs still stand
            try:
                applied_as(now, name, tree.read(name))
                put(name, tree.read(name))
                print(f"AS IT WAS: {name}" + ("" if all(p.endswith(".rt") for p, *_ in places) else " (not code!)"))
            except ValueError as e:
                print(f"HAND: {e}")
            continue
        out, texts, file = list(said), {}, None
        seen = set()
        for n, (path, i, before, at, o, nw) in enumerate(places):
            if (path, i) in seen:
                continue
            seen.add((path, i))
            same = [q for q in places if q[:2] == (path, i)]
            b, v = by_edit[name][path, i]
            text = texts.get(path, now.read(path))
            if len(same) > 1:
                print(f"SEVERAL: {name}: {len(same)} pairs on one line, written as one")
                s, e = len(b), 0
            else:
                s, e = carried(before, b, at, False), carried(before, b, at + len(o), True)
                open_now = lambda t: t.count("(") - t.count(")")
                if s and b[s - 1] == "(" and open_now(b[s:e]) < open_now(o):
                    s -= 1
            fo, fn, more = fragment(text, b, v, s, e)
            if len(same) == 1 and text.count(o) == 1 and before != b:
                lines = text.split("\n")
                k = text.count("\n", 0, text.index(o))
                if lines[k] == b and b.replace(o, nw) == v:
                    fo, fn, more = o, nw, False  # the old pair as it was
            if more:
                print(f"MORE: {name}: {o!r} -> {fo!r}")
            if text.count(fo) != 1:
                print(f"HAND: {name}: {text.count(fo)} times: {fo!r}")
            short = path.split("/", 2)[2]
            if short != file:
                out.append(f"file: {short}")
                file = short
            out += [f"old: {fo}", f"new: {fn}"]
            texts[path] = text.replace(fo, fn)
        put(name, "\n".join(out) + "\n")
        for path, text in texts.items():
            lines = now.read(path).split("\n")
            for p, i, *_ in places:
                if p == path:
                    b, v = by_edit[name][p, i]
                    lines[lines.index(b)] = v
            if text != "\n".join(lines):
                print(f"OTHER: {name}: {path} is not what the scripts made of the variant")


class Here(Tree):
    """The files as they stand."""

    def __init__(self):
        self.names = git(".", "ls-files", "crates").splitlines()

    def read(self, path):
        with open(path, encoding="utf-8") as f:
            return f.read()


def look():
    here = Here()
    bad = 0
    for name in here.edits():
        try:
            if any(o == n for _, o, n in parse(here.read(name))[1]):
                raise ValueError(f"{name}: a pair changes nothing")
            applied(here, name)
        except ValueError as e:
            print(e)
            bad += 1
    print(f"{len(here.edits())} edits, {bad} bad")
    return bad > 0


if __name__ == "__main__":
    do = {"turn": turn, "write": write, "look": look}.get(sys.argv[1] if len(sys.argv) > 1 else "")
    if not do:
        raise SystemExit(__doc__)
    raise SystemExit(do(*sys.argv[2:]) or 0)
