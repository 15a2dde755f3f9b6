"""Turns proofs of the old form to today's: `python3 tools/port_proofs.py crates/NAME ..`, at the top of the repository.

An old `proofs/F/Proof.antt` is `tie.close (tie.spec (λ c. ..) (λ c κs. ..) ..)`: one λ for each goal, in an order that only the
compiler knows, with paths such as `c.before.before.if1.true`. Today's `proofs/F/Answers.antt` names each goal, and its paths are flat:
`c.if-n-gt7.true`. `proofs/F/Invariants.antt` has the invariants and measures. `rt check --old-names` writes the table from the old
names to today's, names.json, which this script reads. The crates below have to be built, or names.json isn't written.

An answer that only searches is left out, since the check tries that itself. Files of another form stay, and are listed.
"""

import json
import os
import re
import subprocess
import sys
import tempfile

WORD = r"[^\s(){}\[\],.;:λ→≡≤<≢×∙+*/↦|\"`]"  # rough: what an identifier of antt is made of (a dash too)
TOKEN = re.compile(r"--[^\n]*|[(){}\[\]]|\s+|[^\s(){}\[\]]+")
IDENT = r"[A-Za-zα-κμ-ωΑ-ΚΜ-Ω_#+][\w'′₀-₉-]*"
PATH = re.compile(rf"(?<![\w.'′₀-₉-])({IDENT})((?:\.{IDENT}|\.\d+)*)")
START_FIELDS = ("args", "ranges", "requires", "well_formed", "lifetimes", "generics", "utf8")
OWN_MODULES = "Statement Tie Lts Reads Kinds Needs Goals Given".split()


def norm(name):
    """The spelling by which an old name and the table's are compared: older Rattles wrote dashes for underscores."""
    return name.replace("_", "-").lower()


def closing(text, at):
    """The index of the bracket that closes the one at `at`. Comments are skipped."""
    depth = 0
    while at < len(text):
        if text.startswith("--", at) and (at == 0 or text[at - 1] in " \n(") :
            at = text.find("\n", at)
            if at < 0:
                break
            continue
        if text[at] in "([{":
            depth += 1
        elif text[at] in ")]}":
            depth -= 1
            if depth == 0:
                return at
        at += 1
    raise ValueError("a bracket is not closed")


def arguments(text):
    """Splits the text after `tie.spec` into its arguments: groups in brackets, or words."""
    each, at = [], 0
    while at < len(text):
        if text[at].isspace():
            at += 1
        elif text.startswith("--", at):
            at = text.find("\n", at) if "\n" in text[at:] else len(text)
        elif text[at] in "([{":
            end = closing(text, at) + 1
            each.append(text[at:end])
            at = end
        else:
            end = at
            while end < len(text) and not text[end].isspace() and text[end] not in "([{":
                end += 1
            each.append(text[at:end])
            at = end
    return each


def blocks(text):
    """The top-level parts of a file: a list of texts, each beginning with its comment. A part is a `use`, a signature with its options,
    or a definition."""
    found, comment, now = [], [], None
    for line in text.split("\n"):
        if line.startswith("--"):
            if now is not None:
                found.append(now)
                now = None
            comment.append(line)
        elif not line.strip():
            if now is not None:
                found.append(now)
                now = None
            elif comment:
                found.append({"comment": comment, "lines": []})
                comment = []
        elif line[0].isspace():
            (now["lines"] if now else comment).append(line)
        else:
            if now is not None and now["lines"][0].startswith("use "):
                found.append(now)
                now = None
            if now is None:
                now = {"comment": comment, "lines": []}
                comment = []
            now["lines"].append(line)
    if now is not None:
        found.append(now)
    elif comment:
        found.append({"comment": comment, "lines": []})
    return found


class Table:
    """What names.json says of one function."""

    def __init__(self, entry, params):
        self.entry, self.params = entry, params
        self.needs = entry["needs"]
        self.asked_at = [it[0] for it in entry["asked_at"]]
        self.parent, self.own, self.callee, self.names = {}, {}, {}, {}
        self.arms, self.typed, self.today = {}, {}, {}
        for k, place in enumerate(entry["places"]):
            name, parent, step = place[0], place[1], place[2]
            self.parent[name], self.own[name], self.callee[name] = parent, step, place[3]
            clauses = entry.get("clauses") or []
            self.names[name] = clauses[k] if k < len(clauses) else None
            arms, typed = entry.get("arms") or [], entry.get("typed") or []
            self.arms[name] = arms[k] if k < len(arms) else None
            self.typed[name] = typed[k] if k < len(typed) else []
            self.today[name] = entry["places_by_name"][k]
        self.new_fields = {it[2][1] for it in entry["places"]}

    def up(self, place):
        """What `.before` leads to."""
        return self.parent.get(place)

    def chain(self, place):
        while place is not None:
            yield place
            place = self.parent.get(place)


class Unresolved(Exception):
    pass


class Walker:
    """Turns the paths of one answer."""

    def __init__(self, table, start, report):
        self.table, self.start, self.report = table, start, report

    def path(self, fields, place):
        """Today's fields for the old ones, from the record of `place` on. Returns them, or (None, place) where only `.before`s are given."""
        fields = list(fields)
        start = self.start
        while fields and fields[0] == "before":
            up = self.table.up(place)
            if up is None:
                self.report("walks-past-start")
                up = place
            place = up
            fields.pop(0)
        if not fields:
            return None, place
        head, rest = fields[0], fields[1:]
        if norm(head) in map(norm, START_FIELDS):
            head = next(it for it in START_FIELDS if norm(it) == norm(head))
            if head in ("args", "ranges", "utf8"):
                rest = [self.variable(it) for it in rest]
            return [head, *rest], place
        if norm(head) == "type-inv":
            return ["type_inv", *rest], place
        for k, at in enumerate(self.table.chain(place)):
            old, new = self.table.own[at]
            if old and norm(old) == norm(head):
                if k:
                    self.report("found-further-up")
                return self.arm(at, old, rest, start) or self.known(old, rest, start) or [new, *self.inner(at, rest)], place
        # port.py may have turned the step's name already
        for at in self.table.chain(place):
            if norm(self.table.own[at][1]) == norm(head):
                return [self.table.own[at][1], *self.inner(at, rest)], place
        # today's places may be fewer, so that a walk ends too far up: then the step is the last below it
        below = [it for it in self.table.chain(start) if self.table.own[it][0] and norm(self.table.own[it][0]) == norm(head)]
        if below:
            self.report("found-further-down")
            at = below[-1]
            old, new = self.table.own[at]
            return self.arm(at, old, rest, start) or self.known(old, rest, start) or [new, *self.inner(at, rest)], place
        # older Rattles counted otherwise where a name was also another thing's
        for at in self.table.chain(place):
            if self.table.own[at][0] and norm(self.table.own[at][0]).rstrip("0123456789") == norm(head).rstrip("0123456789"):
                self.report(f"by-its-stem:{head}")
                return [self.table.own[at][1], *self.inner(at, rest)], place
        self.report(f"no-step:{head}")
        raise Unresolved(head)

    def arm(self, at, old, rest, start):
        """A path into an arm: its steps are one record today, with the members that the table lists."""
        arm = self.table.arms[at]
        if not arm:
            return None
        members = next(it[2] for it in map(self.table.arms.get, self.table.chain(start)) if it and it[0] == arm[0])
        fits = [it for it in members if norm(it[1]) == norm(old) and rest[: len(it[2])] == it[2]]
        if not fits:
            return None
        best = max(fits, key=lambda it: (len(it[2]), not it[0].endswith("-own")))
        if best[0].endswith("-own"):
            self.report("cites-own")
        if rest[: len(best[2])] == ["given", "1"]:
            self.report("arm-is")
        return [arm[0], best[0], *rest[len(best[2]) :]]

    def known(self, old, rest, start):
        """A path into a step that only told what a type says of a variable."""
        for variable, step in self.table.typed[start]:
            if norm(step) == norm(old):
                self.report("type_inv")
                return ["type_inv", variable, *rest]
        return None

    def variable(self, name):
        return name.replace("-", "_")

    def inner(self, place, rest):
        """The fields of a step: of a loop the variables, of a call `.new.p`."""
        if not rest:
            return rest
        rest = list(rest)
        # a test's fact: `taken` or `left` in an older Rattle
        rest[0] = {"taken": "true", "left": "false"}.get(rest[0], rest[0])
        clauses = self.table.names[place]
        if rest[0] == "ensures" and clauses and clauses.get("fields"):
            # a clause with a name is a field, where it was the whole or a part of a tuple
            fields = clauses["fields"]
            if len(rest) > 1 and norm(rest[1]) in map(norm, fields):
                rest[1] = next(it for it in fields if norm(it) == norm(rest[1]))
            elif len(fields) == 1:
                self.report("clause-named")
                rest[1:1] = [fields[0]]
            else:
                self.report(f"clauses:{'.'.join(rest)}-of-{'+'.join(fields)}")
        if rest[0] in ("new", "range", "auto", "result"):
            rest[1:] = [self.variable(it) for it in rest[1:]]
        elif rest[0] not in ("ensures", "true", "false", "invariant", "result", "given", "is", "was"):
            rest[0] = self.variable(rest[0])
        return rest

    def body(self, text, known):
        """Turns a term in which `known` gives the place of each name that stands for a record of a place."""
        known = dict(known)
        out, at = [], 0
        let = re.compile(rf"let\s+({IDENT})\s*=\s*({IDENT})((?:\.before)*)\s+in\s")
        while at < len(text):
            if text.startswith("--", at) and (at == 0 or text[at - 1] in " \n"):
                end = text.find("\n", at)
                end = len(text) if end < 0 else end
                out.append(text[at:end])
                at = end
                continue
            m = let.match(text, at) if (at == 0 or not re.match(r"[\w.'-]", text[at - 1])) else None
            if m and m[2] in known:
                # a name for an earlier record: it is dropped, and its paths are turned below
                base, place = known[m[2]]
                try:
                    _, place = self.path([it for it in m[3].split(".") if it], place)
                except Unresolved:
                    place = base
                known[m[1]] = (base, place)
                self.report("let-inlined")
                at = m.end()
                while at < len(text) and text[at].isspace():
                    at += 1
                continue
            m = PATH.match(text, at)
            if m:
                if m[1] in known:
                    base, place = known[m[1]]
                    fields = [it for it in m[2].split(".") if it]
                    try:
                        new, _ = self.path(fields, place)
                        if new is None:
                            if fields or m[1] != base:
                                self.report("bare-record")
                            out.append(base)
                        else:
                            out.append(".".join([base, *new]))
                    except Unresolved:
                        out.append(".".join([base, *[it for it in fields if it != "before"]]))
                else:
                    out.append(m[0])
                at = m.end()
                continue
            out.append(text[at])
            at += 1
        return "".join(out)


def unnumbered(body, params):
    """`args.t2` was what `args` says of the second parameter today. Fields of a name for `c.args` get the source's spelling."""
    holders = re.findall(rf"let\s+({IDENT})\s*=\s*{IDENT}\.args\s+in\s", body)

    def one(m):
        fields = m[2].replace("-", "_")
        number = re.match(r"\.t(\d+)(?!\w)", fields)
        if number and int(number[1]) <= len(params):
            fields = "." + params[int(number[1]) - 1] + fields[number.end() :]
        return m[1] + fields

    names = "|".join(map(re.escape, ["args", "ranges", *holders]))
    return re.sub(rf"(?<![\w'-])({names})((?:\.[\w'-]+)+)", one, body)


def is_search(body):
    return re.fullmatch(r"\(*\s*search rules\s*\)*", body.strip()) is not None


def aligned(args, needs):
    """Pairs the answers with the goals where there are not as many: an older Rattle asked for some that today's settles, and the other
    way round. An answer with `κs` is for a `requires`. Only answers that search are passed over."""
    def search(arg):
        m = re.fullmatch(r"\(\s*λ\s+([^.]*)\.\s*(.*)\)", arg, re.S)
        return bool(m) and is_search(m[2])

    def score(arg, goal):
        asks = re.match(r"\(\s*λ\s+\S+\s+κs\s*\.", arg) is not None
        return 2 if asks == ("requires" in goal) else -4

    rows = [[(0, None)] * (len(needs) + 1) for _ in range(len(args) + 1)]
    for i in range(len(args) + 1):
        for j in range(len(needs) + 1):
            best = (0, None) if i == j == 0 else (-10**6, None)
            if i and j:
                best = max(best, (rows[i - 1][j - 1][0] + score(args[i - 1], needs[j - 1][0]), "both"), key=lambda it: it[0])
            if i:
                best = max(best, (rows[i - 1][j][0] - (1 if search(args[i - 1]) else 1000), "answer"), key=lambda it: it[0])
            if j:
                best = max(best, (rows[i][j - 1][0] - 1, "goal"), key=lambda it: it[0])
            rows[i][j] = best
    i, j, found = len(args), len(needs), []
    if rows[i][j][0] < -500:
        return None
    while i or j:
        how = rows[i][j][1]
        if how == "both":
            found.append((args[i - 1], j - 1))
        i, j = i - (how != "goal"), j - (how != "answer")
    return found[::-1]


def loop_body(names, body):
    """An invariant's body, with each variable as a field of `l`."""
    def one(m):
        name = m[1]
        if name not in names:
            return m[0]
        if name.endswith("₀"):
            return "l.initial." + name[:-1].replace("-", "_") + m[2]
        return "l." + name.replace("-", "_") + m[2]

    return PATH.sub(one, body)


def convert(path, crate, function, table, report):
    """Returns the texts of Answers.antt and Invariants.antt for a Proof.antt (either may be None), or a word that says why not."""
    text = open(path, encoding="utf-8").read()
    parts = blocks(text)
    is_cycle = not isinstance(table, Table)
    main = [it for it in parts if ("-lts.spec" if is_cycle else "tie.spec") in "\n".join(it["lines"])]
    if len(main) != 1 or (not is_cycle and "tie.close" not in text):
        return "not of the form tie.close (tie.spec ..)"
    main = main[0]
    whole = "\n".join(main["lines"])
    groups = []
    if is_cycle:
        # close μ .. (λ t. F-lts.spec (..) (F-at t) F.Post (λ c. ..) ..) ..
        for name, one in table.items():
            m = re.search(rf"(?<![\w.-]){re.escape(name.replace('_', '-'))}-lts\.spec\s", whole) or re.search(rf"(?<![\w.-]){re.escape(name)}-lts\.spec\s", whole)
            if not m:
                return f"no answers for {name}"
            end, depth = m.end(), 0
            while end < len(whole) and depth >= 0:
                depth += (whole[end] in "([{") - (whole[end] in ")]}")
                end += 1
            answered = arguments(whole[m.end() : end - (depth < 0)])
            first = next(k for k, it in enumerate(answered) if re.match(r"\(\s*λ", it))
            groups.append((one, answered[first:]))
    else:
        spec = whole.index("tie.spec") + len("tie.spec")
        # the bracket around tie.spec, if there is one
        opens = whole.rfind("(", 0, spec)
        if whole[opens + 1 : spec].strip() == "tie.spec":
            inner = whole[spec : closing(whole, opens)]
            after = whole[closing(whole, opens) + 1 :]
        else:
            inner, after = whole[spec:], ""
        if after.strip(") \n"):
            return f"something follows tie.spec: {after.strip()[:60]}"
        groups.append((table, arguments(inner)))
    unfolding = [it for it in main["lines"] if it.startswith("unfolding")]

    # the lemmas of the file, and what belongs to the old form
    uses, kept, named, given, measures = [], [], {}, {}, []
    for part in parts:
        joined = "\n".join(part["lines"])
        if part is main:
            continue
        if not part["lines"]:
            kept.append(part)
            continue
        first = part["lines"][0]
        if first.startswith("use "):
            uses.append(part)
            continue
        m = re.match(rf"(?:abbrev |pub |unfoldable )*({IDENT})\s*:\s*tie\.(Need-|invariant|decreases)", joined)
        if is_cycle and re.search(r"\bIn \d+ |: Measures \d+ ", joined):
            measures.append(part)
        elif m:
            (named if m[2] == "Need-" else given)[m[1]] = part
        else:
            kept.append(part)

    def definition(part, name):
        """The arguments and the body of `name` in a part."""
        lines = part["lines"]
        for k, line in enumerate(lines[1:], 1):
            m = re.match(rf"{re.escape(name)}((?:\s+[^\s=]+)*)\s*=(?!\S)", line)
            if m:
                body = "\n".join([line[m.end() :].strip(), *lines[k + 1 :]]).strip("\n")
                return m[1].split(), body, [it for it in lines[1:k] if it.strip().startswith("unfolding")]
        raise ValueError(f"no definition of {name} as one line")

    pairs, invariants = [], []
    for one, args in groups:
        count = len(one.needs)
        leading = 0
        while leading < len(args) and (args[leading] in given or re.match(r"(invariant|decreases)-", args[leading])):
            leading += 1
        loops = len(one.entry.get("loops") or [])
        if leading < 2 * loops and len(args) - count == 2 * loops:
            leading = 2 * loops
        goals = list(zip(args[leading:], range(count)))
        if len(args) - leading != count:
            goals = aligned(args[leading:], one.needs)
            if goals is None:
                return f"{len(args) - leading} answers for {count} goals"
            report("aligned-by-guess of this")
        pairs.append((one, args[:leading], goals))

    head = parts[0]["comment"] if parts and parts[0]["comment"] else []

    def use_lines():
        lines = []
        for part in uses:
            joined = "\n".join(part["lines"])
            m = re.match(rf"use Rattle\.{re.escape(crate)}\.proofs\.(.*?)\.({'|'.join(OWN_MODULES)})(?:-\S*)?(?:\.\{{.*\}})?(?:\s+as\s+\S+)?\s*$", joined, re.S)
            if m and m[1] == function:
                continue
            if part is not parts[0]:
                lines += part["comment"]
            lines += part["lines"]
        return [it for it in sorted(more_uses) if not any(re.search(r"[{ ]w64[,}]", line) for line in lines)] + lines

    more_uses = set()
    # invariants and measures
    for one, args, _ in pairs:
        for k, arg in enumerate(args):
            goal = given_name(one, arg, k, len(args))
            if goal is None:
                return f"{len(args)} leading arguments for {len(one.entry['loops'])} loops"
            if arg in given:
                names, body, opened = definition(given[arg], arg)
                comment = given[arg]["comment"] if given[arg] is not parts[0] else []
            else:
                m = re.fullmatch(r"\(\s*λ\s+([^.]*)\.\s*(.*)\)", arg, re.S)
                if not m:
                    return f"an invariant that is not read: {arg[:60]}"
                names, body, opened, comment = m[1].split(), m[2], [], []
            if re.fullmatch(r"Unit \{0\}", body.strip()):
                continue
            invariants += [*comment, f"abbrev pub {goal} : goal.{goal}", *opened, f"{goal} l = {loop_body(set(names), body)}", ""]
    for name, one in table.items() if is_cycle else ():
        for part in measures:
            m = re.search(r"^μ-(\S+) κs (\S+) = (.*)", "\n".join(part["lines"]), re.M | re.S)
            if m and norm(m[1]) == norm(name):
                body = re.sub(rf"(?<![\w.]){m[2]}((?:\.1)*)\.0", lambda it: "l." + one.params[it[1].count("1")], m[3])
                invariants += [f"abbrev pub decreases-{name} : goal.decreases-{name}", f"decreases-{name} l = {body}", ""]

    answers = []
    for one, arg, k in [(one, *it) for one, _, goals in pairs for it in goals]:
        (old, goal), place = one.needs[k], one.asked_at[k]
        comment, opened = [], list(unfolding)
        if arg in named:
            names, body, own = definition(named[arg], arg)
            comment = named[arg]["comment"] if named[arg] is not parts[0] else []
            opened = opened + [it for it in own if it not in opened]
        elif arg.startswith("("):
            m = re.fullmatch(r"\(\s*λ\s+([^.]*)\.\s*(.*)\)", arg, re.S)
            if not m:
                if is_search(arg):
                    continue
                answers += [f"pub {goal} : goal.{goal}", *opened, f"{goal} = {arg}", ""]
                report("no-lambda")
                continue
            names, body = m[1].split(), m[2]
        else:
            answers += [f"pub {goal} : goal.{goal}", *opened, f"{goal} c = {arg} c", ""]
            report("named-lemma")
            continue
        if is_search(body):
            continue
        walker = Walker(one, place, lambda what: report(what + " at " + goal if ":" in what or what in ("bare-record", "walks-past-start") else what))
        body = walker.body(body, {names[0]: (names[0], place)})
        if is_cycle:
            # the measure stood before the `requires`
            body = re.sub(rf"(?<![\w.'-]){re.escape(names[0])}\.requires(\.[01])?(?![\w-])", lambda m: names[0] + {".0": ".decreases", ".1": ".requires", None: ".requires-raw"}[m[1]], body)
        body = unnumbered(body, one.params)
        if re.search(r"to_z-of_z \(sfits_of", body):
            body = re.sub(r"to_z-of_z \(sfits_of", "to_z-of_z {w = w64} (sfits_of", body)
            more_uses.add("use mir.Syntax.{w64}")
        shown = [names[0]] + [it for it in names[1:] if re.search(rf"(?<![\w.-]){re.escape(it)}(?![\w-])", body)]
        if len(shown) > 1:
            report("more-arguments at " + goal)
        if "\n" in body or body.lstrip().startswith("let "):
            body = "\n    " + body.strip().replace("\n    ", "\n    ")
        else:
            body = " " + body.strip()
        answers += [*comment, f"pub {goal} : goal.{goal}", *opened, f"{goal} {'t ' * is_cycle}{' '.join(shown)} ={body}", ""]

    lemmas = []
    for part in kept:
        joined = "\n".join(part["lines"])
        m = re.search(rf"\(({IDENT}) : tie\.({IDENT})\)", joined)
        place = m and not is_cycle and next((it for it in table.today if norm(it) == norm(m[2])), None)
        if place:
            # a lemma over the record of a place
            first = re.search(rf"^({IDENT})((?:\s+{IDENT})*)\s*=(?!\S)", joined, re.M)
            walker = Walker(table, place, lambda what: report("lemma-over-a-place of this: " + what))
            joined = joined.replace(m[0], f"({m[1]} : goal.{table.today[place]})")
            known = {m[1]: (m[1], place)}
            if first and first[2].split():
                known[first[2].split()[0]] = (first[2].split()[0], place)
            joined = walker.body(joined, known)
            report("lemma-over-a-place of this")
        lemmas += [*(part["comment"] if part is not parts[0] else []), *joined.split("\n"), ""]
    if any("tie." in it for it in lemmas):
        report("lemma-with-tie")
        lemmas = [re.sub(r"tie\.", "goal.", it) for it in lemmas]
    base = f"Rattle.{crate}.proofs.{function}"
    result = {}
    if answers:
        result["Answers.antt"] = [*head, *use_lines(), f"use {base}.Goals as goal", "", *lemmas, *answers]
    if invariants:
        lines = [] if answers else head
        cited = [] if answers else lemmas
        used = "\n".join(invariants)
        cited = [it for it in lemmas] if any(re.search(rf"(?<![\w.-]){re.escape(n)}(?![\w-])", used) for n in lemma_names(kept)) else []
        result["Invariants.antt"] = [*lines, *trimmed(use_lines(), used + "\n".join(cited)), f"use {base}.Given as goal", "", *cited, *invariants]
    for name, lines in result.items():
        if name == "Answers.antt":
            lines = lines[: len(head)] + trimmed(use_lines(), "\n".join(lines[len(head) + len(use_lines()) :])) + lines[len(head) + len(use_lines()) :]
        result[name] = re.sub(r"\n{3,}", "\n\n", "\n".join(lines)).strip("\n") + "\n"
    return result


def lemma_names(kept):
    return [m[1] for it in kept for m in [re.match(rf"(?:abbrev |pub |unfoldable )*({IDENT})\s*:", "\n".join(it["lines"]))] if m]


def trimmed(lines, used):
    """The `use` lines without the names that the text doesn't have."""
    words = set(re.findall(r"[^\s(){}\[\],;]+", used))
    more = set()
    for it in words:
        more.update(it.split("."))
        more.add(it.lstrip("←"))
    words |= more
    out = []
    for line in lines:
        m = re.fullmatch(r"(use \S+\.)\{(.*)\}", line)
        if not m:
            m2 = re.fullmatch(r"use \S+ as (\S+)", line)
            if m2 and m2[1] not in words:
                continue
            out.append(line)
            continue
        names = []
        for it in m[2].split(","):
            it = it.strip()
            name = it.split(" as ")[-1].strip()
            if "◌" in name:
                bits = [b for b in name.split("◌") if b]
                seen = all(b in used for b in bits)
            elif re.search(r"[^\w'-]", name):
                seen = name in used
            else:
                seen = name in words
            if seen:
                names.append(it)
        if names:
            out.append(m[1] + "{" + ", ".join(names) + "}")
    return out


def given_name(table, arg, k, leading):
    """Today's name of an invariant or a measure: by its old name, `invariant-loop2`, or by its place among the leading arguments."""
    loops = [it[0] for it in table.entry.get("loops") or []]
    m = re.fullmatch(r"(invariant|decreases)-(.+)", arg)
    if m:
        for old, new in loops:
            if norm(old) == norm(m[2]):
                return f"{m[1]}-{new}"
    if leading == 2 * len(loops):
        return f"{('invariant', 'decreases')[k % 2]}-{loops[k // 2][1]}"
    if leading == len(loops):
        return f"invariant-{loops[k][1]}"
    return None


def root_file(crate):
    for name in ("lib.rt", "main.rt"):
        path = os.path.join(crate, "src", name)
        if os.path.isfile(path):
            return path
    return None


def add_auto(crate):
    """Writes `#![tactic(auto)]` below the head comment of the root file, where it is missing."""
    path = root_file(crate)
    if not path:
        return
    text = open(path, encoding="utf-8").read()
    if "#![tactic(" in text:
        return
    lines, at = text.split("\n"), 0
    while at < len(lines) and lines[at].startswith("//"):
        at += 1
    lines.insert(at, "#![tactic(auto)]")
    if at + 1 < len(lines) and lines[at + 1].strip():
        lines.insert(at + 1, "")
    open(path, "w", encoding="utf-8").write("\n".join(lines))


SOURCES = []


def params_of(names, crate, function):
    """The parameters of a function: the table has them for each call of it, and else the source."""
    words = "::".join([crate, *function.split(".")])
    for entry in names.values():
        if isinstance(entry, dict) and words in (entry.get("params") or {}):
            return entry["params"][words]
    found = [m for text in SOURCES for m in re.finditer(rf"\bfn {re.escape(words.split('::')[-1])}\s*(?:<[^(]*>)?\(([^)]*)\)", text)]
    if len(found) == 1:
        return [re.sub(r"&|\bmut\b|\s|'\w+", "", it.split(":")[0]) for it in found[0][1].split(",") if it.strip()]
    return ["self"] if function.split(".")[-2:-1] and function.split(".")[-2][0].isupper() else []


def names_of(crate):
    """names.json of a crate, or None with what the check said."""
    folder = tempfile.mkdtemp(prefix="port_proofs_")
    done = subprocess.run(["rt", "check", "--generated", os.path.join(folder, "g"), "--old-names"], cwd=crate, capture_output=True, text=True)
    path = os.path.join(folder, "g", "names.json")
    if not os.path.isfile(path):
        return None, (done.stdout + done.stderr)[-2000:]
    return json.load(open(path, encoding="utf-8")), ""


def main():
    for crate in sys.argv[1:]:
        crate = crate.rstrip("/")
        name = os.path.basename(crate)
        names, said = names_of(crate)
        if names is None:
            print(f"{name}: no names.json, so nothing was turned\n{said}")
            continue
        add_auto(crate)
        SOURCES.clear()
        for folder, _, files in os.walk(os.path.join(crate, "src")):
            SOURCES.extend(open(os.path.join(folder, it), encoding="utf-8").read() for it in files if it.endswith(".rt"))
        turned, left, counts = 0, [], {}
        for folder, _, files in sorted(os.walk(os.path.join(crate, "proofs"))):
            if "Proof.antt" not in files:
                continue
            path = os.path.join(folder, "Proof.antt")
            function = os.path.relpath(folder, os.path.join(crate, "proofs")).replace(os.sep, ".")
            key = f"Rattle-{name}-proofs.{function}.Lts"
            if key in names:
                table = Table(names[key], params_of(names, name, function))
            else:
                # a cycle of calls has a table for each of its functions
                above = function.rpartition(".")[0]
                table = {it.split(".Lts-")[1]: Table(entry, params_of(names, name, ".".join(filter(None, [above, it.split(".Lts-")[1]]))))
                         for it, entry in names.items() if it.startswith(key + "-")}
            if not table:
                left.append((path, "names.json has no such function"))
                continue

            def report(what):
                key = what.replace("of this", "of " + function) if " at " not in what else f"{what} of {function}"
                counts[key] = counts.get(key, 0) + 1

            try:
                made = convert(path, name, function, table, report)
            except (ValueError, KeyError, IndexError) as e:
                made = f"{type(e).__name__}: {e}"
            if isinstance(made, str):
                left.append((path, made))
                continue
            for file, text in made.items():
                open(os.path.join(folder, file), "w", encoding="utf-8").write(text)
            os.remove(path)
            if not os.listdir(folder):
                os.rmdir(folder)
            turned += 1
        subprocess.run(["rt", "fmt"], cwd=crate, capture_output=True)
        print(f"{name}: {turned} turned, {len(left)} left")
        for path, why in left:
            print(f"  left: {path}: {why}")
        for what, n in sorted(counts.items()):
            print(f"  {what}: {n}")


if __name__ == "__main__":
    main()
