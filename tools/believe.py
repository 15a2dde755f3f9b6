#!/usr/bin/env python3
"""Prints which definitions have to be believed, file by file in reading order, and counts them.

    python3 tools/believe.py            a line for each file, the totals, and the files that needn't be read
    python3 tools/believe.py --names    with the names of what is counted

To be believed is all that the promises reach. A promise is a contract, the `ensures` and `requires` of a `pub fn` that
a library exports (it stands in lib.rt or in a `pub mod` of it, or `pub use` there names it or the type that it is a method
of), or a record on a page of promises. What these name is followed through imports to definitions in crates/*/specs and types in
crates/*/src, and from each of them to what it names. Names of the kit and of its crates end the way. Comments, strings
and projections aren't followed; a bound name that a definition has too is, so that nothing is left out.

A signature is the `name : type` of a definition, a field of a record or struct, or a constructor of a data type or
enum. A clause is one defining equation, `f patterns = ..`, with the lines that continue it. A definition counts whole:
a type of which one member is named counts with all its members, and its head isn't counted.

Files are in the order of crates.txt, each crate behind those that it stands on; inside a crate the types come first,
and then specs/ in the order of Lib.antt. Last come the files of specs/ whose definitions no promise reaches: code,
proofs and programs go by them. The script stops at a line that it can't read, at an import that leads nowhere, and
where a promise needs what stands in proofs/.
"""
import argparse
import functools
import pathlib
import re
import sys
from typing import NamedTuple

CRATES = pathlib.Path(__file__).resolve().parent.parent / 'crates'
PAGE_NAMES = 'Demands', 'Library', 'Numbers', 'Why', 'Plugins', 'Images', 'Rescue'
PAGES = [CRATES / 'promises/specs' / f'{name}.antt' for name in PAGE_NAMES]
# With a dot before it, it is a projection, or stands behind its type or module.
WORD = re.compile(r'(\.?)([^\s(){}\[\];:,.&<>⌜⌝]+)')
HEAD = re.compile(r'(?:(?:unfoldable|abbrev|pub) )*(?:(record|data|use|mod) )?(\S+)( :)?')
DECLARED = re.compile(r'^(?:pub )?(struct|enum) (\w+)(?:<[^>]*>)?(?: \{\n(.*?)^\}|;$)', re.M | re.S)
SPECS_USED = re.compile(r'^(?:pub |ghost )?use (Rattle\.[^\s{;]+?)(?:\.\{([^}]*)\})?;?$', re.M)
MODULE_USED = re.compile(r'^(use (Rattle\.[\w.]*?\.?(\w+))(?: as (\w+))?)$', re.M)
CODE_USED = re.compile(r'^(?:pub )?use (?:crate::)?(\w+)::\{?([\w,\s]+)\}?;', re.M)
FUNCTION = re.compile(r'^impl(?:<[^>]*>)? (\w+)(?:<\w+>)? \{|^\}|^ *pub (?:extern "C" )?fn (\w+)((?:(?!^\}).)*?)^ *\{', re.M | re.S)
CLAUSE = re.compile(r'^ *(ensures|requires)\b[^{]*\{ (.*?) \}$', re.M | re.S)


class Definition(NamedTuple):
    kind: str
    signatures: int
    clauses: int
    names: set


class Source(NamedTuple):
    """A file: its definitions, the type of each constructor, and the file and name that each import leads to."""
    definitions: dict
    types: dict
    imports: dict


def stop(why):
    sys.exit(f'believe.py: {why}')


def names_in(text):
    return {name for dot, name in WORD.findall(text) if not dot and (name[0].isalpha() or name[0] == '_')}


def groups_in(text):
    """Each line at the margin with the indented lines behind it, without comments and strings."""
    groups = []
    for line in re.sub(r'^ *--.*$', '', text, flags=re.M).split('\n'):
        line = re.sub(r'"[^"]*"', '', line).split(' -- ')[0].rstrip()
        if line and not line[0].isspace():
            groups.append(line)
        elif line:
            groups[-1] += '\n' + line
    return groups


def definitions_in(text):
    """What a file of specs/ defines."""
    definitions, types = {}, {}
    for group in groups_in(text):
        kind, name, signature = HEAD.match(group).groups()
        if kind in ('record', 'data'):
            members = re.findall(r'^  (?:pub )?(\S+) :', group, re.M)
            definitions[name] = Definition(kind, len(members), 0, names_in(group))
            types.update({member: name for member in members if kind == 'data'})
        elif signature and not kind:
            definitions[name] = Definition('function', 1, 0, names_in(group))
        elif name in definitions and not kind:
            before = definitions[name]
            definitions[name] = before._replace(clauses=before.clauses + 1, names=before.names | names_in(group))
        elif not kind:
            stop(f'neither a signature nor a clause behind one: {group}')
    return definitions, types


def types_in(code):
    """What a file of code declares."""
    definitions, types = {}, {}
    for kind, name, body in DECLARED.findall(code):
        members = re.findall(r'^    (?:pub )?(\w+)', body, re.M)
        held = names_in(re.sub(r'^    (pub )?\w+:?', '', body, flags=re.M))
        definitions[name] = Definition(kind, len(members), 0, held)
        types.update({member: name for member in members if kind == 'enum'})
    return definitions, types


def spelled_out(text):
    """The text with `module.name` as one word, and with an import of that word in place of the module's."""
    for whole, module, last, alias in MODULE_USED.findall(text):
        alias = alias or last
        behind = re.compile(rf'(?<![\w·]){alias}\.([\w-]+)')
        listed = ', '.join(f'{name} as {alias}·{name}' for name in sorted(set(behind.findall(text))))
        text = behind.sub(rf'{alias}·\1', text).replace(f'{whole}\n', f'use {module}.{{{listed}}}\n')
    return text


def imports_in(text, path):
    found = {}
    for module, listed in SPECS_USED.findall(text):
        crate, _, inside = module.removeprefix('Rattle.').partition('.')
        if not (CRATES / crate).is_dir():
            continue
        part, _, rest = inside.partition('.')
        steps = [step for step in rest.split('.') if step != 'TheVariants']
        owner = steps.pop() if steps[0] == 'declared' else None
        if owner:
            there = CRATES.joinpath(crate, 'src', *(steps[1:] or ['lib'])).with_suffix('.rt')
        else:
            there = CRATES.joinpath(crate, part, *steps).with_suffix('.antt')
        for entry in listed.split(','):
            name, _, here = entry.strip().partition(' as ')
            if not name:
                stop(f'{path}: an import without names, {module}')
            found[here or name] = there, owner or name
    for where, listed in CODE_USED.findall(text):
        for there in filter(pathlib.Path.exists, (CRATES / where / 'src/lib.rt', path.with_name(where + '.rt'))):
            found.update({name: (there, name) for name in re.findall(r'\w+', listed)})
    return found


@functools.lru_cache(None)
def source(path):
    if 'proofs' in path.relative_to(CRATES).parts or not path.exists():
        stop(f'a promise leads to {path.relative_to(CRATES.parent)}')
    text = spelled_out(path.read_text())
    read = definitions_in(text) if path.suffix == '.antt' else types_in(re.sub(r'//.*', '', text))
    return Source(*read, imports_in(text, path))


def meant(path, name):
    """The file and the name of the definition that a name means in a file; None for a name of the kit."""
    here = source(path)
    if name in here.definitions:
        return path, name
    if name in here.types:
        return path, here.types[name]
    if name in here.imports:
        return meant(*here.imports[name]) or stop(f'{path.relative_to(CRATES)}: {name} leads nowhere')
    return None


def closure(roots):
    reached, ahead = set(), list(roots)
    while ahead:
        path, name = ahead.pop()
        if (path, name) not in reached:
            reached.add((path, name))
            ahead += filter(None, (meant(path, each) for each in source(path).definitions[name].names))
    return reached


def contracts_of(crate):
    """The file and the clauses, each with its kind, of every function that a library exports."""
    lib = CRATES / crate / 'src/lib.rt'
    passed_on = {(module, name) for module, listed in re.findall(r'^pub use (\w+)::\{?([\w,\s]+)\}?;', lib.read_text(), re.M)
                 for name in re.findall(r'\w+', listed)} if lib.exists() else ()
    opened = {'lib', *re.findall(r'^pub mod (\w+);', lib.read_text(), re.M)} if lib.exists() else ()
    for path in sorted(lib.parent.glob('*.rt')) if lib.exists() else ():
        owner = None
        for found in FUNCTION.finditer(re.sub(r'//.*', '', path.read_text())):
            if not found[2]:
                owner = found[1]
            elif path.stem in opened or (path.stem, owner or found[2]) in passed_on:
                yield path, CLAUSE.findall(found[3])


def crates_in_order():
    # A static library exports what libraries have, with their contracts.
    below = dict(line.split(':') for line in (CRATES.parent / 'crates.txt').read_text().split('\n') if ':' in line and ' staticlib' not in line)
    order = {}

    def visit(crate):
        if crate in below and crate not in order:
            for lower in below[crate].split():
                visit(lower)
            order[crate] = True

    for crate in below:
        visit(crate)
    return list(order)


def specs_below(folder, root):
    """The files that a root declares, and behind each of them those that it declares."""
    for name in re.findall(r'^pub mod (\S+)', root.read_text(), re.M) if root.exists() else ():
        yield folder / f'{name}.antt'
        yield from specs_below(folder / name, folder / f'{name}.antt')


def main():
    parser = argparse.ArgumentParser(description=__doc__, formatter_class=argparse.RawDescriptionHelpFormatter)
    parser.add_argument('--names', action='store_true', help='print the names of what is counted')
    with_names = parser.parse_args().names
    crates = crates_in_order()
    contracts = [contract for crate in crates for contract in contracts_of(crate)]
    named = {meant(path, name) for path, clauses in contracts for _, clause in clauses for name in names_in(clause)}
    page = {(page, name) for page in PAGES for name, each in source(page).definitions.items() if each.kind == 'record'}
    reached = closure(named - {None} | page)
    totals, unreached = {'src': [0, 0, 0], 'specs': [0, 0, 0]}, []
    for crate in crates:
        specs = CRATES / crate / 'specs'
        for path in [*sorted((CRATES / crate / 'src').glob('*.rt')), *specs_below(specs, specs / 'Lib.antt')]:
            defined, shown = source(path).definitions, path.relative_to(CRATES.parent)
            counted = {name: each for name, each in defined.items() if (path, name) in reached}
            if counted:
                sums = [sum(getattr(each, what) for each in counted.values()) for what in ('signatures', 'clauses')]
                totals[shown.parts[2]] = [a + b for a, b in zip(totals[shown.parts[2]], [1, *sums])]
                print('{:44}{:4} signatures{:4} clauses'.format(str(shown), *sums))
                if with_names:
                    print('    ' + ', '.join(counted))
            elif defined and path.suffix == '.antt':
                unreached.append(shown)
    kinds = [kind for _, clauses in contracts for kind, _ in clauses]
    row = '{:23}{} files, {} signatures, {} clauses'.format
    print('', row('types in src/:', *totals['src']), row('definitions in specs/:', *totals['specs']),
          row('in all:', *map(sum, zip(*totals.values()))),
          f"contracts:             {len(contracts)} public functions, {kinds.count('ensures')} ensures, "
          f"{kinds.count('requires')} requires", '', 'No promise reaches:', *unreached, sep='\n')


if __name__ == '__main__':
    main()
