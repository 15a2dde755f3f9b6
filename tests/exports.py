#!/usr/bin/env python3
"""Holds each export of crates/milestarling against the library's function that it calls: the same name, parameters, result and
clauses, word for word. So who has read the libraries' contracts has read those for C. It fails where one differs, where an export
calls another function than the one of its name, or where a function of that name in a library isn't exported.
"""
import pathlib
import re
import sys

CRATES = pathlib.Path(__file__).resolve().parent.parent / 'crates'
FUNCTION = re.compile(r'^pub (?:extern "C" )?fn (milestarling_\w+)(.*?)^\{(.*?)^\}', re.M | re.S)
# What the exports' crate calls otherwise, since two libraries have a word of the same name.
RENAMED = {
    'image': [(r'\bimport_outcome\b', 'outcome'), (r'\bimage::Reply\b', 'Reply')],
    'rescue': [(r'\brescue_outcome\b', 'outcome'), (r'\brescue::Reply\b', 'Reply')],
    'why': [(r'\bwhy::Reply\b', 'Reply')],
}


def functions(crate):
    """By name: what stands between a function's name and its body, and the body, each with single blanks and no comma at an end."""
    text = (CRATES / crate / 'src' / 'lib.rt').read_text()
    flat = lambda part: re.sub(r',? ?\) ?', ')', re.sub(r'\( ', '(', ' '.join(part.split())))
    return {name: (flat(head), flat(body)) for name, head, body in FUNCTION.findall(text)}


def main():
    exports = functions('milestarling')
    below = [line.split(':')[1].split() for line in (CRATES.parent / 'crates.txt').read_text().splitlines() if line.startswith('milestarling ')][0]
    wrong, seen = [], set()
    for crate in below:
        for name, (head, _) in functions(crate).items():
            seen.add(name)
            export, body = exports.get(name, ('', ''))
            for word, own in RENAMED.get(crate, ()):
                export = re.sub(word, own, export)
            names = ', '.join(re.findall(r'(\w+): ', head.split(')')[0]))
            if export != head:
                wrong.append(f'{name}: its contract differs from that of {crate}')
            if body.rstrip(';') != f'{crate}::{name}({names})':
                wrong.append(f'{name}: it does not hand its parameters on to {crate}')
    wrong += [f'{name}: no library has it' for name in exports.keys() - seen]
    for what in wrong:
        print(f'exports: {what}')
    print(f'exports: {len(exports)} functions for C, {len(wrong)} of them wrong')
    return 1 if wrong or not exports else 0


if __name__ == '__main__':
    sys.exit(main())
