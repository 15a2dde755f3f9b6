#!/usr/bin/env python3
"""Counts which loads and stores of real login plugins are taken, and whether their texts and kinds are objdump's.

    apt-get install binutils-aarch64-linux-gnu dpkg xz-utils
    bash tests/bindings.sh
    python3 tools/coverage.py [--mirror URL] [--suite NAME]

It fetches Debian's arm64 packages of login plugins and of what they stand on, by the package index of a mirror, into
target/coverage, and holds each against its checksum there. Neither root nor a foreign architecture is needed. `milestarling
list --sections` and `milestarling check` go through the executable sections of each file, and objdump is handed their loads and
stores.

A load or store is a word with bit 27 = 1 and bit 25 = 0, as Arm's top table has it, that objdump knows as an
instruction. It is taken where it has a text and answer 0, and of those the ninth family's, exclusives, and the
vectors are counted; else it is one of the rest, of which `check` says the reason, and with answer 2 the kind of what objdump
calls so. The files have no symbols that part code from data, so that tables which stand among the code are counted as the
words that they look like.
"""
import argparse
import collections
import hashlib
import json
import lzma
import os
import subprocess
import sys
import tempfile
import urllib.request
from concurrent.futures import ThreadPoolExecutor

from aarch64_text import line_in
from aarch64_tools import ORIGIN, gnu_disassembly
from kinds import kind_of

TOP = os.path.dirname(os.path.dirname(os.path.abspath(__file__)))
COMMAND = os.path.join(TOP, 'target', 'cargo', 'release', 'milestarling')
ROOM = os.path.join(TOP, 'target', 'coverage')

# What is counted together: the names of a suite's packages.
GROUPS = [
    ('PAM modules', ['libpam-modules']),
    ('PAM', ['libpam0g']),
    ('PAM for LDAP', ['libpam-ldapd']),
    ('NSS for LDAP', ['libnss-ldapd']),
    ('PAM for Kerberos', ['libpam-krb5']),
    ('SASL and its plugins', ['libsasl2-2', 'libsasl2-modules']),
    ('LDAP', ['libldap-2.5-0']),
    ('Kerberos', ['libkrb5-3', 'libgssapi-krb5-2', 'libk5crypto3', 'libkrb5support0']),
    ('OpenSSL', ['libssl3']),
    ('C library', ['libc6']),
]
# Words that are handed to objdump at once.
BATCH = 1 << 16


def fetch(url):
    with urllib.request.urlopen(url, timeout=60) as reply:
        return reply.read()


def index(mirror, suite):
    """The fields of each arm64 package of a suite's main part."""
    content = lzma.decompress(fetch('%s/dists/%s/main/binary-arm64/Packages.xz' % (mirror, suite))).decode()
    packages = {}
    for entry in content.split('\n\n'):
        fields = dict(line.split(': ', 1) for line in entry.splitlines() if ': ' in line and line[0] != ' ')
        if fields:
            packages[fields['Package']] = fields
    return packages


def unpacked(mirror, fields):
    """The folder with a package's files, fetched once."""
    folder = os.path.join(ROOM, os.path.basename(fields['Filename'])[:-len('.deb')])
    if not os.path.isdir(folder):
        content = fetch('%s/%s' % (mirror, fields['Filename']))
        if hashlib.sha256(content).hexdigest() != fields['SHA256']:
            raise SystemExit('%s: another checksum than the index has' % fields['Filename'])
        with tempfile.TemporaryDirectory(dir=ROOM) as room:
            with open(os.path.join(room, 'package.deb'), 'wb') as file:
                file.write(content)
            subprocess.run(['dpkg-deb', '-x', file.name, os.path.join(room, 'files')], check=True)
            os.rename(os.path.join(room, 'files'), folder)
    return folder


def is_elf(path):
    with open(path, 'rb') as file:
        return file.read(4) == b'\x7fELF'


def files_below(folder):
    """Every plain ELF file once, whatever links lead to it."""
    for place, _, names in sorted(os.walk(folder)):
        for name in sorted(names):
            path = os.path.join(place, name)
            if os.path.isfile(path) and not os.path.islink(path) and is_elf(path):
                yield path


def said(*words):
    """What the command writes. Its status is 1 where a word isn't taken."""
    done = subprocess.run([COMMAND, *words], capture_output=True, text=True)
    if done.returncode > 1 or done.stderr:
        raise SystemExit('milestarling %s: status %d, %s' % (' '.join(words), done.returncode, done.stderr))
    return done.stdout


def loads_and_stores(path):
    """Those of a file's code, each with its word, its text, its answer, and the reason where it isn't taken."""
    checked, = json.loads(said('check', '--json', path))['files']
    reasons = {int(found['address'], 16): found['reason'] for found in checked['not_taken']}
    found = []
    for fields in (line.split('\t') for line in said('list', '--sections', path).splitlines()):
        # Lines of sections, labels and bytes that are left over have no word.
        if len(fields) == 4 and len(fields[1]) == 8 and is_load_or_store(int(fields[1], 16)):
            address, word, text, answer = fields
            found.append((int(word, 16), text, answer, reasons.pop(int(address, 16), None)))
    # What is left of the reasons is `dc zva`, of another part of Arm's table.
    if checked['loads_and_stores'] != len(found) + len(reasons):
        raise SystemExit('%s: list and check differ' % path)
    return found


def disassembled(words):
    """objdump's texts, several calls at a time."""
    batches = [words[at:at + BATCH] for at in range(0, len(words), BATCH)]
    with ThreadPoolExecutor(os.cpu_count()) as pool:
        return [said for batch in pool.map(gnu_disassembly, batches) for said in batch]


def is_load_or_store(word):
    return word >> 27 & 1 == 1 and word >> 25 & 1 == 0


def is_exclusive(word):
    """02's load-exclusive, store-exclusive, load-acquire and store-release."""
    return word >> 24 & 0x3f == 0b001000 and word >> 21 & 1 == 0 and (word >> 23 & 1, word >> 15 & 1) != (1, 0)


def is_vector(word):
    """Whether a word that is taken is one of 02's vector forms."""
    return word >> 26 & 1 == 1


def counted(chosen, rest, others):
    """How many loads and stores there are of each sort."""
    counts = collections.Counter()
    texts = disassembled([word for word, *_ in chosen])
    for place, ((word, text, answer, reason), theirs) in enumerate(zip(chosen, texts)):
        if (answer == '0') != (reason is None):
            raise SystemExit('%08x: answer %s, %s' % (word, answer, reason))
        if theirs.text is None:
            # A word of the set that objdump doesn't know would be ours alone.
            counts['ours alone'] += answer == '0'
            continue
        counts['all'] += 1
        if answer != '0':
            counts['rest'] += 1
            rest[reason] += 1
            if answer == '2' and not reason.startswith(kind_of(theirs.text)):
                others['%08x %s, %s' % (word, reason, ' '.join(theirs.text.split()))] += 1
            continue
        counts['taken'] += 1
        counts['exclusives'] += is_exclusive(word)
        counts['vectors'] += is_vector(word)
        if text != line_in(theirs.text, ORIGIN + 4 * (place % BATCH)):
            counts['other texts'] += 1
            others['%08x %s, %s' % (word, text, ' '.join(theirs.text.split()))] += 1
    return counts


def percent(part, whole):
    return '%.1f %%' % (100 * part / whole) if whole else '-'


def row(name, versions, counts):
    whole, exclusives, vectors, rest = ('{:,}'.format(counts[sort]) for sort in ('all', 'exclusives', 'vectors', 'rest'))
    texts = '{:,} of {:,}'.format(counts['taken'] - counts['other texts'], counts['taken'])
    fields = name, versions, whole, percent(counts['taken'], counts['all']), exclusives, vectors, rest, texts
    print('| %s |' % ' | '.join(fields))


def main():
    parser = argparse.ArgumentParser(description=__doc__.splitlines()[0])
    parser.add_argument('--mirror', default='http://deb.debian.org/debian')
    parser.add_argument('--suite', default='bookworm')
    chosen = parser.parse_args()
    if not os.path.exists(COMMAND):
        raise SystemExit('%s is not there: make it by `bash tests/bindings.sh`' % COMMAND)
    os.makedirs(ROOM, exist_ok=True)
    packages = index(chosen.mirror, chosen.suite)
    total, rest, others = collections.Counter(), collections.Counter(), collections.Counter()
    print('| Of | Packages | Loads and stores | Taken | Exclusives of them | Vectors of them | The rest | Texts as objdump\'s |')
    print('|---|---|---|---|---|---|---|---|')
    for name, members in GROUPS:
        missing = [member for member in members if member not in packages]
        if missing:
            raise SystemExit('%s has no package %s' % (chosen.suite, ', '.join(missing)))
        folders = [unpacked(chosen.mirror, packages[member]) for member in members]
        print('%s: %s' % (name, ', '.join(folders)), file=sys.stderr)
        words = [found for folder in folders for path in files_below(folder) for found in loads_and_stores(path)]
        counts = counted(words, rest, others)
        versions = ', '.join('%s %s' % (member, packages[member]['Version']) for member in members)
        row(name, versions, counts)
        total.update(counts)
    row('All', '', total)
    print()
    for reason, count in rest.most_common():
        print('The rest: %d %s' % (count, reason))
    print('Ours alone: %d' % total['ours alone'])
    for text, count in others.most_common(20):
        print('Another text or kind: %s (%d)' % (text, count))


if __name__ == '__main__':
    main()
