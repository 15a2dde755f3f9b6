#!/usr/bin/env python3
"""Runs real programs with their loads and stores done by the library, and counts which of them are taken.

    apt-get install gcc libunicorn-dev qemu-user binutils-aarch64-linux-gnu dpkg xz-utils
    bash tools/library.sh
    python3 tools/executed.py [PROGRAM..] [--capabilities NAMES] [--zva] [--mirror URL] [--suite NAME]

It fetches Debian's arm64 packages as tools/coverage.py does, and runs password hashes of libcrypt, logins by PAM, NSS, SASL
and OpenSSL, all from Debian's own dynamic linker on. tools/executed/lockstep.c does each load and store by the library, and
computes all else by Unicorn. Each program is run twice. First Unicorn does the loads and stores too, on a memory of its own,
and all registers and the bytes stored are compared after each. Then it is handed none that the library takes. What a program
writes, and its exit status, must be those under qemu-aarch64 both times. As root, or by `unshare -r`, since pam_unix reads the
shadow file only then.

Programs choose their code by what the processor has. Shown are the least, floating point and vectors (`fp`, `asimd`), and
no `dc zva`, as the README advises a host. More capabilities, and --zva, show what isn't taken then. It exits with 1 where
anything differs.
"""
import argparse
import collections
import os
import shutil
import subprocess
from typing import NamedTuple

import coverage
from aarch64_tools import gnu_disassembly

TOP = coverage.TOP
ROOM = os.path.join(TOP, 'target', 'executed')
ROOT = os.path.join(ROOM, 'root')
LOCKSTEP = os.path.join(ROOM, 'lockstep')
ARCHIVE = os.path.join(TOP, 'target', 'staticlib', 'libmilestarling.a')

TOOLS = ['gcc', 'libunicorn-dev', 'qemu-user', 'binutils-aarch64-linux-gnu', 'dpkg', 'xz-utils']
PACKAGES = ['libc6', 'libc-bin', 'libcrypt1', 'whois', 'perl-base', 'libpam0g', 'libpam-modules', 'pamtester', 'libaudit1',
            'libcap-ng0', 'libselinux1', 'libpcre2-8-0', 'libpam-krb5', 'libkrb5-3', 'libk5crypto3', 'libkrb5support0',
            'libcom-err2', 'libkeyutils1', 'libpam-ldapd', 'libnss-ldapd', 'sasl2-bin', 'libsasl2-2', 'libsasl2-modules',
            'libsasl2-modules-db', 'libdb5.3', 'libssl3', 'openssl']

# Bits of AT_HWCAP.
CAPABILITIES = {'fp': 0, 'asimd': 1, 'aes': 3, 'pmull': 4, 'sha1': 5, 'sha2': 6, 'crc32': 7, 'atomics': 8, 'sha3': 17,
                'sha512': 21}
# As lockstep.c names them, and those of which the library takes any.
KINDS = ['general', 'vector', 'exclusive', 'structure', 'atomic', 'dc-zva', 'other']
TAKEN = KINDS[:3]


class Program(NamedTuple):
    """What is run, and what is typed then."""
    name: str
    command: list
    typed: str = ''


def hashed(method, salt):
    """A hash at the cost that mkpasswd takes where none is named, which of yescrypt is j9T."""
    return Program(method, ['/usr/bin/mkpasswd', '-m', method, '-S', salt, 'secret'])


def login(user, password, module='pam_unix'):
    return Program('%s, %s, %s' % (module, user, password), ['/usr/bin/pamtester', module, user, 'authenticate', 'acct_mgmt'],
                   password + '\n')


def digest(name, path):
    return Program('%s of %s' % (name, path), ['/usr/bin/openssl', 'dgst', '-' + name, path])


def derived(name):
    options = ['digest:' + name, 'pass:secret', 'salt:abcdefgh', 'iter:1000']
    return Program('PBKDF2 by %s, 1000 rounds' % name, ['/usr/bin/openssl', 'kdf', '-keylen', '32']
                   + [word for option in options for word in ('-kdfopt', option)] + ['PBKDF2'])


# Each of these methods has a user of its name, whose password is `secret`.
HASHES = [
    hashed('descrypt', 'ab'),
    hashed('md5crypt', 'abcdefgh'),
    hashed('sha256crypt', 'abcdefgh'),
    hashed('sha512crypt', 'abcdefgh'),
    hashed('bcrypt', 'abcdefghijklmnopqrstuu'),
    hashed('yescrypt', 'j9T$abcdefghijklmnop'),
]
GROUPS = {
    'libcrypt': HASHES + [
        # mkpasswd takes no salt for scrypt.
        Program('scrypt, N = 1024', ['/usr/bin/perl', '-e', 'print crypt("secret", q($7$8U..../....abcdefgh)), "\\n"'])],
    # Of Kerberos and LDAP there is no server, which the programs find out and say.
    'PAM': [login('yescrypt', 'secret'), login('sha512crypt', 'secret'), login('sha512crypt', 'mistyped'),
            login('nobody', 'secret'), login('yescrypt', 'secret', 'pam_krb5'), login('yescrypt', 'secret', 'pam_ldap')],
    'NSS': [Program(service, ['/usr/bin/getent', '-s', service, 'passwd', 'yescrypt']) for service in ('files', 'ldap')],
    'SASL': [Program('the list of plugins', ['/usr/sbin/saslpluginviewer'])],
    'OpenSSL': [digest('sha256', '/usr/lib/ssl/openssl.cnf'), digest('sha512', '/usr/lib/ssl/openssl.cnf'),
                digest('sha256', '/usr/bin/openssl'), digest('sha512', '/usr/bin/openssl'), derived('SHA1'), derived('SHA256'),
                derived('SHA512'),
                Program('passwd -6', ['/usr/bin/openssl', 'passwd', '-6', '-salt', 'abcdefgh', 'secret'])],
}


def need(packages):
    """Says what lacks."""
    asked = subprocess.run(['dpkg-query', '-W', '-f', '${Package} ${db:Status-Status}\n', *packages], capture_output=True,
                           text=True).stdout.splitlines()
    missing = [package for package in packages if package + ' installed' not in asked]
    if missing:
        raise SystemExit('more packages are needed. As root: apt-get install --no-install-recommends ' + ' '.join(missing))
    if os.geteuid() != 0:
        raise SystemExit('pam_unix reads no shadow file for this user. As root, or: unshare -r python3 tools/executed.py')
    if not os.path.exists(ARCHIVE):
        raise SystemExit('%s is not there: make it by `bash tools/library.sh`' % ARCHIVE)


def build():
    """The program that runs others, over the library as its header declares it: with vector registers or without."""
    with open(os.path.join(TOP, 'include', 'milestarling.h')) as file:
        switch = ['-DWITH_VECTORS'] if 'struct milestarling_vectors' in file.read() else []
    sources = [os.path.join(TOP, 'tools', 'executed', name) for name in ('lockstep.c', 'linux.c')]
    subprocess.run(['gcc', '-O2', '-std=gnu11', '-Wall', '-Wextra', *switch, '-I' + os.path.join(TOP, 'include'), '-o', LOCKSTEP,
                    *sources, ARCHIVE, '-lunicorn'], check=True)


def by_qemu(program):
    path = program.command[0]
    return subprocess.run(['qemu-aarch64', '-L', ROOT, '-0', path, ROOT + path, *program.command[1:]], input=program.typed,
                          capture_output=True, text=True, env={'LC_ALL': 'C', 'PATH': '/usr/bin'})


def put(path, lines):
    path = ROOT + path
    os.makedirs(os.path.dirname(path), exist_ok=True)
    with open(path, 'w') as file:
        file.write(''.join(line + '\n' for line in lines))


def furnish(mirror, suite):
    """Makes the root folder: the packages' files, and a user for each hash, who has its name and the password `secret`."""
    os.makedirs(coverage.ROOM, exist_ok=True)
    known = coverage.index(mirror, suite)
    shutil.rmtree(ROOT, ignore_errors=True)
    for name in PACKAGES:
        shutil.copytree(coverage.unpacked(mirror, known[name]), ROOT, symlinks=True, dirs_exist_ok=True)
    put('/etc/nsswitch.conf', ['passwd: files', 'shadow: files', 'group: files'])
    put('/etc/krb5.conf', ['[libdefaults]', 'default_realm = EXAMPLE.ORG', 'dns_lookup_kdc = false', '[realms]',
                           'EXAMPLE.ORG = {', 'kdc = 127.0.0.1:1', '}'])
    for module in ('pam_unix', 'pam_krb5', 'pam_ldap'):
        put('/etc/pam.d/' + module, ['auth required %s.so' % module, 'account required pam_unix.so'])
    put('/etc/passwd', ['%s:x:%d:%d::/:/bin/sh' % (one.name, 1000 + i, 1000 + i) for i, one in enumerate(HASHES)])
    put('/etc/shadow', ['%s:%s:19000:0:99999:7:::' % (one.name, by_qemu(one).stdout.strip()) for one in HASHES])
    return ['%s %s' % (name, known[name]['Version']) for name in PACKAGES]


class Counted:
    """What a report says: the words, and how many loads and stores of each kind got which answer."""

    def __init__(self):
        self.numbers = collections.Counter()
        self.kinds = collections.Counter()
        self.refused = collections.Counter()

    def read(self, path):
        with open(path) as file:
            for line in file:
                name, *fields, count = line.split()
                if name == 'kind':
                    self.kinds[fields[0], int(fields[1])] += int(count)
                elif name == 'refused':
                    self.refused[int(fields[0], 16), int(fields[1])] += int(count)
                else:
                    self.numbers[name] += int(count)

    def add(self, other):
        for mine, others in zip(vars(self).values(), vars(other).values()):
            mine.update(others)

    def row(self, name):
        everything, taken = sum(self.kinds.values()), sum(self.kinds[kind, 0] for kind in KINDS)
        refused = [(kind, sum(count for (one, answer), count in self.kinds.items() if one == kind and answer)) for kind in KINDS]
        fields = [name, *('{:,}'.format(number) for number in (self.numbers['words'], everything)),
                  # Rounded down, so that only all is 100.
                  '%d.%02d %%' % divmod(10000 * taken // everything, 100), *('{:,}'.format(self.kinds[kind, 0]) for kind in TAKEN),
                  ', '.join('{} {:,}'.format(*entry) for entry in refused if entry[1]) or '-',
                  '{:,}'.format(self.numbers['differences']), 'ANOTHER' if self.numbers['other outputs'] else 'the same']
        print('| %s |' % ' | '.join(fields), flush=True)


def by_library(mode, program, expected, capabilities, zva):
    """What was counted of a program; it has another output where it doesn't write and end as expected."""
    report = os.path.join(ROOM, 'report')
    done = subprocess.run([LOCKSTEP, mode, report, ROOT, hex(capabilities), 'zva' if zva else 'no-zva', *program.command],
                          input=program.typed, capture_output=True, text=True)
    written, said = [], []
    for line in done.stderr.splitlines(keepends=True):
        (said if line.startswith('lockstep: ') else written).append(line)
    for line in said:
        print('%s, %s: %s' % (program.name, mode, line), end='')
    if done.returncode == 125:
        raise SystemExit('%s: it could not be run' % program.name)
    counted = Counted()
    counted.read(report)
    counted.numbers['other outputs'] += (done.stdout, ''.join(written), done.returncode) != (
        expected.stdout, expected.stderr, expected.returncode)
    return counted


def run(program, capabilities, zva):
    """Both runs: the counts of the first, and what differs in either."""
    expected = by_qemu(program)
    counted = by_library('compare', program, expected, capabilities, zva)
    alone = by_library('alone', program, expected, capabilities, zva)
    for name in ('differences', 'other outputs'):
        counted.numbers[name] += alone.numbers[name]
    return counted


def print_refused(refused):
    """The words that weren't taken, by objdump's mnemonics and with their answers."""
    names = collections.Counter()
    for ((_, answer), count), said in zip(refused.items(), gnu_disassembly([word for word, _ in refused])):
        fields = (said.text or 'unknown').replace(',', '').split()
        names[' '.join(fields[:2 if fields[0] == 'dc' else 1]), answer] += count
    print('Not taken: ' + ', '.join('{} {:,} (answer {})'.format(name, count, answer)
                                    for (name, answer), count in names.most_common()))


def main():
    parser = argparse.ArgumentParser(description=__doc__.splitlines()[0])
    parser.add_argument('programs', nargs='*', metavar='PROGRAM', help='the beginning of a name; none are all')
    parser.add_argument('--capabilities', default='fp,asimd', help='of ' + ', '.join(CAPABILITIES))
    parser.add_argument('--zva', action='store_true', help='show a processor with dc zva')
    parser.add_argument('--mirror', default='http://deb.debian.org/debian')
    parser.add_argument('--suite', default='bookworm')
    chosen = parser.parse_args()
    capabilities = sum(1 << CAPABILITIES[name] for name in chosen.capabilities.split(','))
    need(TOOLS)
    os.makedirs(ROOM, exist_ok=True)
    build()
    versions = furnish(chosen.mirror, chosen.suite)
    print('Packages: ' + ', '.join(versions))
    print('| Program | Words | Loads and stores | Taken | General | Vectors | Exclusives | Not taken | Differences | Output |')
    print('|---' * 10 + '|')
    total = Counted()
    for group, programs in GROUPS.items():
        of_group = Counted()
        for program in programs:
            if not chosen.programs or program.name.startswith(tuple(chosen.programs)):
                counted = run(program, capabilities, chosen.zva)
                counted.row('%s: %s' % (group, program.name))
                of_group.add(counted)
        if len(programs) > 1 and of_group.numbers:
            of_group.row(group)
        total.add(of_group)
    total.row('All')
    print()
    print_refused(total.refused)
    raise SystemExit(1 if total.numbers['differences'] or total.numbers['other outputs'] else 0)


if __name__ == '__main__':
    main()
