#!/usr/bin/env python3
"""Spells the repository's own definitions and lemmas as today's Rattle does: words in snake case, types in camel case.

usage: python3 tools/respell.py [--check]     at the top of the repository, once, after /opt/rattle/port/port.py

Turned are the names that specs/ and the lemma files of proofs/ declare: definitions, lemmas, fields, constructors and local names. A capital within a
name that begins small, and a dash, become an underscore. Names that Rattle makes, functions of src/, exported names, strings, inputs and outputs stay.
The names are turned in every .antt file, in what clauses cite in .rt files and, between backquotes, in comments.
A name that would meet another one stays, and a line 'stays:' says so; --check writes nothing.
"""
import collections
import os
import re
import sys

PART = r'[^\s(){}\[\].;,@"«»`]+'
TOKEN = re.compile(PART)
DECLARED = re.compile(r'^\s*(?:(?:pattern|unfoldable|abbrev|pub|axiom)\s+)*((?:%s\s+)*?%s)(?:\s+\{[^{}]*\})*\s+:\s' % (PART, PART))
HEAD = re.compile(r'^\s*(?:(?:pub|data|record|abbrev|unfoldable)\s+)+(%s)' % PART)
WORDS = {'in', 'let', 'where', 'mutual', 'use', 'mod', 'elim', 'record', 'data'}


def texts(end):
    for folder, dirs, files in os.walk('crates'):
        dirs[:] = sorted(d for d in dirs if d != 'out')
        for f in sorted(files):
            if f.endswith(end):
                yield os.path.join(folder, f)


def is_lemmas(path):
    """A file of specs/, or one right in proofs/ and not below a function's folder."""
    parts = path.split(os.sep)
    return parts[2] == 'specs' or parts[2] == 'proofs' and len(parts) == 4


def in_snake_case(name):
    if name[0].isupper():
        return name
    return re.sub(r'(?<=[a-z0-9])[A-Z]', lambda m: '_' + m[0].lower(), name).replace('-', '_')


def read(path):
    with open(path, encoding='utf8') as f:
        return f.read()


def declared(text):
    names = set()
    for line in text.split('\n'):
        if line.lstrip().startswith('--'):
            continue
        found = DECLARED.match(line)
        if found:
            names.update(found[1].split())
    return names - WORDS


def main():
    check = '--check' in sys.argv[1:]
    files = {p: read(p) for p in texts('.antt')}
    sources = {p: read(p) for p in texts('.rt')}
    own = set()
    for path, text in files.items():
        if is_lemmas(path):
            own |= declared(text)
    groups = collections.defaultdict(list)
    for n in own:
        if re.search('[a-z]', n):
            groups[in_snake_case(n)].append(n)
    table = {}
    for new, olds in groups.items():
        # Where names fall together, the definition (it has a capital within, or else no dash) keeps the plain one, and a lemma or field gets _lem.
        olds.sort(key=lambda n: ('-' in n, not re.search('[a-z0-9][A-Z]', n), n))
        for i, n in enumerate(olds):
            table[n] = new + '_lem' * (i > 0 and n != new or i > 0)
        if len(olds) > 1:
            print('look: %s fall together: %s' % (' and '.join(olds), ' and '.join(table[n] for n in olds)))
        assert len(olds) < 3 and (len(olds) < 2 or new + '_lem' not in groups)
    table = {old: new for old, new in table.items() if old != new}
    # Names that would hide a parameter, a field or a constant of src/, or meet a word of the libraries.
    for path, text in sources.items():
        names = set(re.findall(r'\b(\w+): (?!:)', text)) | set(re.findall(r'\bconst (\w+)', text))
        for old in set(TOKEN.findall(text)) & set(table):
            if table[old] in names:
                print('look: %s: %s becomes %s, a parameter, field or constant there' % (path, old, table[old]))
    for path, text in files.items():
        words = set(TOKEN.findall(text))
        imported = {w for items in re.findall(r'(?m)^(?:pub )?use [^{\n]*\{([^}]*)\}', text) for w in TOKEN.findall(items)}
        for old in words & set(table):
            if table[old] in imported and table[old] not in own:
                print('look: %s: %s becomes %s, imported there' % (path, old, table[old]))
    turn = lambda text: TOKEN.sub(lambda m: table.get(m[0], m[0]), text)
    turned = 0
    for path, text in list(files.items()) + list(sources.items()):
        mark = '--' if path.endswith('.antt') else '//'
        lines = []
        for line in text.split('\n'):
            at = re.search(r'(?:^|\s)%s(?:\s|$)' % mark, line)
            body, comment = (line, '') if not at else (line[:at.start()], line[at.start():])
            comment = re.sub(r'`[^`]*`', lambda m: turn(m[0]), comment)
            comment = TOKEN.sub(lambda m: table.get(m[0], m[0]) if re.search('[a-z0-9][A-Z]', m[0]) else m[0], comment)
            lines.append(turn(body) + comment)
        new = '\n'.join(lines)
        if new != text:
            turned += 1
            if not check:
                with open(path, 'w', encoding='utf8') as f:
                    f.write(new)
    print('%d names, %d files turned' % (len(table), turned))


main()
