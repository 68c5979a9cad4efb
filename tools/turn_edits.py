#!/usr/bin/env python3
"""Brings the must-fail edits over to today's spelling, once /opt/rattle/port/port.py and tools/respell.py have turned the files that they apply to.

usage: python3 tools/turn_edits.py [--check] [COMMIT]     at the top of the repository, once; COMMIT has the files in the older spelling

How a name is spelled now is read off the files: the tokens of each line of COMMIT are laid beside those of the line that stands for it now. An edit's texts
are turned by that table and by the rules of clauses and projections, and the turned old: text is then looked for in the file, blanks aside: what is written
is the file's own text. Edits whose texts stand as they are stay as they are. A line 'by hand:' names an edit that was not turned; --check writes nothing.
"""
import collections
import difflib
import glob
import os
import re
import subprocess
import sys

BEFORE = '89d6cb6'
TOKEN = re.compile(r"[^\s(){}\[\].;,@\"«»`⌜⌝]+|\S")
NAME = re.compile(r"^[^\W\d][\w'′·-]*$")
ATOM = r"(?:[\w'′]+|\((?:[^()]|\([^()]*\))*\))"


def before(commit, path):
    found = subprocess.run(['git', 'show', '%s:%s' % (commit, path)], capture_output=True, text=True)
    return found.stdout if found.returncode == 0 else ''


def read(path):
    with open(path, encoding='utf8') as f:
        return f.read()


def lines_beside(old, new):
    """The lines of the old text that have one line in the new one, by how alike their words are."""
    flat = lambda line: re.sub(r"[\W_]", '', line).lower()
    a, b = [flat(l) for l in old], [flat(l) for l in new]
    for tag, i, j, k, m in difflib.SequenceMatcher(None, a, b, autojunk=False).get_opcodes():
        if j - i == m - k:
            yield from zip(range(i, j), range(k, m))
        elif tag == 'replace':
            for x in range(i, j):
                best = max(range(k, m), key=lambda y: difflib.SequenceMatcher(None, a[x], b[y], autojunk=False).ratio())
                if difflib.SequenceMatcher(None, a[x], b[best], autojunk=False).ratio() > 0.8:
                    yield x, best


def names_beside(old, new, table):
    """Counts which name of the new text stands where a name of the old one stood."""
    old, new = old.split('\n'), new.split('\n')
    for i, k in lines_beside(old, new):
        a, b = TOKEN.findall(old[i]), TOKEN.findall(new[k])
        for tag, s, t, u, v in difflib.SequenceMatcher(None, a, b, autojunk=False).get_opcodes():
            if t - s == v - u:
                for x, y in zip(a[s:t], b[u:v]):
                    if NAME.match(x) and NAME.match(y):
                        table[x][y] += 1


def settled(table):
    return {x: ys.most_common(1)[0][0] for x, ys in table.items() if ys.most_common(1)[0][0] != x}


def projections(text):
    """`P .row` and `(P .row)` are `P.row`; `f x .row` is `(f x).row`."""
    while True:
        found = re.search(r"((?:%s )*%s) \.(?=[\w«])" % (ATOM, ATOM), text)
        if not found:
            text = re.sub(r"\(([\w']+(?:\.[\w']+)+)\)", r'\1', text)
            return re.sub(r"\((\((?:[^()]|\([^()]*\))*\)(?:\.\w+)+)\)", r'\1', text)
        head = found[1]
        # An atom that a tight projection ends is one; an application takes brackets.
        alone = re.fullmatch(ATOM, head) or re.fullmatch(r"\((?:[^()]|\([^()]*\))*\)(?:\.\w+)*", head)
        start = found.start()
        if start and text[start - 1] == '.':
            # The head goes on to the left, through a projection that was made before.
            back = re.search(r"(?:%s|\.)+$" % ATOM, text[:start])
            start, head, alone = back.start(), back[0] + head, True
        text = text[:start] + (head if alone else '(%s)' % head) + '.' + text[found.end():]


def turned(text, names, shared):
    """A text in today's spelling; `shared` are the parameters of a `&`, which have no `old` and `new`."""
    text = re.sub(r'⌜ ?(.*?) ?⌝', r'\1', text)
    text = re.sub(r'λ \w+\. (?=now )', '', text)
    for when, word in (('entry', 'old'), ('exit', 'new')):
        text = re.sub(r'\(?\bnow \((\w+) \.%s\)\)?' % when, lambda m: '%s.%s' % (m[1], 'now' if m[1] in shared else word) +
                      (')' if m[0].endswith('))') and not m[0].startswith('(') else ''), text)
    text = re.sub(r'Rattle·([\w-]+?)(?:·specs)?\.', r'Rattle.\1.', text)
    text = TOKEN.sub(lambda m: names.get(m[0], m[0]), text)
    text = text.replace('′', "'")
    return projections(text) if re.search(r'\s\.\w', text) else text


def place(text, file):
    """The file's own text for `text`, blanks aside, within one line, or None: where it stands once."""
    words = text.split()
    if not words:
        return None
    found = re.findall(r'[ \t]*'.join(re.escape(c) for c in ''.join(words)), file)
    if len(found) != 1:
        return None
    lead = re.match(r'\s*', text)[0]
    return lead + found[0] if file.count(lead + found[0]) == 1 else found[0]


def main():
    words = [a for a in sys.argv[1:] if a != '--check']
    check, commit = '--check' in sys.argv[1:], words[0] if words else BEFORE
    edits = sorted(glob.glob('crates/*/must-fail/*.edit'))
    # The table of all names, and each file's own, which comes first.
    everywhere, own = collections.defaultdict(collections.Counter), {}
    for path in sorted(glob.glob('crates/*/specs/**/*.antt', recursive=True) + glob.glob('crates/*/src/**/*.rt', recursive=True)):
        own[path] = collections.defaultdict(collections.Counter)
        names_beside(before(commit, path), read(path), own[path])
        for x, ys in own[path].items():
            everywhere[x].update(ys)
    everywhere = settled(everywhere)
    stay = done = left = 0
    for edit in edits:
        lines, path, file, names, good, changed = [], None, '', {}, True, False
        files = {}
        text = read(edit)
        pairs = text.split('\n')
        for at, line in enumerate(pairs):
            if line.startswith('#'):
                line = re.sub(r"[\w'′-]+", lambda m: everywhere.get(m[0], m[0]) if re.search(r'[a-z0-9][A-Z]', m[0]) else m[0], line)
            elif line.startswith('file: '):
                path = os.path.join(os.path.dirname(os.path.dirname(edit)), line[len('file: '):])
                file = files.setdefault(path, read(path))
                names = dict(everywhere)
                for x, ys in own.get(path, {}).items():
                    names[x] = ys.most_common(1)[0][0]
                shared = set(re.findall(r'(\w+): &(?!mut\b)', file))
            elif line.startswith('old: '):
                old, new = line[len('old: '):], pairs[at + 1][len('new:'):]
                new = new[1:] if new.startswith(' ') else new
                if file.count(old) == 1:
                    now, then = old, new
                else:
                    now = place(turned(old, names, shared), file)
                    then = turned(new, names, shared)
                    if now is None:
                        good = False
                        break
                changed |= now != old or then != new
                file = files[path] = file.replace(now, then)
                line, pairs[at + 1] = 'old: ' + now, 'new: ' + then
            lines.append(line)
        if not good:
            left += 1
            print('by hand: %s' % edit)
        elif changed or '\n'.join(lines) != text:
            done += 1
            if not check:
                with open(edit, 'w', encoding='utf8') as f:
                    f.write('\n'.join(lines))
        else:
            stay += 1
    print('%d edits: %d turned, %d stay, %d by hand' % (len(edits), done, stay, left))


main()
