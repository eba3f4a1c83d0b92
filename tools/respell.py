#!/usr/bin/env python3
"""Brings this repository's own definitions and laws to today's spelling, once, after /opt/rattle/port/port.py.

Words are in snake case. A dash stays in the name of a law where it joins a definition to a word of the
kit (`length-filled`), and `_` stands everywhere else. Names of the kit keep theirs, and so do functions,
exported names, strings and the names that Rattle makes. Run at the top: tools/respell.py [--dry].
It says which names would fall together in one file, and writes nothing then.
"""
import glob
import os
import re
import sys

ROOT = os.path.dirname(os.path.dirname(os.path.abspath(__file__)))
WORD = re.compile(r"[^\s(){}\[\],;.⌜⌝|\"`]+")
HEAD = re.compile(r'^( *)((?:(?:pub|abbrev|unfoldable|data|record|ruleset) )*)(\S+(?: [^\s:(){}=]+)*)((?: [({][^=]*?)?) :(?: |$)')
HUMPS = [('getD', 'get_or'), ('toZ', 'to_z'), ('ofZ', 'of_z'), ('eqZ', 'eq_z'), ('ltZ', 'lt_z'), ('leZ', 'le_z'), ('modZ', 'mod_z')]
# the kit's words that a law's name may join
KIT = {'length', 'map', 'take', 'drop', 'append', 'set', 'sets', 'get_or', 'replicate', '<ℤ', '≤ℤ', 'to_z', 'of_z', 'nat_abs'}


def read(path):
    with open(path, encoding='utf-8') as f:
        return f.read()


def found(*parts):
    return sorted(glob.glob(os.path.join(ROOT, *parts), recursive=True))


def declared():
    """The names that specs/ and proofs/ declare, each with what it is wherever it is declared."""
    names = {}
    for path in found('crates', '*', 'specs', '*.antt') + found('crates', '*', 'proofs', '*.antt'):
        lines = read(path).split('\n')
        inside = None
        for i, line in enumerate(lines):
            if not line.strip() or line.lstrip().startswith(('--', 'use ')):
                continue
            if re.match(r'(pub )?(data|record) ', line):
                inside = True
            elif not line.startswith(' '):
                inside = False
            m = HEAD.match(line)
            marks = m.group(2).split() if m else []
            made = re.match(r' *(?:pub )?ruleset (\S+)', line)
            if made:
                names.setdefault(made.group(1), []).append('definition')
            if m:
                for name in m.group(3).split(' '):
                    kind = 'definition' if set(marks) & {'abbrev', 'unfoldable', 'data', 'record'} else 'member' if inside else 'local' if line.startswith('    ') else 'law'
                    names.setdefault(name, []).append(kind)
    return names


def plain(name):
    for old, new in HUMPS:
        name = re.sub(r'(?<![A-Za-z])%s(?![a-z])' % old, new, name)
    return name


def respelled(names):
    """For each name with a dash or a hump, its new spelling."""
    def word(name):
        return plain(name).replace('-', '_')
    terms = {word(n) for n, kinds in names.items() if 'definition' in kinds and n[0].islower()} | KIT
    out = {}
    for name, kinds in names.items():
        new = word(name)
        if '-' in name and set(kinds) == {'law'}:
            parts, groups = plain(name).split('-'), []
            while parts:
                k = next((k for k in range(len(parts), 0, -1) if '_'.join(parts[:k]) in terms), 1)
                groups.append(('_'.join(parts[:k]), '_'.join(parts[:k]) in terms))
                parts = parts[k:]
            new = groups[0][0]
            for (a, is_a), (b, is_b) in zip(groups, groups[1:]):
                new += ('-' if is_a and is_b and {a, b} & KIT else '_') + b
        if new != name:
            out[name] = new
    return out


def from_kit(text):
    """The names that a file imports from elsewhere than this repository, and those that the compiler makes."""
    out = set()
    own = set(os.listdir(os.path.join(ROOT, 'crates')))
    for m in re.finditer(r'^(?:ghost )?use (\S+?)\.\{([^}]*)\}', text, re.M):
        crate = re.match(r'Rattle[.·](\w+)', m.group(1))
        if not crate or crate.group(1) not in own:
            for part in m.group(2).split(','):
                out.add(part.strip().split(' as ')[-1])
    return out


def turn_code(text, table, keep):
    """Every word of a code text; a comment's and a string's words stay, but for those in backticks."""
    out = []
    for line in text.split('\n'):
        code, mark, rest = line, '', ''
        m = re.search(r'(^|\s)(--|//)(\s|$)', line)
        if m:
            code, rest = line[:m.start(2)], line[m.start(2):]
        pieces = re.split(r'("(?:[^"\\]|\\.)*")', code)
        for i in range(0, len(pieces), 2):
            pieces[i] = WORD.sub(lambda w: w[0] if w[0] in keep else table.get(w[0], w[0]), pieces[i])
        out.append(''.join(pieces) + turn_prose(rest, table))
    return '\n'.join(out)


def turn_prose(text, table):
    return re.sub(r'`[^`\n]+`', lambda q: WORD.sub(lambda w: table.get(w[0], w[0]), q[0]), text)


def locals_of(text, keep, table):
    """The file's own words with a dash, bound variables and local laws: snake case too, in files with no name that the compiler makes."""
    out = {}
    for w in WORD.findall(re.sub(r'--.*|^use .*', '', text, flags=re.M)):
        if '-' in w and re.fullmatch(r"[a-zα-ω][\w'-]*", w) and w not in keep and w not in table:
            out[w] = w.replace('-', '_')
    return out


def main():
    names = declared()
    table = respelled(names)
    texts, clashes = {}, []
    for path in found('crates', '*', 'specs', '*.antt') + found('crates', '*', 'proofs', '**', '*.antt') + found('crates', '*', 'src', '*.rt'):
        text = read(path)
        keep = from_kit(text)
        mine = dict(table)
        if '/specs/' in path or path.split(os.sep)[-2] == 'proofs':
            mine.update(locals_of(text, keep, table))
        was = set(WORD.findall(re.sub(r'--.*|Rattle\.[\w.]+', '', text)))
        for w in sorted(was):
            new = w if w in keep else mine.get(w, w)
            if new != w and new in was:
                clashes.append('%s: %s falls on %s' % (os.path.relpath(path, ROOT), w, new))
        texts[path] = turn_code(text, mine, keep)
    for path in found('crates', '*', 'must-fail', '*.edit'):
        lines = read(path).split('\n')
        texts[path] = '\n'.join(turn_prose(l, table) if l.startswith('#') else re.sub(r'^(old|new):(.*)', lambda m: m[1] + ':' + turn_code(m[2], table, set()), l) for l in lines)
    for path in found('docs', '*.md') + found('docs', 'changes', '*.md') + found('README.md') + found('oracle', 'README.md'):
        if os.path.basename(path) != 'PORT.md':
            texts[path] = turn_prose(read(path), table)
    by_new = {}
    for old, new in table.items():
        by_new.setdefault(new, set()).add(old)
    for new, olds in sorted(by_new.items()):
        if len(olds) > 1 or new in names:
            clashes.append('%s comes of %s%s' % (new, ', '.join(sorted(olds)), ', and is a name already' if new in names else ''))
    for c in clashes:
        print('respell: ' + c)
    if '--table' in sys.argv:
        for old, new in sorted(table.items()):
            print(old, new)
    if '--dry' in sys.argv or clashes and '--force' not in sys.argv:
        return 1
    for path, text in texts.items():
        with open(path, 'w', encoding='utf-8') as f:
            f.write(text)
    print('respell: %d names in %d files' % (len(table), len(texts)))
    return 0


sys.exit(main())
