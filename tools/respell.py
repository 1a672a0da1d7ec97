#!/usr/bin/env python3
"""respell [--say]

Brings the names of this repository's own definitions and lemmas to snake case: `lineEntryAt` and `line-entry-at` become `line_entry_at`. It was run once, behind
the kit's port.py. Names from Rattle source, goals' names in proofs/F/, strings, inputs and outputs stay as they are. With --say it only lists what falls
together."""
import collections
import os
import re
import sys

top = os.path.join(os.path.dirname(os.path.abspath(__file__)), '..')
crates = os.path.join(top, 'crates')
token = re.compile(r"[^\s(){}\[\].,;:`\"@⌜⌝]+")
head = re.compile(
    r"^\s*((?:(?:abbrev|unfoldable|data|record|pub|irrelevant|ruleset)\s+)*)([^\s:(){}.,;=λ→∙×⊎≡∷+*]+)\s*((?:[({][^:]*:[^:=]*[)}]\s*)*):\s")
module = re.compile(r"^\s*module\s+([^\s(]+)")
odd = re.compile(r"^[^A-Z\W].*[a-z0-9][A-Z]|-|′")
# names that would fall together with another in a file that has both
apart = {}
apart_file = os.path.join(os.path.dirname(os.path.abspath(__file__)), 'respell-apart.txt')
if os.path.exists(apart_file):
    for line in open(apart_file, encoding='utf-8'):
        if line.strip() and not line.startswith('#'):
            old, new = line.split()
            apart[old] = new


def snake(name):
    if name in apart:
        return apart[name]
    name = re.sub(r"([a-z0-9])([A-Z])", lambda m: m.group(1) + '_' + m.group(2).lower(), name) if not name[0].isupper() else name
    return name.replace('-', '_').replace('′', "'")


def files(ends):
    for folder, folders, names in os.walk(crates):
        if 'out' in folders:
            folders.remove('out')
        for name in sorted(names):
            if name.endswith(ends):
                yield os.path.join(folder, name)


def read(path):
    with open(path, encoding='utf-8') as file:
        return file.read()


def of_function(path):
    return re.search(r'/proofs/[^/]+/[^/]+$', path)


def kit_names():
    own = set(os.listdir(crates))
    names = collections.defaultdict(set)
    for path in files(('.antt', '.rt')):
        for m in re.finditer(r"use ([^\s{]+)\.\{([^}]*)\}", read(path)):
            parts = m.group(1).split('.')
            if parts[0] == 'Rattle' and parts[1] in own and not re.search(r'\.proofs\..*\.(Goals|Given|Tie|Statement)$', m.group(1)):
                continue
            for one in m.group(2).split(','):
                names[one.strip().split(' as ')[-1].strip()].add(path)
    return names


def declared(path):
    got = []
    for line in read(path).split('\n'):
        if line.strip().startswith('--'):
            continue
        m = head.match(line)
        if m:
            got.append(m.group(2))
    return got


def the_map():
    names = collections.defaultdict(set)
    for path in files('.antt'):
        if not of_function(path):
            for name in declared(path):
                names[name].add(path)
    rename = {name: snake(name) for name in names if odd.search(name) and snake(name) != name}
    taken = {new for old, new in rename.items() if '-' not in old}
    for path in files(('.antt', '.rt')):
        taken |= {t for t in token.findall(read(path)) if '_' in t and '-' not in t}
    # a lemma that would have its function's name gets _lem
    for old, new in rename.items():
        if '-' in old and new in taken and old not in apart:
            rename[old] = new + '_lem'
    return rename, names


def respelled(text, rename, comment_marks, skip=()):
    out = []
    for line in text.split('\n'):
        at = -1
        for mark in comment_marks:
            m = re.search(r'(^|\s)' + re.escape(mark) + r'(\s|$)', line)
            if m:
                at = m.start() if at < 0 else min(at, m.start())
        code, said = (line, '') if at < 0 else (line[:at], line[at:])

        def one(m):
            t = m.group(0)
            if t in skip or t not in rename:
                return t
            return rename[t]
        code = token.sub(one, code)
        said = re.sub(r'`[^`]*`', lambda q: token.sub(one, q.group(0)), said)
        said = token.sub(lambda m: rename[m.group(0)] if '-' not in m.group(0) and m.group(0) in rename and m.group(0) not in skip else m.group(0), said)
        out.append(code + said)
    return '\n'.join(out)


# lemmas that port.py had already brought to a definition's new name
lemmas = [
    ('line_walk/specs/PositionLaws.antt', 'lines_then'),
    ('line_step/specs/TurnLaws.antt', 'entry_in'),
    ('line_step/proofs/entry_at/Proof.antt', 'entry_in'),
    ('body_lines/specs/BodyLinesLaws.antt', 'entry_in'),
    ('reading_record/specs/RecordLaws.antt', 'record_of'),
    ('reading_record/proofs/record_of/Proof.antt', 'record_of'),
]


def main():
    say = '--say' in sys.argv
    for path, name in lemmas if not say else ():
        path = os.path.join(crates, path)
        text = re.sub(r"(?<![\w.`-])" + name + r"(?![\w`.-])", name + '_lem', read(path))
        with open(path, 'w', encoding='utf-8') as file:
            file.write(text)
    rename, names = the_map()
    kit = kit_names()
    for path in files(('.antt', '.rt')):
        text = read(path)
        skip = set()
        if of_function(path):
            imported = set()
            for m in re.finditer(r"use ([^\s{]+)\.\{([^}]*)\}", text):
                if not re.search(r'\.proofs\..*\.(Goals|Given|Tie|Statement)$', m.group(1)):
                    imported |= {x.strip().split(' as ')[-1].strip() for x in m.group(2).split(',')}
            skip = {n for n in declared(path) if n not in imported}
        skip |= {n for n in rename if path in kit.get(n, ())}
        here = collections.defaultdict(set)
        plain = '\n'.join(l for l in text.split('\n') if not l.strip().startswith(('--', '//')))
        toks = set()
        for m in token.finditer(plain):
            if m.start() and plain[m.start() - 1] == '.':
                continue
            toks.add(m.group(0))
        for t in toks:
            if t in rename and t not in skip:
                here[rename[t]].add(t)
        for new, olds in here.items():
            if len(olds) > 1 or (new in toks and not (path.endswith('.rt') and re.search(r'fn ' + re.escape(new) + r'\b|use [^;]*\b' + re.escape(new) + r'\b|' + re.escape(new) + r'\(', text))):
                print('together:', os.path.relpath(path, top), new, sorted(olds), 'there already' if new in toks else '')
        if say:
            continue
        new = respelled(text, rename, ['--'] if path.endswith('.antt') else ['//'], skip)
        if path.endswith('Proof.antt'):
            new = re.sub(r"(?m)^(pub )?([^\s:]+)-spec( :| =|$)", lambda m: (m.group(1) or '') + snake(m.group(2)) + '_spec' + m.group(3), new)
        if new != text:
            with open(path, 'w', encoding='utf-8') as file:
                file.write(new)
    # one module may not declare two names that fall together
    for path in files('.antt'):
        if of_function(path):
            continue
        seen = collections.defaultdict(set)
        for name in declared(path):
            seen[rename.get(name, name)].add(name)
        for new, olds in seen.items():
            if len(olds) > 1:
                print('in one module:', os.path.relpath(path, top), new, sorted(olds))
    if not say:
        with open(os.path.join(top, 'tools', 'respelled-names.txt'), 'w', encoding='utf-8') as file:
            for old in sorted(rename):
                file.write('%s %s\n' % (old, rename[old]))


main()
