"""design_places [FOLDER]: counts the places of docs/DESIGN-PASS.md in FOLDER/crates/*/src (FOLDER: a checkout, else this one), and lists them.

1 enums with a case that says that there is nothing, or why not, beside cases that carry a value; structs of two numbers; numbers for kinds
2 functions of one crate or several whose texts are the same but for names and numbers
3 loops by `while` and `loop`; among them those that count by hand (a line `x += 1`)
4 values copied field by field; functions that convert, compare or order by hand; bytes of a number by arithmetic
5 functions that take a start and a length, or an area with its lists, or a buffer and what is written of it
6 functions that take a buffer and how much of it is used; searches by halving
7 functions that choose a step by a case of an enum
8 proof files that walk the code by hand, and their lines
"""
import glob, os, re, sys

top = sys.argv[1] if len(sys.argv) > 1 else os.path.dirname(os.path.dirname(os.path.abspath(__file__)))
NOTHING = {'None', 'Refused', 'Nothing', 'No', 'Bad', 'Over', 'Done', 'End', 'Stop', 'NoSuchChoice', 'Unset', 'Stays', 'Marker'}
STATES = {'Known', 'ChecksumKind', 'TextWalk'}  # kinds and states that use one of these words


def sources():
    for path in sorted(glob.glob(os.path.join(top, 'crates', '*', 'src', '**', '*.rt'), recursive=True)):
        with open(path) as file:
            yield path.split(os.sep + 'crates' + os.sep)[1].split(os.sep)[0], file.read()


def functions(text):
    for start in re.finditer(r'^( *)(?:pub )?(?:const )?fn (\w+)', text, re.M):
        end = text.find('\n' + start.group(1) + '}\n', start.start())
        yield start.group(2), text[start.start():end]


def shape(text):
    text = re.sub(r'//.*', '', text)
    text = re.sub(r'\b(requires|ensures)\b.*?\}\n', '', text, flags=re.S)
    names = {}
    words = re.findall(r'[A-Za-z_]\w*|\d\w*|[^\s\w]', text)
    keep = {'if', 'else', 'match', 'while', 'for', 'in', 'loop', 'return', 'let', 'mut', 'fn', 'as', 'Ok', 'Err', 'Some', 'None', 'true', 'false'}
    return ' '.join(word if word in keep or not re.match(r'\w', word) else '#' if word[0].isdigit() else names.setdefault(word, 'v%d' % len(names)) for word in words
                    if word not in ('pub', 'const'))


found = {n: [] for n in range(1, 9)}
shapes = {}
for crate, text in sources():
    for enum in re.finditer(r'^(?:pub )?enum (\w+) \{\n(.*?)^\}', text, re.M | re.S):
        cases = re.findall(r'^    (\w+)(.)', enum.group(2), re.M)
        if enum.group(1) not in STATES and any(name in NOTHING for name, _ in cases) and any(mark != ',' for _, mark in cases):
            found[1].append('%s::%s' % (crate, enum.group(1)))
    found[1] += ['%s::%s' % (crate, it) for it in re.findall(r'^pub struct (\w+)\(pub u64, pub u64\);', text, re.M)]
    found[1] += ['%s::%s' % (crate, it) for it in re.findall(r'^pub const (\w+): u32 = (?:0x|\d)', text, re.M) if crate in ('kinds', 'answer_words')]
    for name, body in functions(text):
        place = '%s::%s' % (crate, name)
        if body.count('\n') > 5:
            shapes.setdefault(shape(body), []).append(place)
        for loop in re.finditer(r'^ +(while|loop)\b.*', body, re.M):
            found[3].append('%s: %s' % (place, loop.group(0).strip()))
        for literal in re.finditer(r'\b[A-Z]\w* \{([^{}]*)\}', body):
            copied = re.findall(r'\b(\w+): (\w+)\.(\w+)\b(?!\()', literal.group(1))
            if sum(1 for field, _, other in copied if field == other) > 2:
                found[4].append('%s: copied by fields' % place)
        if re.match(r'(number|parse_kind|equal_bytes|lighter|how_named)$', name) and crate != 'refusal':
            found[4].append('%s: by hand' % place)
        if re.search(r'/ 16777216|/ 256\b|256 \* \(', body):
            found[4].append('%s: bytes by arithmetic' % place)
        head = body[:body.find('{')]
        if re.search(r'start: usize,\s*len: usize', head) or re.search(r'slots: &\[u32\],\s*bodies: &\[u32\]', head) or re.search(r'buf: &(mut )?\[u8\],\s*written: usize', head):
            found[5].append(place)
        if re.search(r'\b(out|free|text|buf): &mut \[\w+\],\s*(at|n|p|written|place): ', head):
            found[6].append(place)
        if re.search(r'\bmid = ', body):
            found[6].append('%s: by halving' % place)
        arms = re.findall(r'^ +\w+::\w+(?:\(\w+\))? => \w+\(.*\),$', body, re.M)
        if len(arms) > 3:
            found[7].append(place)
for places in shapes.values():
    if len(places) > 1:
        found[2].append(' = '.join(places))
for path in sorted(glob.glob(os.path.join(top, 'crates', '*', 'proofs', '**', 'Proof.antt'), recursive=True)):
    with open(path) as file:
        found[8].append('%s %d' % (os.path.relpath(os.path.dirname(path), os.path.join(top, 'crates')), file.read().count('\n')))
for point, places in found.items():
    extra = ', %d lines' % sum(int(it.split()[-1]) for it in places) if point == 8 else ''
    print('%d: %d%s' % (point, len(places), extra))
    if point != 8:
        for place in places:
            print('    ' + place)
