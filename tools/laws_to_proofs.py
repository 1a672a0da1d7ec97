#!/usr/bin/env python3
"""laws_to_proofs CRATE MODULE..

Moves files of theorems from crates/CRATE/specs/ to crates/CRATE/proofs/, statements and proofs unchanged: `rt` takes an edit of a definition for bad where
a theorem in specs/ falls and another theorem there rests on it. It mends both Lib.antt, the paths in every crate, and the lines 'file:' of the crate's edits."""
import glob
import os
import re
import subprocess
import sys

top = os.path.realpath(os.path.join(os.path.dirname(os.path.abspath(__file__)), '..'))


def read(path):
    with open(path, encoding='utf-8') as file:
        return file.read()


def write(path, text):
    if not os.path.exists(path) or read(path) != text:
        with open(path, 'w', encoding='utf-8') as file:
            file.write(text)


def main(crate, modules):
    folder = os.path.join(top, 'crates', crate)
    names = '|'.join(map(re.escape, modules))
    os.makedirs(os.path.join(folder, 'proofs'), exist_ok=True)
    for module in modules:
        subprocess.run(['git', 'mv', f'specs/{module}.antt', f'proofs/{module}.antt'], cwd=folder, check=True)
    specs, proofs = os.path.join(folder, 'specs', 'Lib.antt'), os.path.join(folder, 'proofs', 'Lib.antt')
    write(specs, ''.join(line for line in read(specs).splitlines(True) if not re.fullmatch(rf'(pub )?mod ({names})\n?', line)))
    write(proofs, (read(proofs) if os.path.exists(proofs) else '') + ''.join(f'pub mod {module}\n' for module in modules))
    for path in glob.glob(os.path.join(top, 'crates', '*', '*', '**', '*'), recursive=True):
        if os.path.isfile(path) and '/out/' not in path and path.endswith(('.antt', '.rt', '.edit')):
            text = re.sub(rf'\bRattle\.{crate}\.specs\.({names})(?![\w])', rf'Rattle.{crate}.proofs.\1', read(path))
            if path.endswith('.edit') and path.startswith(folder + '/'):
                text = re.sub(rf'(?m)^file: specs/({names})\.antt$', r'file: proofs/\1.antt', text)
            write(path, text)


if len(sys.argv) < 3:
    sys.exit(__doc__)
main(sys.argv[1], sys.argv[2:])
