#!/usr/bin/env python3
"""What the crates may see of each other, by their `use` lines and by crates.txt. Status 1 and a line for each breach.

- A crate uses crates of its own layer and below, and crates.txt names no others as its dependencies.
- Of rows and proofs (farkas) the crates above see the definitions, the promise (proofs/Promise.antt) and the general laws on lists, whole
  numbers, bits and arrays; nothing else of its proofs.
"""
import re
import sys
from pathlib import Path

ROOT = Path(__file__).resolve().parent.parent
PROMISE = {'Promise', 'All', 'Integers', 'Order', 'Comparing', 'Bits', 'Fill'}
USED = re.compile(r'\bRattle\.(\w+)')
PROOFS = re.compile(r'\bRattle\.farkas\.proofs\.(\w+)')


def layers():
    """The layer of each crate, by the headings of crates.txt, and what it depends on."""
    layer, found, needs = None, {}, {}
    for line in (ROOT / 'crates.txt').read_text().splitlines():
        heading = re.match(r'# layer (\d)', line)
        if heading:
            layer = int(heading.group(1))
        elif ':' in line and not line.startswith('#'):
            name, rest = line.split(':')
            name = name.split()[0]
            found[name], needs[name] = layer, rest.split()
    return found, needs


def main():
    layer, needs = layers()
    wrong = []
    for name, others in needs.items():
        wrong += [f'crates.txt: {name} needs {other}, which stands in a layer above' for other in others if layer.get(other, 0) > layer[name]]
    for path in sorted((ROOT / 'crates').rglob('*')):
        if path.suffix not in ('.antt', '.rt') or 'out' in path.relative_to(ROOT / 'crates').parts[:2]:
            continue
        crate = path.relative_to(ROOT / 'crates').parts[0]
        for line in path.read_text(encoding='utf8').splitlines():
            if not re.match(r'\s*(ghost )?((unfoldable )?pub )?use ', line):
                continue
            for other in USED.findall(line):
                if other != crate and other in layer and other not in needs[crate]:
                    wrong.append(f'{path.relative_to(ROOT)}: uses {other}, which crates.txt does not give it')
            for module in PROOFS.findall(line):
                if module not in PROMISE and crate != 'farkas':
                    wrong.append(f'{path.relative_to(ROOT)}: uses farkas.proofs.{module}, which is not its promise')
    print('\n'.join(wrong) if wrong else 'each crate sees only what stands below it')
    sys.exit(1 if wrong else 0)


if __name__ == '__main__':
    main()
