#!/usr/bin/env python3
"""Names that a file under crates/ brings in by `use` and does not use: one line each, and status 1 if there are any.

usage: tests/imports.py [--mend]      --mend takes them out (run `rt fmt` behind it)
"""
import re
import sys
from pathlib import Path

ROOT = Path(__file__).resolve().parent.parent / 'crates'
# an import, which may have a list of names over several lines
USE = re.compile(r'^(?P<head>[ \t]*(?:ghost )?(?P<passed>(?:unfoldable )?pub )?use )(?P<path>[^\s{;]+?)(?:(?P<before>\.|::)\{(?P<names>[^}]*)\})?(?P<alias> as \S+?)?(?P<end>;?)$\n?', re.M)


def words(text, code):
    """The words of a text. In antt a word may have a hyphen or a sign in it; in code (.rt) signs divide words, outside of contracts."""
    signs = [r'[\s(){}\[\],;.⌜⌝⟦⟧]+', r'[\s(){}⌜⌝]+'] + ([r'[\s(){}\[\],;.|⌜⌝⟦⟧&!:<>=*+/-]+'] if code else [])
    return set().union(*(re.split(s, text) for s in signs))


def used(name, present, text):
    name = name.split(' as ')[-1].strip()
    if name in ('◌>>=◌', '◌>>◌') and 'do' in present:
        return True  # what a `do` block stands for
    parts = [p for p in name.split('◌') if p]
    return name in present or all(p in present or (p == '[]' and '[]' in text) for p in parts)


def unused(path):
    """The names of a file that nothing uses, and the file's text without them."""
    text = path.read_text(encoding='utf8')
    comment = '--' if path.suffix == '.antt' else '//'
    rest = USE.sub('', re.sub(r'(?m)(^|\s)' + comment + r'.*$', '', text))
    # a name may also head the path of another import, or be what that import passes through
    heads = {m.group('path').split('.')[0].split('::')[0] for m in USE.finditer(text)}
    present = words(rest, path.suffix == '.rt')
    found = []

    def mend(match):
        names, alias, whole = match.group('names'), match.group('alias'), match.group('path')
        last = alias[4:] if alias else re.split(r'\.|::', whole)[-1]
        if match.group('passed'):
            return match.group(0)
        if names is None:
            if last in present or last in heads:
                return match.group(0)
            found.append(last)
            return ''
        kept = [n.strip() for n in names.split(',') if n.strip()]
        # `self` is the module or the type that the names stand in
        gone = [n for n in kept if not used(last if n == 'self' else n, present, rest)]
        if not gone:
            return match.group(0)
        found.extend(gone)
        kept = [n for n in kept if n not in gone]
        return f"{match.group('head')}{whole}{match.group('before')}{{{', '.join(kept)}}}{match.group('end')}\n" if kept else ''

    return found, USE.sub(mend, text)


def main():
    if sys.argv[1:] not in ([], ['--mend']):
        sys.exit(__doc__)
    count = 0
    for path in sorted(ROOT.rglob('*')):
        if path.suffix not in ('.antt', '.rt') or 'out' in path.relative_to(ROOT).parts[:2]:
            continue
        found, text = unused(path)
        count += len(found)
        for name in found:
            print(f'{path.relative_to(ROOT.parent)}: {name}')
        if found and sys.argv[1:]:
            path.write_text(text, encoding='utf8')
    print(f'{count} names are brought in and not used')
    sys.exit(1 if count and not sys.argv[1:] else 0)


if __name__ == '__main__':
    main()
