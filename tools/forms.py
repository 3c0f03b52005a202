#!/usr/bin/env python3
"""Counts in crates/*/src the places of older forms that docs/DESIGN-PASS.md speaks of, one line a point. `forms.py -v` names them.

With a commit, as `forms.py COMMIT`, it counts there and not in the folder."""
import re
import subprocess
import sys

NUMBERS = r'\b(?:[iu](?:8|16|32|64|size)|Count|Number)\b'


def sources(commit):
    if commit is None:
        names = subprocess.run(['git', 'ls-files', 'crates'], capture_output=True, text=True, check=True).stdout.split()
    else:
        names = subprocess.run(['git', 'ls-tree', '-r', '--name-only', commit, 'crates'], capture_output=True, text=True, check=True).stdout.split()
    for name in names:
        if re.fullmatch(r'crates/\w+/src/\w+\.rt', name):
            if commit is None:
                text = open(name, encoding='utf-8').read()
            else:
                text = subprocess.run(['git', 'show', f'{commit}:{name}'], capture_output=True, text=True, check=True).stdout
            yield name, re.sub(r'//[^\n]*', '', text)


def block(text, at):
    """The text from the brace at `at` to the one that closes it."""
    depth = 0
    for i in range(at, len(text)):
        depth += {'{': 1, '}': -1}.get(text[i], 0)
        if depth == 0:
            return text[at:i + 1]
    return text[at:]


def functions(text):
    """Name, parameters and body of each function."""
    for m in re.finditer(r'\bfn (\w+)(?:<[^(]*>)?\(([^)]*(?:\([^)]*\)[^)]*)*)\)', text):
        body = re.compile(r'\n *\{|\{').search(text, m.end())
        while body and re.search(r'(requires|ensures)\s*\w*\s*$', text[:body.end() - 1]):
            inner = block(text, body.end() - 1)
            body = re.compile(r'\{').search(text, body.end() - 1 + len(inner))
        if body:
            yield m.group(1), m.group(2), block(text, body.end() - 1)


def main():
    words = [w for w in sys.argv[1:] if w != '-v']
    files = list(sources(words[0] if words else None))
    found = {n: [] for n in range(1, 8)}
    bodies = {}
    for name, text in files:
        crate = name.split('/')[1]
        for m in re.finditer(r'\benum (\w+) \{', text):
            if m.group(1) not in ('Refusal', 'Fault'):
                found[1].append(f'{crate} {m.group(1)}')
        for m in re.finditer(r'\bstruct (\w+) \{', text):
            inner = block(text, m.end() - 1)
            if 'verdict:' in inner:
                found[1].append(f'{crate} {m.group(1)}')
            if len(re.findall(r'\[[iu]\d+; \d+\]', inner)) > 1:
                found[6].append(f'{crate} struct {m.group(1)}')
        found[1] += [f'{crate} match on a verdict' for _ in re.finditer(r'\bVerdict::Refused\(\w\) =>', text)]
        found[3] += [f'{name} while' for _ in re.finditer(r'^\s*while ', text, re.M)]
        for fn, params, body in functions(text):
            plain = re.sub(NUMBERS, 'N', re.sub(r'\s+', ' ', re.sub(r'\w+::', '', body)))
            plain = re.sub(r'\bas N|N::from', 'N', plain)
            if len(plain) > 20:
                bodies.setdefault(plain, []).append(f'{crate} {fn}')
            if re.search(r'\bq: \w+,\s*m: usize', params):
                found[5].append(f'{crate} {fn}: q and m')
            if re.search(r'out: &mut \[u8\],\s*at: usize', params) or len(re.findall(r': &(?:mut )?\[\[?[iu]\d+; [^,]*\]', params)) > 2:
                found[6].append(f'{crate} {fn}')
            if len(re.findall(r'if \w+ == \d+ \{\s*return', body)) > 1:
                found[7].append(f'{crate} {fn}')
            if re.search(r'&\[0; 1\]', body):
                found[7].append(f'{crate} {fn}: a stand-in for a table')
        found[4] += [f'{crate} {m.group(1)}' for m in re.finditer(r'\bimpl (?:Clone|Copy|PartialEq|Eq|Ord|Debug|Display|From\S*|TryFrom\S*) for (\w+)', text)]
    for group in bodies.values():
        if len(group) > 1:
            found[2].append(', '.join(group))
    for n, places in found.items():
        print(f'{n}: {len(places)}')
        if '-v' in sys.argv:
            for place in places:
                print('   ', place)


if __name__ == '__main__':
    main()
