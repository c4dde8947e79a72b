#!/usr/bin/env python3
"""Lists places in src/ that an older form of the language may have shaped, point by point.

    python3 tools/places.py [POINT..] [--at FOLDER]

With no POINT it prints the number of lines of each list. FOLDER is a checkout; this one by default.
The lists are of candidates, found by their shape: docs/DESIGN-PASS.md says which of them are places.

1  enums with a case that holds nothing beside one that holds a value, fields of type bool, and
   numbers that stand for "none" or "no refusal"
2  pairs of functions whose bodies are alike but for names and constants
3  loops
4  functions that compare, convert, number or print by hand
5  names of parameters that stand together in three or more signatures, and clauses of three or more
   functions that begin alike
6  arrays of fixed length, lengths and limits beside them, and fields that are places in another list
7  matches in which each arm is one call
8  lines of proof, crate by crate
"""
import difflib
import itertools
import re
import sys
from collections import defaultdict
from pathlib import Path

SRC = re.compile(r'^(?:pub(?:\(crate\))? )?(?:final )?fn (\w+)')


def sources(root):
    return sorted(p for p in root.glob('crates/*/src/**/*.rt'))


def functions(text):
    """(name, signature, clauses, body) of each function, by its indentation."""
    lines = text.split('\n')
    for i, line in enumerate(lines):
        m = re.match(r'^( *)(?:pub(?:\(crate\))? )?(?:final )?fn (\w+)', line)
        if not m:
            continue
        indent = m.group(1)
        j = i
        while j < len(lines) and not re.match(rf'^{indent}(\{{|\}})|.*\{{$|.*;$', lines[j]):
            j += 1
        head = '\n'.join(lines[i:j + 1])
        k = j
        if j < len(lines) and not lines[j].endswith(';'):
            while k < len(lines) and not re.match(rf'^{indent}\}}', lines[k]):
                k += 1
        body = '\n'.join(lines[j:k + 1])
        signature = re.split(r'\n\s*(?:requires|ensures)\b', head)[0]
        clauses = re.findall(r'(?:requires|ensures)\*? ?\w* ?\{(.*)\}', head)
        yield m.group(2), i + 1, signature, clauses, body


def shape(body):
    body = re.sub(r'//.*', '', body)
    tokens = re.findall(r"b?\"[^\"]*\"|b?'.'|\w+|[^\w\s]", body)
    words = {'let', 'mut', 'match', 'if', 'else', 'for', 'in', 'while', 'return', 'Some', 'None', 'Ok', 'Err'}
    return [t if t in words or not re.match(r"[\w\"b']", t) else 'x' for t in tokens]


def point1(root):
    for p in sources(root):
        text = p.read_text()
        for m in re.finditer(r'enum (\w+)[^{]*\{(.*?)\n\}', text, re.S):
            cases = re.findall(r'^    (\w+)(\(|,| \{)', m.group(2), re.M)
            if any(c[1] == ',' for c in cases) and any(c[1] != ',' for c in cases):
                yield f'{p}: enum {m.group(1)}: ' + ' '.join(c[0] for c in cases)
        for i, line in enumerate(text.split('\n'), 1):
            if re.match(r'^    (pub )?\w+: bool,', line) or re.search(
                    r'unwrap_or\((usize::MAX|u8::MAX|0|n)\)|=> 0,|0 where|\) == 0\b|!= 0\b|number == 0', line):
                yield f'{p}:{i}: {line.strip()}'


def point2(root):
    found = []
    for p in sources(root):
        for name, i, _, _, body in functions(p.read_text()):
            s = shape(body)
            if len(s) >= 14:
                found.append((p, i, name, s))
    for a, b in itertools.combinations(found, 2):
        if abs(len(a[3]) - len(b[3])) * 12 > len(a[3]):
            continue
        if difflib.SequenceMatcher(None, a[3], b[3], autojunk=False).ratio() >= 0.92:
            yield f'{a[0]}:{a[1]} {a[2]} ~ {b[0]}:{b[1]} {b[2]}'


def point3(root):
    for p in sources(root):
        for i, line in enumerate(p.read_text().split('\n'), 1):
            if re.match(r'^\s+(for|while|loop)\b', line):
                yield f'{p}:{i}: {line.strip()}'


def point4(root):
    for p in sources(root):
        for name, i, signature, _, _ in functions(p.read_text()):
            if re.match(r'(is_same|eq|cmp|clone|copy|from|into|try_from|text|number|say\w*|write_\w+|parse|cut|fmt|'
                        r'\w+_number|letter_in|\w+_of)$', name):
                yield f'{p}:{i}: {signature.strip().splitlines()[0]}'


def point5(root):
    groups, heads = defaultdict(set), defaultdict(set)
    for p in sources(root):
        for name, i, signature, clauses, _ in functions(p.read_text()):
            names = re.findall(r'(?:mut )?(\w+): ', re.sub(r'<[^>]*>', '', signature.split('->')[0]))
            for pair in itertools.combinations(sorted(set(names)), 2):
                groups[pair].add(f'{p}:{i} {name}')
            for clause in clauses:
                fact = re.sub(r'\b(self|b|book|result|c)\.(now|old|new)\b|\bresult\b', '_', clause.strip())
                heads[fact].add(f'{p}:{i} {name}')
    for pair, where in sorted(groups.items()):
        if len(where) >= 3:
            yield f'{" ".join(pair)}: {len(where)}: ' + ', '.join(sorted(w.split(' ')[1] for w in where))
    for fact, where in sorted(heads.items()):
        if len(where) >= 3:
            yield f'{{ {fact} }}: {len(where)}: ' + ', '.join(sorted(w.split(' ')[1] for w in where))


def point6(root):
    for p in sources(root):
        for i, line in enumerate(p.read_text().split('\n'), 1):
            code = line.split('//')[0]
            if re.search(r': &?(mut )?\[[\w<>()&\' ,]+; \w+\]|^    (pub(\(crate\))? )?(len|used|limit|second): |\[\w+[:\w]*; \d+\]', code):
                yield f'{p}:{i}: {line.strip()}'


def point7(root):
    for p in sources(root):
        text = p.read_text()
        for m in re.finditer(r'^( *)(?:[^\n]*)match ([^{\n]*)\{\n(.*?)^\1\}', text, re.S | re.M):
            arms = re.findall(r'=> (.*),$', m.group(3), re.M)
            if len(arms) >= 2 and all(re.match(r'(Ok\()?[\w:.]+(::<.*>)?\(.*\)\??\)?$', a) for a in arms):
                yield f'{p}:{text[:m.start()].count(chr(10)) + 1}: match {m.group(2).strip()}'


def point8(root):
    for c in sorted((root / 'crates').iterdir()):
        lines = sum(len(q.read_text().splitlines()) for q in c.glob('proofs/**/*.antt'))
        if lines:
            yield f'{c.name}: {lines}'


def main():
    args = sys.argv[1:]
    root = Path(__file__).resolve().parent.parent
    if '--at' in args:
        k = args.index('--at')
        root = Path(args[k + 1])
        del args[k:k + 2]
    points = {str(n): f for n, f in enumerate(
        [point1, point2, point3, point4, point5, point6, point7, point8], 1)}
    for n, f in points.items():
        found = [line.replace(f'{root}/crates/', '') for line in f(root)]
        if not args:
            print(f'{n}: {sum(int(x.split(": ")[1]) for x in found) if n == "8" else len(found)}')
        elif n in args:
            print('\n'.join(found))


if __name__ == '__main__':
    main()
