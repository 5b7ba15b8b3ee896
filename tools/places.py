#!/usr/bin/env python3
"""Lists the places in crates/*/src (and, for proofs, crates/*/proofs) that docs/DESIGN-PASS.md counts, point by point.

    python3 tools/places.py [FOLDER]        FOLDER: the repository's, or another clone of it
"""
import collections
import glob
import os
import re
import sys

FUNCTION = re.compile(r'^\s*(?:pub(?:\(\w+\))? )?(?:const )?fn (\w+)')


def sources(folder):
    for path in sorted(glob.glob(os.path.join(folder, 'crates/*/src/**/*.rt'), recursive=True)):
        with open(path) as file:
            yield os.path.relpath(path, folder), file.read().split('\n')


def functions(lines):
    """Each function as (first line, name, its header, its body), the bodies without clauses."""
    at = 0
    while at < len(lines):
        named = FUNCTION.match(lines[at])
        if not named:
            at += 1
            continue
        indent = len(lines[at]) - len(lines[at].lstrip())
        end = at
        while end < len(lines) and lines[end].rstrip() not in (' ' * indent + '}', ' ' * indent + '{}') and not lines[end].rstrip().endswith(';'):
            end += 1
        text = lines[at:end + 1]
        header = [line for line in text if not re.match(r'\s*(requires|ensures)\b', line)]
        yield at + 1, named.group(1), '\n'.join(text), '\n'.join(header)
        at = end + 1


def grep(pattern, every):
    return [f'{path}:{n}: {line.strip()}' for path, lines in every for n, line in enumerate(lines, 1) if re.search(pattern, line)]


def flags_and_numbers(every):
    yield 'a flag with a value beside it', grep(r'^\s+(pub )?(hung|seen): bool|\[false; ', every)
    yield 'a number for a kind', grep(r'^\s+[0-9]+ => \w', every)
    yield 'a number that answers nothing', [
        f'{path}:{n}: {name}' for path, lines in every for n, name, _, bare in functions(lines) if re.search(r'-> u8\s*\{\s*0\s*\}', bare)]
    yield 'own enums', grep(r'^\s*(pub(\(crate\))? )?enum ', every)


def twins(every, folder):
    constants = collections.defaultdict(list)
    for path, lines in every:
        for n, line in enumerate(lines, 1):
            found = re.match(r'\s*(?:pub(?:\(crate\))? )?const [A-Z_]+: (\w+ = [0-9_]+);', line)
            if found:
                constants[found.group(1)].append(f'{path}:{n}: {line.strip()}')
    yield 'constants of one type and value', [' ~ '.join(c) for c in constants.values() if len(c) > 1]
    shapes = collections.defaultdict(list)
    for path, lines in every:
        for n, name, _, bare in functions(lines):
            body = bare[bare.find('{'):] if '{' in bare else ''
            if len(body.split('\n')) < 4:
                continue
            shape = re.sub(r'\b(?!if|else|for|in|match|let|mut|return|Ok|Err|Some|None|true|false|while)[A-Za-z_]\w*\b|\b[0-9_]+\b', '@', body)
            shapes[re.sub(r'\s+', ' ', shape)].append(f'{path}:{n}: {name}')
    yield 'bodies of one shape, of two lines or more', [' ~ '.join(s) for s in shapes.values() if len(s) > 1]
    texts = collections.defaultdict(list)
    for path in sorted(glob.glob(os.path.join(folder, 'crates/*/specs/*.antt'))):
        with open(path) as file:
            for block in re.split(r'\n\s*\n', file.read()):
                lines = [line for line in block.split('\n') if line.strip() and not re.match(r'\s*--|use ', line)]
                named = re.match(r'\s*(?:abbrev )?(?:pub )?(?:record |data )?([\w-]+)', lines[0]) if len(lines) > 1 else None
                if named:
                    texts[re.sub(r'\s+', ' ', ' '.join(lines)).replace(named.group(1), '@')].append(f'{os.path.relpath(path, folder)}: {named.group(1)}')
    yield 'definitions of one text', [' ~ '.join(t) for t in texts.values() if len(t) > 1]


def loops(every):
    counted, others = [], []
    for path, lines in every:
        for n, line in enumerate(lines, 1):
            found = re.match(r'(\s*)for (\w+) in [^&]*\.\.', line)
            if not found:
                continue
            body = []
            for after in lines[n:]:
                if after.rstrip() == found.group(1) + '}':
                    break
                body.append(after)
            indexed = re.search(r'\[[^\]]*\b' + found.group(2) + r'\b[^\]]*\]', '\n'.join(body))
            (counted if indexed else others).append(f'{path}:{n}: {line.strip()}')
    yield 'a range whose number indexes a list', counted
    yield 'a range of numbers', others
    yield 'a test by a loop that returns', grep(r'^\s+(?:    )+return (true|false);', every)


def by_hand(every):
    yield 'equality, order, copying, conversion', [
        f'{path}:{n}: {name}' for path, lines in every for n, name, _, _ in functions(lines)
        if re.fullmatch(r'same\w*|at_least|at_byte|number|digit|decoded|plan_of|relabelled|load_words|put_bytes|packed|numbers|fill', name)]


def together(every):
    clauses, groups = collections.defaultdict(set), collections.defaultdict(set)
    for path, lines in every:
        for n, name, text, _ in functions(lines):
            for kind, clause in re.findall(r'^\s*(requires|ensures)(?: \w+)? (\{.*\})\s*$', text, re.M):
                clauses[kind, clause].add(f'{path}: {name}')
            header = text[:text.find('\n    ensures')] if '\n    ensures' in text else text
            names = tuple(re.findall(r'\b(\w+): (?:&|usize|u32|\[)', header.split(')')[0]))
            for k in range(len(names) - 1):
                groups[names[k:k + 2]].add(f'{path}: {name}')
    yield 'a clause in three functions or more', [f'{len(f)} times {k} {c}' for (k, c), f in sorted(clauses.items(), key=lambda x: -len(x[1])) if len(f) > 2]
    yield 'two parameters side by side in four functions or more', [f'{len(f)} times {", ".join(g)}' for g, f in sorted(groups.items(), key=lambda x: -len(x[1])) if len(f) > 3]


def buffers(every):
    found = []
    for path, lines in every:
        text = '\n'.join(lines)
        for struct in re.finditer(r'struct (\w+)[^\n]*\{\n(.*?)\n\}', text, re.S):
            arrays = re.findall(r'(\w+): \[', struct.group(2))
            counts = re.findall(r'(\w+): (?:usize|u8)\b', struct.group(2))
            if arrays and counts:
                found.append(f'{path}: {struct.group(1)}: {", ".join(arrays)} with {", ".join(counts)}')
    yield 'a struct with an array and a number', found


def switches(every):
    yield 'match', grep(r'^\s+match ', every)


def proofs(folder):
    files = glob.glob(os.path.join(folder, 'crates/*/proofs/**/*.antt'), recursive=True)
    text = [open(file).read() for file in files]
    yield f'{len(files)} files, {sum(t.count(chr(10)) for t in text)} lines', []
    yield f'{sum(len(re.findall(r"^pub [^ ]+ : goal", t, re.M)) for t in text)} answers', []


def main():
    folder = sys.argv[1] if len(sys.argv) > 1 else '.'
    every = list(sources(folder))
    points = [flags_and_numbers(every), twins(every, folder), loops(every), by_hand(every), together(every), buffers(every), switches(every), proofs(folder)]
    for number, point in enumerate(points, 1):
        for what, places in point:
            print(f'{number} {what}: {len(places)}' if number < 8 else f'{number} {what}')
            for place in places:
                print(f'      {place}')


main()
