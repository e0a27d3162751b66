#!/usr/bin/env python3
"""Lists the places in crates/*/src where an older form of the language may stand.

usage: python3 tools/forms.py [--list] [COMMIT]

Without COMMIT it reads the files as they are, else as that commit has them. With --list it names each place.
"""
import re
import subprocess
import sys
from collections import defaultdict


def files(commit):
    if commit:
        names = subprocess.run(['git', 'ls-tree', '-r', '--name-only', commit, 'crates'],
                               capture_output=True, text=True, check=True).stdout.split()
        names = [n for n in names if re.fullmatch(r'crates/\w+/src/.*\.rt', n)]
        return {n: subprocess.run(['git', 'show', f'{commit}:{n}'], capture_output=True, text=True, check=True).stdout
                for n in names}
    import glob
    return {n: open(n, encoding='utf-8').read() for n in sorted(glob.glob('crates/*/src/**/*.rt', recursive=True))}


def without_tests(text):
    return text.split('#[cfg(test)]\nmod tests {')[0]


def functions(name, text):
    """(line, name, parameters, clauses, body) of each function that has a body."""
    lines = text.split('\n')
    i = 0
    while i < len(lines):
        m = re.match(r'(\s*)(?:pub(?:\(crate\))? )?fn (\w+)', lines[i])
        if not m:
            i += 1
            continue
        start, indent = i, m.group(1)
        head = []
        while i < len(lines) and lines[i].rstrip() != indent + '{' and not lines[i].rstrip().endswith(';'):
            if lines[i].rstrip().endswith('{') and not re.match(r'\s*(requires|ensures)', lines[i]):
                break
            head.append(lines[i])
            i += 1
        if i < len(lines) and lines[i].rstrip().endswith(';') and '{' not in lines[i]:
            i += 1
            continue
        if i < len(lines) and lines[i].rstrip() != indent + '{':
            head.append(lines[i].rstrip()[:-1])
        body = []
        i += 1
        while i < len(lines) and lines[i].rstrip() != indent + '}':
            body.append(lines[i])
            i += 1
        clauses = [x.strip() for x in head if re.match(r'\s*(requires|ensures)', x)]
        signature = ' '.join(x.strip() for x in head if not re.match(r'\s*(requires|ensures)', x))
        yield start + 1, m.group(2), signature, clauses, '\n'.join(body)


def parameters(signature):
    m = re.search(r'\((.*)\)\s*(?:->|$)', signature)
    return re.findall(r'(\w+): ([^,()]+(?:<[^>]*>)?)', m.group(1)) if m else []


def main(arguments):
    listing = '--list' in arguments
    commits = [a for a in arguments if not a.startswith('--')]
    source = {n: without_tests(t) for n, t in files(commits[0] if commits else None).items()}
    code = {n: t for n, t in source.items() if '/leaf_tests/' not in n}
    found = defaultdict(list)

    def each_line(kind, pattern, texts=code):
        for n, t in texts.items():
            for k, line in enumerate(t.split('\n'), 1):
                plain = line.strip()
                if plain.startswith(('//', 'requires', 'ensures', 'ghost')):
                    continue
                if re.search(pattern, line):
                    found[kind].append((f'{n}:{k}', plain))

    each_line('1 numbers for kinds', r'\b(59|201|202|203|204|205)\b(?!.*=> (Code|SeldomWord)::)')
    each_line('1 0 or another number for none',
              r'(opened|link|voclink|\bk|\be|\bx|newest|word\.length) (==|!=|>|>=) (0|w)\b|newest = 0|_ => 36')
    each_line('3 loops', r"^\s*('\w+: )?(while|loop)\b|for \w+ in .*\.\.")
    each_line('4 conversions by as', r' as (u8|u16|u32|u64|usize)\b')
    each_line('4 tables of texts or numbers by hand', r'fn (words|name|number|code_of)\(')
    each_line('7 switches on what to run', r'match (word|number|self\.number\(\)) \{')

    facts, shapes, pairs = defaultdict(list), defaultdict(list), defaultdict(list)
    for n, t in code.items():
        for line, name, signature, clauses, body in functions(n, t):
            place = f'{n}:{line} {name}'
            if '&mut' in signature and re.search(r'-> bool\b', signature):
                found['1 a bool that says whether a change was made'].append((place, signature[:90]))
            for clause in clauses:
                if not clause.startswith('requires'):
                    continue
                inside = re.sub(r'^requires \w*\s*\{ (.*) \}$', r'\1', clause)
                for fact in re.split(r' × ', inside):
                    fact = fact.strip('() ').replace('.old', '.now')
                    facts[fact].append(place)
            own = re.sub(r'//.*', '', body)
            tokens = re.findall(r"'\w+|\w+|[^\w\s]", own)
            if len(tokens) >= 15:
                shape = ' '.join('_' if re.match(r"['\w]", x) and x not in ('if', 'return', 'let', 'match', 'while', 'for', 'Ok', 'Err', 'Some', 'None', 'mut', 'else') else x
                                 for x in tokens)
                shapes[shape].append(place)
            named = parameters(signature)
            for i, (a, ta) in enumerate(named):
                for b, tb in named[i + 1:]:
                    pairs[f'{a}, {b}'].append(place)
            for a, ta in named:
                if a in ('depth', 'typed'):
                    found['6 a buffer with a length beside it'].append((place, signature[:90]))
        for k, line in enumerate(t.split('\n'), 1):
            if re.search(r'count: u8,|\[u8; 498\]', line):
                found['6 a buffer with a length beside it'].append((f'{n}:{k}', line.strip()))
    for shape, places in shapes.items():
        if len(places) > 1:
            found['2 functions of one shape'] += [(p, f'group of {len(places)}') for p in places]
    for fact, places in facts.items():
        if len(places) > 2:
            found['5 facts that three or more functions require'].append((f'{len(places)} functions', fact))
    for pair, places in pairs.items():
        if len(places) > 9:
            found['5 parameters that ten or more functions take together'].append((f'{len(places)} functions', pair))

    for kind in sorted(found):
        print(f'{kind}: {len(found[kind])}')
        if listing:
            for place, what in sorted(found[kind]):
                print(f'    {place}: {what}')


main(sys.argv[1:])
