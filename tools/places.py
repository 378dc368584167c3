#!/usr/bin/env python3
"""Lists the places in src/ that the design page counts, point by point.

python3 tools/places.py [ROOT] [--lines]    counts, and with --lines each place

For twins it asks the program `duplicates` too, over copies of the files ending in .rs, if it is installed.
Where a point counts names (facts, lists of parameters), the number of names stands beside that of the places.
"""
import collections
import glob
import os
import re
import shutil
import subprocess
import sys
import tempfile

ROOT = next((a for a in sys.argv[1:] if not a.startswith('-')), '.')
LINES = '--lines' in sys.argv


def sources():
    for path in sorted(glob.glob(os.path.join(ROOT, 'crates/*/src/*.rt'))):
        yield os.path.relpath(path, ROOT), open(path, encoding='utf-8').read()


def grep(pattern, tests=True):
    found = []
    for path, text in sources():
        if not tests and path.endswith('tests.rt'):
            continue
        for n, line in enumerate(text.split('\n'), 1):
            if not line.lstrip().startswith('//') and re.search(pattern, line):
                found.append(f'{path}:{n}: {line.strip()}')
    return found


def contract_after(text, start):
    """The clauses between a signature and its body."""
    clauses = []
    for line in text[start:].split('\n')[1:]:
        line = line.strip()
        if line.startswith(('requires', 'ensures')):
            clauses.append(line)
        elif not line.startswith(('where', '//', ')', '>')) and not line.endswith(','):
            break
    return '\n'.join(clauses)


def signatures():
    """Each function outside tests: path, name, parameter names, contract."""
    for path, text in sources():
        if path.endswith('tests.rt'):
            continue
        for m in re.finditer(r'\bfn (\w+)(?:<[^(]*>)?\(([^)]*(?:\([^)]*\)[^)]*)*)\)', text):
            names = [p.split(':')[0].strip().lstrip('&').replace('mut ', '') for p in m.group(2).split(',') if ':' in p]
            yield path, m.group(1), names, contract_after(text, m.end())


def repeated_facts():
    """Bounds of one value by one number, in the contracts of three functions or more."""
    where = collections.defaultdict(set)
    for path, name, _, contract in signatures():
        for fact in re.findall(r'[\w.]*?(\w+) (≤|<|≤ℤ) ((?:pos )?\d+(?: \^ \d+)?)', contract):
            where[f'{fact[0]} {fact[1]} {fact[2]}'].add(f'{path}:{name}')
        for fact in re.findall(r'(\d+|negsuc \d+) (≤|<|≤ℤ) [\w.]*?(\w+)', contract):
            where[f'{fact[0]} {fact[1]} {fact[2]}'].add(f'{path}:{name}')
        for fact in re.findall(r'\{ (every printable \w+\.now ≡ true|Small x) \}', contract):
            where[fact].add(f'{path}:{name}')
    rows = [(fact, places) for fact, places in where.items() if len(places) >= 3 and not fact.startswith('result ')]
    return [f'{fact}: {p}' for fact, places in sorted(rows) for p in sorted(places)], len(rows)


def companions():
    """Three parameter names or more that stand together, in this order, in two functions or more."""
    where = collections.defaultdict(set)
    for path, name, names, _ in signatures():
        names = [n for n in names if n not in ('self', 'rt', 'f')]
        for i in range(len(names)):
            for j in range(i + 3, len(names) + 1):
                where[tuple(names[i:j])].add(f'{path}:{name}')
    kept = {k: v for k, v in where.items() if len(v) >= 2}
    longest = {k: v for k, v in kept.items()
               if not any(len(o) > len(k) and any(o[i:i + len(k)] == k for i in range(len(o))) and v <= kept[o] for o in kept)}
    return [f'{", ".join(k)}: {p}' for k, v in sorted(longest.items()) for p in sorted(v)], len(longest)


def twins():
    if not shutil.which('duplicates'):
        return ['(duplicates is not installed)']
    with tempfile.TemporaryDirectory() as folder:
        for path, text in sources():
            if path.endswith('tests.rt'):
                continue
            to = os.path.join(folder, path[:-3] + '.rs')
            os.makedirs(os.path.dirname(to), exist_ok=True)
            open(to, 'w', encoding='utf-8').write(text)
        said = subprocess.run(['duplicates', '--most', '100', '--min-lines', '6', '--seconds', '120', '--repo', folder],
                              capture_output=True, text=True).stdout
    return [line for line in said.split('\n') if re.match(r'D\d+ ', line)]


def named_alike():
    """Functions of one name outside traits' impls in two files or more."""
    where = collections.defaultdict(set)
    for path, name, _, _ in signatures():
        if name in ('main', 'fmt', 'new', 'from', 'try_from', 'next', 'at', 'thrust', 'nominal', 'idle'):
            continue
        where[name].add(path)
    return [f'{name}: {p}' for name, places in sorted(where.items()) if len(places) > 1 for p in sorted(places)]


def show(title, places, names=None):
    extra = '' if names is None else f' ({names} names)'
    print(f'{len(places):4}  {title}{extra}')
    if LINES:
        for place in places:
            print(f'        {place}')


print('1 own Option or Result, flags beside values, numbers for kinds and refusals')
show('enums whose variants say No or Nothing', grep(r'^\s+(No|Nothing|Missing|Failed|Absent)(\(.*\))?,$'))
show('fields of type bool', grep(r'^\s+(pub(\(crate\))? )?\w+: bool,'))
show('functions that number or name a kind or a refusal', grep(r'fn (number|line|field|layer|row|phase|numbered|named|engine_type|refusal_of|figures|lowers|is_lowering)\b.*(u8|u32|u64|usize|bool|Option|Result)'))
show('tuples that stand for a fault', grep(r'-> .*\(u8, u32, u32\)|\(0, 0, 0\)', tests=True))
show('arms that take an Option or a Result apart', grep(r'^\s+(None|Err\(\w+\)|Some\(\w+\)|Ok\(\w*(\(\))?\)) =>'))
print('2 twins')
show('pairs of places that share six lines or their shape (duplicates)', twins())
show('functions of one name in two files or more', named_alike())
print('3 loops that count by hand')
show('while, for _ in, + 1 by hand, and loops that answer from inside', grep(r'\bwhile\b|\bfor _ in\b|\+= 1\b|= \w+(\.\w+)?\.saturating_add\(1\)'))
show('for loops', grep(r'^\s+for .* in '))
print('4 equality, conversion, printing by hand')
show('equality and conversion', grep(r'fn (same|named|numbered|number|row|engine_type|with_sign|below_zero|above_zero|of|masses|rows|descent|temperature|fuel|engine)\('))
show('impls of Display', grep(r'impl.* fmt::Display for'))
show('structs of one field that only print', grep(r'^(pub(\(crate\))? )?struct (\w*Lines?|Mark|Figures|Forces|LegFigures|Compared|Printed|Listing|FaultLine)\b'))
print('5 facts and parameters that travel')
show('bounds that stand in three contracts or more', *repeated_facts())
show('parameters that stand together in two functions or more', *companions())
print('6 buffers, parallel arrays, lists searched by hand')
show('structs of slices cut by hand, indices into slices', grep(r'&\w+\[[^\]]*\.\.[^\]]*\]|^(pub(\(crate\))? )?struct (Cut|Field)\b'))
show('buffers with a length or a limit', grep(r'MOST_KEPT|MOST_HELD|\.resize\('))
print('7 switches and tables')
show('arms that number a step', grep(r'^\s+\d+( \| \d+)* =>'))
show('chains of else if', grep(r'else if '))
