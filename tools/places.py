#!/usr/bin/env python3
"""Prints the places that docs/DESIGN-PASS.md counts, point by point, for the checkout at the path given (default: here)."""
import re, sys
from collections import defaultdict
from pathlib import Path

top = Path(sys.argv[1] if len(sys.argv) > 1 else '.')
sources = sorted(top.glob('crates/*/src/*.rt'))


def lines(pattern, keep=lambda text: True):
    found = []
    for path in sources:
        for number, text in enumerate(path.read_text().splitlines(), 1):
            code = text.split('//')[0]
            if re.search(pattern, code) and keep(code):
                found.append(f'{path.parts[-3]}:{number}: {text.strip()}')
    return found


def functions():
    for path in sources:
        text = path.read_text()
        for m in re.finditer(r'^\s*(?:pub )?(?:extern "C" )?fn (\w+)', text, re.M):
            end = text.find('\n{', m.start())
            brace = text.find(' {\n', m.start())
            end = min(x for x in (end, brace, len(text)) if x > 0)
            rest = text[m.start():]
            stop = re.search(r'\n\s*\{\n', rest)
            yield path.parts[-3], m.group(1), rest[:stop.start()] if stop else rest[:400]


def repeated():
    seen = defaultdict(set)
    for crate, name, head in functions():
        for clause in re.findall(r'requires\s*\w*\s*\{(.*)\}', head):
            for fact in re.split(r' × ', clause):
                fact = fact.strip().strip('()')
                if fact and not fact.startswith('Room'):
                    seen[re.sub(r'\s+', ' ', fact)].add(f'{crate}::{name}')
    return [f'{len(v)} functions: {k}' for k, v in sorted(seen.items(), key=lambda x: -len(x[1])) if len(v) >= 3]


def together():
    groups = defaultdict(list)
    for crate, name, head in functions():
        inside = re.search(r'\((.*?)\)\s*(->|requires|ensures|\{|$)', head, re.S)
        names = re.findall(r'(\w+):\s', inside.group(1)) if inside else []
        for group in (('old', 'agile', 'table'), ('register', 'kind', 'digests', 'event'), ('register', 'kind', 'digest', 'event'),
                      ('format', 'bitmap'), ('d', 'at'), ('tail', 'at')):
            if all(n in names for n in group):
                groups[group].append(f'{crate}::{name}')
    return [f'{len(v)} functions: {", ".join(k)}' for k, v in groups.items()]


def show(title, found):
    print(f'{title}: {len(found)}')
    for line in found:
        print('   ', line)


show('1 enums', lines(r'\benum \w+'))
show('1 a row of the table by its number', lines(r'\bi: usize\b', lambda c: 'let ' not in c))
show('1 a format, a refusal or a status as a number', lines(r'\bformat: u(32|64)\b|-> u64$|\bn (==|<=) (0|7|11|34)\b'))
show('2 functions of the same shape', [f'{c}::{n}' for c, n, _ in functions() if re.match(
    r'(sha1|sha256)(_extend)?$|(choose|parity|majority)_rounds$|offer_|log_(old|table)|(old|agile)_length$|absorb|finish$|start$|block$|extend(_with)?$|digest$', n)])
show('3 loops that are not `for`', lines(r'^\s*(while|loop)\b|= loop\b'))
show('4 conversions, copies and comparisons by hand', lines(
    r'=> \d+,|Refusal::\w+ => Refusal::\w+|\[i\] != |>> \d+\) (\| \(|%)|fn (wide|word_of|named|number_of|refusal_number|digit|put_digits)\b|let (g|h|b|bytes|last|stop|status|registers) = \w+\.\w+;'))
show('5 facts in the contracts of three functions or more', repeated())
show('5 parameters that travel together', together())
show('6 a buffer with a clause on its length', [x for x in repeated() if 'length' in x])
show('7 a switch on a number', lines(r'match i \{|if (format|self\.format) == \d'))
proofs = list(top.glob('crates/*/proofs/**/*.antt'))
old = [p for p in proofs if re.search(r'^use (mathlib|lib|Prim|borrow|native)\.', p.read_text(), re.M)]
print(f'8 files of proofs: {len(proofs)}, lines {sum(len(p.read_text().splitlines()) for p in proofs)}; answers {sum(p.name == "Answers.antt" for p in proofs)}; '
      f'that import from the logic\'s own modules: {len(old)}')
