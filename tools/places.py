#!/usr/bin/env python3
"""Counts, in the src/ of every crate, the places where an older form may stand where today's would be plainer.

    python3 tools/places.py [FOLDER] [POINT]

prints each point with its sorts of places, how many of each there are, and where. What it finds is to be read: a place
may be in its plainest form already, and then docs/DESIGN-PASS.md says so.
"""
import re
import sys
from collections import defaultdict
from pathlib import Path

args = sys.argv[1:]
only = args.pop() if args and args[-1].isdigit() else None
top = Path(args[0]) if args else Path('.')
crates = [l.split(':')[0].split()[0] for l in (top / 'crates.txt').read_text().splitlines() if l.strip() and not l.startswith('#')]
files = {f: f.read_text() for c in crates for f in sorted((top / 'crates' / c / 'src').glob('*.rt'))}


def line_of(text, at):
    return text.count('\n', 0, at) + 1


def grep(pattern, keep=lambda f, m: True):
    found = []
    for f, text in files.items():
        for m in re.finditer(pattern, text, re.M):
            if keep(f, m):
                found.append((f, line_of(text, m.start()), m.group(0).strip().split('\n')[0]))
    return found


def blocks():
    """Each function: file, line, name, signature with clauses, body."""
    for f, text in files.items():
        for m in re.finditer(r'^( *)(?:pub(?:\(crate\))? )?(?:final )?fn (\w+)', text, re.M):
            end = text.find('\n' + m.group(1) + '}', m.end())
            one = text.find(';\n', m.end())
            start = re.compile(r'\n%s\{|\{\n' % m.group(1)).search(text, m.end())
            if start is None or end < 0 or (one >= 0 and one < start.start()):
                continue
            yield f, line_of(text, m.start()), m.group(2), text[m.start():start.start()], text[start.end():end]


def skeleton(body):
    body = re.sub(r'//[^\n]*', '', body)
    body = re.sub(r'\b(?:b?\'[^\']*\'|\d[\d_a-fx]*|b?"[^"]*")', '#', body)
    body = re.sub(r'\b(?!if\b|else\b|match\b|for\b|in\b|let\b|return\b|mut\b|Some\b|None\b|Ok\b|Err\b|iter\b|self\b)[A-Za-z_]\w*', 'x', body)
    body = re.sub(r'x(?:::x)+', 'x', body)
    return re.sub(r'\s+', '', body)


def twins():
    groups = defaultdict(list)
    for f, n, name, _, body in blocks():
        s = skeleton(body)
        if len(s) >= 12:
            groups[s].append((f, n, name))
    return [(f, n, f'{name} (as {len(g) - 1} more)') for g in groups.values() if len(g) > 1 for f, n, name in g]


def walks():
    found = []
    for f, text in files.items():
        for m in re.finditer(r'^( *)for [^\n]*\{\n\s*if [^{]*\{\n\s*return[^\n]*\n\s*\}\n\1\}', text, re.M):
            found.append((f, line_of(text, m.start()), m.group(0).strip().split('\n')[0]))
    return found


def clauses():
    count = defaultdict(list)
    for f, n, name, head, _ in blocks():
        crate = str(f).split('crates/')[1].split('/')[0]
        for m in re.finditer(r'(requires|ensures)(?: \w+)? \{ (.*) \}', head):
            text = re.sub(r'\b(self|\w+)\.(old|now|new)\b', r'_.\2', m.group(2))
            if 'result' not in text:
                count[crate, m.group(1), text].append((f, n, name))
    return [(f, n, f'{name}: {k[1]} {k[2][:70]}') for k, g in count.items() if len(g) >= 3 for f, n, name in g]


def travellers():
    count = defaultdict(list)
    for f, n, name, head, _ in blocks():
        crate = str(f).split('crates/')[1].split('/')[0]
        params = re.search(r'\((.*?)\)(?: ->|\n|$| )', head, re.S)
        names = [p.split(':')[0].strip() for p in (params.group(1).split(',') if params else []) if ':' in p]
        names = tuple(sorted(p for p in names if p not in ('heap', 'rt', 'f')))
        for i in range(len(names)):
            for j in range(i + 1, len(names)):
                for k in range(j + 1, len(names)):
                    count[crate, (names[i], names[j], names[k])].append((f, n, name))
    return [(f, n, f'{name}: {", ".join(k[1])}') for k, g in count.items() if len(g) >= 3 for f, n, name in g]


def parallel():
    found = []
    for f, text in files.items():
        for m in re.finditer(r'struct (\w+)[^{;]*\{(.*?)\n\}', text, re.S):
            lists = re.findall(r'^\s*(?:pub )?(\w+): (?:Vec|Rows|&\w* ?\[|\[)', m.group(2), re.M)
            if len(lists) > 1:
                found.append((f, line_of(text, m.start()), f'{m.group(1)}: {", ".join(lists)}'))
    return found


def shared_types():
    """Structs, enums and constants that two crates or more write out alike."""
    count = defaultdict(list)
    for f, text in files.items():
        for m in re.finditer(r'^(?:pub(?:\(crate\))? )?(struct|enum|const|trait) (\w+)[^\n]*\{\n(.*?)\n\}', text, re.M | re.S):
            body = re.sub(r'//[^\n]*|\s+|\bpub\b|ghost \w+: \{[^\n]*', '', m.group(3))
            count[m.group(1), m.group(2), body].append((f, line_of(text, m.start()), f'{m.group(1)} {m.group(2)}'))
    return [x for g in count.values() if len(g) > 1 for x in g]


def switches():
    """A match of which three arms or more do nothing but call a function each."""
    found = []
    for f, text in files.items():
        for m in re.finditer(r'^( *)(?:[^\n]*=> |[^\n]*= )?match [^\n]*\{\n(.*?)\n\1\}', text, re.M | re.S):
            calls = re.findall(r'=> (?:\{\s*)?(?:self\.)?[a-z_]+\([^\n]*\)(?:,|\s*\})', m.group(2))
            if len(calls) >= 3:
                found.append((f, line_of(text, m.start()), f'{m.group(0).strip().splitlines()[0]} ({len(calls)} calls)'))
    return found


def without_derives():
    found = []
    for f, text in files.items():
        for m in re.finditer(r'((?:#\[derive\([^)]*\)\]\n)?)(?:pub(?:\(crate\))? )?(struct|enum) (\w+)', text):
            if 'PartialEq' not in m.group(1) and 'Copy' in m.group(1):
                found.append((f, line_of(text, m.start()) + 1, f'{m.group(2)} {m.group(3)}'))
    return found


points = {
    '1': {
        'a bool as a field, as part of a variant, or passed': grep(r'(?:\w+: (?:Vec<)?bool\b(?! \{)|\w+\([^()]*\bbool\b[^()]*\),$)', lambda f, m: '->' not in m.group(0)),
        'a number or letter for a kind, by a function of our own': grep(r'fn (?:from_letter|letter|number|from_number|to_number)\b.*|fn \w+\(letter: u8\).*', lambda f, m: 'number(self) -> u16' not in m.group(0)),
        'an error passed on by hand': grep(r'Err\((\w+)\) => (?:return )?Err\(.*|Err\(_\) => (?:return )?Err\(.*|let Ok\(\w+\) = .* else \{\n\s*return Err.*'),
        'an option opened by hand': grep(r'None => (?:return )?(?:None|false|0|true)\b.*|let Some\(\w+\) = [^;]* else \{\n\s*return (?:None|false|0)\b.*'),
    },
    '2': {'functions of one shape': twins(), 'types and constants that stand twice': shared_types()},
    '3': {
        'a loop over numbers': grep(r'^ *for \w+ in [^\n]*\.\.[^\n]*\{'),
        'a loop that finds, or asks whether some or all': walks(),
        'a loop with the place beside the item': grep(r'^ *for \([^\n]*enumerate\(\)[^\n]*'),
        'while and loop': grep(r'^ *(?:while|loop)\b[^\n]*'),
    },
    '4': {
        'plain values without derived equality': without_derives(),
        'days compared by their numbers': grep(r'[\w.()]+\.number (?:==|!=|<=?|>=?) [\w.()]+\.number\b', lambda f, m: True),
        'equality or conversion by a function of our own': grep(r'fn (?:is_same_\w+|same_\w+|is_zero|is_head|is|has_same_\w+|narrow\w*)\b.*'),
        'an amount of nothing written out': grep(r'quantity: 0,\n\s*value: 0,'),
        'written out and matched': grep(r'match writeln!.*|let added = match.*'),
    },
    '5': {
        'a clause on an argument that three functions or more have': clauses(),
        'three parameters that go together in three functions or more': travellers(),
    },
    '6': {
        'an array filled up to a count': grep(r'let mut \w+ = \[.*; [\d_]+\];'),
        'a count or flags beside a list': grep(r'^\s*pub (?:used|count|filled): .*'),
        'lists side by side in one struct': parallel(),
        'one place of a list, tested by hand': grep(r'if \w+ < [\w.]+\.len\(\)(?: \{.*)?'),
    },
    '7': {'a match that chooses the function to run': switches()},
}

if __name__ == '__main__':
    for point, sorts in points.items():
        if only and only != point:
            continue
        print(f'point {point}: {sum(len(v) for v in sorts.values())}')
        for sort, found in sorts.items():
            print(f'  {sort}: {len(found)}')
            for f, n, what in found:
                print(f'    {f.relative_to(top)}:{n}: {what}')
    if only in (None, '8'):
        answers = sum(len(re.findall(r'^pub .*: goal\.', f.read_text(), re.M)) for c in crates for f in (top / 'crates' / c / 'proofs').rglob('*.antt'))
        lemmas = sum(len(re.findall(r'^(?:pub )?[\w-]+ : ', f.read_text(), re.M)) for c in crates for f in (top / 'crates' / c / 'proofs').rglob('*.antt') if f.stem not in ('Answers', 'Invariants', 'Lib'))
        own = sum(len(re.findall(r'^(?!pub )[\w-]+ : ', f.read_text(), re.M)) for c in crates for f in (top / 'crates' / c / 'proofs').rglob('Answers.antt'))
        lines = sum(len(f.read_text().splitlines()) for c in crates for f in (top / 'crates' / c / 'proofs').rglob('*.antt'))
        print(f'point 8: {answers} answers, {lemmas} lemmas in files of their own and {own} beside answers, {lines} lines of proof')
