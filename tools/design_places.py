#!/usr/bin/env python3
"""Lists the places of docs/DESIGN-PASS.md in src/, point by point, and counts them.

python3 tools/design_places.py [--list POINT] [FOLDER]

FOLDER is a checkout, this one if none is given. A place is a line of source that the rule of its point finds; the page says
of each that is left why it stays."""
import collections
import pathlib
import re
import sys

ENUM = re.compile(r'^(?:pub(?:\(crate\))? )?enum (\w+)')
FN = re.compile(r'^\s*(?:pub(?:\(crate\))? )?(?:extern "C" )?fn (\w+)(?:<[^(]*>)?\(')
LIBRARY = {  # helper functions that do what a method or a conversion of std does
    'wide', 'wide8', 'wide16', 'less', 'least', 'fewer', 'larger', 'one_if', 'one_unless', 'room', 'stretch', 'steps',
    'page_of', 'back', 'forward', 'fit', 'beside', 'copied', 'first_of', 'costs_less', 'wins', 'join16', 'join32',
    'words_of', 'groups_of', 'count_of', 'taken_apart', 'of_planned', 'is_row', 'same_checked', 'same_ranked',
}


def sources(root):
    for path in sorted(pathlib.Path(root).glob('crates/*/src/*.rt')):
        crate = path.parts[-3]
        lines = path.read_text().splitlines()
        yield crate, path.name, lines


def functions(lines):
    """(name, first line, last line) of each function, from the brace structure of laid-out code."""
    i = 0
    while i < len(lines):
        m = FN.match(lines[i])
        if m:
            indent = len(lines[i]) - len(lines[i].lstrip())
            j = i
            while j < len(lines) and not (lines[j].startswith(' ' * indent + '}') and j > i):
                if lines[j].rstrip().endswith(';') and j == i:
                    break
                j += 1
            yield m.group(1), i, j
            i = j
        i += 1


def loops(lines):
    """Loops by hand whose variable goes up or down by one in the body, with their line."""
    for i, line in enumerate(lines):
        m = re.match(r'^(\s*)while (.*) \{$', line)
        if not m:
            continue
        indent = m.group(1)
        body = []
        for k in range(i + 1, len(lines)):
            if lines[k].startswith(indent + '}'):
                break
            body.append(lines[k])
        names = set(re.findall(r'\b([a-z_]\w*)\b', m.group(2)))
        counted = [n for n in names if any(re.match(r'^\s*%s [+-]= 1;$' % re.escape(n), b) for b in body)]
        yield i, line.strip(), bool(counted)


def clauses(lines, first, last):
    for k in range(first, last):
        m = re.match(r'^\s*requires (?:\w+ )?\{ (.*) \}\s*$', lines[k])
        if m:
            yield m.group(1)


def atoms(clause):
    depth, part, out = 0, '', []
    for ch in clause:
        depth += ch in '([{'
        depth -= ch in ')]}'
        if ch == '×' and depth == 0:
            out.append(part)
            part = ''
        else:
            part += ch
    out.append(part)
    for a in out:
        a = a.strip()
        while a.startswith('(') and a.endswith(')') and '→' not in a[:12]:
            a = a[1:-1].strip()
        yield a


def find(root):
    found = collections.OrderedDict((p, []) for p in (
        '1 enums', '1 numbers of refusals', '1 numbers of kinds', '1 flags beside values', '1 a number for nothing',
        '2 twins by width', '2 twins by name', '3 counted loops', '3 other loops by hand', '4 what std has',
        '5 facts in three contracts', '5 seven parameters or more', '6 fixed buffers', '6 indices in a workspace',
        '7 switches by ifs', '8 proofs by hand'))
    names = collections.defaultdict(list)
    for crate, name, lines in sources(root):
        where = lambda i: '%s/src/%s:%d' % (crate, name, i + 1)
        facts = collections.defaultdict(list)
        for i, line in enumerate(lines):
            m = ENUM.match(line)
            if m:
                found['1 enums'].append((where(i), m.group(1)))
            if re.search(r'\bnumber: u8,|\bRefused\(u8\)|-> u8$', line):
                found['1 numbers of refusals'].append((where(i), line.strip()))
            if re.search(r'^\s*(?:pub )?(tag|form|kind|how): u8,$', line):
                found['1 numbers of kinds'].append((where(i), line.strip()))
            if re.match(r'^\s+(pub )?\w+: bool,$', line) and any(
                    re.match(r'^(pub(\(crate\))? )?struct ', l) for l in lines[max(0, i - 8):i]):
                found['1 flags beside values'].append((where(i), line.strip()))
            if re.search(r'\b4294967295\b', line) and not line.lstrip().startswith(('//', 'requires', 'ensures')):
                found['1 a number for nothing'].append((where(i), line.strip()))
            if re.search(r'= \[0(?:u\d+)?; *\w+\]|^\s*\[0; \d+\]$', line):
                found['6 fixed buffers'].append((where(i), line.strip()))
            if re.search(r'\bw\[', line):
                found['6 indices in a workspace'].append((where(i), line.strip()))
            if re.match(r'^\s*if (tag|form|kind|f\.tag) (==|<=|<) \d+ \{$', line):
                found['7 switches by ifs'].append((where(i), line.strip()))
        for i, text, counted in loops(lines):
            found['3 counted loops' if counted else '3 other loops by hand'].append((where(i), text))
        for fn, first, last in functions(lines):
            head = ' '.join(l.strip() for l in lines[first:first + 12]).split('(', 1)[1].split(')', 1)[0]
            names[fn].append((crate, where(first)))
            if re.search(r'16$|ordinals', fn):
                found['2 twins by width'].append((where(first), fn))
            if fn in LIBRARY or fn.startswith('of_'):
                found['4 what std has'].append((where(first), fn))
            if head.count(': ') >= 7:
                found['5 seven parameters or more'].append((where(first), fn))
            for c in clauses(lines, first, last):
                for a in atoms(c):
                    facts[a].append(where(first))
        for a, places in facts.items():
            if len(places) >= 3:
                found['5 facts in three contracts'].append((places[0], '%d times: %s' % (len(places), a)))
    for fn, places in names.items():
        if len({c for c, _ in places}) >= 3 or (len(places) >= 2 and fn in LIBRARY):
            found['2 twins by name'].append((places[0][1], '%s in %s' % (fn, ', '.join(sorted({c for c, _ in places})))))
    for path in sorted(pathlib.Path(root).glob('crates/*/proofs/**/Proof.antt')):
        found['8 proofs by hand'].append(('/'.join(path.parts[-5:]), ''))
    return found


def main():
    args = sys.argv[1:]
    only = None
    if args[:1] == ['--list']:
        only, args = args[1], args[2:]
    for point, places in find(args[0] if args else '.').items():
        if only is None:
            print('%4d  %s' % (len(places), point))
        elif point.startswith(only):
            print('-- %s: %d' % (point, len(places)))
            for where, text in places:
                print('%s  %s' % (where, text))


main()
