#!/usr/bin/env python3
"""forms.py [ROOT]: counts, in crates/*/src, the places that docs/DESIGN-PASS.md speaks of, point by point, and prints each place with --list."""
import glob
import os
import re
import sys

words = [a for a in sys.argv[1:] if not a.startswith('--')]
ROOT = words[0] if words else '.'
LIST = '--list' in sys.argv
FILES = sorted(glob.glob(os.path.join(ROOT, 'crates/*/src/**/*.rt'), recursive=True))
FUNCTION = re.compile(r'^ *(?:pub |pub\(crate\) |pub\(super\) )?(?:extern "C" )?fn (\w+)(<(?:[^>(]|\([^)]*\)|->)*>)?\(', re.M)


def code_of(text):
    """The text without comments, clauses and ghost lines, line for line."""
    out, clause = [], False
    for line in text.split('\n'):
        bare = re.sub(r'//.*', '', line)
        if re.match(r'\s*(requires|ensures)\b', bare):
            clause = True
        if clause and re.match(r'\s*\{\s*$', bare) and len(bare) - len(bare.lstrip()) <= 4:
            clause = False
        out.append('' if clause or bare.lstrip().startswith('ghost ') else bare)
    return '\n'.join(out)


def functions(text):
    """(name, parameters, body) of each function of a text without comments."""
    for m in FUNCTION.finditer(text):
        depth, i = 1, m.end()
        while i < len(text) and depth:
            depth += {'(': 1, ')': -1}.get(text[i], 0)
            i += 1
        params = [p.strip() for p in re.split(r',(?![^<\[(]*[>\])])', text[m.end():i - 1]) if p.strip()]
        start = text.find('{', i)
        depth, j = 1, start + 1
        while j < len(text) and depth:
            depth += {'{': 1, '}': -1}.get(text[j], 0)
            j += 1
        yield m.group(1), params, text[start + 1:j - 1], text[i:start].strip()


found = {}


def note(point, path, what):
    found.setdefault(point, []).append('%s: %s' % (os.path.relpath(path, ROOT), what))


POINTS = ['1 enums of two variants', '1 flags beside values', '1 numbers of refusals', '1 numbers that stand for none',
          '2 functions alike', '3 loops that count by hand', '3 other while and loop', '4 equality, order, copying, conversion by hand',
          '5 functions of six parameters or more', '5 clauses that say that a state is in form', '5 clauses of rows and columns',
          '6 arrays with a count beside them', '6 parallel arrays']
bodies = {}
for path in FILES:
    text = open(path).read()
    code = code_of(text)
    for m in re.finditer(r'enum (\w+)[^{]*\{([^}]*)\}', code):
        if len([v for v in re.findall(r'^\s*(\w+)', m.group(2), re.M)]) == 2:
            note(POINTS[0], path, m.group(1))
    for m in re.finditer(r'struct (\w+)[^{;(]*\{([^}]*)\}', code):
        if ': bool,' in m.group(2):
            note(POINTS[1], path, m.group(1))
    for name, params, body, result in functions(code):
        tokens = re.sub(r'\b\d[\d_]*\b', 'N', re.sub(r'\b[A-Za-z_]\w*\b', 'i', body))
        if len(re.findall(r'[\w]+|[^\s\w]', tokens)) >= 25:
            bodies.setdefault(re.sub(r'\s+', '', tokens), []).append((path, name))
        refusal = result in ('-> u32', '-> Reading') and not name.startswith('monitor_')
        numbers = re.findall(r'(?:return |Refused\()(\d+)', body)
        if refusal or name.startswith('monitor_'):
            for n in numbers:
                if int(n) in list(range(1, 4)) + list(range(10, 19)) + list(range(20, 26)) + [30, 31, 32, 40, 41, 42]:
                    note(POINTS[2], path, '%s %s' % (name, n))
        if 'monitor_c' not in path and re.search(r'NO_SET|NO_END', body) and not re.search(r'NO_SET - 1', body):
            note(POINTS[3], path, name)
        if any(re.match(r'blame: u32', p) for p in params):
            note(POINTS[3], path, name + ' blame')
        for m in re.finditer(r'(while ([^{]*)|\bloop )\{', body):
            test = m.group(2) or ''
            counted = re.match(r'\s*(\w+) < |\s*0 < (\w+)\s*$', test) and re.search(r'\b%s [+-]= ' % (re.match(r'\s*(?:0 < )?(\w+)', test).group(1)), body) \
                or re.search(r'\b(\w+) = next;', body)
            note(POINTS[5] if counted else POINTS[6], path, '%s %s' % (name, test.strip() or 'loop'))
        if re.match(r'(same|lesser|greater|earlier|later|precedes|copy\w*|clear|byte|glyph|apart|put_text|all_zero|move_up|number_of_kind|refusal)$', name):
            note(POINTS[7], path, name)
        if len(params) >= 6:
            note(POINTS[8], path, '%s %d' % (name, len(params)))
        names = [p.split(':')[0].replace('mut ', '').strip() for p in params]
        slices = [p for p in params if re.search(r'&(?:mut )?\[', p)]
        if slices and any(re.match(r'(n|h|rows|count|m|width|words): usize', p) for p in params):
            note(POINTS[11], path, name)
        if len(set(names) & {'lefts', 'rights', 'held', 'terms', 'counts', 'masks', 'several', 'singles', 'marks', 'low', 'high'}) >= 2:
            note(POINTS[12], path, name)
    for line in text.split('\n'):
        if re.search(r'T \(in_form', line) and 'ghost use' not in line:
            note(POINTS[9], path, line.strip()[:60])
        if re.search(r'\b(TableFits|ColumnsFit|RowsFit|Marked|Parted|Room|Ready)\b', line) and 'ghost use' not in line:
            note(POINTS[10], path, line.strip()[:60])
for same in bodies.values():
    if len(same) > 1:
        for path, name in same:
            note(POINTS[4], path, name + ' like ' + ', '.join(n for p, n in same if (p, n) != (path, name)))
for point in POINTS:
    print('%4d  %s' % (len(found.get(point, [])), point))
    if LIST:
        for place in found.get(point, []):
            print('          ' + place)
