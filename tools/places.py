#!/usr/bin/env python3
"""Lists the places of the crates' code that an older form of the language may have left.

usage: places.py [TOP]      (the top of a checkout; this one if left out)

The points are those of docs/DESIGN-PASS.md. A row is a place to look at, with file and line; the last line of a
point is how many there are. Contract lines and comments are passed over where a point is about code.
"""
import re, sys
from collections import defaultdict
from pathlib import Path

TOP = Path(sys.argv[1] if len(sys.argv) > 1 else Path(__file__).resolve().parent.parent)
FILES = sorted(TOP.glob('crates/*/src/**/*.rt'))
TEXT = {f: f.read_text().split('\n') for f in FILES}


def lines():
    for f, text in TEXT.items():
        for i, line in enumerate(text):
            if not line.lstrip().startswith('//'):
                yield f.relative_to(TOP), i + 1, line


def is_contract(line):
    return re.match(r'\s*(requires|ensures|ghost)\b', line) is not None


def point(number, title, rows):
    print(f'== {number}. {title}')
    for row in rows:
        print('  ', row)
    print(f'   {len(rows)} places')


def found(pattern, contracts=False, unless=None):
    rows = []
    for f, i, line in lines():
        if is_contract(line) and not contracts:
            continue
        if re.search(pattern, line) and not (unless and re.search(unless, line)):
            rows.append(f'{f}:{i}: {line.strip()[:110]}')
    return rows


# The functions of a file: name, line, parameters, body without contracts and comments.
def functions():
    for f, text in TEXT.items():
        i = 0
        while i < len(text):
            m = re.match(r'(\s*)(?:pub(?:\(crate\))? )?fn (\w+)', text[i])
            if not m:
                i += 1
                continue
            end = i
            while end < len(text) and not re.match(m.group(1) + r'\}', text[end]) and not text[end].endswith('{}'):
                end += 1
            whole = [l for l in text[i:end + 1] if not is_contract(l) and not l.lstrip().startswith('//')]
            joined = '\n'.join(whole)
            cut = joined.find('{')
            yield f.relative_to(TOP), i + 1, m.group(2), joined[:cut], joined[cut:]
            i = end + 1


# A body with its names numbered in the order in which they first stand, and its literals left out.
def shape(body):
    names = {}
    out = []
    for t in re.findall(r"b?'[^']*'|b?\"[^\"]*\"|\w+|[^\s\w]", body):
        if re.match(r"b?['\"]|\d", t):
            out.append('#')
        elif re.match(r'[A-Za-z_]', t) and t not in ('if', 'else', 'for', 'in', 'match', 'let', 'mut', 'return', 'while'):
            out.append(str(names.setdefault(t, len(names))))
        else:
            out.append(t)
    return ' '.join(out)


def twins():
    by_shape = defaultdict(list)
    for f, i, name, head, body in functions():
        s = shape(body)
        if len(s.split()) >= 24 and '/tests.rt' not in str(f):
            by_shape[s].append(f'{f}:{i} {name}')
    return [' ~ '.join(v) for v in by_shape.values() if len(v) > 1]


def same_files():
    by_name = defaultdict(list)
    for f in FILES:
        if f.name not in ('lib.rt', 'main.rt', 'tests.rt', 'fault.rt'):
            by_name[f.name].append(f)
    rows = []
    for fs in by_name.values():
        for a in range(len(fs)):
            for b in range(a + 1, len(fs)):
                x, y = set(TEXT[fs[a]]), set(TEXT[fs[b]])
                if len(x & y) * 2 > min(len(x), len(y)):
                    rows.append(f'{fs[a].relative_to(TOP)} ~ {fs[b].relative_to(TOP)}')
    return rows


# Index loops: a range whose variable stands in brackets in the loop's body.
def index_loops():
    rows = []
    for f, text in TEXT.items():
        for i, line in enumerate(text):
            m = re.match(r'(\s*)for (\w+) in [^{]*\.\.', line)
            if not m:
                if re.match(r'\s*(while\b|loop \{)', line):
                    rows.append(f'{f.relative_to(TOP)}:{i + 1}: {line.strip()}')
                continue
            end = i
            while not re.match(m.group(1) + r'\}', text[end]):
                end += 1
            body = '\n'.join(text[i + 1:end])
            if re.search(r'\[[^\]\n]*\b' + m.group(2) + r'\b', body):
                rows.append(f'{f.relative_to(TOP)}:{i + 1}: {line.strip()}')
    return rows


def facts():
    seen = defaultdict(list)
    for f, text in TEXT.items():
        for i, line in enumerate(text):
            m = re.match(r'\s*(?:requires|ensures) \w*\s*\{(.*)\}', line)
            if m:
                seen[m.group(1).strip()].append(f'{f.relative_to(TOP)}:{i + 1}')
    return [f'{len(v)} times: {k[:110]}' for k, v in sorted(seen.items(), key=lambda x: -len(x[1])) if len(v) >= 3]


def groups():
    seen = defaultdict(set)
    for f, i, name, head, body in functions():
        if '/tests.rt' in str(f):
            continue
        params = re.findall(r"(\w+): ([^,()]+(?:<[^>]*>)?[^,()]*)", head)
        params = [f'{p}: {re.sub(chr(39) + "[a-z_]+ ?", "", t).strip()}' for p, t in params]
        for a in range(len(params)):
            for b in range(a + 3, len(params) + 1):
                seen[', '.join(params[a:b])].add(f'{f}:{i}')
    many = {k: v for k, v in seen.items() if len(v) >= 3}
    longest = [k for k in many if not any(k != o and k in o and many[k] <= many[o] for o in many)]
    return [f'{len(many[k])} functions: {k[:110]}' for k in sorted(longest, key=lambda k: -len(many[k]))]


point(1, 'a number or a flag for an outcome: functions that answer u8, pairs of options, flags among the parts of a variant',
      found(r'-> (u8|\(Option<)|^\s+\w+\([^)]*\bbool\b|=> 0,$|=> 99,$', unless=r'matches!'))
point(2, 'twins: functions of one shape', twins())
point(2, 'twins: files that share most of their lines', same_files())
point(3, 'loops that count an index', index_loops())
point(4, 'comparison, copying, conversion, printing by hand',
      found(r'impl(<[^>]*>)? (PartialEq|PartialOrd|Ord|Eq|Clone|Copy|Debug)\b|=> "|-> &\'static str|fn (with_code|with_size|code|byte)\(|fn (\w+_text|\w+_line|\w+_named|digit\w*|number|shorts|numbers|words|bits|bytes)\(|fn push_\w+\('))
point(5, 'facts in three contracts or more', facts())
point(5, 'three parameters or more that travel together through three functions or more', groups())
point(6, 'fixed memory in a type or a signature, a length beside it, lists given beside each other',
      found(r'(: |-> )\[\w+; ?\w+\]|marks: &mut', unless=r'const |let '))
point(7, 'a switch on the name of a step', found(r'match (case\.)?verb\b|if (case\.)?verb ==|\.verb ==|-> fn\(|: fn\('))
