#!/usr/bin/env python3
"""Counts places of older forms in src/, point by point (docs/DESIGN-PASS.md): tools/places.py [CHECKOUT] [POINT].

Point 1: enums of a shape of Option or Result, bool fields beside values, and numbers for kinds, turns, opcodes and refusals.
Point 2: pairs of functions whose bodies are alike once names and numbers are taken out.
Point 3: loops that count by hand. Point 4: small functions that convert, compare or copy by hand.
Point 5: needs that stand in three or more contracts, and functions of six or more parameters.
Point 6: lengths and places passed beside a buffer. Point 7: matches on which step to run, and flags passed through as constants.
Point 8: proofs that walk the code, and answers that only call the search."""
import difflib
import glob
import os
import re
import sys

FN = re.compile(r'^(?P<indent> *)(?:pub(?:\(crate\))? )?(?:extern "C" )?fn (?P<name>\w+)', re.M)


def source(path):
    text = open(path, encoding='utf-8').read()
    return re.sub(r'(^|\s)//[^\n]*', r'\1', text)


def functions(text):
    """name, parameters, clauses, body of each function of a file."""
    for m in FN.finditer(text):
        indent = m.group('indent')
        end = re.compile(r'^%s}' % indent, re.M).search(text, m.end())
        if not end:
            continue
        whole = text[m.start():end.end()]
        opening = re.search(r'^%s{' % indent, whole, re.M) or re.search(r'{\n', whole)
        head, body = whole[:opening.start()], whole[opening.start():]
        start = whole.index(m.group('name')) + len(m.group('name'))
        if whole[start] == '<':
            start = whole.index('>(', start) + 1
        depth, params, at = 0, [], None
        for k in range(start, len(head)):
            c = head[k]
            if c in '([{<':
                depth += 1
                at = at or k + 1
            elif c in ')]}>' and head[k - 1] != '-':
                depth -= 1
                if depth == 0:
                    params.append(head[at:k])
                    break
            elif c == ',' and depth == 1:
                params.append(head[at:k])
                at = k + 1
        yield m.group('name'), [' '.join(p.split()) for p in params if p.strip()], head, body


def conjuncts(head):
    for m in re.finditer(r'requires(?: \w+)? \{(.*?)\}(?=\n)', head, re.S):
        text = ' '.join(m.group(1).split())
        depth, part = 0, ''
        for c in text:
            depth += c == '('
            depth -= c == ')'
            if c == '×' and depth == 0:
                yield part.strip()
                part = ''
            else:
                part += c
        yield part.strip()


def shape(body):
    tokens = re.findall(r'[A-Za-z_]\w*|\d\w*|[^\s\w]', body)
    keep = {'if', 'else', 'while', 'for', 'in', 'match', 'return', 'let', 'mut', 'as'}
    return [t if t in keep or not re.match(r'\w', t) else 'x' for t in tokens]


def main():
    top = sys.argv[1] if len(sys.argv) > 1 else '.'
    only = sys.argv[2] if len(sys.argv) > 2 else None
    found = {k: [] for k in '12345678'}
    bodies, needs = [], {}
    for path in sorted(glob.glob(os.path.join(top, 'crates/*/src/**/*.rt'), recursive=True)):
        name = os.path.relpath(path, os.path.join(top, 'crates'))
        text = source(path)
        for m in re.finditer(r'enum (\w+) \{(.*?)^}', text, re.M | re.S):
            variants = [v for v in re.findall(r'^    (\w+)', m.group(2), re.M)]
            if len(variants) == 2 or 'Nothing' in variants:
                found['1'].append(f'{name}: enum {m.group(1)}')
        for m in re.finditer(r'struct (\w+) \{(.*?)^}', text, re.M | re.S):
            for f in re.findall(r'(\w+): bool', m.group(2)):
                found['1'].append(f'{name}: {m.group(1)}.{f}: bool')
        for fn, params, head, body in functions(text):
            for p in params:
                if re.match(r'(kind|opcode|buffer|target|turn|first|refusal|hit|by_tension|by_seconds): (u64|usize|bool)$', p):
                    found['1'].append(f'{name}: {fn}({p})')
            if re.search(r'match (?:\w+\.)?(opcode|buffer|target|turn|kind|digits|bits|count) \{\s*(\d|Grid::[A-Z])', body):
                point = '1' if re.search(r'match (?:\w+\.)?(opcode|buffer|target|turn|kind)\b', body) else '4'
                found[point].append(f'{name}: {fn}: match on a number')
            for line in re.findall(r'^ *while .*', body, re.M):
                found['3'].append(f'{name}: {fn}: {line.strip()}')
            if len(body) < 420 and len(params) <= 3 and 'while' not in body and 'for ' not in body and re.search(
                    r'-> (u64|i64|usize|u8|u32|i16|bool|f64)\b', head):
                if re.search(r' as (u64|i64|i16|u32|usize)|\{ true \} else|else \{ false \}|return false|< \w+ \{ \w+ \} else|\? ', body):
                    found['4'].append(f'{name}: {fn}')
            if len(params) >= 6:
                found['5'].append(f'{name}: {fn}: {len(params)} parameters')
            for c in set(conjuncts(head)):
                needs.setdefault(re.sub(r'\.(now|old)\b', '', c), []).append(f'{name}: {fn}')
            if any(re.match(r'\w+: &(mut )?\[', p) for p in params) and any(
                    re.match(r'(at|n|count|length|start|end|last): usize$', p) for p in params):
                found['6'].append(f'{name}: {fn}')
            if re.search(r'match (turn|target|hit)\b', body) or re.search(r'\b(true|false), (true|false)\)|, (true|false)\)', body):
                found['7'].append(f'{name}: {fn}')
            s = shape(body)
            if len(s) > 30:
                bodies.append((f'{name}: {fn}', s))
    for c, where in needs.items():
        if len(where) >= 3 and c:
            found['5'].append(f'{c}: {len(where)} contracts')
    for i, (a, s) in enumerate(bodies):
        for b, t in bodies[i + 1:]:
            if abs(len(s) - len(t)) < 0.25 * max(len(s), len(t)):
                m = difflib.SequenceMatcher(None, s, t, autojunk=False)
                if m.quick_ratio() > 0.9 and m.ratio() > 0.9:
                    found['2'].append(f'{a} ~ {b}')
    for path in sorted(glob.glob(os.path.join(top, 'crates/*/proofs/**/*.antt'), recursive=True)):
        name = os.path.relpath(path, os.path.join(top, 'crates'))
        if name.endswith('/Proof.antt'):
            found['8'].append(f'{name}: a walk')
        elif name.endswith('/Answers.antt'):
            n = len(re.findall(r'^[\w-]+(?: \w+)* = search rules$', open(path, encoding='utf-8').read(), re.M))
            found['8'] += [f'{name}: search alone'] * n
    for k in '12345678':
        if only in (None, k):
            print(f'point {k}: {len(found[k])}')
            if only:
                print('\n'.join('  ' + x for x in found[k]))


main()
