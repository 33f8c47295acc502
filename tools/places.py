#!/usr/bin/env python3
"""Counts, by shape, the places in crates/*/src that an older Rattle may have left.

    tools/places.py [COMMIT] [-v]

Without a commit it reads the work tree. -v lists the places. What is found by shape is a
place to be read, and not always one to be changed; docs/DESIGN-PASS.md says what became of each.
"""
import re
import subprocess
import sys
from collections import Counter, defaultdict

ARGS = [a for a in sys.argv[1:] if a != '-v']
VERBOSE = '-v' in sys.argv
COMMIT = ARGS[0] if ARGS else None


def run(*command):
    return subprocess.run(command, capture_output=True, text=True, check=True).stdout


def files(pattern):
    if COMMIT:
        names = run('git', 'ls-tree', '-r', '--name-only', COMMIT, 'crates').split('\n')
    else:
        names = run('git', 'ls-files', '-co', '--exclude-standard', 'crates').split('\n')
    return sorted(n for n in names if re.fullmatch(pattern, n))


def text(name):
    return run('git', 'show', f'{COMMIT}:{name}') if COMMIT else open(name).read()


SOURCES = {}
for source_name in files(r'crates/\w+/src/.*\.rt'):
    try:
        SOURCES[source_name] = text(source_name)
    except FileNotFoundError:
        pass


def body_at(s, at):
    depth, i = 1, at
    while depth and i < len(s):
        depth += {'{': 1, '}': -1}.get(s[i], 0)
        i += 1
    return s[at:i - 1]


def line_of(s, at):
    return s.count('\n', 0, at) + 1


def found(pattern, keep=lambda s, m: True):
    return [(n, line_of(s, m.start()), ' '.join(m.group(0).split())[:90])
            for n, s in SOURCES.items() for m in re.finditer(pattern, s, re.M) if keep(s, m)]


def hands_on(s, m):
    body = body_at(s, m.end())
    arms = re.findall(r'(?:^|[\s,{])(Some|Ok|Err|None)\b(\([^=]*?\))?\s*=>\s*(return )?\s*(\(?\w+\(?\w*)', body)
    heads = [a[0] for a in arms]
    if len(re.findall('=>', body)) != 2 or sorted(heads) not in (['None', 'Some'], ['Err', 'Ok']):
        return False
    return any(re.match(r'(Ok\()?(None|Err|Ok|Some)\b', a[3]) for a in arms)


FUNCTION = re.compile(r'^ *(?:#\[.*\]\n *)?(?:pub(?:\(crate\))? )?(?:extern "C" )?(?:const )?fn (\w+)(<[^>]*(?:<[^>]*>[^>]*)*>)?\(', re.M)


def functions():
    for name, s in SOURCES.items():
        for m in FUNCTION.finditer(s):
            depth, i = 1, m.end()
            while depth:
                depth += {'(': 1, ')': -1}.get(s[i], 0)
                i += 1
            params = s[m.end():i - 1]
            start = re.compile(r'\n *\{\n|;\n|\{$|\{\n', re.M).search(s, i)
            head = s[i:start.start()] if start else ''
            code = body_at(s, start.end()) if start and '{' in start.group(0) else ''
            yield name, line_of(s, m.start()), m.group(1), params, head, code


def shape(code):
    words = re.findall(r'\w+|[^\s\w]', code)
    kept = {'if', 'else', 'match', 'for', 'while', 'loop', 'let', 'mut', 'return', 'in', 'self', 'true', 'false', 'Ok', 'Err', 'Some', 'None'}
    return ' '.join(w if w in kept or not re.match(r'\w', w) else '_' for w in words)


def twins():
    by_shape = defaultdict(list)
    for name, line, fn, _, _, code in functions():
        form = shape(code)
        if form.count(' ') >= 14:
            by_shape[form].append((name, line, fn))
    return [(v[0][0], v[0][1], ' = '.join(f'{n.split("/")[1]}::{f}' for n, _, f in v)) for v in by_shape.values() if len(v) > 1]


def travelling():
    pairs = defaultdict(set)
    for name, line, fn, params, _, _ in functions():
        named = sorted({' '.join(p.split()) for p in re.findall(r'(\w+: (?:[^,<]|<[^>]*>)+)', params)})
        for i, a in enumerate(named):
            for b in named[i + 1:]:
                pairs[(name.split('/')[1], a, b)].add((name, line, fn))
    return [(sorted(v)[0][0], sorted(v)[0][1], f'{a}, {b} in {len(v)} functions') for (c, a, b), v in sorted(pairs.items()) if len(v) >= 3]


def repeated_facts():
    facts = defaultdict(set)
    for name, line, fn, _, head, _ in functions():
        for clause in re.findall(r'(?:requires|ensures)\*? ?\w* \{([^}]*)\}', head):
            clause = re.sub(r'\.(old|new|now|entry)\b', '', clause)
            for fact in re.findall(r'(?<![\w.])([A-Z]\w+) (\w[\w.]*)', clause):
                if fact[0] not in ('IfOk', 'IfErr', 'IfSome', 'OnErr', 'OnOk', 'OnSome', 'MatchResult', 'K', 'X', 'V', 'L'):
                    facts[(name.split('/')[1], fact[0] + ' ' + fact[1])].add((name, line, fn))
    return [(sorted(v)[0][0], sorted(v)[0][1], f'{f} in {len(v)} functions') for (c, f), v in sorted(facts.items()) if len(v) >= 3]


def with_length(s, m):
    body = body_at(s, m.end())
    return re.search(r'^\s*(pub(\(crate\))? )?(len|length|count|used|total|cells): (u8|u16|u32|usize),', body, re.M) and re.search(r'\[\w+; \w+\]|Vec<|&\'?\w* ?(mut )?\[', body)


def dispatch(s, m):
    body = body_at(s, m.end())
    arms = re.findall(r'=>\s*\{?\s*(?:Ok\()?(\w+(?:::\w+)*(?:\.\w+)*)\(', body)
    return len([a for a in arms if a[0].islower()]) >= 3


POINTS = [
    ('1 enums of its own', lambda: found(r'^ *(pub )?enum \w+')),
    ('1 numbers of kinds and refusals', lambda: found(r'\b(kind|class|cause|state|bits): &?(u8|Option<u8>)|fn (number|cause|class|piece_count|piece_length)\(')),
    ('1 matches that hand on', lambda: found(r'match [^{;]*\{', hands_on) + found(r'\.is_err\(\) \{')),
    ('2 functions of one shape', twins),
    ('3 while and loop', lambda: found(r'^\s*(while|loop)\b.*')),
    ('3 for with an index or a counter', lambda: [p for p in found(r'^\s*for .* in .*\{', lambda s, m: re.search(r'enumerate\(\)|0\.\.', m.group(0)) or re.search(r'\+= 1;|saturating_add\(1\)|return (true|false|Some|Ok)', body_at(s, m.end())))]),
    ('4 printing by hand', lambda: found(r'impl(<.*>)? fmt::Display for \w+')),
    ('4 conversion and equality by hand', lambda: found(r'fn (same\w*|of_octets|to_octets|of_word|words|name_of|way|yes_no|yes_or_no|digit_char|state_of|routing)\(')),
    ('5 parameters that travel together', travelling),
    ('5 facts in three contracts', repeated_facts),
    ('6 buffers with a length beside', lambda: found(r'struct \w+(<[^{]*>)? \{', with_length)),
    ('7 switches on a step', lambda: found(r'match [^{;]*\{', dispatch)),
]
for title, places in POINTS:
    listed = places()
    per_crate = Counter(n.split('/')[1] for n, _, _ in listed)
    print(f'{title}: {len(listed)}  ({", ".join(f"{c} {k}" for c, k in sorted(per_crate.items()))})')
    if VERBOSE:
        for name, line, what in listed:
            print(f'    {name}:{line}: {what}')
proofs = files(r'crates/\w+/proofs/.*\.antt')
answers = [n for n in proofs if n.endswith('/Answers.antt')]


def lines(names):
    return sum(text(n).count('\n') for n in names)


print(f'8 proof files: {len(proofs)}, {lines(proofs)} lines; answers: {len(answers)}, {lines(answers)} lines')
