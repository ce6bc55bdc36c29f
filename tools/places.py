#!/usr/bin/env python3
"""Counts the places of docs/DESIGN-PASS.md in crates/*/src, and the answers of crates/*/proofs.

tools/places.py [COMMIT] [POINT]   in the sources of a commit, or as they stand; with a point, its places one to a line
"""
import itertools
import re
import subprocess
import sys
from collections import defaultdict

commit = next((a for a in sys.argv[1:] if not re.fullmatch(r'[1-8]', a)), None)
point = next((int(a) for a in sys.argv[1:] if re.fullmatch(r'[1-8]', a)), None)


def git(*args):
    return subprocess.run(('git',) + args, capture_output=True, text=True, check=True).stdout


def files(pattern):
    names = git('ls-tree', '-r', '--name-only', commit) if commit else git('ls-files')
    for name in names.split('\n'):
        if re.fullmatch(pattern, name):
            try:
                yield name, git('show', f'{commit}:{name}') if commit else open(name).read()
            except FileNotFoundError:
                pass


sources = list(files(r'crates/[a-z_]+/src/.*\.rt'))
proofs = list(files(r'crates/[a-z_]+/proofs/.*\.antt'))
places = defaultdict(list)


def lines(number, kind, pattern):
    for name, text in sources:
        for at, line in enumerate(text.split('\n'), 1):
            if re.search(pattern, line):
                places[number].append(f'{name}:{at}: {kind}: {line.strip()}')


# functions: name, signature, body
functions = []
for name, text in sources:
    for m in re.finditer(r'^( *)(?:#\[unsafe\(no_mangle\)\]\n\1)?(?:pub(?:\(crate\))? |final |const )*(?:extern "C" )?fn ([a-z_0-9]+)(.*?)\n\1\{(.*?)\n\1\}', text, re.S | re.M):
        functions.append((name, m.group(2), m.group(3), m.group(4)))

# 1: own enums in the shape of Option or Result, flags and numbers of refusals and statuses in fields, and such numbers as results
lines(1, 'enum', r'^(pub )?enum (Field|Fields|Settlement|PayOff|QuoteAnswer|ReductionLimit|Next)\b')
lines(1, 'field', r'^ +(pub )?(refusal|bad|right|status|option|payer): (u32|u64|bool),')
lines(1, 'field', r'^ +(pub )?(next: Next|end: usize),')
lines(1, 'result', r'^ *(pub )?fn [a-z_]*(refusal|status|stopped|rate|tenths)[a-z_]*\(.*\) -> u(16|32)$')
lines(1, 'columns for a kind', r'^(const (CAP_DECISION|NEAREST|BLEND|RATE|REDUCTION_LIMIT|QUOTE|SETTLE|SCHEDULE|PAY_OFF|REFUSED_APPLICATION): u64 = \d+;|pub const [A-Z_0-9]+: \[u(8|64); \d+\] = \[)$')

# 2: functions that are the same but for names, numbers and texts
words = set('as break const else enum false fn for if impl in let loop match mut pub ref return self Self struct true while u8 u16 u32 u64 usize bool Ok Err Some None'.split())


def shape(signature, body):
    text = re.sub(r'//[^\n]*', '', signature.split('\n')[0] + body)
    seen = {}
    out = []
    for t in re.findall(r'b?"[^"]*"|[A-Za-z_][A-Za-z_0-9]*|\d+|\S', text):
        if re.match(r'b?"', t):
            out.append('"')
        elif t[0].isdigit():
            out.append('0')
        elif t in words or not (t[0].isalpha() or t[0] == '_'):
            out.append(t)
        else:
            out.append(str(seen.setdefault(t, len(seen))))
    return ' '.join(t for t in out if t != ',')


shapes = defaultdict(list)
for name, f, signature, body in functions:
    if name.endswith('/cases.rt'):
        continue
    s = shape(signature, body)
    if len(s.split()) >= 10:
        shapes[s].append(f'{name}: {f}')
for s, twins in shapes.items():
    if len(twins) > 1:
        places[2] += [f'{t} (one of {len(twins)})' for t in twins]

# 3: loops that count an index or steps by hand
lines(3, 'loop', r"^ *('[a-z]+: )?while (?!let )")

# 4: comparisons, conversions, widths and printing by hand
lines(4, 'by hand', r'^ *(pub )?fn (is_above|outside|least|at_most_65|count_up|odd|low_byte|low_byte_first|wide|narrow_at|six_numbers_of|year_at|put|write_(text|number|numbers|entries|answer_at|line|column)|say_[a-z_]+)\(')
lines(4, 'conversion', r'^ *(pub )?fn [a-z_]+_numbers\(')
lines(4, 'one test in several', r'^ +return (true|false);$')

# 5: facts in three contracts or more, and parameters that travel together in three functions or more of a file
facts = defaultdict(list)
for name, f, signature, body in functions:
    for fact in set(re.findall(r'^ +requires (?:[a-z_]+ )?\{ (.*) \}', signature, re.M)):
        for part in fact.split(' × '):
            facts[re.sub(r'\b[a-z]+\.(args|now|old|new)\b|[()]', '', part)].append(f'{name}: {f}')
for fact, where in facts.items():
    if len(where) >= 3:
        places[5].append(f'{fact} in {len(where)}: {", ".join(sorted(set(where)))}')
together = defaultdict(set)
for name, f, signature, body in functions:
    parameters = re.findall(r'\b([a-z_0-9]+): ', signature.split(')')[0])
    for group in itertools.combinations(sorted(set(parameters) - {'rt', 'self'}), 2):
        together[(name, group)].add(f)
merged = defaultdict(set)
for (name, group), fs in together.items():
    if len(fs) >= 3:
        merged[(name, tuple(sorted(fs)))] |= set(group)
for (name, fs), group in merged.items():
    places[5].append(f'{name}: {", ".join(sorted(group))} in {", ".join(fs)}')

# 6: a length or count beside an array, and fields that are one list
lines(6, 'length', r'^ +(pub )?(len|count|wrote): usize,')
lines(6, 'parallel', r'^ +(pub )?(erf_)?(first|second|third): (u32|PensionPence),')

# 7: a switch on which step to run, a table of functions
lines(7, 'switch', r'match (next|asked)\b|match row\.len\(\)|: fn\(')

# 8: answers
for name, text in proofs:
    for at, line in enumerate(text.split('\n'), 1):
        if re.match(r'pub \S+ : goal\.|pub \S+ :$', line) and '/Answers.antt' in name:
            places[8].append(f'{name}:{at}')

if point:
    print('\n'.join(places[point]))
else:
    for number in range(1, 9):
        print(number, len(places[number]))
