#!/usr/bin/env python3
"""Counts the places in src/ that docs/DESIGN-PASS.md speaks of, a line for each point: tools/places.py [-v] [FOLDER]
FOLDER is a checkout (this one if none is named); -v lists each place."""
import re, sys, glob, os
from collections import Counter

verbose = '-v' in sys.argv
rest = [a for a in sys.argv[1:] if a != '-v']
top = rest[0] if rest else os.path.join(os.path.dirname(os.path.abspath(__file__)), '..')
files = sorted(glob.glob(os.path.join(top, 'crates/*/src/*.rt')))
text = {f[f.index('crates/') + 7:]: open(f).read() for f in files}


def show(point, what, places):
    print(f'{point}  {what}: {len(places)}')
    if verbose:
        for p in places:
            print('       ', p)


def lines(pattern):
    return [f'{f}:{n}: {l.strip()}' for f, s in text.items() for n, l in enumerate(s.split('\n'), 1)
            if re.search(pattern, l) and not l.lstrip().startswith('//')]


# each function: file, name, parameters, result
def functions():
    for f, s in text.items():
        for m in re.finditer(r'((?:pub )?(?:extern "C" )?)fn (\w+)\s*(?:<[^>{(]*>)?\(((?:[^()]|\([^()]*\))*)\)(?:\s*->\s*([^\n{]+))?', s):
            yield f, m.group(1), m.group(2), m.group(3), (m.group(4) or '').strip()


funs = list(functions())
enums = [f'{f}: {m.group(1)}' for f, s in text.items() for m in re.finditer(r'enum (\w+)[^{]*\{((?:[^{}]|\{[^{}]*\})*)\}', s)
         if re.search(r'Refused\(|Unreadable', m.group(2))]
show(1, 'enums of the shape of Option or Result', enums)
show(1, 'structs with a refusal and values beside it', lines(r'^\s+(pub )?refusal: u8,'))
show(1, 'functions that answer a refusal or a flag as a number',
     [f'{f}: {n}' for f, k, n, p, r in funs if r == 'u8' and 'extern' not in k
      and n not in ('byte_at', 'digit', 'flag_of', 'number', 'refusal_number')])
show(1, 'comparisons with a kind, type, mark or version written as a number',
     [x for x in lines(r'(types?\[[^\]]*\]|marks\[[^\]]*\]|kind|version|bytes\[0\]|\bt|byte_or_zero\(bytes, 0\)|body_types\[[^\]]*\]( as usize)?\]?|enabled\[i\]|dynamic_bodies\[body\]) (==|<|!=) [0-9]|1 < marks')])

pairs = [n for f, k, n, p, r in funs]
same = Counter(n for n in pairs)
show(2, 'names of functions that stand in more than one file (constructors, main and methods of the same name included)',
     sorted(f'{n}: {c}' for n, c in same.items() if c > 1))
show(2, 'functions whose name has a twin with multi, counted, ends, joints, pairs, at or _place behind or before it',
     sorted({f'{f}: {n}' for f, k, n, p, r in funs if re.search(r'multi_|_counted$|_ends$|_joints$|_pairs$|_flags$|_counts$|_marks_at|bodies_at|_place$|_known$', n)}))

show(3, 'while loops', lines(r"^\s*('\w+: )?while "))
show(3, 'for loops over the index of a slice', lines(r'for \w+ in 0\.\.[a-z_.]+\.len\(\)'))

show(4, 'conversions, comparisons and choices written as functions',
     [f'{f}: {n}' for f, k, n, p, r in funs if re.match(r'(same\w*|refusal_of|islands_of|report_of|sizes_of|length_of|plan_from|multi_plan_from|numbers_of|carry|larger|lower|higher|least|pick\w*|wide|plan_after|is_changed|at_least|limit_of|two_to_four|copy\w*|fill\w*)$', n)])
show(4, 'bytes and numbers printed by calls of io', lines(r'io::(write_all|print_decimal|print_hex)'))



def parameters(p):
    return [x for x in re.split(r',(?![^<\[(]*[>\])])', p) if x.strip()]


many = [f'{f}: {n}: {len(parameters(p))}' for f, k, n, p, r in funs if 'extern' not in k and len(parameters(p)) > 7]
show(5, 'functions, exports to C aside, with more than seven parameters', many)

asked = Counter()
for f, s in text.items():
    for m in re.finditer(r'requires(?:\s+\w+)?\s*\{((?:[^{}]|\{[^{}]*\})*)\}', s):
        for part in ' '.join(m.group(1).split()).split(' × '):
            asked[f'{f}: {part.strip("() ")}'] += 1
show(5, 'facts that three or more functions of a file ask of their callers', [f'{k}: {c}' for k, c in asked.items() if c > 2])

show(6, 'structs with a count beside an array', [f'{f}: {m.group(1)}' for f, s in text.items()
     for m in re.finditer(r'struct (\w+)[^{;]*\{([^{}]*)\}', s) if re.search(r'\bcount: usize', m.group(2)) and re.search(r'\[u\d+; ', m.group(2))])
show(6, 'functions that take a buffer and the place up to which it is filled',
     [f'{f}: {n}' for f, k, n, p, r in funs if re.search(r'\bout: &mut \[u8\]', p) and re.search(r'\bat: usize', p)])

show(7, 'enums or numbers that choose a step', [x for x in lines(r'match (shape|figure|kind)|kind == |if k < 8|enum (Shape|Figure)')])

count = 0
proofs = glob.glob(os.path.join(top, 'crates/*/proofs/**/*.antt'), recursive=True)
for f in proofs:
    count += sum(1 for _ in open(f))
print(f'8  lines of proofs: {count}, in {len(proofs)} files; of answers and invariants of functions: '
      + str(sum(sum(1 for _ in open(f)) for f in proofs if os.path.basename(f) in ('Answers.antt', 'Invariants.antt'))))
