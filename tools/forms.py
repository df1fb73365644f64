#!/usr/bin/env python3
"""Lists, for each point of docs/DESIGN-PASS.md, the places of a tree that have one of its forms: forms.py [POINT] [TREE]."""
import glob, os, re, sys
from collections import Counter

POINT = sys.argv[1] if len(sys.argv) > 1 else ''
TREE = sys.argv[2] if len(sys.argv) > 2 else '.'
SOURCES = sorted(f for f in glob.glob(os.path.join(TREE, 'crates/*/src/*.rt')) if '/small_days/' not in f)
TEXT = {f: open(f).read() for f in SOURCES}
TEXT = {f: '\n'.join('' if l.strip().startswith('//') else l for l in t.split('\n')) for f, t in TEXT.items()}


def show(point, what, places):
    if POINT in ('', point):
        print(f'{point} {what}: {len(places)}')
        for p in places:
            print('   ', p)


def lines(pattern):
    return [f'{os.path.relpath(f, TREE)}:{n}: {l.strip()}' for f, t in TEXT.items()
            for n, l in enumerate(t.split('\n'), 1) if re.search(pattern, l) and 'ghost' not in l]


def spans(pattern):
    return [f'{os.path.relpath(f, TREE)}:{t.count(chr(10), 0, m.start()) + 1}: {" ".join(m.group(0).split())[:90]}'
            for f, t in TEXT.items() for m in re.finditer(pattern, t)]


show('1', 'errors made or dropped by hand, or of a shape that std has',
     lines(r'Err\(AllocError\)|is_err\(\)|Err\(_\)|let _ =|struct NoMemory'))
show('1', 'an error as an Option, or a failure as a bool', spans(r'fn \w+\([^)]*\) -> Option<Refusal>|pub fn entry\([^)]*\) -> bool'))
show('1', 'numbers for kinds and refusals', lines(r'^\s*(Cause::\w+ => \d+,|\d+ => )|(FIRST|LAST)_KIND: |put_step\(out, \d'))
show('1', 'a match on an Option or a Result', spans(r'match [^{;]*\{\s*(Some|Ok|None|Err)\b'))
show('2', 'a bound of the rules as a constant or a number of a crate', lines(
    r'const (MOST|LONGEST_NAME|NAME_SIZE|CODE_SIZE|LAST_HOUR|ROOM|LONGEST_STATEMENT)\w*: \w+ = [0-9_]+;|; 24\]|(<|>) 2[34] (\{|&&|\|\|)'))
show('2', 'refusals put together', lines(r'(?<!struct )(?<!-> )\bRefusal \{$|fn refus\w*\('))
show('2', 'tests that stand in two functions or more', [
    f'{c} times: {k}' for k, c in Counter(
        (os.path.relpath(f, TREE).split('/')[1], ' '.join(m.group(1).split()))
        for f, t in TEXT.items() for m in re.finditer(r'\bif ([^{]*)\{\s*return', t)).items() if c > 1])
show('3', 'loops that count by hand', lines(r'\bfor \w+ in \(?[0-9a-z]+\.\.|\bwhile\b|\bloop \{'))
show('3', 'functions that only index', spans(r'fn (at|\w+_at)\(&?\w+[^)]*\) -> (Currency|Member|Pair|Instruction)\b'))
show('4', 'types with fewer derives than their fields allow', lines(r'#\[derive\(Clone, Copy\)\]'))
show('4', 'fields copied one by one', lines(r'^\s*(\w+): \w+\.\1,$'))
show('4', 'comparisons, conversions and printing by hand', spans(
    r'fn (mirrors|same|instruction_of|digits|number|signed|number_or_dash|layer_name|put_number|\w+_bytes_at|is_letter)\('))
clauses = Counter()
for f, t in TEXT.items():
    for m in re.finditer(r'requires(?: \w+)? \{([^\n]*)\}', t):
        clauses[(os.path.relpath(f, TREE).split('/')[1], re.sub(r'\.(old|now|entry)\b', '', m.group(1).strip()))] += 1
show('5', 'a fact required by three functions or more', [f'{c} times: {k[0]}: {k[1]}' for k, c in clauses.items() if c > 2])
show('6', 'a buffer with a length beside it, parallel lists', spans(
    r'\w+: \[\w+; \w+\],\s*(pub(\(crate\))? )?len: usize|ghost even: [^\n]*|Result<\((Vec<\w+>, )+Vec<\w+>\)|&?\w+\[\.\.(n|len|self\.len)\]|&self\.bytes\[0?\.\.\w[^\n]*'))
show('7', 'three like tests in a row', spans(r'(if [^{]*\{\s*return [^}]*\}\s*){3,}'))
if POINT in ('', '8'):
    for crate in sorted({f.split('/')[-3] for f in SOURCES}):
        proofs = glob.glob(os.path.join(TREE, f'crates/{crate}/proofs/**/*.antt'), recursive=True)
        print(f'8 {crate}: {len(proofs)} files, {sum(len(open(p).readlines()) for p in proofs)} lines of proofs')
