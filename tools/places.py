#!/usr/bin/env python3
"""Counts the places that docs/DESIGN-PASS.md speaks of: in src/ of every crate, at a commit or as the tree stands.

    tools/places.py [COMMIT]        a line for each kind of place, and its count
    tools/places.py [COMMIT] -l     and each place below

1  enums whose variants are those of Option or Result, and functions that answer a number for "none"
2  groups of functions that are the same but for names, types and constants (comments and contracts aside)
3  loops that are no `for` over an iterator: `while`, `loop`; and `for` over a range whose body indexes by its variable
4  equality, conversion and printing by hand
5  facts that stand in the clauses of three functions or more, and groups of parameters that four functions or more take
7  enums whose one use is to say which step to run
8  lines of proofs
"""
import re, subprocess, sys, collections

args = [a for a in sys.argv[1:] if a != '-l']
commit = args[0] if args else None
wanted = '-l' in sys.argv[1:]


def files(pattern):
    if commit:
        names = subprocess.run(['git', 'ls-tree', '-r', '--name-only', commit, 'crates'], capture_output=True, text=True).stdout.split()
    else:
        names = subprocess.run(['git', 'ls-files', 'crates'], capture_output=True, text=True).stdout.split()
    return [n for n in names if re.search(pattern, n)]


def text(name):
    if commit:
        return subprocess.run(['git', 'show', f'{commit}:{name}'], capture_output=True, text=True).stdout
    return open(name).read()


sources = {n: text(n) for n in files(r'^crates/[^/]+/src/.*\.rt$')}


def code(t):
    return '\n'.join(l for l in t.split('\n') if not re.match(r'\s*//', l) and not l.startswith('ghost use'))


def functions(name):
    """(name, comment, signature, clauses, body) of every function of a file."""
    lines = sources[name].split('\n')
    i = 0
    while i < len(lines):
        m = re.match(r'(\s*)(?:pub(?:\(crate\))? )?(?:const )?(?:extern "C" )?fn (\w+)', lines[i])
        if not m:
            i += 1
            continue
        k = i - 1
        comment = []
        while k >= 0 and re.match(r'\s*(//|#\[)', lines[k]):
            comment.insert(0, lines[k].strip())
            k -= 1
        j = i
        while j < len(lines) and lines[j] != m.group(1) + '}':
            j += 1
        whole = lines[i:j + 1]
        b = next((n for n, l in enumerate(whole) if l == m.group(1) + '{' or l.endswith(' {') and n == 0 or re.match(r'\s*\) (-> .*)?\{$', l)), 0)
        head = '\n'.join(whole[:b + 1])
        c = re.search(r'\n\s+(requires|ensures)\b', head)
        yield m.group(2), ' '.join(comment), head[:c.start()] if c else head, head[c.start():] if c else '', '\n'.join(whole[b:])
        i = j + 1


out = collections.OrderedDict()

# 1
shape = []
for n, t in sources.items():
    for m in re.finditer(r'enum (\w+)(?:<[^>]*>)? \{\n(.*?)\n\}', t, re.S):
        variants = re.findall(r'^    (\w+)', re.sub(r'\{[^}]*\}', '', m.group(2)), re.M)
        if {'Refused', 'Malformed', 'Unknown', 'Failed', 'Stop', 'End', 'TooLarge', 'None', 'NotFound'} & set(variants) and not re.search(r'Error$', m.group(1)):
            shape.append(f'{n}: enum {m.group(1)} ({", ".join(variants)})')
out['1 enums like Option or Result'] = shape
none = []
for n in sources:
    for f, c, s, cl, b in functions(n):
        if re.search(r'-> (usize|u8|u64|Number|Laid|Piece)\b', s) and re.search(r'\b0 (where|stands|is none|for none|while)|; 16 (for|where)|, 16 for|or the largest number|or the number of|none where|taken 0|or nothing', c + ' ' + cl):
            none.append(f'{n}: fn {f}')
out['1 numbers for none'] = none

# 2
WORDS = {'if', 'else', 'while', 'loop', 'for', 'in', 'return', 'let', 'mut', 'match', 'true', 'false', 'fn', 'as', 'break'}


def normal(b):
    b = code(b)
    b = re.sub(r"b?'(\\.|[^'\\])'|b?\"(\\.|[^\"\\])*\"|0x[0-9A-Fa-f_]+|\b[0-9][0-9_]*\b", 'N', b)
    toks = re.findall(r'\w+|[^\w\s]', b)
    return ' '.join(w if w in WORDS or not re.match(r'\w', w) else 'I' for w in toks)


groups = collections.defaultdict(list)
for n in sources:
    for f, c, s, cl, b in functions(n):
        t = normal(b)
        if len(t.split()) >= 18 and ('if' in t.split() or 'while' in t.split() or 'match' in t.split() or 'for' in t.split()):
            groups[t].append(f'{n.split("/")[1]}::{f}')
out['2 functions that have a twin'] = [', '.join(g) for g in groups.values() if len(g) > 1]

# 3
loops = []
for n, t in sources.items():
    for k, l in enumerate(t.split('\n'), 1):
        if re.match(r'\s*(while|loop)\b', l) or re.search(r'\bfor \w+ in [^{]*\.\.[^{]*\{', l):
            loops.append(f'{n}:{k}: {l.strip()}')
out['3 loops: while, loop, for over a range'] = loops
counted = []
for n, t in sources.items():
    lines_ = t.split('\n')
    for k, l in enumerate(lines_):
        m = re.match(r'(\s*)(?:while\b|loop\b)', l)
        if not m:
            continue
        e = k + 1
        while not (lines_[e].startswith(m.group(1) + '}')):
            e += 1
        if re.search(r'\b\w+ [+-]= \d+;', '\n'.join(lines_[k:e])):
            counted.append(f'{n}:{k + 1}: {l.strip()}')
out['3 of these: a count goes up or down by a constant'] = counted

# 4
hand = []
for n, t in sources.items():
    for k, l in enumerate(t.split('\n'), 1):
        if re.search(r'fn (same\w*|is_smaller|print_(u64|number|hex|refused|refusal|counts|rest|kept)|which_of|truth_number|wide)\b|\.number\(\), \w+\.place\(\)', l):
            hand.append(f'{n}:{k}: {l.strip()}')
out['4 equality, conversion, printing by hand'] = hand

# 5
facts = collections.defaultdict(set)
params = collections.defaultdict(set)
for n in sources:
    for f, c, s, cl, b in functions(n):
        for q in re.findall(r'(?:\d+|2 \* \w+|5 \* \w+|\w+) ≤ length \w+\.(?:old|now)|state\.sections ≤ 64|count (?:≤|<) 64|length file\.now ≤ \d+', cl):
            facts[re.sub(r'\.(old|now)', '', q)].add(f'{n.split("/")[1]}::{f}')
        ps = re.findall(r'(\w+): &?(?:\'a )?(?:mut )?(?:\[?\w+\]?)', s)
        for group in (('text', 'sections', 'entries'), ('text', 'sections', 'section_count', 'entries', 'entry_count'), ('text', 'sections', 'm', 'entries', 'k'), ('rt', 'head', 'byte', 'count', 'tail')):
            if set(group) <= set(ps):
                params[group].add(f'{n.split("/")[1]}::{f}')
out['5 facts in three clauses or more'] = [f'{q}: {len(w)}' for q, w in facts.items() if len(w) >= 3]
out['5 parameters that travel together (functions)'] = [f'{", ".join(g)}: {w}' for g, ws in params.items() if len(ws) >= 4 for w in sorted(ws)]

# 7
out['7 enums that say which question to ask'] = [f'{n}: enum {m.group(1)}' for n, t in sources.items() for m in re.finditer(r'enum (Question)\b', t)]

for k, v in out.items():
    print(f'{len(v):4d}  {k}')
    if wanted:
        for p in v:
            print('        ', p)
proofs = sum(len(text(n).split('\n')) - 1 for n in files(r'^crates/[^/]+/proofs/.*\.antt$'))
print(f'{proofs:6d}  8 lines of proofs')
