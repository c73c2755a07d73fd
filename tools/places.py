#!/usr/bin/env python3
# Lists the places in crates/*/src that read like an older language: docs/DESIGN-PASS.md says what became of them.
# `python3 tools/places.py [COMMIT]` counts in the working tree, or in a commit; `-v` prints each place.
import collections, itertools, re, subprocess, sys

POINTS = ['', 'kinds and errors', 'twins', 'loops', 'conversions', 'repeated facts', 'buffers', 'switches']
verbose = '-v' in sys.argv
commit = next((a for a in sys.argv[1:] if not a.startswith('-')), None)


def run(*args):
    return subprocess.run(args, capture_output=True, text=True, check=True).stdout


def files():
    if commit:
        names = run('git', 'ls-tree', '-r', '--name-only', commit).split('\n')
    else:
        names = run('git', 'ls-files').split('\n')
    for name in sorted(names):
        if re.match(r'crates/\w+/src/.*\.rt$', name):
            yield name, run('git', 'show', f'{commit}:{name}') if commit else open(name).read()


source = dict(files())
found = collections.OrderedDict()


def place(point, kind, name, line, text):
    found.setdefault((point, kind), []).append(f'{name}:{line}: {text.strip()}')


def each_line(point, kind, pattern):
    for name, text in source.items():
        for number, line in enumerate(text.split('\n'), 1):
            if not line.lstrip().startswith('//') and re.search(pattern, line):
                place(point, kind, name, number, line)


def functions():
    for name, text in source.items():
        lines = text.split('\n')
        for at, line in enumerate(lines):
            m = re.match(r'^( *)(pub(\(crate\))? )?(const )?fn (\w+)', line)
            if m:
                end = at
                opened = False
                while end < len(lines) and lines[end] != m.group(1) + '}' and not lines[end].rstrip().endswith('{}') and (opened or not lines[end].rstrip().endswith(';')):
                    opened = opened or lines[end].rstrip().endswith('{')
                    end += 1
                yield name, at + 1, m.group(5), lines[at:end + 1]


def head_of(body):
    text = ' '.join(line.strip() for line in body)
    return text.split('ensures')[0].split('requires')[0].split(' {')[0]


# kinds and errors: numbers for kinds and refusals written by cases, kinds taken as numbers, and `?` written by hand
for name, line, fn, body in functions():
    cases = [b for b in body if re.search(r'=> (\(?\w*,? ?)?(0x)?[0-9A-F]+\)?,$', b.strip())]
    if fn in ('number', 'bits', 'octet', 'told') and len(cases) > 0 and any('match' in b for b in body):
        place(1, 'a number for a kind or a refusal, written by cases', name, line, f'fn {fn}')
    if re.search(r'\b(kind|group): u8', head_of(body)):
        place(1, 'a kind taken as a number', name, line, head_of(body))
each_line(1, 'a kind taken as a number', r'^\s+pub (kind|group): u8')
each_line(1, '`?`, `ok_or` or `map_err` written by cases',
          r'None => (return )?(None|Ok\(None\)|Err\()|Err\(\w+\) => (return )?(Err\(|Ok\(Outcome)|^\s+None => Ok\(None\)')

# twins: functions whose text is one once type names, numbers and literals are erased
shapes = collections.defaultdict(list)
for name, line, fn, body in functions():
    text = '\n'.join(b.strip() for b in body if not re.match(r'\s*(ensures|requires|//)', b))
    text = re.sub(r'fn \w+', 'fn F', text, 1)
    text = re.sub(r"b?'[^']*'|\b0x[0-9A-Fa-f_]+|\b\d[\d_]*", 'N', text)
    text = re.sub(r'\b[A-Z]\w*(::\w+)*', 'T', text)
    if text.count('\n') >= 2:
        shapes[text].append((name, line, fn))
for text, group in shapes.items():
    if len(group) > 1:
        for name, line, fn in group[1:]:
            place(2, 'a function that is one with another but for types, sizes and constants', name, line, f'fn {fn}, as {group[0][0]}:{group[0][1]} fn {group[0][2]}')

# loops: counters and indices by hand
each_line(3, 'a loop over an index or up to a count', r'for (?!_ )\w+ in (0|\w+)\.\.[^.]|while .*(<|<=|!=|==) ')
each_line(3, 'a counter raised by hand', r'\b\w+ \+= [12];|\b(n|bits|ones|listed|allowed|ordinal) = (self\.)?\w+\.(saturating|wrapping)_add\(1\)')

# conversions: conversions and comparisons by hand
each_line(4, 'octets of a number, or a number of octets, by shifts, masks and factors', r'>> (8|16|24)\b|/ 256|% 256|\* 256|& 0xFF\b|\* 0x1_?00')
each_line(4, 'a conversion named by hand', r'fn (of_\w+|decode)\(')
each_line(4, 'a comparison of kinds by patterns or by number', r'if let \(\w+::\w+, |== \w+\.octet\(\)|if let Answer::Dry')
for name, line, fn, body in functions():
    if re.search(r'^\s+(%s): (\w+\.)?(\1)?' % 'destination', '\n'.join(body), re.M) and sum('destination: ' in b or 'from_ground: ' in b for b in body) >= 2 and any(re.search(r'destination: \w+\.destination', b) for b in body):
        place(4, 'a copy field by field', name, line, f'fn {fn}')

# repeated facts: a fact in three or more contracts, and what travels together in three or more heads or structs
facts = collections.defaultdict(set)
for name, line, fn, body in functions():
    for b in body:
        m = re.match(r'\s*(ensures|requires)[^{]*\{(.*)\}', b)
        if m:
            for word in re.findall(r'\b([A-Z]\w*(?:Shorter|IfAny|Verdict)|before ≤ 4|ghost_name|S\.held sink\.old\) \(S\.space|BitSink\.held sink\.old\) \(K\.BitSink\.space|ItemRight|len ≤ \d+)', m.group(2)):
                facts[re.sub(r'BitSink\.|\b[SK]\.', '', word)].add((name, line, fn))
for word, where in facts.items():
    if len(where) >= 3:
        for name, line, fn in sorted(where):
            place(5, f'the fact `{word}` in {len(where)} contracts', name, line, f'fn {fn}')
pairs = collections.defaultdict(list)
for name, line, fn, body in functions():
    names = [n for n in re.findall(r'(\w+): ', head_of(body)) if not re.match(r'[A-Z]$', n)]
    for pair in itertools.combinations(dict.fromkeys(names), 2):
        pairs[pair].append((name, line, fn))
for pair, where in pairs.items():
    own = {(n.split('/')[1]) for n, _, _ in where}
    if len(where) >= 3 and not all('_cases' in n or 'vectors' in n for n, _, _ in where) and 'rt' not in pair and 'heap' not in pair:
        place(5, 'parameters that travel together', where[0][0], where[0][1], f'{pair[0]}, {pair[1]} in {len(where)} functions: ' + ', '.join(w[2] for w in where))
structs = collections.defaultdict(list)
for name, text in source.items():
    for m in re.finditer(r'(?:struct (\w+)|^    (\w+)) (?:<[^>]*> )?(?:where[^{]*)?\{\n((?:\s+(?:pub )?\w+: [^\n]*,\n)+)', re.sub(r"<[^<>\n]*>(?= \{)", '', text), re.M):
        fields = re.findall(r'(\w+): ([^\n]*),', m.group(3))
        for pair in itertools.combinations(fields, 2):
            structs[pair].append(f'{name} {m.group(1) or m.group(2)}')
for pair, where in structs.items():
    if len(where) >= 3:
        place(5, 'fields that stand together in three or more structs or cases', where[0].split()[0], 0, f'{pair[0][0]}, {pair[1][0]}: ' + ', '.join(w.split()[1] for w in where))

# buffers: a buffer with a length, a count or a place beside it
for name, text in source.items():
    for m in re.finditer(r"struct (\w+)[^{;]*\{([^}]*)\}", text):
        if re.search(r'\[u8|\[bool', m.group(2)) and re.search(r': usize|: u32', m.group(2)):
            place(6, 'a buffer with a length, a count or a place beside it', name, text[:m.start()].count('\n') + 1, m.group(1))
        elif re.search(r'place: usize', m.group(2)) and re.search(r'length: usize', m.group(2)):
            place(6, 'a place and a length in place of a slice', name, text[:m.start()].count('\n') + 1, m.group(1))
each_line(6, 'a buffer cut by a length that comes beside it', r'\.\.\w+(\.\w+)*(\.div_ceil\(8\))?\.min\(\d+\)\]')

# switches: tables of functions, and switches on which step to run
each_line(7, 'a table of functions or a function pointer', r'\bfn\(|\[fn|&dyn |Box<dyn')

for (point, kind), places in found.items():
    print(f'{POINTS[point]:16} {len(places):3}  {kind}')
    if verbose:
        for p in places:
            print('        ', p)
