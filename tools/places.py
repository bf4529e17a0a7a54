#!/usr/bin/env python3
"""Lists the places that docs/DESIGN-PASS.md counts, by point: tools/places.py [POINT ..]. Reads crates/*/src/*.rt (and for 8 the proofs) of
the checkout that it is run in, or of the folder named by --at FOLDER. Comments and clauses are left out, but for point 5, which reads them."""
import glob, itertools, os, re, sys
from collections import defaultdict

top = '.'
args = sys.argv[1:]
if args[:1] == ['--at']:
    top, args = args[1], args[2:]
wanted = [int(a) for a in args] or list(range(1, 9))


def files():
    return sorted(glob.glob(os.path.join(top, 'crates/*/src/**/*.rt'), recursive=True))


def name_of(path):
    return os.path.relpath(path, os.path.join(top, 'crates')).replace('/src/', '/')


def code_lines(path):
    """Line number and code of each line, without comments, ghost lines and clauses."""
    depth = 0
    for i, line in enumerate(open(path), 1):
        code = re.sub(r'//.*', '', line.rstrip('\n'))
        if depth or re.match(r'\s*(requires|ensures|ghost use|ghost)\b', code):
            depth += code.count('{') - code.count('}')
            continue
        if code.strip():
            yield i, code


def grep(pattern, skip=None):
    found = []
    for path in files():
        for i, code in code_lines(path):
            if re.search(pattern, code) and not (skip and re.search(skip, code)):
                found.append(f'{name_of(path)}:{i}: {code.strip()}')
    return found


def functions():
    """(file, line, name, parameters, clauses, body) of each function with a body."""
    for path in files():
        text = re.sub(r'//.*', '', open(path).read())
        for m in re.finditer(r'\bfn\s+(\w+)\s*(?:<[^(]*>)?\s*\(', text):
            i, depth = m.end(), 1
            while depth:
                depth += {'(': 1, ')': -1}.get(text[i], 0)
                i += 1
            params = [p.strip() for p in re.split(r',(?![^<\[(]*[>\])])', text[m.end():i - 1]) if p.strip()]
            rest = text[i:]
            body_at = None
            clauses, j = '', 0
            while j < len(rest):
                c = re.match(r'\s*(->[^{;]*?)?\s*((?:requires|ensures)\b[^{]*)\{', rest[j:])
                if not c:
                    break
                k, d = j + c.end(), 1
                while d:
                    d += {'{': 1, '}': -1}.get(rest[k], 0)
                    k += 1
                clauses += f'{c.group(2)}{{{rest[j + c.end():k - 1]}}}\n'
                j = k
            b = re.match(r'\s*(->[^{;]*?)?\s*\{', rest[j:])
            if b:
                k, d = j + b.end(), 1
                while d:
                    d += {'{': 1, '}': -1}.get(rest[k], 0)
                    k += 1
                body_at = rest[j + b.end():k - 1]
            if body_at is not None:
                yield path, text[:m.start()].count('\n') + 1, m.group(1), params, clauses, body_at


def show(title, places):
    print(f'## {title}: {len(places)}')
    for p in places:
        print('  ' + p)


def shape(body):
    """A body's words, with every name of its own and number put to one word each."""
    words = re.findall(r"[A-Za-z_]\w*|\d\w*|[^\s\w]", body)
    keep = {'if', 'else', 'match', 'while', 'for', 'in', 'let', 'mut', 'return', 'as', 'self', 'true', 'false', 'Some', 'None', 'Ok', 'Err'}
    return [w if w in keep or not (w[0].isalnum() or w[0] == '_') else 'N' for w in words]


def alike(a, b):
    import difflib
    if not a or not b or min(len(a), len(b)) / max(len(a), len(b)) < 0.8:
        return 0
    return difflib.SequenceMatcher(None, a, b, autojunk=False).ratio()


def point1():
    enums = []
    for path in files():
        text = open(path).read()
        for m in re.finditer(r'\benum (\w+)(?:<\w+>)? \{(.*?)\n\}', text, re.S):
            cases = re.findall(r'^    (\w+)', re.sub(r'//.*', '', m.group(2)), re.M)
            if len(cases) == 2 and sum(1 for c in cases if re.search(rf'\b{c}\s*[({{]', m.group(2))) == 1:
                enums.append(f'{name_of(path)}: enum {m.group(1)} {{ {", ".join(cases)} }}')
    show('1a enums of two cases, one of them with a value', enums)
    show('1b an answer, a refusal or a flag beside a value, in a struct',
         grep(r'^\s+pub (answer: (Answer|PlainAnswer)|refusal: u32|backed: bool|going: bool|written: bool|printed: bool|opened: bool),'))
    show('1c refusals as numbers', grep(
        r'refusal_if\(.*\b[0-9]+\)|\bnumber: [1-9][0-9]*,|\brefusal: ([1-9][0-9]*|0),|Answer::new\(|balance_refused\([0-9]+\)|^\s+return (3|11|21|22|25|53);'
        r'|\b(refusal|number|n|refuses) != 0\b|-> u32$|-> u32 \{', r'fn (u32_at|wide16|next_word|first_sum|second_sum|ch|maj|(big|small)_sigma\d|moatbetony_\w+)\b'))
    show('1d kinds and ledgers as numbers', grep(
        r'\bkind (==|!=) [0-9]|\bbyte (==|!=) [0-9]|% 256 (!=|==) [0-9]|\bl: (u64|usize)\b|\bo: u64\b|\b1 - l\b|\bl == 0\b|\bl as u64\b|\bo as u64\b|^\s+kind: u8,|kind: u8,|-> u8'))


def point2():
    fs = [(name_of(p), n, name, shape(b)) for p, n, name, ps, cl, b in functions()]
    fs = [f for f in fs if len(f[3]) >= 12]
    group = list(range(len(fs)))
    for a, b in itertools.combinations(range(len(fs)), 2):
        if fs[a][0].split('/')[0] != 'moatbetony_c' != fs[b][0].split('/')[0] and alike(fs[a][3], fs[b][3]) >= 0.9:
            x, y = group[a], group[b]
            group = [x if g == y else g for g in group]
    together = defaultdict(list)
    for g, f in zip(group, fs):
        together[g].append(f'{f[0]}:{f[1]} {f[2]}')
    show('2a functions whose bodies differ in names and numbers alone, nearly (groups)', ['; '.join(v) for v in together.values() if len(v) > 1])
    structs = defaultdict(list)
    for path in files():
        text = re.sub(r'//.*', '', open(path).read())
        for m in re.finditer(r'\bstruct (\w+)(?:<[^>{]*>)? \{(.*?)\n\}', text, re.S):
            types = tuple(re.findall(r'(\w+): ([^,\n]+),', m.group(2)))
            structs[tuple(re.sub(r'Pair|Home', '', t) for _, t in types) + (len(types),)].append(f'{name_of(path)} {m.group(1)}')
    show('2b structs with fields of the same types (groups)', ['; '.join(v) for k, v in structs.items() if len(v) > 1])


def point3():
    show('3 loops', grep(r'^\s*while\b'))


def point4():
    show('4 equality, conversion, copying and printing by hand', grep(
        r'\bfn (wide8|wide16|wide32|u16_at|u32_at|u64_at|u16_bytes|u32_bytes|u64_bytes|equal|all_zero|byte|verdict_byte|ledger_at|kind_at|is|of|bytes|number|place'
        r'|as_index|is_far|is_receiving|ledger_index|byte_as_number|plain|plain_record|hash_bytes|digit|hex|clear|put|copy_numbers|resumed|encode)\b'
        r'|wrapping_(add|sub)_u\d+\(|<< \d+\)'))


def point5():
    facts = defaultdict(set)
    for path, n, name, params, clauses, body in functions():
        for m in re.finditer(r'requires\s*\w*\s*\{(.*?)\}\n', clauses, re.S):
            for fact in re.split(r'×', re.sub(r'\s+', ' ', m.group(1))):
                fact = fact.strip()
                while fact.startswith('(') and fact.endswith(')') and fact.count('(') == fact.count(')'):
                    fact = fact[1:-1].strip()
                facts[re.sub(r'\.(now|old)\b', '', fact)].add(f'{name_of(path)}:{name}')
    show('5a facts that three or more functions ask for', [f'{k}   ({len(v)}: {", ".join(sorted(v))})' for k, v in sorted(facts.items(), key=lambda x: -len(x[1])) if len(v) >= 3])
    by_crate = defaultdict(dict)
    for path, n, name, params, clauses, body in functions():
        crate = name_of(path).split('/')[0]
        ps = frozenset(re.sub(r"'\w+ ", '', p.replace('mut ', '')) for p in params if ':' in p and 'HostRuntime' not in p)
        if not crate.startswith('moatbetony'):
            by_crate[crate][f'{name_of(path)}:{name}'] = ps
    found = []
    for crate, of in by_crate.items():
        closed = {p for p in of.values() if len(p) > 1}
        while True:
            more = {a & b for a in closed for b in of.values() if len(a & b) > 1} - closed
            if not more:
                break
            closed |= more
        for c in closed:
            names = sorted(n.split(':')[1] for n, p in of.items() if c <= p)
            if len(names) >= 3:
                found.append((len(names), f'{crate}: {", ".join(sorted(c))}   ({len(names)}: {", ".join(names)})'))
    show('5b sets of parameters that three or more functions of a crate take', [f for _, f in sorted(found, key=lambda x: (-x[0], x[1]))])


def point6():
    found = []
    for path, n, name, params, clauses, body in functions():
        slices = [p for p in params if re.search(r'&.*\[u\d+', p)]
        places = [p for p in params if re.match(r'(from|n|o|at|base|end|k|m|others|i): usize$', p)]
        if slices and places:
            found.append(f'{name_of(path)}:{n} {name}({", ".join(slices + places)})')
    show('6a a buffer with a length or a place beside it', found)
    show('6b arrays with a count', grep(r'^\s+pub (count|read|text|end): (u64|usize),'))


def point7():
    show('7 tables of functions, switches on a step', grep(r'\bfn\s*\(|\bdyn\b|match (step|phase|turn)\b'))


def point8():
    walks = sorted(glob.glob(os.path.join(top, 'crates/*/proofs/**/Proof.antt'), recursive=True))
    answers = sorted(glob.glob(os.path.join(top, 'crates/*/proofs/**/Answers.antt'), recursive=True))
    lines = lambda fs: sum(len(open(f).read().splitlines()) for f in fs)
    every = glob.glob(os.path.join(top, 'crates/*/proofs/**/*.antt'), recursive=True)
    print(f'## 8 proofs: {len(walks)} walks of {lines(walks)} lines, {len(answers)} files of answers of {lines(answers)} lines, {lines(every)} lines in all')


for w in wanted:
    globals()[f'point{w}']()
