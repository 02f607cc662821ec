#!/usr/bin/env python3
"""Counts, over crates/*/src/**/*.rt and crates/*/proofs of a folder, the places of eight points.

    python3 tools/design_places.py FOLDER OUT [LIBRARY]        writes OUT/point1.txt .. point8.txt, and prints how many each has

LIBRARY is the folder of the toolchain's own proofs, for point 8.

A place is listed as crate/src/file:line. Each section has its count and says how it was found:
a pattern for grep over the code with comments, texts and characters blanked, or a function of this file."""
import collections, difflib, glob, os, re, sys

ROOT = sys.argv[1].rstrip('/')
OUT = sys.argv[2].rstrip('/')
STD = sys.argv[3].rstrip('/') if len(sys.argv) > 3 else ''

# ---------------------------------------------------------------- reading

def blank(text):
    """Comments, texts and characters become spaces, so that braces can be matched."""
    def spaces(m):
        return re.sub(r'[^\n]', ' ', m.group(0))
    return re.sub(r'//[^\n]*|b?"(?:\\.|[^"\\])*"|b?\'(?:\\.|[^\'\\\n])\'', spaces, text)

def closing(text, at):
    """The place of the bracket that closes the one at `at`."""
    pairs = {'(': ')', '{': '}', '[': ']'}
    depth, a, b = 0, text[at], pairs[text[at]]
    for i in range(at, len(text)):
        if text[i] == a:
            depth += 1
        elif text[i] == b:
            depth -= 1
            if depth == 0:
                return i
    return len(text) - 1

def split(text, sep=','):
    """Splits at the separator outside brackets."""
    parts, depth, start = [], 0, 0
    for i, c in enumerate(text):
        if c in '([{<':
            depth += 1
        elif c in ')]}' or (c == '>' and text[i - 1] not in '-='):
            depth -= 1
        elif c == sep and depth == 0:
            parts.append(text[start:i])
            start = i + 1
    parts.append(text[start:])
    return [p.strip() for p in parts if p.strip()]

def name_of(path):
    return path[len(ROOT) + len('/crates/'):]

FILES = {}
for path in sorted(glob.glob(ROOT + '/crates/*/src/**/*.rt', recursive=True)):
    FILES[name_of(path)] = blank(open(path, encoding='utf-8').read())

def line_at(text, i):
    return text.count('\n', 0, i) + 1

Fn = collections.namedtuple('Fn', 'name file line params result requires ensures body body_line')

def functions(file, text):
    for m in re.finditer(r'\bfn (\w+)', text):
        i = text.find('(', m.end())
        j = closing(text, i)
        params = []
        for p in split(text[i + 1:j]):
            p = re.sub(r'^mut ', '', p)
            if ':' in p:
                n, t = p.split(':', 1)
                params.append((n.strip(), re.sub(r"'\w+ ?", '', re.sub(r'\s+', ' ', t.strip()))))
            else:
                params.append((p, 'Self'))
        k, requires, ensures, result = j + 1, [], [], None
        while True:
            nxt = re.compile(r'[{;]').search(text, k)
            if not nxt:
                break
            head = text[k:nxt.start()]
            if result is None:
                r = re.match(r'\s*->\s*(.*?)\s*(?=\b(?:requires|ensures|ghost|where)\b|$)', head, re.S)
                result = re.sub(r'\s+', ' ', r.group(1)).strip() if r else '()'
            clause = re.search(r'\b(requires|ensures|ghost)\*?\s*(\w*)\s*$', head)
            if nxt.group(0) == ';':
                yield Fn(m.group(1), file, line_at(text, m.start()), params, result, requires, ensures, '', 0)
                break
            end = closing(text, nxt.start())
            if clause:
                fact = re.sub(r'\s+', ' ', text[nxt.start() + 1:end]).strip()
                (requires if clause.group(1) == 'requires' else ensures).append(fact)
                k = end + 1
                continue
            yield Fn(m.group(1), file, line_at(text, m.start()), params, result, requires, ensures,
                     text[nxt.start() + 1:end], line_at(text, nxt.start()))
            break

FNS = [f for file, text in FILES.items() for f in functions(file, text)]

Type = collections.namedtuple('Type', 'kind name file line fields')

def types(file, text):
    """Structs with their fields (name, type), enums with their variants (name, payload)."""
    for m in re.finditer(r'\b(struct|enum) (\w+)[^{;(]*([{;(])', text):
        if m.group(3) == ';':
            fields = []
        else:
            body = text[m.end():closing(text, m.end() - 1)]
            fields = []
            for p in split(body):
                p = re.sub(r'#\[[^\]]*\]|^ghost .*', '', re.sub(r'\bpub\b(\([^)]*\))?', '', p)).strip()
                if not p:
                    continue
                if m.group(1) == 'struct':
                    n, _, t = p.partition(':')
                    fields.append((n.strip(), t.strip()) if t else ('', n.strip()))
                else:
                    v = re.match(r'(\w+)\s*(?:[({](.*)[)}])?', p, re.S)
                    fields.append((v.group(1), re.sub(r'\s+', ' ', v.group(2) or '').strip()))
        yield Type(m.group(1), m.group(2), file, line_at(text, m.start()), fields)

TYPES = [t for file, text in FILES.items() for t in types(file, text)]
ENUMS = {t.name for t in TYPES if t.kind == 'enum'}

# ---------------------------------------------------------------- writing

class Point:
    def __init__(self, number, title):
        self.number, self.title, self.sections = number, title, []

    def section(self, title, how, rows):
        self.sections.append((title, how, list(rows)))

    def grep(self, title, pattern, keep=lambda line: True):
        """One place for each match of the pattern in a line."""
        rows = []
        for file, text in FILES.items():
            for n, line in enumerate(text.split('\n'), 1):
                if re.search(pattern, line) and keep(line):
                    rows.append('%s:%d  %s' % (file, n, line.strip()))
        self.section(title, "grep -nP '%s' crates/*/src/*.rt" % pattern, rows)

    def write(self):
        with open('%s/point%d.txt' % (OUT, self.number), 'w', encoding='utf-8') as f:
            f.write('Point %d: %s\nFolder: %s\nCommand: python3 tools/design_places.py %s\n' % (self.number, self.title, ROOT, ROOT))
            for title, how, rows in self.sections:
                f.write('\n## %s: %d\nFound by: %s\n' % (title, len(rows), how))
                f.writelines(r + '\n' for r in rows)
        print('point %d: %s' % (self.number, self.title))
        for title, how, rows in self.sections:
            print('    %5d  %s' % (len(rows), title))

def place(x):
    return '%s:%d' % (x.file, x.line)

# ---------------------------------------------------------------- 1: shapes of Option and Result, flags, numbers

def point1():
    p = Point(1, 'own enums shaped like Option or Result; a flag with a value beside it; numbers for kinds and refusals')
    option, result, other = [], [], []
    for t in TYPES:
        if t.kind != 'enum' or not t.fields:
            continue
        row = '%s  enum %s { %s }' % (place(t), t.name, ', '.join('%s(%s)' % v if v[1] else v[0] for v in t.fields))
        empty = sum(1 for v in t.fields if not v[1])
        refuses = any(re.match(r'Refused|Failed|Err', v[0]) for v in t.fields)
        if refuses:
            result.append(row)
        elif len(t.fields) == 2 and empty == 1:
            option.append(row)
        elif len(t.fields) <= 3:
            other.append(row)
    p.section('own enums shaped like Option (two variants, one empty)', 'point1: enums by their variants', option)
    p.section('own enums shaped like Result (a variant Refused)', 'point1: enums by their variants', result)
    p.section('other enums of at most three variants (to judge by hand)', 'point1: enums by their variants', other)
    rows = []
    for t in TYPES:
        if t.kind == 'struct':
            for n, ty in t.fields:
                if ty == 'bool':
                    beside = ', '.join('%s: %s' % f for f in t.fields if f[0] != n)
                    rows.append('%s  %s.%s: bool  beside %s' % (place(t), t.name, n, beside))
    p.section('bool fields of structs, with the fields beside them', 'point1: fields of type bool', rows)
    rows = ['%s  fn %s: %s  beside %s' % (place(f), f.name, n, ', '.join('%s: %s' % q for q in f.params if q[0] != n))
            for f in FNS for n, t in f.params if t == 'bool']
    p.section('bool parameters, with the parameters beside them', 'point1: parameters of type bool', rows)
    p.grep('constants that are numbers of refusals', r'\bconst \w*REFUSED\w*: ')
    p.grep('uses of REFUSED_ numbers', r'\bREFUSED_\w+\b', lambda l: 'const ' not in l)
    p.grep('constants of a number for a kind, a filter, a mode or a state of a thing',
           r'^\s*(pub )?const \w+: u(8|32|64|size) = \d+;', lambda l: 'REFUSED' not in l)
    words = r'kind|filter|mode|mode1|mode2|side|which|code|machine|phase|refused|refusal|verdict|number'
    rows = ['%s  %s.%s: %s' % (place(t), t.name, n, ty) for t in TYPES if t.kind == 'struct' for n, ty in t.fields
            if re.fullmatch(words, n) and re.fullmatch(r'u\d+|usize', ty)]
    p.section('fields that are a number for a kind', 'point1: number fields named ' + words, rows)
    rows = ['%s  fn %s(%s: %s)' % (place(f), f.name, n, ty) for f in FNS for n, ty in f.params
            if re.fullmatch(words, n) and re.fullmatch(r'u\d+|usize', ty)]
    p.section('parameters that are a number for a kind', 'point1: number parameters named ' + words, rows)
    p.write()

# ---------------------------------------------------------------- 2: twins

KEEP = set('if else match while for in loop return let mut as fn break continue true false self Self ref move'.split())
SIDES = [(r'[Ii]nputs?', 'SIDE'), (r'[Oo]utputs?', 'SIDE'), (r'INPUT|OUTPUT', 'SIDE'), (r'first|second', 'WHICH')]

def tokens(body):
    return re.findall(r'[A-Za-z_]\w*|\d\w*|[-+*/%=<>!&|.:?]+|[^\s\w]', body)

def skeleton(body):
    """Each name by the order in which it first comes, each number as N: equal for bodies that differ in names alone."""
    seen, out = {}, []
    for t in tokens(body):
        if t[0].isdigit():
            out.append('N')
        elif re.match(r'[A-Za-z_]', t) and t not in KEEP:
            out.append('n%d' % seen.setdefault(t, len(seen)))
        else:
            out.append(t)
    return out

def softened(body):
    """Names without a final 1 or 2 and without a word for a side, types and numbers blanked."""
    out = []
    for t in tokens(body):
        if t[0].isdigit():
            out.append('N')
        elif re.match(r'[A-Z]', t):
            out.append('T')
        elif re.match(r'[a-z_]', t):
            t = re.sub(r'[12]$', '', t)
            for pattern, word in SIDES:
                t = re.sub(pattern, word, t)
            out.append(t)
        else:
            out.append(t)
    return out

def lines_of(body):
    return [l for l in body.split('\n') if l.strip()]

def groups(items, same):
    """Joins items that `same` says are near."""
    parent = list(range(len(items)))
    def root(i):
        while parent[i] != i:
            i = parent[i]
        return i
    for i in range(len(items)):
        for j in range(i):
            if root(i) != root(j) and same(items[i], items[j]):
                parent[root(i)] = root(j)
    by = collections.defaultdict(list)
    for i in range(len(items)):
        by[root(i)].append(items[i])
    return [g for g in by.values() if len(g) > 1]

def point2():
    p = Point(2, 'twins: functions and types that differ in a type, a size or a constant alone')
    long = [f for f in FNS if len(lines_of(f.body)) >= 4]
    by = collections.defaultdict(list)
    for f in long:
        by[' '.join(skeleton(f.body))].append(f)
    exact = [g for g in by.values() if len(g) > 1]
    rows = ['%d: %s' % (len(g), ', '.join('%s (%s)' % (f.name, place(f)) for f in g)) for g in sorted(exact, key=lambda g: -len(g) * len(lines_of(g[0].body)))]
    p.section('groups of bodies of 4 lines or more that are equal up to names and numbers', 'skeleton(): names by the order in which they come, numbers as N', rows)
    soft = [(f, softened(f.body)) for f in long]
    def near(a, b):
        x, y = a[1], b[1]
        if min(len(x), len(y)) < 0.85 * max(len(x), len(y)):
            return False
        s = difflib.SequenceMatcher(None, x, y, autojunk=False)
        return s.real_quick_ratio() >= 0.9 and s.quick_ratio() >= 0.9 and s.ratio() >= 0.9
    rows = ['%d: %s' % (len(g), ', '.join('%s (%s)' % (f.name, place(f)) for f, _ in g)) for g in sorted(groups(soft, near), key=lambda g: -len(g))]
    p.section('groups of bodies of 4 lines or more that are near (0.9 of their words, types and numbers blanked, 1/2 and input/output dropped)', 'softened() and difflib', rows)
    def nearer(a, b, ratio):
        x, y = a[1], b[1]
        if min(len(x), len(y)) < 0.8 * max(len(x), len(y)):
            return False
        s = difflib.SequenceMatcher(None, x, y, autojunk=False)
        return s.real_quick_ratio() >= ratio and s.quick_ratio() >= ratio and s.ratio() >= ratio
    def pairs(items, ratio, least):
        for i in range(len(items)):
            for j in range(i):
                if len(items[i][1]) >= least and nearer(items[i], items[j], ratio):
                    yield '%s (%s) ~ %s (%s), %d lines' % (items[j][0].name, place(items[j][0]), items[i][0].name, place(items[i][0]), len(lines_of(items[i][0].body)))
    p.section('pairs that are less near (0.75 of the same words)', 'softened() and difflib', list(pairs(soft, 0.75, 25)))
    shape = [(f, ['n' if t[0] == 'n' and t[1:].isdigit() else t for t in skeleton(f.body)]) for f in long]
    p.section('pairs of one shape (0.95 of it, every name the same word; 60 words or more)', 'skeleton() and difflib', list(pairs(shape, 0.95, 60)))
    rows = []
    by = collections.defaultdict(list)
    for f in FNS:
        if 1 <= len(lines_of(f.body)) < 4:
            by[' '.join(softened(f.body))].append(f)
    for g in by.values():
        if len(g) > 1 and len(tokens(g[0].body)) >= 8:
            rows.append('%d: %s' % (len(g), ', '.join('%s (%s)' % (f.name, place(f)) for f in g)))
    p.section('shorter bodies that are equal, types and numbers blanked', 'softened()', rows)
    by = collections.defaultdict(list)
    for t in TYPES:
        if len(t.fields) > 1:
            by[t.kind, tuple(ty for _, ty in t.fields)].append(t)
    rows = ['%d: %s' % (len(g), ', '.join('%s %s (%s)' % (t.kind, t.name, place(t)) for t in g)) for g in by.values() if len(g) > 1]
    p.section('types with the same fields by type', 'point2: types by the list of their fields\' types', rows)
    by = collections.defaultdict(list)
    for f in FNS:
        if len(f.params) >= 4:
            by[tuple(f.params), f.result].append(f)
    rows = ['%d: %s' % (len(g), ', '.join('%s (%s)' % (f.name, place(f)) for f in g)) for g in sorted(by.values(), key=lambda g: -len(g)) if len(g) > 1]
    p.section('functions of four parameters or more with the same parameters and result', 'point2: signatures', rows)
    by = collections.defaultdict(list)
    for f in FNS:
        by[f.name].append(f)
    rows = ['%d: %s: %s' % (len(g), n, ', '.join(place(f) for f in g)) for n, g in sorted(by.items())
            if len({f.file.split('/')[0] for f in g}) > 1 and n != 'main']
    p.section('functions of one name in several crates', 'point2: names', rows)
    p.write()

# ---------------------------------------------------------------- 3: loops by hand

def blocks(text, word):
    for m in re.finditer(r'\b%s\b' % word, text):
        i = text.find('{', m.end())
        if i < 0:
            continue
        yield m.start(), text[m.end():i].strip(), text[i + 1:closing(text, i)]

STEP = r'\b([a-z_]\w*)\s*(?:(?:\+|-)=\s*(?:\d+|[A-Z_]+)\s*;|=\s*\1\s*[+-]\s*(?:\d+|[A-Z_]+)\s*;)'

def point3():
    p = Point(3, 'loops that count an index by hand')
    for word in ('while', 'loop'):
        counted, rest = [], []
        for file, text in FILES.items():
            for at, head, body in blocks(text, word):
                row = '%s:%d  %s %s' % (file, line_at(text, at), word, head)
                steps = sorted({m.group(1) for m in re.finditer(STEP, body)})
                if steps:
                    counted.append(row + '  counts ' + ', '.join(steps))
                else:
                    rest.append(row)
        p.section('`%s` that adds or subtracts a constant step' % word, 'blocks() and the pattern STEP', counted)
        p.section('other `%s` (walks along links and the like)' % word, 'blocks()', rest)
    rows = []
    for file, text in FILES.items():
        for at, head, body in blocks(text, 'for'):
            m = re.match(r'(\w+) in (.*)', head, re.S)
            if not m or '..' not in m.group(2):
                continue
            i = m.group(1)
            uses = re.findall(r'\b%s\b' % i, body)
            indexed = re.findall(r'(\w+(?:\.\w+)*)\[%s\]' % i, body)
            if i != '_' and uses and len(uses) == len(indexed) and len(set(indexed)) == 1:
                rows.append('%s:%d  for %s  indexes %s alone' % (file, line_at(text, at), head, indexed[0]))
    p.section('`for i in a..b` that only indexes one slice', 'blocks()', rows)
    p.grep('all `for`', r'\bfor [\w&(,) ]+ in ')
    p.write()

# ---------------------------------------------------------------- 4: equality, copies, bytes and conversions by hand

def literals(body):
    """Struct literals in code: name, place, (field, value) pairs, and whether the rest is taken over by `..`."""
    for m in re.finditer(r'(?<![\w.])([A-Z]\w*)\s*\{', body):
        end = closing(body, m.end() - 1)
        fields, rest = [], False
        for part in split(body[m.end():end]):
            if part.startswith('..'):
                rest = True
                continue
            n, _, v = part.partition(':')
            fields.append((n.strip(), (v or n).strip()))
        yield m.group(1), m.start(), fields, rest

def point4():
    p = Point(4, 'equality, order, copies, bytes and conversions by hand')
    p.grep('comparisons of newtypes by .0', r'\.0 (==|!=|<=?|>=?) |(==|!=|<=?|>=?) [\w.]+\.0\b')
    rows = []
    for f in FNS:
        pairs = re.findall(r'\b(\w+)\.([\w.]+) (?:==|!=) (\w+)\.\2\b', f.body)
        if len(pairs) >= 2:
            rows.append('%s  fn %s: %s' % (place(f), f.name, ', '.join(x[1] for x in pairs)))
    p.section('functions that compare two structs field by field', 'point4: a.x == b.x at two fields or more', rows)
    copied, plain = [], []
    structs = {t.name: t for t in TYPES if t.kind == 'struct'}
    for f in FNS:
        for name, at, fields, rest in literals(f.body):
            if name not in structs or rest:
                continue
            by = collections.Counter(re.match(r'(\w+)\.%s$' % n, v).group(1) for n, v in fields if re.match(r'(\w+)\.%s$' % n, v))
            if by and by.most_common(1)[0][1] >= 2:
                copied.append('%s:%d  fn %s: %s copies %d of %d fields of %s' % (f.file, f.body_line + f.body.count('\n', 0, at), f.name, name, by.most_common(1)[0][1], len(fields), by.most_common(1)[0][0]))
    p.section('struct literals that copy two fields or more of one value', 'literals()', copied)
    p.grep('a field bound to a name first', r'^\s*let (mut )?\w+ = [a-z]\w*(\.[a-z]\w*)+;$')
    rows = ['%s  fn %s: %s' % (place(f), f.name, ' '.join(sorted(set(re.findall(r'% 10\b|/ 10\b|\* 10\b|\+ 48|48 \+|- 48|% 48|<< 8|>> 8|to_[lbn]e_bytes|from_[lbn]e_bytes|print_decimal|io::decimal', f.body))))) for f in FNS
            if re.search(r'% 10\b|/ 10\b|\* 10\b|\+ 48|48 \+|- 48|% 48|<< 8|>> 8|to_[lbn]e_bytes|from_[lbn]e_bytes|print_decimal|io::decimal', f.body)]
    p.section('numbers written to or read from bytes', 'point4: digits and bytes in a body', rows)
    rows = []
    for f in FNS:
        for name, at, fields, rest in literals(f.body):
            words = [v for n, v in fields if re.search(r'\[\w+\]|\bword\(|\barg\(|_word\(|\bat\(', v)]
            if name in structs and len(words) >= 3:
                rows.append('%s:%d  fn %s: %s from words' % (f.file, f.body_line + f.body.count('\n', 0, at), f.name, name))
        writes = re.findall(r'\[(?:\w+ \+ )?\w+\] = \w+(?:\.\w+)+;', f.body)
        if len(writes) >= 3:
            rows.append('%s  fn %s: %d fields put into words' % (place(f), f.name, len(writes)))
    p.section('structs read from words or put into them by hand (read_settings and the like)', 'literals() with three fields from words, or three writes', rows)
    p.grep('casts with % 4294967296', r'% 4294967296')
    p.grep('max and min by hand', r'if (\w+) <=? (\w+) \{ (\1|\2) \} else \{ (\1|\2) \}')
    p.write()

# ---------------------------------------------------------------- 5: parameters and facts that stand together

def point5():
    p = Point(5, 'parameters that stand together, and facts of requires, in three functions or more')
    sets = [(f, frozenset(q for q in f.params if q[0] not in ('self', '&self', '&mut self'))) for f in FNS]
    sets = [(f, s) for f, s in sets if len(s) >= 3]
    closed = {s for _, s in sets}
    todo = set(closed)
    while todo:
        new = {a & s for a in todo for _, s in sets if len(a & s) >= 3} - closed
        closed |= new
        todo = new
    found = []
    for c in closed:
        n = [f for f, s in sets if c <= s]
        if len(n) >= 3:
            found.append((c, n))
    found.sort(key=lambda x: -len(x[1]) * (len(x[0]) - 1))
    def show(c, n):
        order = next(f for f in n if c <= frozenset(f.params)).params
        return '%d functions in %d crates, %d parameters: %s' % (len(n), len({f.file.split('/')[0] for f in n}), len(c), ', '.join('%s: %s' % q for q in order if q in c))
    # greedy: the groups that take the most parameters away, each parameter of a function taken once
    left = {id(f): set(s) for f, s in sets}
    chosen, pool = [], list(found)
    while True:
        best, gain = None, 0
        for c, n in pool:
            here = [f for f in n if c <= left[id(f)]]
            g = len(here) * (len(c) - 1)
            if len(here) >= 3 and g > gain:
                best, gain = (c, here), g
        if best is None:
            break
        chosen.append(best)
        for f in best[1]:
            left[id(f)] -= best[0]
    rows = []
    for c, n in chosen:
        rows.append(show(c, n))
        rows.append('        ' + ' '.join('%s(%s)' % (place(f), f.name) for f in n))
    p.section('groups that could be one parameter, chosen so that the most parameters go (two lines a group: the group, its functions)', 'point5: closed sets of parameters, taken greedily', rows)
    p.section('all sets of three parameters or more that stand together in three functions or more (closed sets)', 'point5: intersections of parameter lists', [show(c, n) for c, n in found])
    facts = collections.defaultdict(list)
    whole = collections.defaultdict(list)
    for f in FNS:
        for r in f.requires:
            whole[r].append(f)
            for part in set(split(r, '×')):
                facts[re.sub(r'^\((.*)\)$', lambda m: m.group(1) if closing('(' + m.group(1) + ')', 0) == len(m.group(1)) + 1 else m.group(0), part)].append(f)
    def fact_rows(d):
        for r, n in sorted(d.items(), key=lambda x: -len(x[1])):
            if len(n) >= 3:
                yield '%d functions in %d crates: %s' % (len(n), len({f.file.split('/')[0] for f in n}), r)
                yield '        ' + ' '.join(place(f) for f in n)
    p.section('facts of requires in three functions or more, conjunctions taken apart (two lines a fact)', 'point5: requires clauses split at ×', fact_rows(facts))
    p.section('whole requires clauses in three functions or more (two lines a clause)', 'point5: requires clauses', fact_rows(whole))
    p.write()

# ---------------------------------------------------------------- 6: buffers with lengths, parallel arrays, searches

def point6():
    p = Point(6, 'buffers with a length beside them, parallel arrays, sorted lists searched by hand')
    length = r'n|len|length|count|used|to|at|end|from|filled|size|left|room|top'
    rows = []
    for f in FNS:
        slices = [q for q in f.params if re.match(r'&(mut )?\[', q[1])]
        lens = [q for q in f.params if re.fullmatch(length, q[0]) and q[1] in ('usize', 'u32', 'u64')]
        if slices and lens:
            rows.append('%s  fn %s(%s)' % (place(f), f.name, ', '.join('%s: %s' % q for q in slices + lens)))
    p.section('functions with a slice and a length or a place in it', 'point6: parameters by type and name', rows)
    rows = ['%s  struct %s { %s }' % (place(t), t.name, ', '.join('%s: %s' % q for q in t.fields)) for t in TYPES if t.kind == 'struct'
            and any(re.match(r'&|\[', q[1]) for q in t.fields)]
    p.section('structs that hold a slice or an array', 'point6: fields by type', rows)
    rows = ['%s  struct %s { %s }' % (place(t), t.name, ', '.join('%s: %s' % q for q in t.fields)) for t in TYPES if t.kind == 'struct'
            and any(re.fullmatch(length, q[0]) and q[1] in ('usize', 'u32', 'u64') for q in t.fields)]
    p.section('structs with a length or a place as a number', 'point6: fields by name', rows)
    rows = []
    for f in FNS:
        by = collections.defaultdict(set)
        for name, i in re.findall(r'\b([a-z]\w*)\[([a-z]\w*(?: as usize)?)\]', f.body):
            by[i].add(name)
        for i, names in by.items():
            if len(names) > 1:
                rows.append('%s  fn %s: %s at %s' % (place(f), f.name, ', '.join(sorted(names)), i))
    p.section('parallel arrays: two slices read at one index', 'point6: names indexed by one variable', rows)
    rows = []
    for f in FNS:
        for r in f.requires:
            m = re.findall(r'length (\w+)\.(?:now|old) ≡ length (\w+)\.(?:now|old)', r)
            if m:
                rows.append('%s  fn %s: %s' % (place(f), f.name, ', '.join('%s, %s' % x for x in m)))
    p.section('parallel arrays: lengths that a requires makes equal', 'point6: requires', rows)
    rows = ['%s  fn %s' % (place(f), f.name) for f in FNS if re.search(r'\) / 2\b|>> 1\b', f.body)]
    p.section('halving searches by hand', 'point6: / 2 in a body', rows)
    rows = []
    for f in FNS:
        for at, head, body in list(blocks(f.body, 'while')) + list(blocks(f.body, 'for')) + list(blocks(f.body, 'loop')):
            if re.search(r'\b(return|break)\b', body) and re.search(r'==|<|>', body):
                rows.append('%s:%d  fn %s: %s' % (f.file, f.body_line + f.body.count('\n', 0, at), f.name, re.sub(r'\s+', ' ', head)))
    p.section('loops left when something is found (to judge by hand)', 'point6: a loop with a comparison and a return or a break', rows)
    p.write()

# ---------------------------------------------------------------- 7: switches

def point7():
    p = Point(7, 'switches that choose a step, passed down as a parameter')
    numbers = r'kind|filter|mode|mode1|mode2|side|which|code|machine|phase|at'
    chooses, passes = [], []
    for f in FNS:
        for n, t in f.params:
            if not (t == 'bool' or t in ENUMS or (re.fullmatch(numbers, n) and re.fullmatch(r'u\d+', t))):
                continue
            e = re.escape(n)
            if re.search(r'\bmatch %s\b|\bif !?%s\b|\b%s (==|!=) |\b(==|!=) %s\b' % (e, e, e, e), f.body):
                chooses.append('%s  fn %s by %s: %s' % (place(f), f.name, n, t))
            calls = sorted(set(re.findall(r'\b([a-z]\w*)\((?:[^()]|\([^()]*\))*\b%s\b(?!\.)' % e, f.body)))
            calls = [c for c in calls if c not in ('if', 'match', 'while', 'return')]
            if calls:
                passes.append('%s  fn %s passes %s: %s to %s' % (place(f), f.name, n, t, ', '.join(calls)))
    p.section('functions that choose a step by a parameter (a bool, an own enum, or a number of a kind)', 'point7: match or if on the parameter', chooses)
    p.section('functions that pass such a parameter down', 'point7: the parameter in a call', passes)
    by = collections.Counter()
    for row in chooses:
        by[row.split(' by ')[1]] += 1
    p.section('the same by parameter', 'point7: counted', ['%d by %s' % (n, k) for k, n in by.most_common()])
    p.write()

# ---------------------------------------------------------------- 8: proofs

def statements(path):
    """The lemmas of an antt file: name, and statement with its variables by the order in which they come."""
    text = re.sub(r'--[^\n]*', '', open(path, encoding='utf-8').read())
    for m in re.finditer(r'^(?:abbrev |unfoldable )?(?:pub )?([^\s:(){}]+) : (.*?)(?=^\S|\Z)', text, re.S | re.M):
        if m.group(1) in ('use', 'mod', 'data', 'record') or m.group(2).startswith('goal.'):
            continue
        said = re.sub(r'\s+', ' ', m.group(2)).strip()
        seen = {}
        def number(w):
            return 'v%d' % seen[w.group(0)] if w.group(0) in seen else w.group(0)
        for binder in re.findall(r'[({]([^:(){}]+) :', said):
            for v in binder.split():
                seen.setdefault(v, len(seen))
        flat = re.sub(r"[^\s(){}.,]+", number, said)
        yield m.group(1), flat.replace('{', '(').replace('}', ')')

def point8():
    p = Point(8, 'proof files')
    files = sorted(glob.glob(ROOT + '/crates/*/proofs/**/*.antt', recursive=True))
    per = collections.defaultdict(lambda: [0, 0])
    total = 0
    for path in files:
        n = sum(1 for _ in open(path, encoding='utf-8'))
        total += n
        c = path[len(ROOT) + 8:].split('/')[0]
        per[c][0] += 1
        per[c][1] += n
    p.section('files and lines, by crate (all: %d files, %d lines)' % (len(files), total), 'find crates/*/proofs -name "*.antt" | xargs wc -l', ['%s: %d files, %d lines' % (c, *per[c]) for c in sorted(per)])
    kinds = collections.Counter(os.path.basename(f) if os.path.basename(f) in ('Answers.antt', 'Invariants.antt', 'Proof.antt', 'Lib.antt') else 'lemmas' for f in files)
    p.section('files by kind', 'point8: the file\'s name', ['%s: %d' % k for k in kinds.most_common()])
    names, says = collections.defaultdict(list), collections.defaultdict(list)
    for top in ('std', 'core', 'logic', 'antt') if STD else ():
        for path in glob.glob('%s/%s/**/*.antt' % (STD, top), recursive=True):
            if '/Examples/' in path or '/Tests/' in path or '/tests/' in path:
                continue
            try:
                for n, s in statements(path):
                    names[n].append(path[len(STD) + 1:])
                    says[s].append('%s of %s' % (n, path[len(STD) + 1:]))
            except UnicodeDecodeError:
                pass
    own = [f for f in files if re.search(r'/proofs/[^/]+\.antt$', f)]
    same_name, same_said, count = [], [], 0
    for path in own:
        for n, s in statements(path):
            count += 1
            if n in names:
                same_name.append('%s  %s  in %s' % (path[len(ROOT) + 8:], n, ', '.join(names[n][:3])))
            if s in says and '≡' in s + '≤<→' and len(s) > 12:
                same_said.append('%s  %s  is %s' % (path[len(ROOT) + 8:], n, ', '.join(says[s][:3])))
    p.section('lemmas in proofs/*.antt whose name the library has (of %d lemmas)' % count, 'statements() against the .antt files of std, core, logic, antt', same_name)
    p.section('lemmas in proofs/*.antt whose statement the library has, variables renamed', 'statements()', same_said)
    by = collections.defaultdict(list)
    for path in own:
        for n, s in statements(path):
            if len(s) > 40:
                by[s].append('%s %s' % (path[len(ROOT) + 8:], n))
    p.section('lemmas stated twice in the repository', 'statements()', ['%d: %s' % (len(g), '; '.join(g)) for g in by.values() if len(g) > 1])
    p.write()

for run in (point1, point2, point3, point4, point5, point6, point7, point8):
    run()
print('%d files, %d functions, %d types' % (len(FILES), len(FNS), len(TYPES)))
