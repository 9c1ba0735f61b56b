#!/usr/bin/env python3
"""Counts, in crates/*/src/*.rt and in the proofs, the places of each of the eight points.

    count_places.py [-l] [-p POINT] [ROOT]

ROOT is the top of the checkout (default: the current directory). A line `point: number` for each count, and with -l
the matches under it as `crate/file.rt:line: item` (crates/ and src/ left out). -p 4 prints point 4's counts alone,
-p 4a the counts whose names begin so.

The points: 1 own enums, flags and numbers for kinds or refusals; 2 twins; 3 loops; 4 conversion, equality, order,
copying and printing by hand; 5 facts in contracts and parameters that travel together; 6 buffers with lengths;
7 switches; 8 proofs. A count that is marked `candidates` finds by form alone: each match has to be read. In the others
every match has the form that the title says. Comments, `use` lines and contracts are left out unless the point is
about contracts. firmware_c, whose functions repeat firmware's contracts, is left out of 2a to 2c and of point 5.
"""
import collections
import difflib
import os
import re
import sys

NUMBER_TYPES = r'(?:u8|u16|u32|u64|usize|i8|i16|i32|i64|isize)'
BITS = {'u8': 8, 'i8': 8, 'u16': 16, 'i16': 16, 'u32': 32, 'i32': 32, 'u64': 64, 'i64': 64, 'usize': 64, 'isize': 64}


# ---- the sources, cut into items

class Item:
    """A function, struct, enum or constant: where it stands, its signature, its contract clauses and its body's lines."""

    def __init__(self, path, line, kind, name):
        self.path, self.line, self.kind, self.name = path, line, kind, name
        self.signature, self.clauses, self.body = '', [], []

    def at(self, line=None, text=None):
        return '%s:%d: %s' % (self.path, line or self.line, self.name if text is None else '%s: %s' % (self.name, text))

    def parts(self):
        """What stands in the parentheses of the parameters, and what comes after them."""
        text = re.sub(r'^.*?\bfn \w+', '', self.signature)
        while text.startswith('<') or text.count('<', 0, text.find('(')) > text.count('>', 0, text.find('(')):
            text = text[text.find('>') + 1:]
        depth, start = 0, text.find('(')
        for n in range(start, len(text)):
            depth += text[n] == '('
            depth -= text[n] == ')'
            if depth == 0:
                return text[start + 1:n], text[n + 1:]
        return '', ''

    def parameters(self):
        return [(m.group(1), ' '.join(m.group(2).split())) for m in re.finditer(r'(\w+): ((?:[^,\[\]]|\[[^\]]*\])+)', self.parts()[0])]

    def result(self):
        m = re.match(r' -> (.+?)(?: where .*)?$', self.parts()[1])
        return m.group(1).strip() if m else ''

    def code(self):
        return '\n'.join(text for _, text in self.body)


def short(root, path):
    return os.path.relpath(path, os.path.join(root, 'crates')).replace('/src/', '/')


def sources(root):
    for crate in sorted(os.listdir(os.path.join(root, 'crates'))):
        folder = os.path.join(root, 'crates', crate, 'src')
        for base, _, names in sorted(os.walk(folder)):
            for name in sorted(names):
                if name.endswith('.rt'):
                    yield os.path.join(base, name)


def bare(line):
    return re.sub(r'//.*', '', line).rstrip()


START = re.compile(r'^\s*(?:pub(?:\([^)]*\))? )?(?:unsafe )?(?:extern "C" )?(fn|struct|enum|const) (\w+)')


def items_of(root, path):
    lines = [bare(l) for l in open(path, encoding='utf8').read().split('\n')]
    found, i = [], 0
    while i < len(lines):
        m = START.match(lines[i])
        if not m or lines[i].lstrip().startswith('ghost'):
            i += 1
            continue
        item = Item(short(root, path), i + 1, m.group(1), m.group(2))
        indent = len(lines[i]) - len(lines[i].lstrip())
        if item.kind == 'const':
            while True:
                item.body.append((i + 1, lines[i]))
                if lines[i].endswith(';'):
                    break
                i += 1
        else:
            # the signature, then the clauses, then the body to the closing brace at the same indent
            signature, short_body = [], False
            while i < len(lines):
                text = lines[i].strip()
                if re.match(r'(requires|ensures)\b', text):
                    item.clauses.append(text)
                elif text == '{':
                    break
                elif item.clauses and text:
                    item.clauses[-1] += ' ' + text
                elif text.endswith(';') and not item.clauses:
                    signature.append(text[:-1])
                    short_body = True
                    break
                elif re.search(r'\{.*\}$', text) and not item.clauses:
                    signature.append(text[:text.index('{')].strip())
                    item.body.append((i + 1, text[text.index('{') + 1:-1]))
                    short_body = True
                    break
                elif text.endswith('{'):
                    signature.append(text[:-1].strip())
                    break
                elif text:
                    signature.append(text)
                i += 1
            item.signature = re.sub(r',\s*\)', ')', ' '.join(signature))
            i += 0 if short_body else 1
            while i < len(lines) and not short_body and not (lines[i].strip() == '}' and len(lines[i]) - len(lines[i].lstrip()) == indent):
                if lines[i].strip():
                    item.body.append((i + 1, lines[i]))
                i += 1
        found.append(item)
        i += 1
    return found


# ---- the counts: each is (point, title, candidates or exact, list of matches)

COUNTS = []


def count(point, title, exact):
    def keep(f):
        COUNTS.append((point, title, exact, f))
        return f
    return keep


def functions(items):
    return [i for i in items if i.kind == 'fn']


def lines_like(items, pattern, kinds=('fn',)):
    return [i.at(n, t.strip()) for i in items if i.kind in kinds for n, t in i.body if re.search(pattern, t)]


# 1. own enums of the shape of Option or Result, a flag with a value beside it, numbers for kinds or refusals

@count('1a', 'own enums with a variant that stands for "no refusal" or "none" (Accepted, Done, Other)', True)
def _(items, root):
    return [i.at(None, 'enum') for i in items if i.kind == 'enum' and re.search(r'\b(Accepted|Done|Other|None)\b', i.code())]


@count('1b', 'structs with an answer beside a value', True)
def _(items, root):
    return [i.at(None, ', '.join(t.strip().replace('pub ', '').rstrip(',') for _, t in i.body)) for i in items
            if i.kind == 'struct' and re.search(r'\banswer: (Answer|Made)', i.code())]


@count('1c', 'functions that give an Answer or a Made of which one variant means none', True)
def _(items, root):
    return [i.at(None, '-> ' + i.result()) for i in functions(items) if i.result() in ('Answer', 'Made')]


@count('1d', 'tests of an answer by its number (`number(a) != 0`, `number != 0`)', True)
def _(items, root):
    return lines_like(items, r'number(_made)?(\(\w+\))? != 0')


@count('1e', 'functions that return a struct with an answer, or pass one on', True)
def _(items, root):
    names = {i.name for i in items if i.kind == 'struct' and re.search(r'\banswer: (Answer|Made)|\b(told|followed): ', i.code())}
    return [i.at(None, '-> ' + i.result()) for i in functions(items) if i.result() in names]


@count('1f', 'struct literals that put zeros or an empty value beside a refusal', False)
def _(items, root):
    found = []
    for i in functions(items):
        text = i.code()
        for m in re.finditer(r'\b([A-Z]\w+) \{\s*answer(?:: [\w:]+)?,\s*\w+: (0|none\(\)|[\w:]+::none\(\))', text):
            found.append(i.at(i.body[text[:m.start()].count('\n')][0], m.group(1)))
        for m in re.finditer(r'Told \{\s*answer,\s*place: 0', text):
            found.append(i.at(i.body[text[:m.start()].count('\n')][0], 'Told'))
    return sorted(set(found))


@count('1g', 'flags: bool fields of structs', True)
def _(items, root):
    return [i.at(n, t.strip()) for i in items if i.kind == 'struct' for n, t in i.body if re.search(r': bool\b', t)]


@count('1h', 'functions that tell a failure by a bool or by 0 (their comments say `false where`, `0 where`, `or 0`, `none where`, `0 past`)', False)
def _(items, root):
    found = []
    for path in sources(root):
        raw = open(path, encoding='utf8').read().split('\n')
        for n, line in enumerate(raw):
            if line.strip().startswith('//') and re.search(r'(false|0|none|None|zero)\s*(where|past)|, or 0|past its end|Whether .* stopped', line):
                for k in range(n + 1, min(n + 8, len(raw))):
                    m = START.match(raw[k])
                    if m:
                        if m.group(1) == 'fn':
                            found.append('%s:%d: %s' % (short(root, path), k + 1, m.group(2)))
                        break
    return found


@count('1i', 'numbers for kinds: fields and parameters `format: u8`, `t: u8`, `from: u8`, `to: u8`, `rate: u8`, `index: u8`', True)
def _(items, root):
    found = []
    for i in items:
        if i.kind == 'struct':
            found += [i.at(n, t.strip()) for n, t in i.body if re.search(r'\b(format|rate): u8', t)]
        if i.kind == 'fn':
            found += [i.at(None, '%s: u8' % n) for n, t in i.parameters() if t == 'u8' and n in ('format', 't', 'from', 'to', 'rate', 'index')]
    return found


@count('1j', 'numbers for refusals: functions that take or give an answer as a u8', True)
def _(items, root):
    return [i.at(None, i.result() or i.signature[:60]) for i in functions(items)
            if (i.path.startswith(('firmware/', 'firmware_c/')) and i.result() == 'u8')
            or (i.name in ('number', 'number_made') and i.result() == 'u8')
            or any(n in ('answer', 'number') and t == 'u8' for n, t in i.parameters())]


@count('1k', 'places that give or name the variant that means none: `Accepted`, `Done`', True)
def _(items, root):
    return lines_like(items, r'\b(Answer::Accepted|Made::Done)\b')


@count('1l', 'places that take `Format` apart: `Format::Other`, `Format::Whole`', True)
def _(items, root):
    return lines_like(items, r'\bFormat::(Other|Whole)\b')


# 2. twins: functions or types that differ only in a type, a size or a constant

def plain(text):
    """A text with numbers, number types, formats and digits in names taken out."""
    text = re.sub(r'\b0x[0-9a-fA-F_]+\b|\b\d[\d_]*(?:%s)?\b' % NUMBER_TYPES, 'N', text)
    text = re.sub(r'\b%s\b' % NUMBER_TYPES, 'T', text)
    text = re.sub(r'(?i)(un)?signed_?\d+', 'F', text)
    text = re.sub(r'\b[A-Z]+_RECORDS\b', 'N', text)
    text = re.sub(r'(?<=[A-Za-z_])\d+', '', text)
    return text


def tokens(text):
    return re.findall(r'\w+|[^\w\s]', text)


def shape_of(item):
    head = re.sub(r'^.*?\bfn \w+(<.*?>)?', 'fn', item.signature)
    return tokens(plain(head)) + ['|'] + tokens(plain(item.code()))


def grouped(groups):
    found = []
    for members in groups:
        found.append(' = '.join('%s:%d: %s' % (m.path, m.line, m.name) for m in members))
    return found


def exact_twins(items, least=12):
    groups = collections.OrderedDict()
    for i in functions(items):
        if i.path.startswith('firmware_c/'):
            continue
        s = shape_of(i)
        if len(s) >= least:
            groups.setdefault(tuple(s), []).append(i)
    return [g for g in groups.values() if len(g) > 1]


@count('2a', 'functions in groups that are the same text but for numbers, types, formats and the name', True)
def _(items, root):
    return ['%s' % m for g in grouped(exact_twins(items)) for m in g.split(' = ')]


@count('2b', 'those groups', True)
def _(items, root):
    return grouped(exact_twins(items))


@count('2c', 'further pairs of functions whose tokens agree to 85 of 100', False)
def _(items, root):
    exact = {id(a): n for n, g in enumerate(exact_twins(items)) for a in g}
    fs = [(i, shape_of(i)) for i in functions(items) if not i.path.startswith('firmware_c/')]
    fs = [(i, s) for i, s in fs if len(s) >= 24]
    found = []
    for a in range(len(fs)):
        for b in range(a + 1, len(fs)):
            (i, s), (j, t) = fs[a], fs[b]
            if min(len(s), len(t)) / max(len(s), len(t)) < 0.75:
                continue
            if id(i) in exact and exact.get(id(i)) == exact.get(id(j)):
                continue
            m = difflib.SequenceMatcher(None, s, t, autojunk=False)
            if m.quick_ratio() >= 0.85 and m.ratio() >= 0.85:
                found.append('%s:%d: %s ~ %s:%d: %s (%.2f)' % (i.path, i.line, i.name, j.path, j.line, j.name, m.ratio()))
    return found


@count('2d', 'exported functions that hand their arguments on to one of the same name (firmware_c to firmware)', True)
def _(items, root):
    names = {i.name for i in functions(items) if i.path.startswith('firmware/')}
    return [i.at() for i in functions(items) if i.path.startswith('firmware_c/') and i.name in names]


@count('2e', 'structs with the same field types, the order aside', True)
def _(items, root):
    groups = collections.OrderedDict()
    for i in items:
        if i.kind == 'struct':
            groups.setdefault(tuple(sorted(re.findall(r': (.+),', i.code()))), []).append(i)
    return grouped(g for g in groups.values() if len(g) > 1)


@count('2f', 'constants that stand once for each multiple or each type', True)
def _(items, root):
    return [i.at() for i in items if i.kind == 'const' and re.match(r'[A-Z]+_RECORDS$|\w*SIGNED\d+_SIZE$|LAST_|HALF', i.name)]


@count('2g', 'functions that only hand all their arguments on to another', True)
def _(items, root):
    found = []
    for i in functions(items):
        m = re.match(r'^\s*([\w:]+)\(\s*(.*?),?\s*\);?\s*$', i.code(), re.S)
        if m and [a.strip() for a in m.group(2).split(',')] == [n for n, _ in i.parameters()] and i.parameters() \
                and not i.path.startswith('firmware_c/'):
            found.append(i.at(None, m.group(1)))
    return found


# 3. loops that count an index by hand

@count('3', '`while` and `loop`, each with an index counted by hand', True)
def _(items, root):
    return lines_like(items, r'^\s*(while|loop)\b')


@count('3b', '`for _ in` over a count alone', True)
def _(items, root):
    return lines_like(items, r'^\s*for _ in\b')


@count('3c', 'other `for` loops (no place of the point: for comparison)', True)
def _(items, root):
    return lines_like(items, r'^\s*for (?!_ in)')


# 4. equality, order, copying, conversion and printing written by hand

def operand(text):
    """The operand of an `as` at the end of `text`: a name, a path, a call, an element or what is in parentheses."""
    end = len(text)
    i = end
    while i > 0:
        c = text[i - 1]
        if c in ')]':
            depth = 0
            while True:
                i -= 1
                depth += text[i] in ')]'
                depth -= text[i] in '(['
                if depth == 0:
                    break
        elif re.match(r'[\w.:]', c):
            i -= 1
        else:
            break
    return text[i:end]


def conversions(items):
    """Every `as` between numbers: where, the operand, the types it can have (by parameters, fields and results), the target."""
    fields, returns, constants = {}, {}, {}
    for i in items:
        if i.kind == 'struct':
            for _, t in i.body:
                m = re.match(r'\s*(?:pub )?(\w+): (%s),' % NUMBER_TYPES, t)
                if m:
                    fields.setdefault(m.group(1), set()).add(m.group(2))
        if i.kind == 'fn' and i.result() in BITS:
            returns.setdefault(i.name, set()).add(i.result())
        if i.kind == 'const':
            m = re.search(r'const (\w+): (%s) ' % NUMBER_TYPES, i.code())
            if m:
                constants[m.group(1)] = {m.group(2)}
    found = []
    for i in functions(items):
        known = {n: {t} for n, t in i.parameters() if t in BITS}
        known.update(constants)

        def types(text):
            text = text.strip()
            if text.startswith('(') and text.endswith(')'):
                inner = text[1:-1]
                m = re.search(r' as (%s)$' % NUMBER_TYPES, inner)
                if m:
                    return {m.group(1)}
                ends = [types(p) for p in re.split(r' [-+*/%] ', inner) if not re.match(r'\(?-?\d\w*\)?$', p)]
                m = re.search(r' as (%s)\b' % NUMBER_TYPES, inner)
                return {m.group(1)} if m else set.intersection(*ends) if ends and all(ends) else set()
            if text.endswith(')'):
                return returns.get(re.split(r'[.:]+', re.sub(r'\(.*\)$', '', text))[-1], set())
            if '.' in text:
                return fields.get(text.split('.')[-1], set())
            return known.get(text, set())

        for n, t in i.body:
            m = re.match(r'\s*let (?:mut )?(\w+) = (.*);$', t)
            if m:
                value = m.group(2)
                cast = re.search(r' as (%s)$' % NUMBER_TYPES, value) or re.match(r'\d\w*?(%s)$' % NUMBER_TYPES, value)
                got = {cast.group(1)} if cast else {'usize'} if re.search(r'\.len\(\) / \w+$', value) else types(value) or types('(%s)' % value)
                if got:
                    known[m.group(1)] = got
            for m in re.finditer(r' as (%s)\b' % NUMBER_TYPES, t):
                source = operand(t[:m.start()])
                found.append((i.at(n, '%s as %s' % (source, m.group(1))), types(source), m.group(1)))
    return found


def fits(source, target):
    return BITS[source] <= BITS[target] and (source[0] == target[0] or (source[0] == 'u' and BITS[source] < BITS[target]))


def has_from(source, target):
    """A conversion by `From`: between usize and the others only from u8 and u16."""
    return 'usize' not in (source, target) or source in ('u8', 'u16')


@count('4a', '`as` conversions that only widen, by the types of the names, where `From` has them', True)
def _(items, root):
    return [w for w, sources_, t in conversions(items) if sources_ and all(fits(s, t) and has_from(s, t) for s in sources_)]


@count('4a2', '`as` conversions that only widen between u32 or u64 and usize, for which there is no `From`', True)
def _(items, root):
    return [w for w, sources_, t in conversions(items) if sources_ and all(fits(s, t) for s in sources_)
            and not all(has_from(s, t) for s in sources_)]


@count('4b', 'the other `as` conversions: they narrow, change the sign, or the type is not found', False)
def _(items, root):
    return [w + (' (of %s)' % ' or '.join(sorted(sources_)) if sources_ else '') for w, sources_, t in conversions(items)
            if not (sources_ and all(fits(s, t) for s in sources_))]


@count('4c', 'functions that make a bool by `if .. { return true or false; }`', True)
def _(items, root):
    return [i.at(None, '%d returns' % len(re.findall(r'return (true|false);', i.code()))) for i in functions(items)
            if i.result() == 'bool' and re.search(r'return (true|false);', i.code())]


@count('4d', 'functions of the names of a conversion, an equality, an order or a clamp', False)
def _(items, root):
    names = r'(number|number_made|of_index|flag|wide|wider|equal|same|at_most|is_outside|at|at4|get\d|put\d|place|copy|copy_block|word|field|line|print_number|raise|count|clear|none|refused|unbegun|load|store|kept|keep|name|power|power_small|odd|signed|bits|lowest|tally_of|with_counts|middle|data_start|has|join_four|join_seven)$'
    return [i.at() for i in functions(items) if re.match(names, i.name)]


@count('4e', '`let x = y.x;` and `x: y.x,` lines: fields copied one by one', False)
def _(items, root):
    return lines_like(items, r'^\s*let (\w+) = \w+(\.\w+)*\.\1;$|^\s*(\w+): \w+(\.\w+)*\.\3,$')


@count('4f', 'struct literals of zeros alone', True)
def _(items, root):
    found = []
    for i in functions(items):
        text = i.code()
        for m in re.finditer(r'\b([A-Z]\w+) \{((?:\s*\w+: (?:0|false|\[0u?\d*; \d+\]),)+)\s*\}', text):
            found.append(i.at(i.body[text[:m.start()].count('\n')][0], m.group(1)))
        for m in re.finditer(r'\b([A-Z]\w+) \{ counts: \[0u32; 17\] \}', text):
            found.append(i.at(i.body[text[:m.start()].count('\n')][0], m.group(1)))
    return found


@count('4g', 'bytes of a number by `% 256`, `/ 256`, and numbers of bytes by `* 256`: little-endian by hand', False)
def _(items, root):
    hand = r'% 256\) as u8|/ (256|65536|16777216|72057594037927936)\) as u8|\* 256\b|\* 65536\b|\* 16777216\b'
    return [i.at() for i in functions(items) if re.search(hand, i.code())]


@count('4h', 'a number held at a bound or taken at most: `if a < b { a } else { b }` and the like', False)
def _(items, root):
    found = []
    for i in functions(items):
        text = i.code()
        if re.search(r'if \w+ [<>] (\w+) \{ \w+ \} else \{ \w+ \}|< 4294967295|if \w+ > (\d+) \{\s*return \2;|\.len\(\) \{ \w+\[\w+\] \} else \{ 0 \}|COUNTS \{|< HEADER \{\s*return \w+\.len\(\);|left < n as usize', text):
            found.append(i.at())
    return found


@count('4i', 'matches on an own enum that give a constant for each variant', False)
def _(items, root):
    return [i.at() for i in functions(items) if re.search(r'match \w+ \{', i.code())
            and len(re.findall(r'=> -?(?:\d+|false|true|Integer::\w+|Format::\w+(?:\([\w:]+\))?),', i.code())) >= 2]


@count('4j', 'derives on enums and structs (all are Clone, Copy)', True)
def _(items, root):
    found = []
    for path in sources(root):
        raw = open(path, encoding='utf8').read().split('\n')
        found += ['%s:%d: %s' % (short(root, path), n + 2, raw[n + 1].strip(' {')) for n, l in enumerate(raw) if l.startswith('#[derive(')]
    return found


@count('4k', 'range tests by two comparisons', False)
def _(items, root):
    return [i.at() for i in functions(items) if re.search(r'<=? ([\w.()]+) && \1 <=? |if ([\w\[\]]+) < \w+ \{\s*return \w+;\s*\}\s*if \2 > ', i.code())]


@count('4l', '`copy_from_slice` and calls of words::place, words::copy, name::keep: copies', False)
def _(items, root):
    return lines_like(items, r'copy_from_slice\(|words::(place|copy)\(|\bkeep\(')


@count('4m', 'printing of numbers: io::decimal, lines::number, field, line, print_number', False)
def _(items, root):
    return lines_like(items, r'\b(io::decimal|number\(n, out|(lines::)?field|lines::line|print_number)\(')


@count('4n', 'calls of the hand-written readers and writers of numbers in words (get1 .. put8, at4, wide, wider)', True)
def _(items, root):
    return [p for p in lines_like(items, r'\b(words::)?(get[1-8]|put[1-8]|at4|wide|wider|word)\(') ]


# 5. a fact about a value in the contracts of three or more functions; parameters that travel together

def conjuncts(clause):
    m = re.search(r'\{(.*)\}\s*$', clause)
    text = m.group(1).strip() if m else clause
    parts, depth, now = [], 0, ''
    for c in text:
        depth += c in '([{'
        depth -= c in ')]}'
        if c == '×' and depth == 0:
            parts.append(now.strip())
            now = ''
        else:
            now += c
    parts.append(now.strip())
    return [p[1:-1] if p.startswith('(') and p.endswith(')') and p.count('(') == p.count(')') and p[1:-1].find(')') == -1 or
            (p.startswith('(') and p.endswith(')') and closes_last(p)) else p for p in parts]


def closes_last(p):
    depth = 0
    for n, c in enumerate(p):
        depth += c == '('
        depth -= c == ')'
        if depth == 0:
            return n == len(p) - 1
    return False


def fact(text):
    """A conjunct with the formats, the states, `h.` and, in a length, the name of the slice made alike."""
    text = re.sub(r'\blist_length\b', 'length', text)
    text = re.sub(r'\b(un)?signed\d+\b', 'F', text)
    text = re.sub(r'\.(now|old|new)\b', '', text)
    text = re.sub(r'\bh\.(channels|frames|format)\b', r'\1', text)
    text = re.sub(r'\b(size_of f|size_of F|whole_size f)\b', 'size', text)
    return re.sub(r'^length \w+ ≡ ', 'length X ≡ ', text)


def facts(items, words=('requires',)):
    where = collections.OrderedDict()
    for i in functions(items):
        if i.path.startswith('firmware_c/'):
            continue
        for clause in i.clauses:
            if clause.startswith(words):
                for c in conjuncts(clause):
                    where.setdefault(fact(c), []).append(i)
    return where


def distinct(members):
    seen, out = set(), []
    for m in members:
        if id(m) not in seen:
            seen.add(id(m))
            out.append(m)
    return out


@count('5a', 'facts that three or more functions require (formats, states and slice names made alike)', True)
def _(items, root):
    rows = [(f, distinct(m)) for f, m in facts(items).items()]
    rows = sorted((r for r in rows if len(r[1]) >= 3), key=lambda r: -len(r[1]))
    return ['%d x %s: %s' % (len(m), f, ', '.join('%s: %s' % (i.path, i.name) for i in m)) for f, m in rows]


@count('5b', 'functions that require such a fact', True)
def _(items, root):
    seen = []
    for f, m in facts(items).items():
        m = distinct(m)
        if len(m) >= 3:
            seen += m
    return [i.at() for i in distinct(seen)]


@count('5c', 'bounds of a result that three or more functions ensure', True)
def _(items, root):
    rows = [(f, distinct(m)) for f, m in facts(items, ('ensures',)).items() if re.match(r'^result [<≤] ', f)]
    rows = sorted((r for r in rows if len(r[1]) >= 3), key=lambda r: -len(r[1]))
    return ['%d x %s: %s' % (len(m), f, ', '.join('%s: %s' % (i.path, i.name) for i in m)) for f, m in rows]


@count('5d', 'sets of three or more parameters (name and type) that three or more functions have together', False)
def _(items, root):
    sets = [(i, frozenset(i.parameters())) for i in functions(items) if not i.path.startswith('firmware_c/')]
    common = set()
    for a in range(len(sets)):
        for b in range(a + 1, len(sets)):
            both = sets[a][1] & sets[b][1]
            if len(both) >= 3:
                common.add(both)
    rows = []
    for c in common:
        members = [i for i, s in sets if c <= s]
        if len(members) >= 3:
            rows.append((c, members))
    # a set within a larger one that the same functions have says nothing new
    rows = [(c, m) for c, m in rows if not any(c < d and len(n) == len(m) for d, n in rows)]
    rows.sort(key=lambda r: (-len(r[1]), -len(r[0]), sorted(r[0])))
    return ['%d x (%s): %s' % (len(m), ', '.join(n for n, _ in sorted(c)), ', '.join('%s: %s' % (i.path, i.name) for i in m)) for c, m in rows]


@count('5e', 'clauses that name a count without a name of its own: 40, 16, 64768, 16777216, 2 ^ 24 in a contract', True)
def _(items, root):
    return [i.at(None, c) for i in functions(items) if not i.path.startswith('firmware_c/') for c in i.clauses
            if re.search(r'≡ (40|16|20|32|64768)\b(?! \*)|16777216|2 \^ 24\b', c)]


# 6. buffers with a length beside them, parallel arrays, sorted lists searched by hand, arenas of indices

@count('6a', 'a buffer of a fixed length of which a number says how much counts: `x[..n]`', False)
def _(items, root):
    return [i.at(n, m.group(0)) for i in functions(items) for n, t in i.body for m in re.finditer(r'\b\w+\[\.\.\w+\]', t) if not re.search(r'\[\.\.\d+\]', m.group(0))]


@count('6b', 'a slice and its length or count as two parameters (name and named, n and k, block and n)', False)
def _(items, root):
    found = []
    for i in functions(items):
        ps = i.parameters()
        names = {n: t for n, t in ps}
        for n, t in ps:
            if t == 'usize' and n in ('named', 'length', 'k', 'n') and any(re.match(r'&(mut )?\[', u) for u in names.values()):
                found.append(i.at(None, ', '.join(n for n, _ in ps)))
    return found


@count('6c', 'fields that say how much of another value counts (`length`, `size`)', False)
def _(items, root):
    return [i.at(n, t.strip()) for i in items if i.kind == 'struct' for n, t in i.body if re.search(r'\b(length|size): usize', t)]


@count('6d', 'arrays of numbers that stand for a record of different things: `[u64; 8]`, `[u32; 5]`, `[u32; 4]`, `[u8; 40]`', False)
def _(items, root):
    return [i.at(None, '%s: %s' % (n, t)) for i in functions(items) if not i.path.startswith('firmware_c/') for n, t in i.parameters()
            if re.search(r'\[u64; 8\]|\[u32; [45]\]|\[u8; 40\]', t)]


@count('6g', 'arrays indexed by the number of an enum (counts of answers), or of a rate', False)
def _(items, root):
    return lines_like(items, r'\b(counts|tally)\[i\]|RATES\[') + [i.at(n, t.strip()) for i in items if i.kind == 'struct' for n, t in i.body if '[u32; 17]' in t]


@count('6e', 'offsets by hand: constants of kept for the places of fields', True)
def _(items, root):
    return [i.at() for i in items if i.kind == 'const' and i.path == 'kept/lib.rt']


@count('6f', 'searches by hand: loops that return from inside', False)
def _(items, root):
    found = []
    for i in functions(items):
        if re.search(r'while .*\{(?:.|\n)*return', i.code()):
            found.append(i.at())
    return found


# 7. a switch on which step to run, tables of functions

@count('7a', 'functions that branch on the number of channels to a loop of their own', False)
def _(items, root):
    return [i.at(None, '%d tests' % len(re.findall(r'if channels == \d', i.code()))) for i in functions(items) if re.search(r'if channels == \d', i.code())]


@count('7b', 'matches on a kind that call one function for each', False)
def _(items, root):
    return [i.at(None, re.search(r'match [\w.]+', i.code()).group(0)) for i in functions(items) if re.search(r'match [\w.]+ \{', i.code()) and re.search(r'(Integer|Format|Decision)::\w+', i.code())
            and not re.search(r'match t \{', i.code())]


@count('7e', '`match` on a kind or a step, all of them', True)
def _(items, root):
    return lines_like(items, r'^\s*match (self|[a-z]\w*) \{')


@count('7c', 'calls of `decide` (what a packet is, decided again by each)', True)
def _(items, root):
    return lines_like(items, r'\bdecide\(')


@count('7d', 'tables of functions: `fn(` as a type, `dyn`', True)
def _(items, root):
    return lines_like(items, r'\bdyn\b|: fn\(|\[fn\(|&fn\(', ('fn', 'struct', 'const'))


# 8. proofs

def proofs(root):
    for crate in sorted(os.listdir(os.path.join(root, 'crates'))):
        for base, folders, names in os.walk(os.path.join(root, 'crates', crate)):
            folders[:] = sorted(f for f in folders if f != 'out')
            for name in sorted(names):
                if name.endswith('.antt'):
                    yield os.path.join(base, name)


def below(root, path):
    return os.path.relpath(path, os.path.join(root, 'crates'))


def named(root, name):
    return [below(root, p) for p in proofs(root) if os.path.basename(p) == name and '/proofs/' in p]


@count('8a', 'Proof.antt: walks by hand', True)
def _(items, root):
    return named(root, 'Proof.antt')


@count('8b', 'Answers.antt', True)
def _(items, root):
    return named(root, 'Answers.antt')


@count('8c', 'Invariants.antt', True)
def _(items, root):
    return named(root, 'Invariants.antt')


@count('8d', 'modules of lemmas (proofs/*.antt but Lib.antt)', True)
def _(items, root):
    return [below(root, p) for p in proofs(root) if re.search(r'/proofs/\w+\.antt$', p) and not p.endswith('/Lib.antt')]


@count('8e', 'lines of proof: Proof.antt, Answers.antt, Invariants.antt, modules of lemmas', True)
def _(items, root):
    sums = collections.OrderedDict()
    for p in proofs(root):
        if '/proofs/' in p:
            name = os.path.basename(p)
            key = name if name in ('Proof.antt', 'Answers.antt', 'Invariants.antt') else 'lemmas'
            sums[key] = sums.get(key, 0) + len(open(p, encoding='utf8').read().splitlines())
    return ['%s: %d lines' % r for r in sums.items()]


SIGNED = re.compile(r'^(\s*)((?:pub |abbrev |unfoldable )*)([^\s:(){}]+) : (.*)$')
WORD = re.compile(r"[^\W\d][\w◌\-'₀-₉≢→←]*|\d+|[^\s\w]")


def statements(path):
    """The lemmas of a file: name, line, the parameters of the modules around it, its type, and its proof."""
    lines = open(path, encoding='utf8').read().split('\n')
    around, out, i = [], [], 0
    while i < len(lines):
        line = lines[i]
        if not line.strip() or line.strip().startswith('--'):
            i += 1
            continue
        indent = len(line) - len(line.lstrip())
        while around and indent <= around[-1][0]:
            around.pop()
        m = re.match(r'^\s*(?:pub )?module (\S+)(.*)$', line)
        if m:
            text, j = m.group(2), i
            while not re.search(r'\bwhere\s*$', text) and j + 1 < len(lines):
                j += 1
                text += ' ' + lines[j].strip()
            around.append((indent, re.sub(r'\bwhere\s*$', '', text)))
            i = j + 1
            continue
        m = SIGNED.match(line)
        if m and not line.strip().startswith(('use ', 'let ', 'λ')):
            text, j = m.group(4), i + 1
            while j < len(lines) and lines[j].strip() and len(lines[j]) - len(lines[j].lstrip()) > indent \
                    and not re.match(r'\s*(where|unfolding)\b', lines[j]):
                text += ' ' + lines[j].strip()
                j += 1
            if '≡' in text or '≤' in text or '<' in text or '→' in text:
                out.append((m.group(3), i + 1, m.group(2), ' '.join(t for _, t in around), text))
            i = j
            continue
        i += 1
    return out


def conclusion(parameters, text):
    """A statement with its binders taken off and the bound names numbered in order: equal for equal statements."""
    bound = set(re.findall(r"[^\W\d][\w\-']*", ' '.join(re.findall(r'[({]([^(){}:]+) : ', parameters + ' ' + text))))
    bound |= set(re.findall(r"[^\W\d][\w\-']*", ' '.join(re.findall(r'λ ([^.]*)\.', text))))
    words = [w for w in WORD.findall(re.sub(r'[({][^(){}:]+ : (?:[^(){}]|\([^(){}]*\))*[)}]\s*→?', ' ', text))]
    order = {}
    return ' '.join('v%d' % order.setdefault(w, len(order)) if w in bound or re.match(r"[a-z][0-9₀-₉']?$", w) else w for w in words)


def lemmas(root):
    for p in proofs(root):
        if '/proofs/' in p:
            for name, line, keys, around, text in statements(p):
                if not text.startswith('goal.') and 'statement M' not in text and 'Type 0' not in text.split('→')[-1] and 'abbrev' not in keys:
                    yield p, name, line, keys, conclusion(around, text)


@count('8f', 'lemmas that stand in two files or more with one conclusion, the names of variables aside', False)
def _(items, root):
    groups = collections.OrderedDict()
    for p, name, line, keys, what in lemmas(root):
        if len(what.split()) >= 5:
            groups.setdefault(what, []).append('%s:%d: %s' % (below(root, p), line, name))
    return [' = '.join(g) for g in groups.values() if len({m.split(':')[0] for m in g}) > 1]


@count('8g', 'pairs of lemmas of one name in two files whose conclusions agree to 75 of 100, or of two names to 90', False)
def _(items, root):
    all_, found = [(below(root, p), line, name, what.split()) for p, name, line, keys, what in lemmas(root)], []
    for a in range(len(all_)):
        for b in range(a + 1, len(all_)):
            (p, m, x, s), (q, n, y, t) = all_[a], all_[b]
            least = 0.75 if x == y else 0.9
            if p == q or s == t or min(len(s), len(t)) < 5 or min(len(s), len(t)) < 0.7 * max(len(s), len(t)) or 2 * len(set(s) & set(t)) < len(set(s)):
                continue
            r = difflib.SequenceMatcher(None, s, t, autojunk=False)
            if r.quick_ratio() >= least and r.ratio() >= least:
                found.append('%s:%d: %s ~ %s:%d: %s (%.2f)' % (p, m, x, q, n, y, r.ratio()))
    return found


@count('8h', 'answer files that are the same text but for formats, numbers and crate names', True)
def _(items, root):
    groups = collections.OrderedDict()
    for p in proofs(root):
        if os.path.basename(p) in ('Proof.antt', 'Answers.antt', 'Invariants.antt') and '/proofs/' in p:
            text = '\n'.join(l for l in open(p, encoding='utf8').read().split('\n') if not l.startswith(('--', 'use ', 'pub use ')))
            text = re.sub(r'\s+', ' ', plain(text))
            groups.setdefault(text, []).append(below(root, p))
    return [' = '.join(g) for g in groups.values() if len(g) > 1 and len(g[0]) > 0]


@count('8i', 'names of private lemmas that stand in two files or more', False)
def _(items, root):
    groups = collections.OrderedDict()
    for p, name, line, keys, what in lemmas(root):
        groups.setdefault(name, []).append((below(root, p), line, 'pub' in keys))
    return ['%s: %s' % (n, ', '.join('%s:%d%s' % (p, l, ' (pub)' if k else '') for p, l, k in g)) for n, g in groups.items()
            if len({p for p, _, _ in g}) > 1 and not all(k for _, _, k in g)]


def main(arguments):
    listed = '-l' in arguments
    point = arguments[arguments.index('-p') + 1] if '-p' in arguments else ''
    rest = [a for n, a in enumerate(arguments) if a not in ('-l', '-p') and (n == 0 or arguments[n - 1] != '-p')]
    root = rest[0] if rest else '.'
    items = [i for path in sources(root) for i in items_of(root, path)]
    for name, title, exact, find in COUNTS:
        if name.startswith(point):
            matches = find(items, root)
            print('%s: %d  %s%s' % (name, len(matches), title, '' if exact else ' (candidates)'))
            if listed:
                for m in matches:
                    print('    ' + m)


if __name__ == '__main__':
    try:
        main(sys.argv[1:])
    except BrokenPipeError:
        pass
