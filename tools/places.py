#!/usr/bin/env python3
# Counts the places of issue 41's eight points in crates/*/src (docs/DESIGN-PASS.md).
#
# usage: python3 tools/places.py [--at COMMIT] [--totals] [POINT..]
#        python3 tools/places.py --again [--at COMMIT] [--totals]     points 1 to 3 in another way: by contracts, by likeness, by proof files
#
# Run at the repository's root. Reads the working tree, or a commit. Prints each place as `file:line  name  note` under its kind, and the totals.
# It finds places by their form and knows few names, so that it can be run on any later commit; what needs reading stands in the page.
import collections
import difflib
import io
import itertools
import os
import re
import subprocess
import sys
import tarfile

KINDS = ('instance', 'phase', 'kind', 'number')
LENGTHS = ('count', 'len', 'length', 'size', 'n', 'half', 'width')
OFFSETS = ('at', 'from', 'to', 'start', 'end', 'upto', 'b', 'i', 'j', 'index', 'passed')


def sources(commit):
    """The files of crates/ as a dict from path to text."""
    files = {}
    if commit:
        data = subprocess.run(['git', 'archive', commit, 'crates'], check=True, capture_output=True).stdout
        with tarfile.open(fileobj=io.BytesIO(data)) as tar:
            for member in tar:
                if member.isfile():
                    files[member.name] = tar.extractfile(member).read().decode('utf-8', 'replace')
        return files
    for top, dirs, names in os.walk('crates'):
        dirs[:] = [d for d in dirs if d not in ('out', 'target', '.git')]
        for name in names:
            if name.endswith(('.rt', '.antt')):
                path = os.path.join(top, name)
                with open(path, encoding='utf-8') as f:
                    files[path] = f.read()
    return files


class Function:
    pass


def split_top(text, mark):
    """Splits at a mark that stands outside of all brackets."""
    parts, depth, last, i = [], 0, 0, 0
    while i < len(text):
        c = text[i]
        if c in '([{<' and not (c == '<' and text[i - 1:i + 2] == ' < '):
            depth += 1
        elif c in ')]}>' and not (c == '>' and text[i - 1:i] in ('-', '=', ' ')):
            depth -= 1
        if depth == 0 and text.startswith(mark, i):
            parts.append(text[last:i])
            last = i + len(mark)
            i = last
            continue
        i += 1
    parts.append(text[last:])
    return [p.strip() for p in parts if p.strip()]


def comment_above(lines, start):
    at = start - 1
    while at >= 0 and lines[at].strip().startswith('#['):
        at -= 1
    found = []
    while at >= 0 and lines[at].strip().startswith('//'):
        found.append(lines[at].strip()[2:].strip())
        at -= 1
    return ' '.join(reversed(found))


FN = re.compile(r'^(\s*)((?:pub(?:\([^)]*\))?\s+)?(?:const\s+)?(?:extern "C"\s+)?)fn\s+(\w+)')


def functions(path, text):
    lines = text.split('\n')
    found = []
    for start, line in enumerate(lines):
        m = FN.match(line)
        if not m:
            continue
        f = Function()
        f.path, f.line, f.name, f.indent = path, start + 1, m.group(3), m.group(1)
        f.public = 'pub' in m.group(2)
        f.exported = 'extern' in m.group(2)
        f.comment = comment_above(lines, start)
        head, clauses, clause, at = [], [], None, start
        while at < len(lines):
            part = lines[at].strip()
            starts = re.match(r'(requires|ensures|decreases)\b', part)
            if starts:
                clause = [part]
                clauses.append(clause)
                if part.endswith('};'):
                    break
            elif part == '{' or (clause is None and part.endswith((' {', '){'))):
                if part != '{':
                    head.append(part[:-1])
                break
            elif clause is None and part.endswith('}') and ' { ' in part:
                head.append(part.split(' { ')[0])
                at -= 1
                break
            elif clause is not None:
                clause.append(part)
                if part.endswith('};'):
                    break
            else:
                head.append(part)
                if part.endswith(';'):
                    break
            at += 1
        bodiless = at < len(lines) and lines[at].strip().endswith(';')
        end = at + 1
        while not bodiless and end < len(lines) and lines[end] != f.indent + '}':
            end += 1
        f.head = ' '.join(head)
        f.clauses = [' '.join(c) for c in clauses]
        f.body = lines[at + 1:end]
        f.body_line = at + 2
        f.length = end - at - 1
        inner = f.head[f.head.index('fn ' + f.name) + 3 + len(f.name):]
        depth, k = 0, 0
        while k < len(inner) and not (depth == 0 and inner[k] == '('):
            depth += {'<': 1, '>': -1 if inner[k - 1] != '-' else 0}.get(inner[k], 0)
            k += 1
        inner = inner[k + 1:]
        depth, stop = 1, 0
        for stop, c in enumerate(inner):
            depth += {'(': 1, ')': -1}.get(c, 0)
            if depth == 0:
                break
        f.params = []
        for p in split_top(inner[:stop], ','):
            if ':' in p:
                name, kind = p.split(':', 1)
                f.params.append((name.replace('mut ', '').strip(), re.sub(r"'\w+ ", '', kind.strip())))
            else:
                f.params.append(('self', p))
        rest = inner[stop + 1:]
        m = re.search(r'->\s*(.+?)\s*(?:where\b.*)?$', rest)
        f.result = m.group(1).strip() if m else ''
        found.append(f)
    return found


def types(path, text):
    """(path, line, 'enum' or 'struct', name, [(field or variant, type)], derives)"""
    found = []
    lines = text.split('\n')
    for start, line in enumerate(lines):
        m = re.match(r'^\s*(?:pub\s+)?(enum|struct)\s+(\w+)', line)
        if not m:
            continue
        derives = ''
        at = start - 1
        while at >= 0 and lines[at].strip().startswith('#['):
            derives += lines[at].strip()
            at -= 1
        members, at = [], start + 1
        one = re.search(r'\{ (.*) \}$', line)
        if one and m.group(1) == 'enum':
            for part in split_top(one.group(1), ','):
                v = re.match(r'(\w+)(.*)', part)
                members.append((v.group(1), v.group(2).strip()))
        if line.rstrip().endswith('{'):
            while at < len(lines) and lines[at].strip() != '}':
                part = lines[at].split('//')[0].strip().rstrip(',')
                if part and not part.startswith('#['):
                    if m.group(1) == 'struct' and ':' in part:
                        name, kind = part.replace('pub ', '').split(':', 1)
                        members.append((name.strip(), kind.strip()))
                    elif m.group(1) == 'enum':
                        v = re.match(r'(\w+)(.*)', part)
                        if v:
                            members.append((v.group(1), v.group(2).strip()))
                at += 1
        found.append((path, start + 1, m.group(1), m.group(2), members, derives))
    return found


def module(f):
    parts = f.path.split('/')
    stem = parts[3][:-3]
    return parts[1] + ('' if stem in ('lib', 'main') else '::' + stem)


def full(f):
    return module(f) + '::' + f.name


def code(lines):
    return [re.sub(r'//.*$', '', line) for line in lines]


def reach(f):
    """Who can call a function: 'C', 'other crates', or nobody else."""
    return ', exported to C' if f.exported else ', public' if f.other_crates else ''


def where(f, at=None):
    return '%s:%d' % (f.path, at or f.line)


# ---- point 1

CODE_COMMENT = re.compile(
    r"\b0 where\b|\bor 0\b|\bor 0,|^0; or|^0, or|\belse 0\b|numbers? of (?:the|a|an) (?:line|refusal|answer|first of lines)|line's number|"
    r'what the lines after|The first of lines?|The number that an answer|two zeros|where there is none|where none|^Line 10; where')


def point1(fs, ts, files):
    out = collections.OrderedDict()
    shaped = []
    for path, line, what, name, members, _ in ts:
        if what != 'enum':
            continue
        units = [v for v, payload in members if not payload]
        refuses = [v for v, _ in members if re.match(r'Refused|Refusal|Failed|Err', v)]
        if refuses and len(members) > 1:
            shaped.append((path, line, name, 'Result: ' + ' | '.join(v + p for v, p in members)))
        elif len(members) == 2 and len(units) == 1:
            shaped.append((path, line, name, 'Option: ' + ' | '.join(v + p for v, p in members)))
    out['own enums of the shape of Option or Result'] = [('%s:%d' % (p, l), n, note) for p, l, n, note in shaped]
    names = {n for _, _, n, _ in shaped} | {'Result', 'Option', 'bool'}
    out['structs with an answer, a flag or a number code beside a value'] = [
        ('%s:%d' % (path, line), name, ', '.join('%s: %s' % m for m in members if m[1].split('<')[0] in names or m[0] in ('number', 'answer')))
        for path, line, what, name, members, _ in ts if what == 'struct' and len(members) > 1
        and any(m[1].split('<')[0] in names or m[0] in ('number', 'answer') for m in members)]
    codes = [f for f in fs if f.result in ('u32', 'usize', 'u64', 'Refusal', 'Option<u32>') and (f.exported or CODE_COMMENT.search(f.comment))
             or re.search(r'^(?:io::)?Result<.*, u(?:8|16|32|64|size)>$', f.result)]
    out["functions that answer a number for a refusal, or a number that stands for 'none'"] = [
        (where(f), full(f), '-> ' + f.result + reach(f)) for f in codes]
    tests = []
    for f in fs:
        for k, line in enumerate(code(f.body)):
            if re.search(r'\bnumber\s*[!=]=|_(?:refusal|line)\([^)]*\)\s*[!=]=', line):
                tests.append((where(f, f.body_line + k), full(f), line.strip()))
    out['tests of such a number'] = tests
    consts = []
    for path, text in files:
        if os.path.basename(path) != 'lines.rt':
            continue
        for k, line in enumerate(text.split('\n')):
            m = re.match(r'\s*(?:pub )?const (\w+): u(?:8|16|32) = (\d+)', line)
            if m:
                consts.append(('%s:%d' % (path, k + 1), m.group(1), m.group(2)))
    out['refusals as numbered constants'] = consts
    kinds = []
    for path, line, what, name, members, _ in ts:
        for m, kind in members:
            if what == 'struct' and m in KINDS and re.fullmatch(r'u(?:8|16|32|64)', kind):
                kinds.append(('%s:%d' % (path, line), name + '.' + m, kind))
    out['fields that hold a number for a kind or a refusal'] = kinds
    takes = []
    for f in fs:
        refuses = any(n == 'rest' for n, _ in f.params) or 'Refusal' in '\n'.join(f.body)
        held = [n for n, kind in f.params if re.fullmatch(r'u(?:8|16|32|64)', kind)
                and (n in KINDS and n != 'number' or refuses and n in ('number', 'rest'))]
        if held:
            takes.append((where(f), full(f), ', '.join(held) + reach(f)))
    out['functions that take a number for a kind or a refusal'] = takes
    branches = []
    for f in fs:
        hits = [k for k, line in enumerate(code(f.body))
                if re.search(r'\b(?:instance|phase|kind)\s*[!=]=\s*(?:\d+|[A-Z_]+)\b', line)]
        if hits:
            branches.append((where(f), full(f), '%d comparisons' % len(hits)))
    out['functions that compare such a number with a literal or a constant'] = branches
    return out


# ---- point 2

def shape(f):
    """The tokens of head and body, without names of values and without numbers."""
    text = ' '.join(code(f.body))
    text = re.sub(r'b?"[^"]*"', 'T', text)
    tokens = re.findall(r"\w+|[^\w\s]", text)
    keep = {'if', 'else', 'while', 'for', 'in', 'return', 'let', 'mut', 'match', 'true', 'false', 'as', 'loop', 'fn', 'impl'}
    norm = []
    for t in tokens:
        if re.fullmatch(r'\d\w*', t):
            norm.append('0')
        elif re.fullmatch(r'\w+', t) and t not in keep:
            norm.append('x')
        else:
            norm.append(t)
    # lists of numbers of any length are one shape
    text = re.sub(r'(?:0 , )+0\b', '0', ' '.join(norm))
    types_ = ' '.join(re.sub(r'\d+', '0', k) for _, k in f.params) + ' -> ' + re.sub(r'\d+', '0', f.result)
    return re.sub(r'\bu(?:8|16|32|64)\b|\busize\b', 'N', types_) + ' | ' + text


def components(groups):
    parent = {}

    def find(x):
        parent.setdefault(x, x)
        while parent[x] != x:
            x = parent[x]
        return x
    for g in groups:
        g = list(g)
        for a in g[1:]:
            parent[find(a)] = find(g[0])
        find(g[0])
    merged = collections.OrderedDict()
    for x in list(parent):
        merged.setdefault(find(x), []).append(x)
    return list(merged.values())


def point2(fs, ts, files):
    out = collections.OrderedDict()
    own = [f for f in fs if f.name != 'main']
    by = collections.defaultdict(list)
    for f in own:
        m = re.match(r'(.+?)_(?:u|d|s|8|16|24)(?:_(?:8|16))?$', f.name)
        if m:
            by[(f.path, m.group(1))].append(f)
    suffix = [g for g in by.values() if len(g) > 1]
    out['names that differ in a suffix for an instance or a width'] = [
        (where(g[0]), ', '.join(full(f) if f is g[0] else f.name for f in g), '%d functions' % len(g)) for g in suffix]
    by = collections.defaultdict(list)
    for f in own:
        by[f.name].append(f)
    same = [g for n, g in by.items() if len({f.path for f in g}) > 1]
    out['one name in several modules'] = [
        (where(g[0]), g[0].name, ', '.join(module(f) + ':%d' % f.line for f in g)) for g in same]
    by = collections.defaultdict(list)
    for f in own:
        tokens = shape(f).split('|')[1].split()
        if len(tokens) >= 6:
            by[shape(f)].append(f)
    alike = [g for g in by.values() if len(g) > 1]
    out['functions with the same text but for names, numbers and number types'] = [
        (where(g[0]), ', '.join(full(f) for f in g), '%d functions' % len(g)) for g in alike]
    by = collections.defaultdict(list)
    for path, line, what, name, members, _ in ts:
        key = (what, tuple(sorted(re.sub(r'\d+', '0', k) for _, k in members)))
        if members:
            by[key].append((path, line, name))
    out['types with members of the same types'] = [
        ('%s:%d' % g[0][:2], ', '.join(n for _, _, n in g), '%d types' % len(g)) for g in by.values() if len(g) > 1]
    tables = []
    for f in own:
        n = len(re.findall(r'if instance == \d', '\n'.join(code(f.body))))
        if n >= 2:
            tables.append((where(f), full(f), '-> ' + f.result))
    out['tables by instance written as a chain of if'] = tables
    every = components([[full(f) + '@%d' % f.line for f in g] for g in suffix + same + alike])
    out['(groups of the first three kinds together)'] = [
        (str(len(g)) + ' functions', ', '.join(x.split('@')[0] for x in g), '') for g in every]
    return out


# ---- point 3

def point3(fs, ts, files):
    up, down, other, recursive, new = [], [], [], [], []
    for f in fs:
        lines = code(f.body)
        text = '\n'.join(lines)
        for k, line in enumerate(lines):
            m = re.search(r'\bwhile\s+(.*?)\s*\{', line)
            if m:
                place = (where(f, f.body_line + k), full(f), m.group(0).rstrip(' {'))
                counted = [n for n in re.findall(r'\b[a-z_]\w*\b', m.group(1))
                           if re.search(r'\b%s \+= 1;' % n, text)]
                counted_down = [n for n in re.findall(r'\b[a-z_]\w*\b', m.group(1))
                                if re.search(r'\b%s -= 1;' % n, text)]
                (up if counted else down if counted_down else other).append(place)
            if re.search(r'\bfor\s+.*\s+in\b', line) or re.search(r'\.iter(?:_mut)?\(\)|\.chunks', line):
                new.append((where(f, f.body_line + k), full(f), line.strip()))
            if re.search(r'(?:(?<![\w:.])|\bself\.)%s\(' % f.name, line) and not re.search(r'\bfn\b', line):
                recursive.append((where(f, f.body_line + k), full(f), line.strip()))
    out = collections.OrderedDict()
    out['while loops that count an index up by 1'] = up
    out['while loops that count an index down by 1'] = down
    out['other while loops'] = other
    out['functions that call themselves'] = recursive
    out['(for loops and iterator chains: today\'s form)'] = new
    return out


# ---- point 4

BY_NAME = collections.OrderedDict((
    ('equality and order by hand', r'same(_\w+)?|equal\w*|is_named|smaller|larger|min|max|is_one_to|key_end'),
    ('copying by hand', r'copy\w*|put|move_(?:up|down)|bits_in|with_bytes'),
    ('conversion by hand', r'wide|lowest|one_if|byte|(?:two|four)_bytes?(?:_number)?|fields|state_in|mark_of|read_word|write_word|byte_at|load|save|store|'
     r'number_of\w*|refusal_of|mirrored|fits_\w+|weight'),
    ('printing by hand', r'digit|write(?:_\w+)?|push\w*|compose|verdict_text|print|empty'),
))


def point4(fs, ts, files):
    out = collections.OrderedDict()
    for kind, names in BY_NAME.items():
        found = []
        for f in fs:
            if not re.fullmatch(names, f.name):
                continue
            if kind == 'printing by hand' and not re.search(r'\bPrint\b|\bPrinted\b|\bdigit\b', f.head):
                continue
            found.append((where(f), full(f), f.head[f.head.find('('):][:90]))
        out[kind] = found
    casts = []
    for f in fs:
        n = sum(len(re.findall(r'\bas (?:u8|u16|u32|u64|usize|i32|i64)\b', line)) for line in code(f.body))
        if n:
            casts.append((where(f), full(f), '%d' % n))
    out['functions with `as` casts'] = casts
    out['types without PartialEq among their derives'] = [
        ('%s:%d' % (path, line), name, derives or 'no derive') for path, line, _, name, _, derives in ts if 'PartialEq' not in derives]
    return out


# ---- point 5

def conjuncts(f, word):
    found = []
    for c in f.clauses:
        if not c.startswith(word):
            continue
        inner = c[c.find('{') + 1:c.rfind('}')].strip()
        for part in split_top(inner, ' × '):
            while part.startswith('(') and part.endswith(')') and len(split_top(part[1:-1], ' × ')) >= 1 and balanced(part[1:-1]):
                inner_parts = split_top(part[1:-1], ' × ')
                if len(inner_parts) > 1:
                    found.extend(inner_parts[1:])
                part = inner_parts[0]
            found.append(part)
    return [re.sub(r'^\((.*)\)$', r'\1', p) if balanced(p[1:-1]) else p for p in found]


def balanced(text):
    depth = 0
    for c in text:
        depth += {'(': 1, ')': -1}.get(c, 0)
        if depth < 0:
            return False
    return depth == 0


def fact(f, part):
    kinds = dict(f.params)
    kinds['result'] = f.result

    def put(m):
        name = m.group(1)
        if name in kinds and '.' not in m.group(0)[:1]:
            return '‹' + re.sub(r'&mut |&', '', kinds[name]) + '›'
        return m.group(0)
    return re.sub(r'(?<![\w.])([a-z_]\w*)(?:\.(?:now|old|new|entry))?(?![\w])', put, part)


def point5(fs, ts, files):
    out = collections.OrderedDict()
    by = collections.OrderedDict()
    for f in fs:
        seen = set()
        for part in conjuncts(f, 'requires'):
            seen.add(fact(f, part))
        for key in seen:
            by.setdefault(key, [[], []])[0].append(f)
    for f in fs:
        for key in {fact(f, p) for p in conjuncts(f, 'ensures')}:
            if key in by and f not in by[key][0]:
                by[key][1].append(f)
    rows = [(k, a, b) for k, (a, b) in by.items() if len(a) + len(b) >= 3]
    rows.sort(key=lambda r: -len(r[1]) - len(r[2]))
    out['facts in the contracts of three or more functions'] = [
        ('%d functions' % (len(a) + len(b)), k, ', '.join(full(f) for f in a) + (' | promised by: ' + ', '.join(full(f) for f in b) if b else ''))
        for k, a, b in rows]
    sets = collections.OrderedDict()
    items = []
    for f in fs:
        held = frozenset((n, k) for n, k in f.params if n not in ('rt', 'self'))
        if len(held) >= 2:
            items.append((f, held))
    for (_, a), (_, b) in itertools.combinations(items, 2):
        both = a & b
        if len(both) >= 2:
            sets.setdefault(both, None)
    rows = []
    for s in sets:
        fs_ = [f for f, held in items if s <= held]
        if len(fs_) >= 3:
            rows.append((s, fs_))
    rows.sort(key=lambda r: (-len(r[0]) * len(r[1]), -len(r[0])))
    out['parameters that travel together in three or more functions'] = [
        ('%d functions' % len(fs_), ', '.join('%s: %s' % p for p in sorted(s)), ', '.join(full(f) for f in fs_)) for s, fs_ in rows]
    return out


# ---- point 6

def point6(fs, ts, files):
    out = collections.OrderedDict()
    out['structs with an array and its length or count'] = [
        ('%s:%d' % (path, line), name, ', '.join('%s: %s' % m for m in members))
        for path, line, what, name, members, _ in ts if what == 'struct'
        and any(re.match(r'&?\[', k) for _, k in members)
        and any(n in LENGTHS + OFFSETS and re.fullmatch(r'u\w+', k) for n, k in members)]
    beside, offset, wide_ = [], [], []
    for f in fs:
        slices = [n for n, k in f.params if re.match(r'&?(?:mut )?\[', k)]
        lengths = [n for n, k in f.params if n in LENGTHS and n != 'width' and k in ('usize', 'u32')]
        offsets = [n for n, k in f.params if n in OFFSETS and k in ('usize', 'u32')]
        if slices and lengths:
            beside.append((where(f), full(f), '%s; %s' % (', '.join(slices), ', '.join(lengths))))
        if slices and offsets:
            offset.append((where(f), full(f), '%s; %s' % (', '.join(slices), ', '.join(offsets))))
        kinds = collections.Counter(k for _, k in f.params)
        for k, n in kinds.items():
            if n >= 4 and re.fullmatch(r'u\w+', k):
                wide_.append((where(f), full(f), '%d of %s' % (n, k)))
    out['functions that take a buffer and a length or count beside it'] = beside
    out['functions that take a buffer and a place in it'] = offset
    out['functions with four or more numbers of one type beside each other'] = wide_
    searches = []
    for f in fs:
        text = '\n'.join(code(f.body))
        if re.search(r'\bwhile\b', text) and re.search(r'\breturn\b', text) and not re.search(r'\.read\(', text):
            searches.append((where(f), full(f), '-> ' + f.result))
    out['searches by hand: a loop that returns from inside'] = searches
    by_value = [(where(f), full(f), ', '.join('%s: %s' % p for p in f.params if p[1].startswith('[')))
                for f in fs if any(k.startswith('[') for _, k in f.params)]
    out['arrays taken by value'] = by_value
    return out


# ---- point 7

def point7(fs, ts, files):
    out = collections.OrderedDict()
    flags, dispatch = [], []
    flagged = set()
    for f in fs:
        text = '\n'.join(code(f.body))
        for n, k in f.params:
            if k == 'bool':
                if re.search(r'\bif !?%s\b' % n, text):
                    flags.append((where(f), full(f), 'tests ' + n))
                else:
                    flags.append((where(f), full(f), 'passes %s on' % n))
                flagged.add(f.name)
        calls = re.findall(r'\bif !?\w+(?:\.\w+)?(?: [!=]= \w+)? \{\s*(?:return )?((?:\w+::)*\w+)\(', text)
        calls = [c for c in calls if c.split('::')[-1] not in ('Ok', 'Err', 'Some') and not re.match(r'[A-Z]', c.split('::')[-1])]
        if calls and not any('write' in c or c.endswith(('print', 'refuse', 'accept')) for c in calls):
            dispatch.append((where(f), full(f), ', '.join(calls)))
    out['bool parameters'] = flags
    literal = []
    for f in fs:
        for k, line in enumerate(code(f.body)):
            if re.search(r'\((?:\s*)(?:true|false)\s*,', line) and not re.search(r'\bOk\(', line):
                literal.append((where(f, f.body_line + k), full(f), line.strip()))
    out['calls that pass the flag as a literal'] = literal
    out['switches between calls of functions'] = dispatch
    return out


# ---- point 8

def point8(_fs, _ts, files):
    out = collections.OrderedDict()
    count = collections.OrderedDict()
    raw = []
    for path, text in files:
        parts = path.split('/')
        crate, base = parts[1], parts[-1]
        row = count.setdefault(crate, collections.Counter())
        kind = {'Answers.antt': 'answers', 'Invariants.antt': 'invariants'}.get(base, 'other')
        row[kind + ' files'] += 1
        row[kind + ' lines'] += text.count('\n')
        m = sorted(set(re.findall(r'\b(?:Lts|Reads|Tie)\b|false-raw|true-raw', text)))
        if m:
            raw.append((path, '', ', '.join(m)))
    plain, helpers, bodies = [], [], collections.OrderedDict()
    for path, text in files:
        if not path.endswith('/Answers.antt'):
            continue
        goals = set(re.findall(r'^(?:abbrev )?pub ([^\s:]+) : goal\.', text, re.M))
        declared = set(re.findall(r'^(?:abbrev )?(?:pub )?([a-zA-Z][^\s:]*)(?: \{[^}]*\})? :', text, re.M))
        helpers += [(path, name, '') for name in sorted(declared - goals)]
        for g in sorted(goals):
            m = re.search(r'^%s\b[^=\n]*=\s*(.*?)(?=\n\S|\n\n|\Z)' % re.escape(g), text, re.M | re.S)
            body = re.sub(r'\s+', ' ', m.group(1)).strip() if m else ''
            bodies.setdefault(body, []).append((path, g))
            if body in ('tt', 'refl', 'cc', 'omega arith', 'search', 'auto'):
                plain.append((path, g, body))
    out['answers'] = [(path, g, '') for places in bodies.values() for path, g in places]
    out['answers of one plain word: tt, refl, cc, omega arith'] = plain
    out['longer answers that three or more goals repeat'] = [
        ('%d goals' % len(places), body, ', '.join('/'.join(path.split('/')[1:2] + path.split('/')[3:-1]) for path, _ in places))
        for body, places in bodies.items() if len(places) >= 3 and body not in ('', 'tt', 'refl', 'cc', 'omega arith')]
    out['lemmas that stand in a file of answers'] = helpers
    out['proof files by crate'] = [(c, '', ', '.join('%s %d' % kv for kv in sorted(r.items()))) for c, r in count.items()]
    out["proof files that name Rattle's own Lts, Reads, Tie or a raw law"] = raw
    return out


# ---- points 1 to 3 in another way

def tokens(f):
    text = re.sub(r'b?"[^"]*"', 'T', ' '.join(code(f.body)))
    keep = ('if', 'else', 'while', 'for', 'in', 'return', 'let', 'mut', 'match', 'as')
    return ['0' if re.fullmatch(r'\d\w*', t) else 'x' if re.fullmatch(r'[a-z_]\w*', t) and t not in keep else t
            for t in re.findall(r'\w+|[^\w\s]', text)]


def again(fs, ts, src, files):
    out = collections.OrderedDict()
    number = re.compile(r'ensures.*?(_number\b|first_line|\bnumber_of\b|place_of|refusal_of|cond holds)')
    kind = re.compile(r'\b(?:instance_of|is_instance|is_width|fits|init_result)\b|state_bytes instance|_outcome instance|overwritten|WidthOf|Allowed|'
                      r'Steppable|fresh instance|line\d* instance|_number instance|most_extra|sound_runs|_phase\b')
    clauses = {id(f): ' '.join(f.clauses) for f in fs}
    out["1: contracts that name a refusal's number"] = [
        (where(f), full(f), '-> ' + f.result) for f in fs if number.search(clauses[id(f)]) and not re.search('byte_number', clauses[id(f)])
        and f.result in ('u32', 'u64', 'usize', 'Refusal')]
    out['1: contracts that read a number as an instance or a phase'] = [(where(f), full(f), '') for f in fs if kind.search(clauses[id(f)])]
    found = point1(fs, ts, src)
    own = {x for k in list(found)[:2] for _, x, _ in found[k]} - {'Calls'}
    named = re.compile(r'\b(?:%s)\b' % '|'.join(sorted(own) or ['-']))
    out['1: functions with an own enum or answer in their signatures'] = [(where(f), full(f), '') for f in fs if named.search(f.head)]
    listed, pairs = [f for f in fs if len(tokens(f)) >= 14], []
    known = {id(f): tokens(f) for f in listed}
    like = difflib.SequenceMatcher(autojunk=False)
    for k, a in enumerate(listed):
        like.set_seq2(known[id(a)])
        for b in listed[k + 1:]:
            sizes = sorted((len(known[id(a)]), len(known[id(b)])))
            if sizes[0] * 4 < sizes[1] * 3:
                continue
            like.set_seq1(known[id(b)])
            if like.real_quick_ratio() >= 0.9 and like.quick_ratio() >= 0.9 and like.ratio() >= 0.9:
                pairs.append(['%s@%d' % (full(f), f.line) for f in (a, b)])
    out['2: functions whose tokens are nine tenths alike'] = [
        ('%d functions' % len(g), ', '.join(x.split('@')[0] for x in g), '') for g in components(pairs)]
    out['3: functions with a file of invariants'] = [
        (path, '', '') for path in sorted(files) if path.endswith('/Invariants.antt')]
    return out


POINTS = (point1, point2, point3, point4, point5, point6, point7, point8)


def main():
    args = sys.argv[1:]
    commit = None
    if '--at' in args:
        k = args.index('--at')
        commit = args[k + 1]
        del args[k:k + 2]
    totals = '--totals' in args
    wanted = [int(a) for a in args if a.isdigit()] or list(range(1, 9))
    files = sources(commit)
    src = sorted((p, t) for p, t in files.items() if re.fullmatch(r'crates/\w+/src/[\w/]+\.rt', p))
    proofs = sorted((p, t) for p, t in files.items() if re.match(r'crates/\w+/proofs/', p) and p.endswith('.antt'))
    fs = [f for p, t in src for f in functions(p, t)]
    ts = [x for p, t in src for x in types(p, t)]
    roots = {p.split('/')[1]: t for p, t in src if p.endswith('/lib.rt')}
    for f in fs:
        crate, stem = f.path.split('/')[1], f.path.split('/')[3][:-3]
        f.other_crates = f.public and crate in roots and (stem == 'lib' or bool(re.search(r'^pub mod %s;' % stem, roots[crate], re.M)))
    print('%d files, %d functions (%d that other crates can call, %d exported to C), %d types' % (
        len(src), len(fs), sum(f.other_crates and not f.exported for f in fs), sum(f.exported for f in fs), len(ts)))
    if '--again' in args:
        for kind, places in again(fs, ts, src, files).items():
            print('  %s: %d' % (kind, len(places)))
            if not totals:
                for place, name, note in places:
                    print('    %s  %s%s' % (place, name, '  ' + note if note else ''))
        return
    for n in wanted:
        out = POINTS[n - 1](fs, ts, proofs if n == 8 else src)
        names = {(place.split(':')[0] if 'function' not in place else '', x.split('::')[-1])
                 for kind, places in out.items() if not kind.startswith('(') for place, name, _ in places for x in [name]}
        print('\npoint %d' % n + (': %d places, each function, type, field and constant once' % len(names) if n in (1, 3, 4, 6, 7) else ''))
        for kind, places in out.items():
            print('  %s: %d' % (kind, len(places)))
            if not totals:
                for place, name, note in places:
                    print('    %s  %s%s' % (place, name, '  ' + note if note else ''))


main()
