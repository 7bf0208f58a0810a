#!/usr/bin/env python3
"""Lists and counts the places in crates/*/src that points 1 to 7 of the design pass ask about, so that its page can count them alike
before and after:  design_places.py [--count] [--at COMMIT].  A line is `point  crate/file:line  what`; C marks what C calls (extern "C",
or its name), counted apart. It goes by text: it shows where to look, and what is kept stays listed.
1 structs with number: u8, ok, joined or sound beside a value, or low: bool or mode: u32 for a kind; enums of one good variant and reasons
  (Wrong..); structs without fields with u8 consts; functions that give, take, make or test such numbers, structs or enums, whose Result is
  of a bool that says whether it went well, or that give 0 or zeros for none.
2 functions of the same body, of two lines or more, but for names, paths, types and constants (lists of test data aside); of one name in
  two files and much the same body; much alike in one crate. Structs of the same fields, enums of the same variants.
3 `for` over a range whose counter, or what is reckoned from it, indexes something, there or in a function that it is handed to; `while`
  with a bound whose variable it moves. A counter that is a place of a rotation or a number, and indexes nothing, is none.
4 outside an impl of a trait: casts by name; values to bytes or words and back (of, .._of, .._in, .._bytes, frame, flags); text put; and TEXT.
5 a fact in `requires`, the same but for the parameters' names, in three functions of a crate; three or more parameters, same names and
  types, in three functions of a crate (the widest such groups). A place is the fact or the group, at its first function.
6 structs with an array beside a usize, two arrays of one length, links by index; functions that fill lent bytes and say how far, take a
  list and how much of it counts, or firsts beside slots; and TEXT.
7 branches that call two functions with the same arguments; a flag handed on that says what runs; a parameter that is a fn; and SEEN.
TEXT has rules on a function's body. SEEN has what no rule sees: crate, function, and a text without which it is not counted.
"""
import difflib, pathlib, re, subprocess, sys, types
from collections import defaultdict
from itertools import combinations, permutations

table = lambda lines: [line.split(' | ') for line in lines.strip().split('\n')]
TEXT = table(r"""
1 | makes or tests a number | \bnumber [!=]= 0|\bnumber: [1-9]|\b(?:declined|refused|hidden)\((?:\w+, )?[1-9]|&mut number\b|write_\w+\([^;{]*\) != 0|\.ok\b(?!\()|!\w+\.sound\b
4 | bytes by hand | % 256\) as u8|\* (?:256|65536)\)? \+ \w+ as|words::of_(?:two|four)\(s\[
4 | min spelled out | if (\w+) < ([\w:]+) \{\s*\1\s*\} else \{\s*\2\s*\}
4 | equality spelled out | \.0 == .*\.0 ==
4 | struct rebuilt | (\w+): (\w+)\.\1,\s*(?:[^{}]*?,\s*)?(\w+): \2\.\3,
4 | elements copied | [\[,]\s*(\w+)\[0\],\s*\1\[1\]|\w\[(?:\d|at)\] = (\w+)(?:\.\w+|\[\d\]);\s*\w+\[[^]]*\] = \2
4 | elements copied in a loop | \{\s*\w+\[(\w+)\] = (?:\w+\[\1\](?: as \w+)?|0);\s*\}
4 | words chosen by a number | (?:if \w+ == [\w:]+ \{[^}]*"_[^}]*\}\s*(?:else )?){2}
4 | fields printed | (?:\w\(rt, \w+\.\w+[\s\S]*){2}
6 | a part of its own buffer | let mut (\w+)(?:: [^=]*)? = (?:\[0|outside::\w*buffer)[\s\S]*\b\1\[\.\.[a-z]
6 | a record over words | \bword\(words, |\bwords\[(?:\d|[A-Z])|\b(?:shown|body|figures)\[\d\] =
6 | marks in bytes, or a search by halves | \bmarks\b|\bmid\b""")
SEEN = table(r"""
1 | 0 or zeros for none | outside word Err\(_\) => 0 | outside read_full Err\(_\) => 0 | trace_parts body_size \b0\s*$
1 | 0 or zeros for none | captures read_packet captured: 0 | table_bytes state_in ports: 0 | table_bytes table_in return State::empty_table
2 | by value and lent | ledger pair_figures \+ t; | ledger figures_of hidden\( | ledger figures_lent hidden\( | ledger next happened | ledger count happened
2 | on another form of the value | import_steps field_bytes % 256 | trace_writer field_bytes % 256 | salvages judge_next judge\( | salvage_passes judge_body judge\(
2 | for another type or name | words holds >> k | columns holds >> k | ports at_most < S | lines rows < S
2 | with another step | import_passes scan_piece while at | import_passes lay_piece while at | import_passes scan_next read_piece | import_passes lay_next read_piece
4 | struct rebuilt | lcf advance owners,\s*\} | import_steps advanced owners,\s*\} | replay flush sound: run.sound
4 | printed by hand | frame_vectors hex 02x | frame_vectors flag if b \{ | frame_vectors written text\(rt | shown sets put_initiators
4 | digits read by hand | import digit_more b'0' | import number_in digit_more | import number_at number_in
7 | picks what runs | lcf opened => take_diagonal | lcf serve_mode serve_rounds | queue_records all_placed each_placed | lcf serve_central serve_columns | captures long_in if low | long_check long_crc return words::crc\(s
7 | as another but for a step | salvage_passes copy_next Outcome::Unwritten => Ok | shelf unanswered finish_due | measured measured_plain serve_targets | import_passes scan_piece while at | import_passes scan 0\.\.PIECES""")
TOKEN = re.compile(r"//[^\n]*|b?\"(?:\\.|[^\"\\])*\"|b?'(?:\\.|[^'\\\n])'")
SAME = {'if', 'else', 'for', 'in', 'let', 'mut', 'return', 'match', 'while', 'as', 'break', 'continue', 'Ok', 'Err', 'len'}
DATA = re.compile(r'(?:\w+\((?:&?rt)?(?:, )?(?:(?:"_*"|\d\w*)(?:, )?)*\)\??;?\s*)+')
def blank(m):  # comments gone and texts empty, each as long as it was
    return re.sub(r'[^\n]', ' ', m[0]) if m[0].startswith('//') else '"' + re.sub(r'[^\n]', '_', m[0][1:-1]) + '"'
def close(s, i):  # behind the bracket that closes the one at i
    kinds, depth = ('<', '>') if s[i] == '<' else ('([{', ')]}'), 0
    for j in range(i, len(s)):
        depth += (s[j] in kinds[0]) - (s[j] in kinds[1] and s[j - 1] not in '-=')
        if depth == 0:
            return j + 1
    return len(s)
def split(s, sep=','):
    parts, depth = [''], 0
    for j, c in enumerate(s):
        depth += (c in '([{<') - (c in ')]}>' and s[j - 1:j + 1] not in ('->', '=>'))
        parts = parts + [''] if c == sep and depth == 0 else parts[:-1] + [parts[-1] + c]
    return [' '.join(p.split()) for p in parts if p.strip()]
def item(source, m, name):  # a function, or a struct or enum
    crate, file, _, text = source
    return types.SimpleNamespace(crate=crate, file=f'{crate}/{file}', where=(f'{crate}/{file}', text.count('\n', 0, m.start()) + 1), name=name, c=False)

def functions(source):
    raw, text = source[2:]
    impls = [(m.start(), close(text, m.end() - 1)) for m in re.finditer(r'^(?:unsafe )?impl\b[^{;]* for [^{;]*\{', text, re.M)]
    for m in re.finditer(r'\bfn (\w+)', text):
        f = item(source, m, m[1])
        j = close(text, i := close(text, m.end()) if text[m.end()] == '<' else m.end())
        f.params = [tuple(p.removeprefix('mut ').split(': ', 1)) for p in split(text[i + 1:j - 1]) if ': ' in p]
        i = re.compile(r'(?:\[[^]]*\]|[^\[{;])*?(?=\b(?:requires|ensures|where)\b|[{;])').match(text, j).end()
        f.ret, f.facts = text[j:i].replace('->', '').strip(), []
        while clause := re.compile(r'\s*(requires|ensures)[^{;]*\{').match(text, i):
            i = close(text, clause.end() - 1)
            f.facts += split(text[clause.end():i - 1].replace('<', '≺'), '×') if clause[1] == 'requires' else []
        i = re.compile(r'[^{;]*').match(text, i).end()
        end = close(text, i) - 1 if text[i] == '{' else i
        f.body, f.raw = text[i + 1:end].strip(), raw[i + 1:end].strip()
        f.c = 'extern' in text[:m.start()].split('\n')[-1] or bool(re.match('bellacush_|measured_', f.name))
        f.tail, f.trait = re.split(r'[;}]\s*', f.body)[-1], any(a < m.start() < b for a, b in impls)
        names = {}
        f.shape = ['#' if t[0] in '"0123456789' else t if t in SAME or not t[0].isalpha() else names.setdefault(t, f'v{len(names)}')
                   for t in re.findall(r'"_*"|\w+|[^\w\s]', re.sub(r'\b\w+::', '', f.body))]
        yield f
def kinds_in(source):
    for m in re.finditer(r'\b(struct|enum) (\w+)(?:<[^>]*>)?\s*\{', source[3]):
        t, inner = item(source, m, m[2]), source[3][m.end():close(source[3], m.end() - 1) - 1]
        t.kind, t.parts = m[1], [re.sub(r'#\[[^]]*\]|pub(?:\(crate\))? ', '', p).strip() for p in split(inner)]
        impl = re.search(r'^impl %s \{[\s\S]*?^\}' % t.name, source[3], re.M)
        t.numbers = not inner.strip() and len(re.findall(r'const \w+: u8', impl[0] if impl else '')) > 1
        yield t
def indexes(names, body, index):  # one of the names, or what is reckoned from it without a call, indexes something
    for x, e in re.findall(r'let (\w+) = ([^;(]*);', body):
        names = names | {x} if re.search(r'\b(?:%s)\b' % '|'.join(names), e) else names
    hands = lambda m: any(a in names and (m[1], i) in index for i, a in enumerate(split(body[m.end():close(body, m.end() - 1) - 1])))
    return re.search(r'[\w)]\[[^]]*\b(?:%s)\b' % '|'.join(names), body) or any(map(hands, re.finditer(r'(\w+)\(', body)))
def loops(f, index):
    inner = lambda m: f.body[m.end():close(f.body, m.end() - 1)]
    for m in re.finditer(r'\bfor (\w+) in [^{;]*\.\.[^{;]*\{|\bwhile [^{]*<[^{]*\{', f.body):
        moved = any(re.search(r'\b%s \+?= ' % x, inner(m)) for x in re.findall(r'\b[a-z]\w*', m[0]))
        yield from [m[0][:-1].strip()] if (indexes({m[1]}, inner(m), index) if m[1] else moved) else []

def twins(fns):
    same, like = defaultdict(list), lambda f, g: difflib.SequenceMatcher(None, f.shape, g.shape, False).ratio()
    fns = [f for f in fns if f.body and f.name != 'main' and not DATA.fullmatch(f.body)]
    for f in fns:
        same[' '.join(f.shape), f.c] += [f] if f.c or '\n' in f.body else []
    yield from ((f, g, 'the same body as') for fs in same.values() for f, g in combinations(fs, 2))
    for f, g in combinations(fns, 2):
        bar = 0.8 if f.name == g.name and f.file != g.file else 0.88 if f.crate == g.crate and min(len(f.shape), len(g.shape)) >= 30 else 2
        yield from [(f, g, 'much like')] if f.c == g.c and bar < 2 and like(f, g) >= bar else []
def facts(fns):
    have, by_crate = defaultdict(list), defaultdict(list)
    for f in fns:
        for fact, names in ((fact, {}) for fact in f.facts):
            fact = re.sub(r'\w+', lambda m: names.setdefault(m[0], 'xyzuvw'[len(names) % 6]) if m[0] in dict(f.params) else m[0], fact)
            fact = re.sub(r'^\((.*)\)$', r'\1', re.sub(r'\.(?:old|now)\b', '', fact)).replace('≺', '<')
            have[f.crate, f.c, fact] += [f] if f not in have[f.crate, f.c, fact] else []
        by_crate[f.crate, f.c].append((f, set(f.params)))
    yield from ((fs[0], f'requires {fact[:90]}, in {len(fs)} functions') for (_, _, fact), fs in have.items() if len(fs) >= 3)
    for fs in by_crate.values():
        groups, kept = {frozenset(a & b) for (_, a), (_, b) in combinations(fs, 2) if len(a & b) >= 3}, []
        for group in sorted(groups, key=lambda c: (-len(c) * sum(c <= p for _, p in fs), sorted(c))):
            having = [f for f, p in fs if group <= p]
            if len(having) >= 3 and not any(group <= k or k <= group for k in kept):
                kept.append(group)
                yield having[0], f'({", ".join(n for n, t in having[0].params if (n, t) in group)}) in {len(having)} functions'

def places(sources):
    fns, kinds = [f for s in sources for f in functions(s)], [t for s in sources for t in kinds_in(s)]
    aliases = {n: a for s in sources for n, a in re.findall(r'type (\w+) = (\[[^;]*; [^]]*\])', s[3])}
    wide, found = lambda t: aliases.get(t.split('::')[-1], t), defaultdict(list)
    add = lambda point, x, what, yes=True: found[point, x.where, x.c, x.name].append(what) if yes else None
    gives, index, flagged, reasons, numbers = set(), set(), set(), set(), {t.name for t in kinds if t.numbers}
    for t in kinds:
        fields = [p for p in t.parts if re.match(r'(number: u8|(ok|joined|sound|low): bool|mode: u32|fates: \[u8.*)$', p)]
        rows = [re.sub(r'.*; ', '', wide(p.split(': ')[1])) for p in t.parts if ': ' in p and wide(p.split(': ')[1]).startswith('[')]
        flagged |= {t.name} if re.search('number|ok|joined', str(fields)) else set()
        reasons |= {t.name} if t.kind == 'enum' and sum('(' in v or v in ('Sound', 'Done') for v in t.parts) == 1 and re.search('Wrong|Un|Changed|Missing', str(t.parts)) else set()
        add(1, t, f'a struct with {", ".join(fields)}', fields and len(t.parts) > 1), add(1, t, 'numbers for kinds', t.numbers)
        add(1, t, 'an enum of one good variant and reasons', t.name in reasons), add(6, t, 'arrays side by side', len(set(rows)) < len(rows))
        add(6, t, 'an array with a count beside it', rows and re.search(r": usize'", str(t.parts)))
        add(6, t, 'links by index', re.search("'(next|parent|child): u", str(t.parts)))
    for a, b in permutations([t for t in kinds if len(t.parts) > 1], 2):
        add(2, a, f'as {b.name} of {b.crate}', a.kind == b.kind and [p.split('(')[0] for p in a.parts] == [p.split('(')[0] for p in b.parts])
    for f in fns * 4:
        literals = set(re.findall(r'return (\d+);|=> (\d+)\b|[;}]\s*(\d+)$', f.body))
        calls = re.findall(r'return (?:\w+::)*(\w+)\(', f.body) + re.findall(r'^(?:\w+::)*(\w+)\(', f.tail)
        if f.ret in ('u8', 'u32') and (len(literals) > 1 or '.number as u32' in f.body or gives & set(calls) or literals and 'return number' in f.body):
            gives.add(f.name)
        index |= {(f.name, i) for i, (n, t) in enumerate(f.params) if t in ('usize', 'u8') and indexes({n}, f.body, index)}
    for f in fns:
        names, slices = dict(f.params), [n for n, t in f.params if '[' in wide(t)]
        takes = [n for n, t in f.params if re.fullmatch('mode u32|(low|sound) bool|(number|fate|kind) (&mut )?(u8|u64)', f'{n} {t}') and f.ret != 'Mode']
        plain = len(f.params) == 1 or f.params and all(re.fullmatch(r'u\d+|usize|bool|Initiator|Target', t) for _, t in f.params)
        named = re.fullmatch(r'of|of_\w+|(?!place)\w+_(?:of|in|bytes)|bit', f.name) and plain or f.name in ('frame', 'flags') and not f.params
        part = any(re.search(r'0\.\.%s\b' % n, f.body) for n, t in f.params if t == 'usize') and any(f'{s}[' in f.body for s in slices)
        calls = re.findall(r'\{\s*(?:return )?([\w:]+)\(([^{};]*)\);?\s*\}\s*(?:else \{\s*)?(?:return )?([\w:]+)\(([^{};]*)\)\s*(?:\}|$)', f.body)
        for point, what, yes in (
                (1, 'gives a number', f.ret in ('u8', 'u32') and f.name in gives), (1, f'gives a {f.ret}', f.ret in flagged),
                (1, 'uses such an enum or such numbers', re.search(r'\b(?:%s)::[A-Z]' % '|'.join(reasons | numbers or {'-'}), f.body)),
                (1, f'takes {", ".join(takes)}', takes),
                *((int(point), what, re.search(text, f.body)) for point, what, text in TEXT), (1, '0 for none', f.ret == 'usize' and 'return 0;' in f.body),
                (1, 'a bool for whether it went well', f.ret == 'Result<bool>' and not re.match('end(ed|s)|at_end|is_', f.name)),
                *((3, loop, True) for loop in loops(f, index)),
                (4, 'a cast by name', len(f.params) == 1 and re.fullmatch(r'[(]*[\w:]+(?: [%/] \d+)*\)*(?:\(\w+\))? as \w+', f.body)),
                (4, 'conversion', named and f.ret not in ('', 'bool') and not (f.ret in ('usize', 'u16') and '&' in str(f.params))),
                (4, 'text put by hand', f.name.startswith('put_') and f.params[:1] == [('out', '&mut [u8]')] and f.ret == 'usize'),
                (6, 'fills lent bytes and says how far', f.ret == 'usize' and '&mut [u8]' in names.values()),
                (6, 'firsts beside slots', {'firsts', 'slots'} <= set(slices)), (6, 'how much of a list counts', slices and (part or {('gone', 'usize'), ('held', 'usize'), ('kept', 'usize')} & {*f.params})),
                (7, 'picks a function', any(a != c and args == more and ',' in args for a, args, c, more in calls)),
                (7, 'a flag says what runs', names.get('prints') == 'bool'), (7, 'takes a fn', re.search(r'\bfn\(', str(names)))):
            add(point, f, what, yes and not (f.trait and point == 4))
        for point, what, *entries in SEEN:
            add(int(point), f, what, any(e.split(' ')[:2] == [f.crate, f.name] and re.search(e.split(' ', 2)[2], f.raw) for e in entries))
    for a, b, what in ((a, b, what) for f, g, what in twins(fns) for a, b in ((f, g), (g, f))):
        add(2, a, f'{what} {b.name} of {b.crate}', (2, a.where, a.c, a.name) not in found)
    found.update({(5, f.where, f.c, what): [f.name] for f, what in facts(fns)})
    return sorted((point, where, c, f'{name}: {"; ".join(dict.fromkeys(what))}') for (point, where, c, name), all in found.items()
                  for what in ([[w] for w in all] if point == 3 else [all]))

root, at = pathlib.Path(__file__).resolve().parent.parent, sys.argv[sys.argv.index('--at') + 1] if '--at' in sys.argv else None
git = lambda *a: subprocess.run(['git', '-C', root, *a], check=True, capture_output=True, text=True).stdout
names = git('ls-tree', '-r', '--name-only', at, 'crates').split('\n') if at else [str(p.relative_to(root)) for p in root.glob('crates/*/src/**/*')]
names = sorted(n for n in names if re.fullmatch(r'crates/[^/]+/src/.*\.rt', n))
texts = [git('show', f'{at}:{n}') if at else (root / n).read_text() for n in names]
found = places([(n.split('/')[1], n.split('/src/')[1], text, TOKEN.sub(blank, text)) for n, text in zip(names, texts)])
for p, (file, line), c, what in found if '--count' not in sys.argv else []:
    print(f'{p}  {file}:{line}  {"C " if c else ""}{what}')
for p in range(1, 8):
    print('point {}: {} places, and {} of C'.format(p, *(sum(q == p and c == of_c for q, _, c, _ in found) for of_c in (False, True))))
