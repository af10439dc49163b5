#!/usr/bin/env python3
"""Renames definitions over a tree: rename.py TREE. Reads table.tsv (crate Module old new), files.tsv (crate kind Old New)
and parts.tsv (crate,crate.. old new: parts of words) beside it. Words are renamed where they are in scope; lemmas whose names
have an old word as a part between dashes follow."""
import os, re, sys, glob, subprocess, collections
here = os.path.dirname(os.path.abspath(__file__))
top = os.path.abspath(sys.argv[1])
os.chdir(top)

def rows(name, n):
    p = os.path.join(here, name)
    out = []
    for l in open(p):
        if l.strip() and not l.startswith('#'):
            f = l.split()
            assert len(f) == n, l
            out.append(f)
    return out
table = rows('table.tsv', 4)
files = rows('files.tsv', 4)
parts = rows('parts.tsv', 3)

IDC = r"[\w'\-]"
USE = re.compile(r"(?P<head>\b(?:pub )?(?:ghost )?use )Rattle\.(?P<crate>\w+)\.(?P<kind>specs|proofs)\.(?P<mod>[A-Za-z_][\w.]*?)(?:\.\{(?P<names>[^}]*)\}| as (?P<alias>\w+))?(?=[;\s]|$)")
antts = sorted(glob.glob('crates/*/specs/**/*.antt', recursive=True) + glob.glob('crates/*/proofs/**/*.antt', recursive=True))
antts = [p for p in antts if '/out/' not in p]
rts = sorted(p for p in glob.glob('crates/*/src/**/*.rt', recursive=True))
text = {p: open(p, encoding='utf-8').read() for p in antts + rts}

def module_of(p):
    f = p.split('/')
    return f[1], f[2], '.'.join(f[3:])[:-5]

GEN = ('Answers', 'Invariants', 'Proof')
maps = collections.defaultdict(dict)          # (crate, kind, module) -> old -> new
for c, m, o, n in table:
    maps[(c, 'specs', m)][o] = n

# re-exports
exports = collections.defaultdict(dict)       # module -> name -> module of origin
for p in antts:
    me = module_of(p)
    for m in USE.finditer(text[p]):
        if m.group('head').startswith('pub ') and m.group('names'):
            for nm in m.group('names').split(','):
                nm = nm.strip()
                exports[me][nm] = (m.group('crate'), m.group('kind'), m.group('mod'))

def origin(mod, name, depth=0):
    if name in maps.get(mod, {}):
        return mod
    if depth < 4 and name in exports.get(mod, {}):
        return origin(exports[mod][name], name, depth + 1)
    return mod

def new_name(mod, name):
    o = origin(mod, name)
    return maps.get(o, {}).get(name)

def scope(p, own):
    words, aliases = {}, {}
    for m in USE.finditer(text[p]):
        mod = (m.group('crate'), m.group('kind'), m.group('mod'))
        if m.group('names') is not None:
            for nm in m.group('names').split(','):
                nm = nm.strip()
                if not nm: continue
                a = nm.split(' as ')
                n = new_name(mod, a[0].strip())
                if n and len(a) == 1:
                    words[a[0].strip()] = n
        elif m.group('alias'):
            aliases[m.group('alias')] = mod
        else:
            aliases[m.group('mod').split('.')[-1]] = mod
    if own:
        words.update(maps.get(own, {}))
    return words, aliases

# lemmas that follow
DASH = re.compile(r"^(?:(?:abbrev|unfoldable)\s+)*(?:pub\s+)?([\w']+(?:-[\w']+)+)\s*:", re.M)
for p in antts:
    me = module_of(p)
    if me[1] != 'proofs' or me[2].split('.')[-1] in GEN: continue
    words, _ = scope(p, me)
    for m in DASH.finditer(text[p]):
        old = m.group(1)
        new = '-'.join(words.get(x, x) for x in old.split('-'))
        if new != old:
            maps[me][old] = new

def split_comments(t):
    """pieces of (is_comment, text)"""
    out, i = [], 0
    for m in re.finditer(r"(?m)(?:^|(?<=\s))--(?![-\w]).*$", t):
        out.append((False, t[i:m.start()])); out.append((True, m.group(0))); i = m.end()
    out.append((False, t[i:]))
    return out

def apply_words(t, words, aliases):
    if words:
        alt = '|'.join(sorted(map(re.escape, words), key=len, reverse=True))
        rx = re.compile(r"(?<![\w'\-.])(" + alt + r")(?![\w'\-])")
        def sub(m):
            before = t[:m.start()]
            after = t[m.end():m.end() + 12]
            if re.match(r"\s*=(?![=>])", after) and re.search(r"[{;]\s*$", before[-400:]):
                return m.group(0)               # a field's label
            line = before[before.rfind('\n') + 1:]
            if re.match(r"^\s+pub\s+$", line):
                return m.group(0)               # a field's declaration
            return words[m.group(1)]
        t = rx.sub(sub, t)
    if aliases:
        live = {a: maps.get(mod, {}) for a, mod in aliases.items()}
        for a, mod in aliases.items():
            ex = exports.get(mod, {})
            if ex:
                d = dict(live[a])
                for nm in ex:
                    n = new_name(mod, nm)
                    if n: d[nm] = n
                live[a] = d
        live = {a: d for a, d in live.items() if d}
        if live:
            alt = '|'.join(map(re.escape, sorted(live, key=len, reverse=True)))
            rx = re.compile(r"(?<![\w'\-.])(" + alt + r")\.([\w'\-]+)")
            t = rx.sub(lambda m: m.group(1) + '.' + live[m.group(1)].get(m.group(2), m.group(2)), t)
    return t

def apply_uses(t):
    def sub(m):
        mod = (m.group('crate'), m.group('kind'), m.group('mod'))
        s = m.group(0)
        if m.group('names') is not None:
            ns = []
            for nm in m.group('names').split(','):
                a = nm.strip().split(' as ')
                if not a[0]: continue
                n = new_name(mod, a[0].strip()) or a[0].strip()
                ns.append(n if len(a) == 1 else n + ' as ' + a[1])
            s = s[:s.index('{') + 1] + ', '.join(ns) + '}'
        return s
    return USE.sub(sub, t)

def uses_and_rest(t):
    """pieces: (is_use, text)"""
    out, i = [], 0
    for m in USE.finditer(t):
        out.append((False, t[i:m.start()])); out.append((True, m.group(0))); i = m.end()
    out.append((False, t[i:]))
    return out

CLAUSE = re.compile(r"\b(?:ensures|requires|invariant|decreases|ghost)\b[^{};]*?\{")
def clause_spans(t):
    spans, pos = [], 0
    while True:
        m = CLAUSE.search(t, pos)
        if not m: break
        ls = t.rfind('\n', 0, m.start()) + 1
        if '//' in t[ls:m.start()]:
            pos = t.find('\n', m.start()); continue
        if t[m.start():m.start() + 10].startswith('ghost use'):
            pos = t.index(';', m.start()) + 1; continue
        i, depth = m.end(), 1
        while depth and i < len(t):
            if t.startswith('//', i):
                i = t.find('\n', i); continue
            if t[i] == '{': depth += 1
            elif t[i] == '}': depth -= 1
            i += 1
        spans.append((m.end(), i - 1))
        pos = i
    return spans

# parts of words
part_maps = collections.defaultdict(dict)
for cs, o, n in parts:
    for c in cs.split(','):
        part_maps[c][o] = n
def part_word(w, pm):
    def piece(x):
        if x in pm: return pm[x]
        if re.search('[A-Z]', x):
            ws = re.findall(r"[A-Z][a-z0-9']*|[a-z0-9']+|[^A-Za-z0-9']+", x)
            return ''.join(pm.get(y, y) for y in ws)
        return x
    return ''.join(piece(x) if re.match(r"[\w']", x) else x for x in re.split(r"([_\-])", w))
def apply_parts(t, crate):
    pm = part_maps.get(crate)
    if not pm: return t
    return re.sub(r"[A-Za-z][\w']*(?:-[\w']+)*", lambda m: part_word(m.group(0), pm), t)

def code_antt(t, words, aliases, crate):
    out = []
    for is_use, s in uses_and_rest(t):
        if is_use:
            s = apply_uses(s)
            m = USE.match(s)
            if m and m.group('names') is not None and m.group('crate') in part_maps:
                i = s.index('{')
                s = s[:i] + apply_parts(s[i:], m.group('crate'))
            out.append(s)
        else:
            for is_c, x in split_comments(s):
                if is_c: out.append(x); continue
                if re.match(r"\s*use ", x) and '\n' not in x.strip(): out.append(x); continue
                y = apply_words(x, words, aliases)
                if crate in part_maps:
                    y = '\n'.join(l if re.match(r"(pub )?use ", l) else apply_parts(l, crate) for l in y.split('\n'))
                out.append(y)
    return ''.join(out)

scopes = {}
for p in antts:
    scopes[p] = scope(p, module_of(p))
for p in rts:
    scopes[p] = scope(p, None)
result = {}
for p in antts:
    w, a = scopes[p]
    result[p] = code_antt(text[p], w, a, p.split('/')[1])
for p in rts:
    w, a = scopes[p]
    t = text[p]
    crate = p.split('/')[1]
    spans = clause_spans(t)
    out, i = [], 0
    for s, e in spans:
        out.append((False, t[i:s])); out.append((True, t[s:e])); i = e
    out.append((False, t[i:]))
    new = []
    for is_c, x in out:
        if is_c:
            lines = []
            y = apply_words(x, w, a)
            new.append('\n'.join(l if l.strip().startswith('//') else apply_parts(l, crate) for l in y.split('\n')))
        else:
            z = []
            for is_use, s in uses_and_rest(x):
                if is_use:
                    s = apply_uses(s)
                    m = USE.match(s)
                    if m and m.group('names') is not None and m.group('crate') in part_maps:
                        k = s.index('{')
                        s = s[:k] + apply_parts(s[k:], m.group('crate'))
                z.append(s)
            new.append(''.join(z))
    result[p] = ''.join(new)

# the paths of tactics' words
fileof = {(c, k, o): n for c, k, o, n in files}
for p in rts:
    crate = p.split('/')[1]
    def path(m):
        mod = (crate, m.group(1), m.group(2))
        return f"crate::{m.group(1)}::{fileof.get(mod, m.group(2))}::{maps.get(mod, {}).get(m.group(3), m.group(3))}"
    result[p] = re.sub(r"crate::(specs|proofs)::(\w+)::([\w'\-]+)", path, result[p])

# capture: a new word that was in the file before
for p in antts + rts:
    w, a = scopes[p]
    body = '\n'.join(l for l in text[p].split('\n') if not re.match(r"\s*(pub |ghost )*use ", l) and not l.strip().startswith(('--', '//')))
    for o, n in w.items():
        if re.search(r"(?<![\w'\-.])" + re.escape(n) + r"(?![\w'\-])", body) and re.search(r"(?<![\w'\-.])" + re.escape(o) + r"(?![\w'\-])", body):
            print(f"CAPTURE {p}: {o} -> {n}")
    crate = p.split('/')[1]
    pm = part_maps.get(crate, {})
    toks = set(re.findall(r"(?<![\w'])[A-Za-z][\w']*", body))
    for o, n in pm.items():
        if o in toks and n in toks:
            print(f"PART {p}: {o} -> {n}")

# edits
def edit_lines(p):
    crate = p.split('/')[1]
    t = open(p, encoding='utf-8').read().split('\n')
    target, out = None, []
    for l in t:
        m = re.match(r"file:\s*(\S+)", l)
        if m:
            target = f"crates/{crate}/{m.group(1)}"
            out.append(l); continue
        m = re.match(r"(old|new): (.*)$", l)
        if m and target in scopes:
            w, a = scopes[target]
            body = m.group(2)
            if target.endswith('.antt'):
                body = code_antt(body + '\n', w, a, crate)[:-1] if not body.startswith('use ') else apply_uses(body + ' ')[:-1]
            elif body.startswith(('ghost use', 'use ')):
                body = apply_uses(body)
            else:
                old_in = body in text[target]
                nb = apply_words(body, w, a)
                nb = apply_parts(nb, crate) if re.search(r"ensures|requires", body) else nb
                if m.group(1) == 'old' and nb not in result[target] and body in result[target]: nb = body
                if m.group(1) == 'new' and not re.search(r"ensures|requires|→|≡", body): nb = body
                body = nb
            out.append(f"{m.group(1)}: {body}"); continue
        out.append(l)
    return '\n'.join(out)
edits = sorted(glob.glob('crates/*/must-fail/*.edit'))
edit_text = {p: edit_lines(p) for p in edits}
for p, t in edit_text.items():
    tgt = None
    for l in t.split('\n'):
        if l.startswith('file:'): tgt = f"crates/{p.split('/')[1]}/{l[5:].strip()}"
        if l.startswith('old: ') and tgt in result and result[tgt].count(l[5:]) != 1:
            print(f"EDIT {p}: {result[tgt].count(l[5:])} x {l[5:][:90]}")

for p, t in list(result.items()) + list(edit_text.items()):
    if open(p, encoding='utf-8').read() != t:
        open(p, 'w', encoding='utf-8').write(t)

# files
def all_texts():
    return [p for p in subprocess.run(['git', 'ls-files', 'crates'], capture_output=True, text=True).stdout.split('\n') if p.endswith(('.antt', '.rt', '.edit')) and os.path.exists(p)]
if files:
    fm = {(c, k, o): n for c, k, o, n in files}
    rx = re.compile(r"(Rattle\.(\w+)\.(specs|proofs)\.)([A-Za-z_]\w*)")
    for p in all_texts():
        t = s = open(p, encoding='utf-8').read()
        s = rx.sub(lambda m: m.group(1) + fm.get((m.group(2), m.group(3), m.group(4)), m.group(4)), s)
        f = p.split('/')
        if f[-1] == 'Lib.antt' and len(f) == 4:
            s = re.sub(r"(?m)^((?:pub )?mod )(\w+)", lambda m: m.group(1) + fm.get((f[1], f[2], m.group(2)), m.group(2)), s)
        if p.endswith('.edit'):
            s = re.sub(r"(?m)^(file: (specs|proofs)/)(\w+)\.antt", lambda m: m.group(1) + fm.get((f[1], m.group(2), m.group(3)), m.group(3)) + '.antt', s)
        if s != t: open(p, 'w', encoding='utf-8').write(s)
    for (c, k, o), n in fm.items():
        src = f"crates/{c}/{k}/{o}.antt"
        if os.path.exists(src):
            subprocess.run(['git', 'mv', src, f"crates/{c}/{k}/{n}.antt"], check=True)
        elif not os.path.exists(f"crates/{c}/{k}/{n}.antt"):
            print('NO FILE', src)

# comments and labels of clauses, in words
WORDS = [(r"\ba life of\b", "an incarnation of"), (r"\ba life\b", "an incarnation"), (r"\blives\b", "incarnations"), (r"\blife\b", "incarnation"),
         (r"\bseats\b", "hosts"), (r"\ba seat\b", "a host"), (r"\bseat\b", "host"), (r"\bSeats\b", "Hosts"),
         (r"\bletters\b", "packets"), (r"\bletter\b", "packet"), (r"\bLetters\b", "Packets"),
         (r"\bunborne\b", "unavailable"), (r"\bborne\b", "available")]
COMMENTED = ('sheep_world', 'overlap_law', 'trace_text', 'schedule', 'dog_report', 'sheep_node', 'cluster_script')
for p in all_texts():
    if p.split('/')[1] not in COMMENTED: continue
    t = open(p, encoding='utf-8').read()
    out = []
    for l in t.split('\n'):
        m = re.search(r"(?:^|\s)(--|///?!?)\s", l)
        if m and p.endswith(('.antt', '.rt')):
            head, tail = l[:m.start()], l[m.start():]
            for a, b in WORDS:
                if 'letter' in a and p.split('/')[1] in ('cluster_script',): continue
                tail = re.sub(a, b, tail)
            l = head + tail
        out.append(l)
    s = '\n'.join(out)
    if s != t: open(p, 'w', encoding='utf-8').write(s)
