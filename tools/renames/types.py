#!/usr/bin/env python3
"""Renames Rust types and modules with their proofs' folders: types.py TREE."""
import os, re, sys, glob, subprocess
os.chdir(sys.argv[1])
def paths(crate):
    return [p for d in ('src', 'specs', 'proofs', 'must-fail') for p in glob.glob(f'crates/{crate}/{d}/**/*', recursive=True) if os.path.isfile(p)]
def sub_all(ps, subs):
    for p in ps:
        t = s = open(p, encoding='utf-8').read()
        for a, b in subs: s = re.sub(a, b, s)
        if s != t: open(p, 'w', encoding='utf-8').write(s)
def mv(a, b):
    if os.path.exists(a): subprocess.run(['git', 'mv', a, b], check=True)
    else: print('NONE', a)
W = lambda w: r"(?<![A-Za-z0-9_'])" + w + r"(?![A-Za-z0-9_'])"
def parts(pm):
    def f(m):
        w = m.group(0)
        out = []
        for x in re.split(r"([_\-])", w):
            if x in pm: out.append(pm[x])
            elif re.search('[A-Z]', x):
                out.append(''.join(pm.get(y, y) for y in re.findall(r"[A-Z][a-z0-9']*|[a-z0-9']+|[^A-Za-z0-9']+", x)))
            else: out.append(x)
        return ''.join(out)
    return f
def part_all(ps, pm, skip=None):
    f = parts(pm)
    for p in ps:
        t = s = open(p, encoding='utf-8').read()
        s = re.sub(r"[A-Za-z][\w']*(?:-[\w']+)*", f, t)
        if s != t: open(p, 'w', encoding='utf-8').write(s)

# epoch_log: an epoch with its rosters
ps = paths('epoch_log')
sub_all(ps, [(W('Term'), 'EpochRecord'), (r"\bdeclared\.term\b", 'declared.epoch_record'), (r"\bcrate::term\b", 'crate::epoch_record'), (r"\bmod term;", 'mod epoch_record;'), (r"epoch_log\.proofs\.term\b", 'epoch_log.proofs.epoch_record')])
mv('crates/epoch_log/src/term.rt', 'crates/epoch_log/src/epoch_record.rt')
# vnode_table: an epoch with its ring
ps = paths('vnode_table')
sub_all(ps, [(W('Term'), 'EpochRing'), (r"\bdeclared\.term\b", 'declared.epoch_ring'), (r"\bcrate::term\b", 'crate::epoch_ring'), (r"\bmod term;", 'mod epoch_ring;'), (r"vnode_table\.proofs\.term\b", 'vnode_table.proofs.epoch_ring')])
mv('crates/vnode_table/src/term.rt', 'crates/vnode_table/src/epoch_ring.rt')
for c in ('epoch_log/proofs/term', 'vnode_table/proofs/term'):
    if os.path.exists('crates/' + c): mv('crates/' + c, 'crates/' + c.replace('/term', '/epoch_record' if 'epoch_log' in c else '/epoch_ring'))
# disk_history: what the checker keeps
ps = paths('disk_history')
sub_all(ps, [(W('Books'), 'CheckerState'), (r"\bdeclared\.books\b", 'declared.checker_state'), (r"\bcrate::books\b", 'crate::checker_state'), (r"\bmod books;", 'mod checker_state;'), (r"\bproofs\.books\b", 'proofs.checker_state')])
sub_all(ps, [(r"(?<![\w'])books(?![\w'])", 'checker_state')])
mv('crates/disk_history/src/books.rt', 'crates/disk_history/src/checker_state.rt')
if os.path.exists('crates/disk_history/proofs/books'):
    mv('crates/disk_history/proofs/books', 'crates/disk_history/proofs/checker_state')
    if os.path.exists('crates/disk_history/proofs/checker_state/Books'): mv('crates/disk_history/proofs/checker_state/Books', 'crates/disk_history/proofs/checker_state/CheckerState')
# comments on the checker's state
for p in paths('disk_history'):
    t = open(p, encoding='utf-8').read()
    out = []
    for l in t.split('\n'):
        if re.match(r"\s*(--|//)", l):
            l = (l.replace("The checker's checker_state: what it keeps", "The checker's state: what it keeps").replace("It keeps checker_state, which show the ledger", "It keeps a state, which shows the ledger")
                 .replace("and the checker_state show what", "and the state shows what").replace("The checker_state tell whether", "The state tells whether").replace("the checker's checker_state to show", "the checker's state to show")
                 .replace("into the checker's checker_state leaves them to show", "into the checker's state leaves it to show").replace("When the checker's checker_state show a ledger, and what an entry into them says", "When the checker's state shows a ledger, and what an entry into it says")
                 .replace("where it may, the checker_state then show", "where it may, the state then shows").replace("the checker_state show some ledger", "the state shows some ledger").replace("in the checker_state of a ledger", "in the state of a ledger"))
        out.append(l)
    s = '\n'.join(out)
    if s != t: open(p, 'w', encoding='utf-8').write(s)

# vdi_directory: reservations, references, live snapshots, the directory's state
ps = paths('vdi_directory')
sub_all(ps, [(r"\bself\.reservation\(", 'self.reserve('), (r"\bfn reservation\(", 'fn reserve('), (r"\bself\.reserved\(", 'self.reserve_id('), (r"\bfn reserved\(", 'fn reserve_id('),
             (r"proofs\.judging\.(\w+)\.reservation\b", r"proofs.judging.\1.reserve")])
# the Rust type Shot, and the state of that name
for p in ps:
    t = s = open(p, encoding='utf-8').read()
    s = re.sub(r"declared\.shot\.Shot\.\{Shot as TheShot\}", "declared.live_snapshot.LiveSnapshot.{LiveSnapshot}", s)
    if re.search(r"declared\.shot\.Shot\.\{Shot\}", s):
        s = re.sub(W('Shot'), 'LiveSnapshot', s)
    s = s.replace('declared.shot.', 'declared.live_snapshot.')
    s = re.sub(W('TheShot'), 'LiveSnapshot', s)
    if p.endswith('.rt'):
        s = re.sub(r"\bcrate::shot\b", 'crate::live_snapshot', s); s = re.sub(r"\bmod shot;", 'mod live_snapshot;', s)
        head = re.search(r"States\.\{[^}]*\bShot\b", s)
        if not head: s = re.sub(W('Shot'), 'LiveSnapshot', s)
    s = re.sub(W('Shot'), 'Snapshot', s) if not p.endswith('.rt') or re.search(r"States\.\{[^}]*\bShot\b", s) else s
    if s != t: open(p, 'w', encoding='utf-8').write(s)
pm = {'claim': 'reservation', 'claims': 'reservations', 'Claim': 'Reservation', 'Claims': 'Reservations', 'claimed': 'reserved', 'Claimed': 'Reserved', 'claimer': 'reserver',
      'bearer': 'reference', 'bearers': 'references', 'Bearer': 'Reference', 'Bearers': 'References', 'shot': 'live_snapshot', 'shots': 'live_snapshots', 'Books': 'DirectoryState', 'Book': 'State',
      'books': 'state', 'Unborne': 'Unreferenced', 'unborne': 'unreferenced', 'borne': 'referenced', 'Borne': 'Referenced'}
part_all(ps, pm)
for c in ('overlap_law', 'sheep_world', 'vdi_ops', 'dog_report', 'peer_service', 'sheep_node'):
    part_all(paths(c), {k: v for k, v in pm.items() if k.lower().startswith('claim')})
    sub_all(paths(c), [(r"(specs\.States\.\{[^}]*)\bShot\b", r"\1Snapshot")])
    for p in paths(c):
        t = s = open(p, encoding='utf-8').read()
        s = re.sub(r"\b(states|vdi_states)\.Shot\b", r"\1.Snapshot", s)
        if re.search(r"vdi_directory\.specs\.States\.\{", s): s = re.sub(W('Shot'), 'Snapshot', s)
        if s != t: open(p, 'w', encoding='utf-8').write(s)
d = 'crates/vdi_directory/'
for a, b in (('src/shot.rt', 'src/live_snapshot.rt'), ('src/books.rt', 'src/directory_state.rt'), ('src/claims.rt', 'src/reservations.rt'), ('src/bearers.rt', 'src/references.rt'),
             ('proofs/books/Books', 'proofs/books/DirectoryState'), ('proofs/books', 'proofs/directory_state'), ('proofs/claims', 'proofs/reservations'), ('proofs/bearers', 'proofs/references'),
             ('proofs/BearerLemmas.antt', 'proofs/ReferenceLemmas.antt'), ('proofs/BookLemmas.antt', 'proofs/StateLemmas.antt'), ('proofs/ShotLemmas.antt', 'proofs/SnapshotLemmas.antt'), ('proofs/UnborneLemmas.antt', 'proofs/UnreferencedLemmas.antt')):
    mv(d + a, d + b)
for q in glob.glob(d + 'proofs/**/*', recursive=True):
    if os.path.isdir(q):
        n = os.path.basename(q); m = parts(pm)(re.match('.*', n))
        if m != n and os.path.exists(q): mv(q, os.path.join(os.path.dirname(q), m))
sub_all(paths('vdi_directory'), [(r"\bmod state;", 'mod directory_state;'), (r"crate::state::", 'crate::directory_state::'), (r"\b(proofs|declared)\.state\b", r"\1.directory_state"), (r"(?m)^((?:pub )?mod |use Rattle\.vdi_directory\.proofs\.)ShotLemmas", r"\1SnapshotLemmas"), (r"\bShotLemmas\b", 'SnapshotLemmas')])

# the files of vdi_directory's proofs, as others cite them
for p in glob.glob('crates/*/proofs/**/*.antt', recursive=True):
    t = s = open(p, encoding='utf-8').read()
    for a, b in (('BookLemmas', 'StateLemmas'), ('BearerLemmas', 'ReferenceLemmas'), ('ShotLemmas', 'SnapshotLemmas'), ('UnborneLemmas', 'UnreferencedLemmas')):
        s = re.sub(r"(Rattle\.vdi_directory\.proofs\.)" + a + r"\b", r"\1" + b, s)
    if s != t: open(p, 'w', encoding='utf-8').write(s)
