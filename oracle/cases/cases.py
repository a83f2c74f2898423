#!/usr/bin/env python3
"""Makes the computed cases of crates model and model_cases of the oracle's vectors.

    cases.py                  cases.txt and cases.names -> crates/model/proofs/Case*.antt and crates/model_cases/proofs/Case*.antt, a file for each section
    cases.py FILE FOLDER N    any vector file, N cases to a file (CaseRandom1.antt, ..), for a try outside the repository

cases.txt and cases.names are written by `oracle/run cases oracle/cases` from the published Rust."""
import os, re, sys

HERE = os.path.dirname(os.path.abspath(__file__))
CRATES = os.path.join(HERE, '..', '..', 'crates')
# the file of each section, a hundred numbers to a section
SECTIONS = {1: 'Groups', 2: 'Splits', 3: 'Cuts', 4: 'Grid', 5: 'Straps', 6: 'Cracks', 7: 'TriangleCracks', 8: 'Loads', 9: 'Reads', 10: 'Refusals', 11: 'Rooms'}
# the sections that stand in crate model, where each edit that must fail meets a case; the others stand above it, in crate model_cases
BESIDE = ['Groups', 'Splits', 'Cuts', 'Straps', 'Loads', 'Reads']
# the modules whose definitions are computed
OPENED = [('lists', ['Lists', 'Labels']), ('float', ['Numbers', 'Ranges', 'Root', 'Order']), ('blade', ['Points', 'Blade']), ('fan', ['Groups']),
          ('model', ['Valid', 'Elements', 'Split', 'Pieces', 'Cut', 'Crack', 'Run', 'Calls', 'Reads'])]
# the names that no case unfolds: all are cuts of edition 1
SKIPPED = ['whole_mesh']
# the case whose meshes and answer other proofs speak of
SHARED = 301
IEEE = 'is_nan neg add sub mul div lt le eq ne of_int of_bits'.split()


def plain(name):
    return re.sub('[-_]', '', name).lower()


def declared():
    """The names of the modules that the cases speak of, as they are spelled there, by their letters alone."""
    names = {}
    for crate, mods in OPENED:
        for m in mods:
            text = open(os.path.join(CRATES, crate, 'specs', m + '.antt')).read()
            for n in re.findall(r'^(?:abbrev pub|unfoldable pub|pub) ([^\s:]+) :', text, re.M):
                names.setdefault(plain(n), n)
    return names


DECLARED = {}


def spelled(name):
    """A definition's name as the sources spell it."""
    if not DECLARED:
        DECLARED.update(declared())
    return DECLARED[plain(name)]


def read(path):
    """The cases of a vector file."""
    lines, i, out = open(path).read().split('\n'), 1, []
    while i < len(lines) and lines[i].startswith('case'):
        c = {'no': int(lines[i].split()[1]), 'rooms': [1024, 2048, 2048, 4096], 'out': None, 'log': []}
        i, c['mesh'] = mesh(lines, i + 1)
        c['call'] = lines[i].split()
        i += 1
        while lines[i] != 'end':
            w = lines[i].split()
            if w[0] == 'mesh':
                i, c['out'] = mesh(lines, i)
                continue
            if w[0] == 'rooms':
                c['rooms'] = [int(x) for x in w[1:]]
            elif w[0] in ('answer', 'changed'):
                c[w[0]] = w[1:]
            elif w[0] != 'log':
                c['log'].append(w)
            i += 1
        i += 1
        out.append(c)
    return out


def mesh(lines, i):
    rows, i = {k: [] for k in 'pteb'}, i + 1
    while lines[i][:2] in ('p ', 't ', 'e ', 'b '):
        w = lines[i].split()
        rows[w[0]].append(w[1:])
        i += 1
    return i, rows


def many(xs):
    return '(' + ' ∷ '.join(list(xs) + ['[]']) + ')' if xs else '[]'


def numbers(w):
    assert len(w) == int(w[0]) + 1
    return many(w[1:])


def row(name, bits, w):
    return name + ' ' + ' '.join(('0x' + x) if i in bits else x for i, x in enumerate(w))


def still(w):
    """A particle's row without its velocity, which is 0 in each case."""
    assert w[6:8] == ['00000000'] * 2
    return w[:6] + w[8:]


def mesh_text(m):
    """A mesh, a list to a line."""
    m = dict(m, p=[still(w) for w in m['p']])
    parts = [('particle', range(6), 'p'), ('triangle', (3, 4), 't'), ('edge', (4, 5, 6, 7), 'e'), ('side', (), 'b')]
    return 'mesh\n    ' + '\n    '.join(many([row(n, b, w) for w in m[k]]) for n, b, k in parts)


def least(word):
    """A minimum piece: - is the default."""
    return spelled('default_min_piece') if word == '-' else word


def bits(x):
    return '(bits 0x%s)' % x


def point(a, b):
    return '(point 0x%s 0x%s)' % (a, b)


def blade(w):
    return '(blade 0x%s 0x%s 0x%s 0x%s)' % tuple(w)


def entry(w):
    if w[0] == 'i':
        return 'insert %s %s %s %s %s' % (*w[1:5], bits(w[5]))
    if w[0] == 'm':
        return 'met %s %s %s %s' % (*w[1:3], point(*w[3:5]), bits(w[5]))
    return {'s': 'split', 'r': 'removed', 'o': 'opened'}[w[0]] + ' %s %s' % (w[1], w[2])


def asked(c, m):
    w, r = c['call'], c['rooms']
    lent = '(rooms %d 1024 %d %d %d)' % tuple(r)
    k = w[0]
    if k == 'cut':
        return 'meshes (' + spelled('cut_call') + ' true %s 1 %s %s %s)' % (m, blade(w[1:5]), bits(w[5]), lent)
    if k == 'crack':
        return 'meshes (' + spelled('crack_call') + ' true %s %s %s %s)' % (m, numbers(w[2:]), least(w[1]), lent)
    if k == 'split_fan':
        return 'meshes (' + spelled('split_call') + ' true %s %s %s %s)' % (m, w[1], numbers(w[2:]), lent)
    if k == 'straddlers':
        return 'meshes (' + spelled('straddlers_call') + ' true %s %s)' % (m, lent)
    if k == 'groups':
        return 'groups (' + spelled('groups_call') + ' true %s %s %s)' % (m, w[1], numbers(w[2:]))
    if k == 'opens':
        return 'flag (' + spelled('opens_call') + ' true %s %s %s %s)' % (m, w[2], numbers(w[3:]), least(w[1]))
    if k == 'rest_measure':
        return 'float (' + spelled('rest_measure_call') + ' true %s)' % m
    if k == 'rest_measure_of':
        return 'float (' + spelled('rest_measure_of_call') + ' true %s %s)' % (m, numbers(w[1:]))
    if k == 'pieces':
        return 'number (' + spelled('pieces_call') + ' true %s)' % m
    assert k == 'blade_hit'
    return 'hit (' + spelled('blade_call') + ' %s %s %s)' % (blade(w[1:5]), point(*w[5:7]), point(*w[7:9]))


def wanted(c):
    a, k = c['answer'], c['call'][0]
    if c['out']:
        return 'meshes (done out%d %s %s)' % (c['no'], many([entry(w) for w in c['log']]), 'true' if c['changed'] == ['1'] else 'false')
    if a[0] == 'groups':
        return 'groups (value (%s, %s))' % (numbers(a[2:]), a[1])
    if a[0] == 'flag':
        # -: the published Rust has no fan to ask about in a mesh of nothing; fans are empty there, so every group reaches
        return 'flag (value %s)' % {'-': 'true', '0': 'false', '1': 'true'}[a[1]]
    if a[0] == 'number':
        return 'number (value %s)' % a[1]
    if a[0] == 'float':
        return 'float (value %s)' % bits(a[1])
    if a[0] == 'miss':
        return 'hit (value Miss)'
    if a[0] == 'hit':
        return 'hit (value (HitAt %s %s))' % (bits(a[1]), point(*a[2:4]))
    kind = {'groups': 'groups', 'opens': 'flag', 'pieces': 'number', 'rest_measure': 'float', 'rest_measure_of': 'float', 'blade_hit': 'hit'}.get(k)
    return '%s (denied %s)' % (kind, a[0]) if kind else 'meshes (refused %s)' % a[0]


def opened():
    """The names to unfold, by module."""
    out = []
    for crate, mods in OPENED:
        for m in mods:
            text = open(os.path.join(CRATES, crate, 'specs', m + '.antt')).read()
            names = [n for n in re.findall(r'^unfoldable pub (\S+)', text, re.M) if plain(n) not in map(plain, SKIPPED)]
            if names:
                out.append(('Rattle.%s.specs.%s' % (crate, m), names))
    return out


HEAD = '''-- %s: the published Rust's answers, computed. Made by oracle/cases.py of oracle/cases.txt, which the oracle wrote from the published Rust.
-- Assumes nothing.
use mathlib.Core.Path.{◌≡◌, refl}
use mathlib.Core.Bool.{true, false}
use mathlib.Core.List.{List, [], ◌∷◌, map}
use lib.Ieee.{%s}
use Rattle.blade.specs.declared.Hit.TheVariants.{Miss, Hit as HitAt}
use Rattle.model.specs.Mesh.{Mesh}
use Rattle.model.specs.Pieces.{%s}
use Rattle.model.specs.Run.{split, edge as removed, insert, opened, met}
use Rattle.model.specs.Calls.{%s}
use Rattle.model.specs.Reads.{refused as denied, value}
use Rattle.model.specs.Starred.{Case, meshes, groups, flag, number, float, hit}
use Rattle.model.proofs.Asked.{bits, point, blade, rooms, mesh, particle, triangle, edge, side}
'''


def head(path, title, has_shared):
    """The head of a file, as it stands there if it does: its comment and its imports, up to those of the names to unfold."""
    if os.path.exists(path):
        return open(path).read().split('use %s.{' % opened()[0][0])[0]
    return HEAD % (title, ', '.join(IEEE), spelled('default_min_piece'), 'Outcome, refused, done' if has_shared else 'refused, done')


def public(c):
    return 'pub ' if c['no'] == SHARED else ''


def write(path, title, cases, names):
    mods = opened()
    clash = {'mesh', 'particle', 'triangle', 'edge', 'side', 'groups', 'flag', 'number', 'float', 'hit', 'split', 'insert', 'opened', 'met'}
    shared = [c for c in cases if c['no'] == SHARED]
    text = head(path, title, bool(shared))
    for mod, ns in mods:
        assert not clash & set(ns), clash & set(ns)
        text += 'use %s.{%s}\n' % (mod, ', '.join(ns))
    seen = {}
    for c in cases:
        m = mesh_text(c['mesh'])
        text += '\n'
        if m not in seen:
            seen[m] = 'in%d' % c['no']
            text += 'abbrev %sin%d : Mesh\nin%d =\n    %s\n\n' % (public(c), c['no'], c['no'], m)
        if c['out']:
            text += 'abbrev %sout%d : Mesh\nout%d =\n    %s\n\n' % (public(c), c['no'], c['no'], mesh_text(c['out']))
        answer = wanted(c)
        if c in shared:
            text += '-- the answer of the worked listing\nabbrev pub done%d : Outcome\ndone%d = %s\n\n' % (c['no'], c['no'], answer[len('meshes ('):-1])
            answer = 'meshes done%d' % c['no']
        text += '-- %s\nabbrev case%d : Case\ncase%d = record { asked = %s; wanted = %s }\n' % (
            names.get(c['no'], ' '.join(c['call'])[:90]), c['no'], c['no'], asked(c, seen[m]), answer)
    text += '\nabbrev pub cases : List Case\ncases = %s\n' % ' ∷ '.join(['case%d' % c['no'] for c in cases] + ['[]'])
    text += '\npub agree : map (λ (c : Case). c.asked) cases ≡ map (λ (c : Case). c.wanted) cases\n'
    text += 'unfolding ' + ' '.join(sum([ns for _, ns in mods], []) + IEEE) + '\nagree = refl\n'
    open(path, 'w').write(text)


def starred(path):
    """Brings the names to unfold in proofs/Starred.antt up to date."""
    text = open(path).read()
    mods = opened()
    uses = '-- opened\n' + ''.join('use %s.{%s}\n' % (mod, ', '.join(ns)) for mod, ns in mods) + '\n-- end\n'
    text = re.sub(r'-- opened\n.*?-- end\n', lambda m: uses, text, flags=re.S)
    line = 'unfolding ' + ' '.join(sum([ns for _, ns in mods], []) + IEEE) + '\n'
    open(path, 'w').write(re.sub(r'(?m)^unfolding .*\n', lambda m: line, text))


def main():
    if len(sys.argv) == 1:
        names = dict((int(l.split(' ', 1)[0]), l.split(' ', 1)[1].strip()) for l in open(os.path.join(HERE, 'cases.names')))
        cases = read(os.path.join(HERE, 'cases.txt'))
        for n, title in SECTIONS.items():
            part = [c for c in cases if c['no'] // 100 == n]
            path = os.path.join(CRATES, 'model' if title in BESIDE else 'model_cases', 'proofs', 'Case%s.antt' % title)
            write(path, title, part, names)
            print('Case%s' % title, len(part))
        starred(os.path.join(CRATES, 'model', 'proofs', 'Starred.antt'))
    else:
        path, folder, per = sys.argv[1], sys.argv[2], int(sys.argv[3])
        cases = read(path)
        for b in range(0, len(cases), per):
            write('%s/CaseRandom%d.antt' % (folder, b // per + 1), 'Random', cases[b:b + per], {})
        print(len(cases))


main()
