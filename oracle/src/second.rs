//! A second, independent writing of the kept functions: plain columns, index loops, no maps, no
//! closures over the body, no early exits that a definition would not have. It fixes the order of
//! the effects that can be seen; `fuzz` compares it with the oracle. `has` asks for a planted
//! mistake (`faults.rs`).
use crate::api::{Blade, Entry, Mesh, Outcome, Step, StepKind};
use crate::faults::{Fault::*, has};

type V2 = (f32, f32);
fn sub(a: V2, b: V2) -> V2 {
    (a.0 - b.0, a.1 - b.1)
}
fn add(a: V2, b: V2) -> V2 {
    (a.0 + b.0, a.1 + b.1)
}
fn dot(a: V2, b: V2) -> f32 {
    a.0 * b.0 + a.1 * b.1
}
fn length(a: V2) -> f32 {
    dot(a, a).sqrt()
}
fn lerp(p: V2, q: V2, t: f32) -> V2 {
    let s = 1.0 - t;
    (p.0 * s + q.0 * t, p.1 * s + q.1 * t)
}
pub fn inv(x: f32) -> f32 {
    if x >= -1.0e-20 && x <= 1.0e-20 { 0.0 } else { 1.0 / x }
}
fn pos(m: &Mesh, i: u32) -> V2 {
    (m.px[i as usize], m.py[i as usize])
}
fn rest(m: &Mesh, i: u32) -> V2 {
    (m.rx[i as usize], m.ry[i as usize])
}
fn velocity(m: &Mesh, i: u32) -> V2 {
    (m.vx[i as usize], m.vy[i as usize])
}

// ---- leaves -------------------------------------------------------------------------------

fn normal(b: Blade) -> V2 {
    let d = sub((b.x1, b.y1), (b.x0, b.y0));
    (-d.1, d.0)
}
pub fn offset(b: Blade, p: V2) -> f32 {
    dot(normal(b), sub(p, (b.x0, b.y0)))
}
/// The fraction of a hit, and the point that was tested.
pub fn blade_hit(b: Blade, p: V2, q: V2) -> Option<(f32, V2)> {
    let (dp, dq) = (offset(b, p), offset(b, q));
    if dp * dq > 0.0 || dp == dq {
        return None;
    }
    let (t, hit) = hit_point(b, p, q);
    let (s, end) = along(b, hit);
    if s >= 0.0 && s <= end { Some((t, misplaced(p, q, t).unwrap_or(hit))) } else { None }
}
/// The fraction and the point that are tested.
fn hit_point(b: Blade, p: V2, q: V2) -> (f32, V2) {
    let (dp, dq) = (offset(b, p), offset(b, q));
    let mut t = dp / (dp - dq);
    if t < 0.0 {
        t = 0.0;
    }
    if t > 1.0 {
        t = 1.0;
    }
    let step = sub(q, p);
    (t, add(p, (step.0 * t, step.1 * t)))
}
/// The whole coordinates of q - p.
fn step_of(p: V2, q: V2) -> (i64, i64) {
    (q.0 as i64 - p.0 as i64, q.1 as i64 - p.1 as i64)
}
/// How far a place of whole numbers is from the blade's line.
fn far(b: Blade, p: V2) -> i64 {
    let (d, s) = (step_of((b.x0, b.y0), (b.x1, b.y1)), step_of((b.x0, b.y0), p));
    d.0 * s.1 - d.1 * s.0
}
/// Edition 2: the pair is on or across the line, and the point where it meets the line, as a fraction of whole numbers along the blade, is from 0 to its
/// length's square.
fn meets_exactly(b: Blade, p: V2, q: V2) -> bool {
    let (dp, dq) = (far(b, p), far(b, q));
    if dp.signum() * dq.signum() > 0 || dp == dq {
        return false;
    }
    let d = step_of((b.x0, b.y0), (b.x1, b.y1));
    let down = |p: V2| {
        let s = step_of((b.x0, b.y0), p);
        (s.0 * d.0 + s.1 * d.1) as i128
    };
    let (over, under) = (dp as i128 * down(q) - dq as i128 * down(p), (dp - dq) as i128);
    let (over, under) = (over * under.signum(), under.abs());
    let end = (d.0 * d.0 + d.1 * d.1) as i128 * under;
    if has(ExactOpen) { over > 0 && over < end } else { over >= 0 && over <= end }
}
/// How far along the blade a hit point lies, and where the blade ends.
fn along(b: Blade, hit: V2) -> (f32, f32) {
    let d = sub((b.x1, b.y1), (b.x0, b.y0));
    (dot(sub(hit, (b.x0, b.y0)), d), dot(d, d))
}
/// Another hit point: exact but for one rounding, or as insertions have theirs (two mistakes).
fn misplaced(p: V2, q: V2, t: f32) -> Option<V2> {
    let exact = |p: f32, q: f32| (p as f64 + (q as f64 - p as f64) * t as f64) as f32;
    match () {
        _ if has(ExactPoint) => Some((exact(p.0, q.0), exact(p.1, q.1))),
        _ if has(LerpPoint) => Some(lerp(p, q, t)),
        _ => None,
    }
}
/// Whether a hit point lies strictly between the blade's ends (a mistake to rule out).
pub fn blade_inside(b: Blade, hit: V2) -> bool {
    let (s, end) = along(b, hit);
    s > 0.0 && s < end
}

// ---- elements, fans, groups ---------------------------------------------------------------

#[derive(Copy, Clone, PartialEq, Eq, Debug)]
pub enum Kind {
    Nothing,
    Triangles,
    Straps,
}
pub fn kind(m: &Mesh) -> Kind {
    if !m.ta.is_empty() {
        Kind::Triangles
    } else if m.structural.contains(&1) {
        Kind::Straps
    } else {
        Kind::Nothing
    }
}
/// The elements: their numbers, rising.
pub fn elements(m: &Mesh, k: Kind) -> Vec<u32> {
    match k {
        Kind::Nothing => vec![],
        Kind::Triangles => (0..m.ta.len() as u32).collect(),
        Kind::Straps => (0..m.ea.len() as u32).filter(|&i| m.structural[i as usize] == 1).collect(),
    }
}
pub fn corners(m: &Mesh, k: Kind, e: u32) -> Vec<u32> {
    let e = e as usize;
    match k {
        Kind::Triangles => vec![m.ta[e], m.tb[e], m.tc[e]],
        _ => vec![m.ea[e], m.eb[e]],
    }
}
pub fn measure(m: &Mesh, k: Kind, e: u32) -> f32 {
    match k {
        Kind::Triangles => m.volume[e as usize].abs(),
        _ => m.initial[e as usize],
    }
}
pub fn fan(m: &Mesh, k: Kind, v: u32) -> Vec<u32> {
    elements(m, k).into_iter().filter(|&e| corners(m, k, e).contains(&v)).collect()
}
fn shared_others(a: &[u32], b: &[u32], v: u32) -> usize {
    a.iter().filter(|x| **x != v && b.contains(x)).count()
}
/// Shared particles besides v that make two fan elements neighbours (`facet_others`).
pub fn facet_others(k: Kind) -> usize {
    (k == Kind::Triangles && !has(CornerGroups)) as usize
}
/// Labels: the least fan place joined to each place by a chain of neighbours.
pub fn groups_of(needed: usize, fans: &[Vec<u32>], sides: &[u32], v: u32) -> (Vec<u32>, u32) {
    let n = fans.len();
    let mut label: Vec<usize> = (0..n).collect();
    loop {
        let mut moved = false;
        for i in 0..n {
            for j in 0..n {
                if sides[i] == sides[j] && shared_others(&fans[i], &fans[j], v) >= needed && label[j] < label[i] {
                    label[i] = label[j];
                    moved = true;
                }
            }
        }
        if !moved {
            break;
        }
    }
    // First appearance: a place whose label is itself. Side 0 before side 1.
    let mut number = vec![0u32; n];
    let mut count = 0;
    for side in 0..2 {
        for i in 0..n {
            if sides[i] == side && label[i] == i {
                number[i] = count;
                count += 1;
            }
        }
    }
    let groups: Vec<u32> = (0..n).map(|i| number[label[i]]).collect();
    (if has(UnionRoot) || has(SidesMixed) { misnumbered(&groups, count, sides) } else { groups }, count)
}
/// Numbers by the place of the last, or of the first member whatever its side (two mistakes).
fn misnumbered(groups: &[u32], count: u32, sides: &[u32]) -> Vec<u32> {
    let place = |g: u32| match has(UnionRoot) {
        true => (sides[groups.iter().position(|&h| h == g).unwrap()], groups.iter().rposition(|&h| h == g)),
        false => (0, groups.iter().position(|&h| h == g)),
    };
    let mut order: Vec<u32> = (0..count).collect();
    order.sort_by_key(|&g| place(g));
    groups.iter().map(|&g| order.iter().position(|&h| h == g).unwrap() as u32).collect()
}

pub fn rest_measure(m: &Mesh) -> f32 {
    let k = kind(m);
    let mut total = 0.0;
    for e in elements(m, k) {
        total += measure(m, k, e);
    }
    total
}
pub fn rest_measure_of(m: &Mesh, list: &[u32]) -> f32 {
    let k = kind(m);
    let mut total = 0.0;
    for e in elements(m, k) {
        if corners(m, k, e).iter().all(|w| list.contains(w)) {
            total += measure(m, k, e);
        }
    }
    total
}

/// The elements reached from the marked ones: `near` says which two touch.
fn reached(n: usize, start: Vec<bool>, near: impl Fn(usize, usize) -> bool) -> Vec<bool> {
    let mut list: Vec<usize> = (0..n).filter(|&i| start[i]).collect();
    let mut marked = start;
    let mut next = 0;
    while next < list.len() {
        let j = list[next];
        next += 1;
        for i in 0..n {
            if !marked[i] && near(i, j) {
                marked[i] = true;
                list.push(i);
            }
        }
    }
    marked
}
/// Every group reaches at least `min` elements across facets without `v`, through the whole body.
pub fn opens(m: &Mesh, k: Kind, v: u32, fan: &[u32], groups: &[u32], count: u32, min: u32) -> bool {
    let facet = if k == Kind::Triangles { 2 } else { 1 };
    let within = if has(ReachInFan) { fan.to_vec() } else { elements(m, k) };
    opens_within(m, k, &within, v, facet, fan, groups, count, min)
}
/// The same among the elements `within`, where `facet` shared particles besides `v` touch.
pub fn opens_within(
    m: &Mesh,
    k: Kind,
    within: &[u32],
    v: u32,
    facet: usize,
    fan: &[u32],
    groups: &[u32],
    count: u32,
    min: u32,
) -> bool {
    let all: Vec<Vec<u32>> = within.iter().map(|&e| corners(m, k, e)).collect();
    (0..count).all(|g| {
        let start = within.iter().map(|e| fan.iter().zip(groups).any(|(f, h)| f == e && *h == g)).collect();
        let marked = reached(all.len(), start, |i, j| shared_others(&all[i], &all[j], v) >= facet);
        marked.iter().filter(|&&r| r).count() >= min as usize
    })
}

/// The pieces of request L2: sets of elements that chains of shared facets join, two particles for triangles and one for straps.
pub fn pieces(m: &Mesh) -> u32 {
    let k = kind(m);
    let all: Vec<Vec<u32>> = elements(m, k).iter().map(|&e| corners(m, k, e)).collect();
    let facet = if k == Kind::Triangles { 2 } else { 1 };
    pieces_of(&all, all.len(), |a, b| shared(a, b) >= facet)
}
/// How many particles of `a` are in `b` too: none has the greatest number, so all shared ones count.
pub fn shared(a: &[u32], b: &[u32]) -> usize {
    shared_others(a, b, u32::MAX)
}
/// The number of sets with one of the first `count` members, where members that pass the test are joined.
pub fn pieces_of(all: &[Vec<u32>], count: usize, joins: impl Fn(&[u32], &[u32]) -> bool) -> u32 {
    let mut done = vec![false; all.len()];
    let mut sets = 0;
    for i in 0..count {
        if done[i] {
            continue;
        }
        sets += 1;
        let start = (0..all.len()).map(|j| j == i).collect();
        let marked = reached(all.len(), start, |i, j| joins(&all[i], &all[j]));
        for j in 0..all.len() {
            done[j] |= marked[j];
        }
    }
    sets
}

// ---- the run ------------------------------------------------------------------------------

struct Run {
    m: Mesh,
    log: Vec<Entry>,
    steps: Vec<Step>,
    /// Whether the blade's crossings and sides are exact (edition 2 of a cut).
    exact: bool,
}
impl Run {
    fn new(m: &Mesh) -> Run {
        let mut r = Run { m: m.clone(), log: vec![], steps: vec![], exact: false };
        r.step(StepKind::Copy, m.ea.len(), m.ba.len());
        r
    }
    fn step(&mut self, kind: StepKind, edges: usize, boundary: usize) {
        let (particles, log) = (self.m.px.len(), self.log.len());
        self.steps.push(Step { kind, particles, edges, boundary, log });
    }
    fn done(self) -> Outcome {
        let changes = |e: &Entry| match e {
            Entry::Split { .. } | Entry::Insert { .. } => true,
            Entry::Met { .. } => has(MarksChange),
            Entry::Removed { .. } | Entry::Opened { .. } => false,
        };
        let changed = self.log.iter().any(changes);
        Outcome { changed, mesh: self.m, log: self.log, steps: self.steps }
    }
    fn splits(&self) -> Vec<(u32, u32)> {
        self.log
            .iter()
            .filter_map(|e| match *e {
                Entry::Split { copy, source } => Some((copy, source)),
                _ => None,
            })
            .collect()
    }
    fn drop_edges(&mut self, gone: &[bool]) {
        let m = &mut self.m;
        for i in 0..gone.len() {
            if gone[i] {
                self.log.push(Entry::Removed { a: m.ea[i], b: m.eb[i] });
            }
        }
        m.drop_rows(2, gone);
    }
    fn push_edge_like(&mut self, i: usize, a: u32, b: u32) -> usize {
        let j = self.m.copy_row(2, i);
        (self.m.ea[j], self.m.eb[j]) = (a, b);
        j
    }
    fn push_particle_like(&mut self, i: usize) -> usize {
        self.m.copy_row(0, i)
    }

    /// The group whose fan points toward particle `x` (which no fan element holds).
    fn toward(&self, v: u32, fans: &[Vec<u32>], groups: &[u32], x: u32) -> u32 {
        // 0 + d: the source adds to a zero vector (-0 becomes +0).
        let dir = add((0.0, 0.0), sub(rest(&self.m, x), rest(&self.m, v)));
        let mut best = -f32::MAX;
        let mut group = 0;
        for i in 0..fans.len() {
            for &w in &fans[i] {
                if w == v {
                    continue;
                }
                let d = sub(rest(&self.m, w), rest(&self.m, v));
                let size = length(d) * length(dir);
                let size = if size < 1.0e-12 { 1.0e-12 } else { size };
                let score = dot(d, dir) / size;
                if score > best {
                    best = score;
                    group = groups[i];
                }
            }
        }
        group
    }

    /// One split step. `false`, and nothing changed, with fewer than two groups or a pinned `v`.
    fn split(&mut self, k: Kind, v: u32, fan: &[u32], groups: &[u32], count: u32) -> bool {
        if count < 2 || self.m.inv[v as usize] == 0.0 && !has(PinnedSplits) {
            return false;
        }
        let n = fan.len();
        let old: Vec<Vec<u32>> = fan.iter().map(|&e| corners(&self.m, k, e)).collect();
        // 1. masses and copies
        let mut weights = vec![0.0f32; count as usize];
        for i in 0..n {
            weights[groups[i] as usize] += measure(&self.m, k, fan[i]);
        }
        let mut total = 0.0f32;
        for w in &weights {
            total += w;
        }
        let source_mass = self.m.mass[v as usize];
        let mut copies = vec![];
        for g in 0..count as usize {
            let mass = if total > 0.0 && !has(MassEqually) {
                source_mass * weights[g] / total
            } else {
                source_mass / count as f32
            };
            let at = if g == 0 { v as usize } else { self.push_particle_like(v as usize) };
            self.m.mass[at] = mass;
            self.m.inv[at] = inv(mass);
            if g != 0 && has(CopyOwnRoot) {
                self.m.root[at] = at as u32;
            }
            if g != 0 && has(CopyAtRest) {
                (self.m.vx[at], self.m.vy[at]) = (0.0, 0.0);
            }
            if g != 0 && !has(CopyUnlogged) {
                self.log.push(Entry::Split { copy: at as u32, source: v });
            }
            copies.push(at as u32);
        }
        // 2. ring: the groups of the fan elements that hold w, rising
        let ring = |w: u32| -> Vec<u32> {
            (0..count).filter(|&g| (0..n).any(|i| groups[i] == g && old[i].contains(&w))).collect()
        };
        // 3. elements
        for i in 0..n {
            if groups[i] == 0 {
                continue;
            }
            let to = copies[groups[i] as usize];
            let e = fan[i] as usize;
            let m = &mut self.m;
            let columns: Vec<&mut Vec<u32>> = match k {
                Kind::Triangles => vec![&mut m.ta, &mut m.tb, &mut m.tc],
                _ => vec![&mut m.ea, &mut m.eb],
            };
            for c in columns {
                if c[e] == v {
                    c[e] = to;
                }
            }
        }
        // 4. the other edges at v, in list order; copies appended at the end in that order
        let is_element = |m: &Mesh, i: usize| k == Kind::Straps && m.structural[i] == 1;
        let before = self.m.ea.len();
        for i in 0..before {
            if is_element(&self.m, i) || (self.m.ea[i] != v && self.m.eb[i] != v) {
                continue;
            }
            let first = self.m.ea[i] == v;
            let x = if first { self.m.eb[i] } else { self.m.ea[i] };
            let gs = ring(x);
            let g = match gs.first() {
                Some(&g) => g,
                None => self.toward(v, &old, groups, x),
            };
            let ends = |c: u32| if first { (c, x) } else { (x, c) };
            (self.m.ea[i], self.m.eb[i]) = ends(copies[g as usize]);
            for &other in gs.iter().skip(1) {
                let (a, b) = ends(copies[other as usize]);
                let at = self.push_edge_like(i, a, b);
                if !has(CopyImpulse) {
                    self.m.impulse[at] = 0.0;
                }
            }
        }
        let longest = self.m.ea.len();
        // 5. straddlers, in list order
        let all = elements(&self.m, k);
        let gone: Vec<bool> = (0..longest)
            .map(|i| {
                let (x, y) = (self.m.ea[i], self.m.eb[i]);
                if is_element(&self.m, i) || copies.contains(&x) || copies.contains(&y) {
                    return false;
                }
                let (gx, gy) = (ring(x), ring(y));
                !has(StraddlersStay)
                    && !gx.is_empty()
                    && !gy.is_empty()
                    && !gx.iter().any(|g| gy.contains(g))
                    && !all.iter().any(|&e| {
                        let c = corners(&self.m, k, e);
                        c.contains(&x) && c.contains(&y)
                    })
            })
            .collect();
        self.drop_edges(&gone);
        // 6. boundary at v, in list order: the first fan element that holds both ends
        for i in 0..self.m.ba.len() {
            let (a, b) = (self.m.ba[i], self.m.bb[i]);
            if a != v && b != v {
                continue;
            }
            let x = if a == v { b } else { a };
            let g = match (0..n).find(|&i| old[i].contains(&x)) {
                Some(_) if has(BoundaryLowest) => ring(x)[0],
                Some(i) => groups[i],
                None => self.toward(v, &old, groups, x),
            };
            if a == v {
                self.m.ba[i] = copies[g as usize];
            } else {
                self.m.bb[i] = copies[g as usize];
            }
        }
        // 7. crack facets: pairs of fan triangles in different groups that share exactly one more
        if k == Kind::Triangles {
            for i in 0..n {
                for j in i + 1..n {
                    if groups[i] == groups[j] || shared_others(&old[i], &old[j], v) != 1 {
                        continue;
                    }
                    let w = *old[i].iter().find(|x| **x != v && old[j].contains(x)).unwrap();
                    for t in [i, j] {
                        let c = corners(&self.m, k, fan[t]);
                        let copy = copies[groups[t] as usize];
                        for (p, q) in [(c[0], c[1]), (c[1], c[2]), (c[2], c[0])] {
                            if (p == copy && q == w) || (p == w && q == copy) {
                                self.m.bound(p, q);
                                break;
                            }
                        }
                    }
                }
            }
        }
        let edges = if has(EdgesAfter) { self.m.ea.len() } else { longest };
        self.step(StepKind::Split, edges, self.m.ba.len());
        true
    }

    fn split_by_sides(&mut self, k: Kind, v: u32, sides: &[u32]) -> bool {
        let f = fan(&self.m, k, v);
        let fans: Vec<Vec<u32>> = f.iter().map(|&e| corners(&self.m, k, e)).collect();
        let (mut g, mut count) = groups_of(facet_others(k), &fans, sides, v);
        if has(PinchedInTwo) && sides.iter().all(|&s| s == 0) {
            g.iter_mut().for_each(|g| *g = (*g).min(1));
            count = count.min(2);
        }
        self.split(k, v, &f, &g, count)
    }

    /// The blade test of the run's edition on a pair of particles.
    fn hit(&self, blade: Blade, p: u32, q: u32) -> Option<(f32, V2)> {
        let (p, q) = (pos(&self.m, p), pos(&self.m, q));
        if !self.exact {
            return blade_hit(blade, p, q);
        }
        meets_exactly(blade, p, q).then(|| hit_point(blade, p, q))
    }
    /// The sides of a fan in edition 2: 1 where the centroid and the kept side are of other signs.
    fn exact_sides(&self, f: &[u32], v: u32, blade: Blade) -> Vec<u32> {
        let far = |w: u32| far(blade, pos(&self.m, w));
        let middles: Vec<i64> = f
            .iter()
            .map(|&e| corners(&self.m, Kind::Triangles, e).into_iter().map(far).sum::<i64>().signum())
            .collect();
        let mut kept = far(v).signum();
        for &m in &middles {
            if kept == 0 {
                kept = m;
            }
            if has(FirstElement) {
                break;
            }
        }
        middles.iter().map(|&m| (m * kept < 0 || has(LineToRight) && m == 0 && kept > 0) as u32).collect()
    }

    fn split_by_blade(&mut self, k: Kind, v: u32, blade: Blade) -> bool {
        let f = fan(&self.m, k, v);
        if f.len() < 2 {
            return false;
        }
        if self.exact {
            let sides = self.exact_sides(&f, v, blade);
            return self.split_by_sides(k, v, &sides);
        }
        let raw: Vec<bool> = f
            .iter()
            .map(|&e| {
                let c = corners(&self.m, k, e);
                let mut sum = (0.0, 0.0);
                for &w in &c {
                    sum = add(sum, pos(&self.m, w));
                }
                let n = c.len() as f32;
                offset(blade, (sum.0 / n, sum.1 / n)) > 0.0
            })
            .collect();
        let own = offset(blade, pos(&self.m, v));
        let kept = if own != 0.0 { own > 0.0 } else { raw[0] };
        let sides: Vec<u32> = raw.iter().map(|&r| (r != kept) as u32).collect();
        self.split_by_sides(k, v, &sides)
    }

    fn split_pinched(&mut self, k: Kind) {
        if k == Kind::Straps || has(PinchedStay) {
            return;
        }
        let splits = self.splits();
        let near = |v: u32| splits.iter().any(|&(c, s)| c == v || s == v);
        let old = |v: u32| !splits.iter().any(|&(c, _)| c == v);
        let mut candidates = vec![false; self.m.px.len()];
        for e in elements(&self.m, k) {
            let c = corners(&self.m, k, e);
            if c.iter().any(|&w| near(w)) {
                for w in c {
                    let left_out =
                        has(PinchedEnds) && !near(w) || has(PinchedCopies) && old(w) || has(PinchedOld) && !old(w);
                    candidates[w as usize] |= !left_out;
                }
            }
        }
        let began = self.m.px.len();
        for v in 0..candidates.len() {
            if candidates[v] && !(has(PinchedFirst) && self.m.px.len() > began) {
                let n = fan(&self.m, k, v as u32).len();
                self.split_by_sides(k, v as u32, &vec![0; n]);
            }
        }
    }

    /// Request L3: each pair that the blade meets, elements by number and the pairs of each in their order.
    fn marks(&self, k: Kind, blade: Blade, fraction: f32) -> Vec<Entry> {
        let mut marks = vec![];
        for e in elements(&self.m, k) {
            let c = corners(&self.m, k, e);
            for i in 0..c.len() {
                for j in i + 1..c.len() {
                    let (a, b) = if has(MarksTurned) { (c[j], c[i]) } else { (c[i], c[j]) };
                    let Some((t, (x, y))) = self.hit(blade, c[i], c[j]) else { continue };
                    if has(SnappedUnmarked) && k == Kind::Straps && !(t >= fraction && t <= 1.0 - fraction) {
                        continue;
                    }
                    marks.push(Entry::Met { a, b, x, y, t });
                }
            }
        }
        if has(MarksOnce) || has(MarksByParticle) { misordered(marks) } else { marks }
    }
    /// The marks as a step of their own.
    fn mark(&mut self, k: Kind, blade: Blade, fraction: f32) {
        self.log = self.marks(k, blade, fraction);
        if !has(MarksUnasked) {
            self.step(StepKind::Mark, self.m.ea.len(), self.m.ba.len());
        }
    }

    fn cut_facets(&mut self, blade: Blade) {
        let k = Kind::Triangles;
        let n = self.m.px.len();
        let mut candidate = vec![false; n];
        for e in elements(&self.m, k) {
            let c = corners(&self.m, k, e);
            for (x, y) in [(c[0], c[1]), (c[0], c[2]), (c[1], c[2])] {
                if self.hit(blade, x, y).is_some() {
                    candidate[x as usize] = true;
                    candidate[y as usize] = true;
                }
            }
        }
        for v in 0..n {
            if candidate[v] && !(has(FirstCandidate) && !self.splits().is_empty()) {
                self.split_by_blade(k, v as u32, blade);
            }
        }
        if !self.splits().is_empty() {
            self.split_pinched(k);
        }
    }

    fn cut_segments(&mut self, blade: Blade, fraction: f32) {
        let crossings: Vec<(usize, f32)> = (0..self.m.ea.len())
            .filter(|&i| self.m.structural[i] == 1)
            .filter_map(|i| blade_hit(blade, pos(&self.m, self.m.ea[i]), pos(&self.m, self.m.eb[i])).map(|h| (i, h.0)))
            .collect();
        let mut marked = vec![false; self.m.ea.len()];
        let mut snapped = vec![false; self.m.px.len()];
        for (i, t) in crossings {
            let near = if t < 0.5 { self.m.ea[i] } else { self.m.eb[i] };
            let force = self.m.inv[near as usize] == 0.0;
            if !self.insert(i, t, force, fraction, &mut marked) {
                snapped[near as usize] = true;
            }
        }
        if marked.contains(&true) {
            marked.resize(self.m.ea.len(), false);
            let (edges, boundary) = (self.m.ea.len(), self.m.ba.len());
            self.drop_edges(&marked);
            self.step(StepKind::Remove, edges, boundary);
        }
        for v in 0..snapped.len() {
            if !snapped[v] || has(FirstCandidate) && !self.splits().is_empty() {
                continue;
            }
            let first = self.m.px.len() as u32;
            if self.split_by_blade(Kind::Straps, v as u32, blade) {
                for i in 0..self.m.ea.len() {
                    if self.m.ea[i] >= first || self.m.eb[i] >= first {
                        self.m.impulse[i] = 0.0;
                        self.m.estress[i] = 0.0;
                    }
                }
            }
        }
    }

    fn insert(&mut self, i: usize, t: f32, force: bool, f: f32, marked: &mut [bool]) -> bool {
        let (lo, hi) = (f, 1.0 - f);
        if !force && !(t >= lo && t <= hi) {
            return false;
        }
        let mut t = t;
        if t < lo && !has(Unclamped) {
            t = lo;
        }
        if t > hi && !has(Unclamped) {
            t = hi;
        }
        let (a, b) = (self.m.ea[i], self.m.eb[i]);
        let len = self.m.initial[i];
        let share = |m: &Mesh, v: u32| -> f32 {
            let mut total = 0.0;
            for j in 0..m.ea.len() {
                if m.structural[j] == 1 && (m.ea[j] == v || m.eb[j] == v) {
                    total += m.initial[j];
                }
            }
            if total > 0.0 { m.mass[v as usize] * len / total } else { 0.0 }
        };
        let (sa, sb) = (share(&self.m, a), share(&self.m, b));
        let mass = sa + sb;
        if !(mass > 0.0) || !(len > 0.0) {
            return false;
        }
        // Bending edges over the segment: one end on a's side only, the other on b's only.
        let m = &self.m;
        let on = |w: u32, v: u32, other: u32| -> bool {
            w == v
                || (w != other
                    && (0..m.ea.len()).any(|j| {
                        m.structural[j] == 1 && ((m.ea[j] == v && m.eb[j] == w) || (m.eb[j] == v && m.ea[j] == w))
                    }))
        };
        for j in 0..marked.len() {
            if m.structural[j] == 1 {
                continue;
            }
            let (x, y) = (m.ea[j], m.eb[j]);
            let only_a = |w: u32| on(w, a, b) && !on(w, b, a);
            let only_b = |w: u32| on(w, b, a) && !on(w, a, b);
            if (only_a(x) && only_b(y)) || (only_b(x) && only_a(y)) {
                marked[j] = true;
            }
        }
        let (ia, ib) = (a as usize, b as usize);
        let pa = (pos(m, a), rest(m, a), m.damaged[ia]);
        let pb = (pos(m, b), rest(m, b), m.damaged[ib]);
        let u = 1.0 - t;
        for (v, share, kept) in [(ia, sa, t), (ib, sb, u)] {
            self.m.mass[v] -= share - mass * kept * 0.5;
            if self.m.inv[v] != 0.0 {
                self.m.inv[v] = inv(self.m.mass[v]);
            }
        }
        let at = lerp(pa.0, pb.0, t);
        let rest_at = lerp(pa.1, pb.1, t);
        let speed = self.mixed(a, b, t);
        let p = self.m.px.len() as u32;
        let q = p + 1;
        for (kept, damaged) in [(t, pa.2), (u, pb.2)] {
            let own = mass * kept * 0.5;
            let m = &mut self.m;
            m.px.push(at.0);
            m.py.push(at.1);
            m.rx.push(rest_at.0);
            m.ry.push(rest_at.1);
            m.mass.push(own);
            m.inv.push(inv(own));
            m.vx.push(speed.0);
            m.vy.push(speed.1);
            m.root.push(m.root.len() as u32);
            m.damaged.push(damaged);
        }
        let j = self.push_edge_like(i, q, b);
        let m = &mut self.m;
        m.eb[i] = p;
        m.rest[j] = m.rest[i] * u;
        m.initial[j] = m.initial[i] * u;
        m.rest[i] = m.rest[i] * t;
        m.initial[i] = m.initial[i] * t;
        for e in [i, j] {
            m.impulse[e] = 0.0;
            m.estress[e] = 0.0;
            m.torn[e] = 0;
        }
        for s in 0..m.ba.len() {
            if (m.ba[s], m.bb[s]) == (a, b) {
                m.bb[s] = p;
                m.bound(q, b);
            } else if (m.ba[s], m.bb[s]) == (b, a) {
                m.bb[s] = q;
                m.bound(p, a);
            }
        }
        let (p, q) = if has(InsertTurned) { (q, p) } else { (p, q) };
        self.log.push(Entry::Insert { a, b, p, q, t });
        self.step(StepKind::Insert, self.m.ea.len(), self.m.ba.len());
        true
    }

    /// The velocity of both particles that are put between a and b.
    fn mixed(&self, a: u32, b: u32, t: f32) -> V2 {
        let (va, vb) = (velocity(&self.m, a), velocity(&self.m, b));
        match () {
            _ if has(InsertAtRest) => (0.0, 0.0),
            _ if has(InsertHalfway) => lerp(va, vb, 0.5),
            _ if has(InsertTurnedSpeed) => lerp(vb, va, t),
            // The way in which a hit point is computed.
            _ if has(InsertStep) => add(va, (sub(vb, va).0 * t, sub(vb, va).1 * t)),
            _ => lerp(va, vb, t),
        }
    }

    fn straddlers(&mut self) {
        let k = kind(&self.m);
        if k == Kind::Nothing {
            return;
        }
        // Least particle of each piece; u32::MAX where no element is.
        let mut piece = vec![u32::MAX; self.m.px.len()];
        let all = elements(&self.m, k);
        for &e in &all {
            for w in corners(&self.m, k, e) {
                piece[w as usize] = w;
            }
        }
        loop {
            let mut moved = false;
            for &e in &all {
                let c = corners(&self.m, k, e);
                let least = c.iter().map(|&w| piece[w as usize]).min().unwrap();
                for w in c {
                    if piece[w as usize] != least {
                        piece[w as usize] = least;
                        moved = true;
                    }
                }
            }
            if !moved {
                break;
            }
        }
        let spans = |a: u32, b: u32| {
            let (x, y) = (piece[a as usize], piece[b as usize]);
            x != u32::MAX && y != u32::MAX && x != y
        };
        let (edges, boundary) = (self.m.ea.len(), self.m.ba.len());
        let gone: Vec<bool> = (0..edges)
            .map(|i| !(k == Kind::Straps && self.m.structural[i] == 1) && spans(self.m.ea[i], self.m.eb[i]))
            .collect();
        self.drop_edges(&gone);
        let keep: Vec<(u32, u32)> =
            self.m.boundary().into_iter().filter(|&(a, b)| !spans(a, b) || has(OutlineStays)).collect();
        self.m.ba = keep.iter().map(|s| s.0).collect();
        self.m.bb = keep.iter().map(|s| s.1).collect();
        self.step(StepKind::Remove, edges, boundary);
    }

    fn crack(&mut self, torn: &[u32], min: u32) {
        let k = kind(&self.m);
        if k == Kind::Nothing {
            return;
        }
        let input = self.m.edges();
        // Triangle loads, read once.
        let mut loads = self.loads(k);
        for &e in torn {
            if e as usize >= input.len() || has(TornNow) && e as usize >= self.m.ea.len() {
                continue;
            }
            let (a, b) = if has(TornNow) { self.m.edges()[e as usize] } else { input[e as usize] };
            let Some((x, y)) = self.current_pair(k, a, b) else {
                continue;
            };
            let first = self.m.px.len();
            if has(LoadsAgain) {
                loads = self.loads(k);
            }
            let logged = self.log.len();
            if self.crack_across(k, x, y, &loads, min) {
                self.log.insert(if has(OpenedEarly) { logged } else { self.log.len() }, Entry::Opened { a, b });
                self.steps.last_mut().unwrap().log = self.log.len();
                self.m.damaged[x as usize] = 1;
                self.m.damaged[y as usize] = 1;
                for c in first..self.m.px.len() {
                    self.m.damaged[c] = 1;
                }
            }
        }
        if self.splits().is_empty() {
            return;
        }
        self.split_pinched(k);
        self.straddlers();
    }

    /// The load of each triangle: the highest stress of itself and of the edges between its corners.
    fn loads(&self, k: Kind) -> Vec<f32> {
        let input = self.m.edges();
        if k != Kind::Triangles {
            return vec![];
        }
        elements(&self.m, k)
            .iter()
            .map(|&e| {
                let c = corners(&self.m, k, e);
                let mut load = self.m.tstress[e as usize];
                for i in 0..input.len() {
                    if c.contains(&input[i].0) && c.contains(&input[i].1) {
                        // the source starts each pair's stress at 0
                        for s in [0.0, self.m.estress[i]] {
                            if s > load {
                                load = s;
                            }
                        }
                    }
                }
                load
            })
            .collect()
    }

    fn current_pair(&self, k: Kind, a: u32, b: u32) -> Option<(u32, u32)> {
        let family = |root: u32| {
            let mut f = vec![root];
            for (c, s) in self.splits() {
                if f.contains(&s) {
                    f.push(c);
                }
            }
            f
        };
        let (fa, fb) = (family(a), family(b));
        let all = elements(&self.m, k);
        for &x in &fa {
            for &y in &fb {
                if all.iter().any(|&e| {
                    let c = corners(&self.m, k, e);
                    c.contains(&x) && c.contains(&y)
                }) {
                    return Some((x, y));
                }
            }
        }
        let edges = self.m.edges();
        for &x in &fa {
            for &y in &fb {
                if edges.iter().any(|&e| e == (x, y) || e == (y, x)) {
                    return Some((x, y));
                }
            }
        }
        None
    }

    /// The two options of a torn edge: (load, v, fan, groups, count), where both sides are there.
    fn option(&self, k: Kind, v: u32, other: u32, loads: &[f32]) -> Option<(f32, u32, Vec<u32>, Vec<u32>, u32)> {
        if self.m.inv[v as usize] == 0.0 {
            return None;
        }
        let origin = rest(&self.m, v);
        let normal = sub(rest(&self.m, other), origin);
        let f = fan(&self.m, k, v);
        let fans: Vec<Vec<u32>> = f.iter().map(|&e| corners(&self.m, k, e)).collect();
        let sides: Vec<u32> = fans
            .iter()
            .map(|c| {
                let mut sum = (0.0, 0.0);
                for &w in c {
                    sum = add(sum, sub(rest(&self.m, w), origin));
                }
                (dot(sum, normal) > 0.0) as u32
            })
            .collect();
        if !sides.contains(&0) || !sides.contains(&1) {
            return None;
        }
        let (mut sum, mut number) = (0.0f32, 0u32);
        for i in 0..f.len() {
            if sides[i] == 1 {
                let e = f[i] as usize;
                sum += if k == Kind::Straps { self.m.estress[e] } else { loads[e] };
                number += 1;
            }
        }
        let (g, count) = groups_of(facet_others(k), &fans, &sides, v);
        Some((sum / number as f32, v, f, g, count))
    }

    fn crack_across(&mut self, k: Kind, a: u32, b: u32, loads: &[f32], min: u32) -> bool {
        let mut options = vec![];
        for (v, other) in [(a, b), (b, a)] {
            if let Some(o) = self.option(k, v, other, loads) {
                options.push(o);
            }
        }
        if options.len() == 2 {
            let order = options[1].0.total_cmp(&options[0].0);
            let order = if has(LowerFirst) { std::cmp::Ordering::Equal } else { order };
            if order.is_gt() || (order.is_eq() && options[1].1 < options[0].1) {
                options.swap(0, 1);
            }
        }
        let Some((_, v, f, g, count)) =
            options.into_iter().find(|(_, v, f, g, count)| opens(&self.m, k, *v, f, g, *count, min))
        else {
            return false;
        };
        let first = self.m.px.len() as u32;
        if !self.split(k, v, &f, &g, count) {
            return false;
        }
        let other = if v == a { b } else { a };
        for i in 0..self.m.ea.len() {
            let (x, y) = (self.m.ea[i], self.m.eb[i]);
            let opened = |w: u32| w == v || w >= first;
            if (x == other || y == other) && (opened(x) || opened(y)) {
                self.m.impulse[i] = 0.0;
                self.m.estress[i] = 0.0;
            }
        }
        true
    }
}

// ---- entries ------------------------------------------------------------------------------

pub fn cut(m: &Mesh, blade: Blade, fraction: f32) -> Outcome {
    let mut r = Run::new(m);
    r.mark(kind(m), blade, fraction);
    let marks = r.log.len();
    match kind(m) {
        Kind::Triangles => r.cut_facets(blade),
        Kind::Straps => r.cut_segments(blade, fraction),
        Kind::Nothing => {}
    }
    if has(MarksBehind) {
        r.log.rotate_left(marks);
    }
    r.done()
}
/// Edition 2 of a cut, on whole numbers; a mesh without triangles stays as it is.
pub fn cut_exactly(m: &Mesh, blade: Blade) -> Outcome {
    let mut r = Run::new(m);
    r.exact = true;
    r.mark(kind(m), blade, 0.0);
    if kind(m) == Kind::Triangles {
        r.cut_facets(blade);
    }
    r.done()
}
/// Marks of sides that were met already left out, or the marks by their particles (two mistakes).
fn misordered(marks: Vec<Entry>) -> Vec<Entry> {
    let side = |e: &Entry| match *e {
        Entry::Met { a, b, .. } => (a.min(b), a.max(b)),
        _ => unreachable!("a mark"),
    };
    let mut out = marks.clone();
    if has(MarksByParticle) {
        out.sort_by_key(side);
    } else {
        let mut seen = vec![];
        out.retain(|e| (!seen.contains(&side(e)), seen.push(side(e))).0);
    }
    out
}
/// `cut_topology`'s further steps.
pub fn cut_whole(m: &Mesh, blade: Blade, fraction: f32) -> Outcome {
    let o = cut(m, blade, fraction);
    if !o.changed {
        return o;
    }
    let mut r = Run { m: o.mesh, log: o.log, steps: o.steps, exact: false };
    for e in r.log.clone() {
        match e {
            Entry::Split { copy, source } => {
                r.m.damaged[copy as usize] = 1;
                r.m.damaged[source as usize] = 1;
            }
            Entry::Insert { a, b, p, q, .. } => {
                for v in [a, b, p, q] {
                    r.m.damaged[v as usize] = 1;
                }
            }
            _ => {}
        }
    }
    r.straddlers();
    r.done()
}
pub fn crack(m: &Mesh, torn: &[u32], min_piece: Option<u32>) -> Outcome {
    let mut r = Run::new(m);
    let less = has(MinimumLess) as u32;
    r.crack(torn, min_piece.map_or(3, |n| n.saturating_sub(less).max(1 - less)));
    r.done()
}
pub fn straddlers(m: &Mesh) -> Outcome {
    let mut r = Run::new(m);
    r.straddlers();
    r.done()
}
pub fn split_fan(m: &Mesh, v: u32, sides: &[u32]) -> Outcome {
    let mut r = Run::new(m);
    if kind(m) != Kind::Nothing {
        r.split_by_sides(kind(m), v, sides);
    }
    r.done()
}
pub fn groups(m: &Mesh, v: u32, sides: &[u32]) -> (Vec<u32>, u32) {
    let k = kind(m);
    let fans: Vec<Vec<u32>> = fan(m, k, v).iter().map(|&e| corners(m, k, e)).collect();
    groups_of(facet_others(k), &fans, sides, v)
}
pub fn opens_without_confetti(m: &Mesh, v: u32, sides: &[u32], min_piece: Option<u32>) -> Option<bool> {
    let k = kind(m);
    if k == Kind::Nothing {
        return None;
    }
    let (g, count) = groups(m, v, sides);
    Some(opens(m, k, v, &fan(m, k, v), &g, count, min_piece.map_or(3, |n| n.max(1))))
}
