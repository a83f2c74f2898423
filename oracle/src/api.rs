//! The oracle in plain columns. Everything that decides a result is the source's own text; this
//! file converts, derives the order of the log and the room per step from the journal, and adds
//! the bench's own parts (R1.3): checks, refusals for room, pieces.
use crate::dynamics::soft_body::tearing::access::{self, PlainLog};
use crate::dynamics::soft_body::*;
use crate::journal::{self, BOUNDARY, EDGES, Op, PARTICLES};
use crate::math::Vector;
use std::collections::{HashMap, HashSet};
use std::ops::Range;

pub const MAX_PARTICLES: usize = 1024;
pub const MAX_TRIANGLES: usize = 1024;
pub const MAX_EDGES: usize = 2048;
pub const MAX_BOUNDARY: usize = 2048;
pub const MAX_LOG: usize = 4096;
pub const MAX_NUMBER: f32 = 1_048_576.0;
pub const MAX_VOLUME: f32 = 4_194_304.0;

#[derive(Clone, Debug, Default)]
pub struct Mesh {
    // particles
    pub px: Vec<f32>,
    pub py: Vec<f32>,
    pub rx: Vec<f32>,
    pub ry: Vec<f32>,
    pub mass: Vec<f32>,
    pub inv: Vec<f32>,
    pub vx: Vec<f32>,
    pub vy: Vec<f32>,
    pub root: Vec<u32>,
    pub damaged: Vec<u32>,
    // triangles
    pub ta: Vec<u32>,
    pub tb: Vec<u32>,
    pub tc: Vec<u32>,
    pub volume: Vec<f32>,
    pub tstress: Vec<f32>,
    // edges
    pub ea: Vec<u32>,
    pub eb: Vec<u32>,
    pub structural: Vec<u32>,
    pub torn: Vec<u32>,
    pub rest: Vec<f32>,
    pub initial: Vec<f32>,
    pub impulse: Vec<f32>,
    pub estress: Vec<f32>,
    // boundary
    pub ba: Vec<u32>,
    pub bb: Vec<u32>,
}

/// Two f32 count as equal if their bits are, or if both are NaN.
fn same(a: &[f32], b: &[f32]) -> bool {
    a.len() == b.len() && a.iter().zip(b).all(|(x, y)| x.to_bits() == y.to_bits() || (x.is_nan() && y.is_nan()))
}
impl PartialEq for Mesh {
    fn eq(&self, o: &Self) -> bool {
        self.floats().iter().zip(o.floats().iter()).all(|(a, b)| same(a, b)) && self.numbers() == o.numbers()
    }
}

/// The columns of particles, triangles, edges and boundary among `floats` and among `numbers`.
pub const COLUMNS: [(Range<usize>, Range<usize>); 4] = [(0..8, 0..2), (8..10, 2..5), (10..14, 5..9), (14..14, 9..11)];
impl Mesh {
    pub fn floats(&self) -> [&Vec<f32>; 14] {
        [
            &self.px,
            &self.py,
            &self.rx,
            &self.ry,
            &self.mass,
            &self.inv,
            &self.vx,
            &self.vy,
            &self.volume,
            &self.tstress,
            &self.rest,
            &self.initial,
            &self.impulse,
            &self.estress,
        ]
    }
    pub fn numbers(&self) -> [&Vec<u32>; 11] {
        [
            &self.root,
            &self.damaged,
            &self.ta,
            &self.tb,
            &self.tc,
            &self.ea,
            &self.eb,
            &self.structural,
            &self.torn,
            &self.ba,
            &self.bb,
        ]
    }
    pub fn floats_mut(&mut self) -> [&mut Vec<f32>; 14] {
        [
            &mut self.px,
            &mut self.py,
            &mut self.rx,
            &mut self.ry,
            &mut self.mass,
            &mut self.inv,
            &mut self.vx,
            &mut self.vy,
            &mut self.volume,
            &mut self.tstress,
            &mut self.rest,
            &mut self.initial,
            &mut self.impulse,
            &mut self.estress,
        ]
    }
    pub fn numbers_mut(&mut self) -> [&mut Vec<u32>; 11] {
        [
            &mut self.root,
            &mut self.damaged,
            &mut self.ta,
            &mut self.tb,
            &mut self.tc,
            &mut self.ea,
            &mut self.eb,
            &mut self.structural,
            &mut self.torn,
            &mut self.ba,
            &mut self.bb,
        ]
    }
    /// Drops the rows of a list that are marked.
    pub fn drop_rows(&mut self, list: usize, gone: &[bool]) {
        fn keep<T: Copy>(c: &mut Vec<T>, gone: &[bool]) {
            let mut row = gone.iter();
            c.retain(|_| row.next() == Some(&false));
        }
        let (f, n) = COLUMNS[list].clone();
        self.floats_mut()[f].iter_mut().for_each(|c| keep(c, gone));
        self.numbers_mut()[n].iter_mut().for_each(|c| keep(c, gone));
    }
    /// Appends a copy of a list's row and gives its number.
    pub fn copy_row(&mut self, list: usize, i: usize) -> usize {
        let (f, n) = COLUMNS[list].clone();
        self.floats_mut()[f].iter_mut().for_each(|c| c.push(c[i]));
        self.numbers_mut()[n].iter_mut().for_each(|c| c.push(c[i]));
        [self.px.len(), self.ta.len(), self.ea.len(), self.ba.len()][list] - 1
    }
    /// Position = rest position, mass as given, inverse by `inv` unless pinned, at rest, own root.
    pub fn particle(&mut self, x: f32, y: f32, mass: f32, pinned: bool) -> u32 {
        let i = self.px.len() as u32;
        self.px.push(x);
        self.py.push(y);
        self.rx.push(x);
        self.ry.push(y);
        self.mass.push(mass);
        self.inv.push(if pinned { 0.0 } else { crate::utils::inv(mass) });
        self.vx.push(0.0);
        self.vy.push(0.0);
        self.root.push(i);
        self.damaged.push(0);
        i
    }
    pub fn triangle(&mut self, a: u32, b: u32, c: u32, volume: f32) {
        self.ta.push(a);
        self.tb.push(b);
        self.tc.push(c);
        self.volume.push(volume);
        self.tstress.push(0.0);
    }
    pub fn edge(&mut self, a: u32, b: u32, structural: bool, rest: f32) {
        self.ea.push(a);
        self.eb.push(b);
        self.structural.push(structural as u32);
        self.torn.push(0);
        self.rest.push(rest);
        self.initial.push(rest);
        self.impulse.push(0.0);
        self.estress.push(0.0);
    }
    pub fn bound(&mut self, a: u32, b: u32) {
        self.ba.push(a);
        self.bb.push(b);
    }
    pub fn edges(&self) -> Vec<(u32, u32)> {
        self.ea.iter().copied().zip(self.eb.iter().copied()).collect()
    }
    pub fn boundary(&self) -> Vec<(u32, u32)> {
        self.ba.iter().copied().zip(self.bb.iter().copied()).collect()
    }
    pub fn triangles(&self) -> Vec<(u32, u32, u32)> {
        (0..self.ta.len()).map(|i| (self.ta[i], self.tb[i], self.tc[i])).collect()
    }

    pub fn to_body(&self, min_piece: Option<u32>) -> SoftBody {
        let mut b = SoftBody::default();
        b.material.min_piece = min_piece;
        b.particles.0 = (0..self.px.len())
            .map(|i| SoftBodyParticle {
                position: Vector::new(self.px[i], self.py[i]),
                velocity: Vector::new(self.vx[i], self.vy[i]),
                rest_position: Vector::new(self.rx[i], self.ry[i]),
                initial_rest_position: Vector::new(self.rx[i], self.ry[i]),
                mass: self.mass[i],
                inv_mass: self.inv[i],
                force: Vector::ZERO,
                next_position: None,
                split_root: self.root[i],
                damaged: self.damaged[i] == 1,
                on_surface: false,
            })
            .collect();
        b.cells = (0..self.ta.len())
            .map(|i| SoftBodyCell {
                vertices: [self.ta[i], self.tb[i], self.tc[i]],
                rest_volume: self.volume[i],
                stress: self.tstress[i],
                torn: false,
                tear_resistance: 1.0,
            })
            .collect();
        b.edges.0 = (0..self.ea.len())
            .map(|i| SoftBodyEdge {
                vertices: [self.ea[i], self.eb[i]],
                kind: if self.structural[i] == 1 { SoftBodyEdgeKind::Structural } else { SoftBodyEdgeKind::Other },
                torn: self.torn[i] == 1,
                rest_length: RestLength { rest: self.rest[i], initial: self.initial[i] },
                impulse: self.impulse[i],
                stress: self.estress[i],
                tear_resistance: 1.0,
            })
            .collect();
        b.boundary.0 = self.ba.iter().zip(&self.bb).map(|(&a, &b)| [a, b]).collect();
        b
    }
    pub fn from_body(b: &SoftBody) -> Mesh {
        let mut m = Mesh::default();
        for p in &b.particles {
            m.px.push(p.position.x);
            m.py.push(p.position.y);
            m.rx.push(p.rest_position.x);
            m.ry.push(p.rest_position.y);
            m.mass.push(p.mass);
            m.inv.push(p.inv_mass);
            m.vx.push(p.velocity.x);
            m.vy.push(p.velocity.y);
            m.root.push(p.split_root);
            m.damaged.push(p.damaged as u32);
        }
        for c in &b.cells {
            m.ta.push(c.vertices[0]);
            m.tb.push(c.vertices[1]);
            m.tc.push(c.vertices[2]);
            m.volume.push(c.rest_volume);
            m.tstress.push(c.stress);
        }
        for e in &b.edges {
            m.ea.push(e.vertices[0]);
            m.eb.push(e.vertices[1]);
            m.structural.push((e.kind == SoftBodyEdgeKind::Structural) as u32);
            m.torn.push(e.torn as u32);
            m.rest.push(e.rest_length.rest);
            m.initial.push(e.rest_length.initial);
            m.impulse.push(e.impulse);
            m.estress.push(e.stress);
        }
        for s in &b.boundary {
            m.ba.push(s[0]);
            m.bb.push(s[1]);
        }
        m
    }
}

/// What happened, in the Rust's words; `Met` is the bench's own: the blade met the pair (a, b) at the point (x, y), at fraction t.
#[derive(Copy, Clone, Debug)]
pub enum Entry {
    Split { copy: u32, source: u32 },
    Removed { a: u32, b: u32 },
    Insert { a: u32, b: u32, p: u32, q: u32, t: f32 },
    Opened { a: u32, b: u32 },
    Met { a: u32, b: u32, x: f32, y: f32, t: f32 },
}
impl PartialEq for Entry {
    fn eq(&self, o: &Self) -> bool {
        use Entry::*;
        match (*self, *o) {
            (Split { copy, source }, Split { copy: c, source: s }) => (copy, source) == (c, s),
            (Removed { a, b }, Removed { a: x, b: y }) => (a, b) == (x, y),
            (Opened { a, b }, Opened { a: x, b: y }) => (a, b) == (x, y),
            (Insert { a, b, p, q, t }, Insert { a: e, b: f, p: g, q: h, t: u }) => {
                (a, b, p, q, t.to_bits()) == (e, f, g, h, u.to_bits())
            }
            (Met { a, b, x, y, t }, Met { a: c, b: d, x: v, y: w, t: u }) => {
                (a, b, [x, y, t].map(f32::to_bits)) == (c, d, [v, w, u].map(f32::to_bits))
            }
            _ => false,
        }
    }
}

#[derive(Copy, Clone, Debug, PartialEq, Eq)]
pub enum StepKind {
    Copy,
    /// The crossings of a cut are marked.
    Mark,
    Split,
    Insert,
    Remove,
}
/// The room a step needs: counts after it, edges at their longest in it.
#[derive(Copy, Clone, Debug, PartialEq, Eq)]
pub struct Step {
    pub kind: StepKind,
    pub particles: usize,
    pub edges: usize,
    pub boundary: usize,
    pub log: usize,
}

#[derive(Clone, Debug, PartialEq)]
pub struct Outcome {
    /// Whether anything was split or inserted.
    pub changed: bool,
    pub mesh: Mesh,
    /// In order of happening.
    pub log: Vec<Entry>,
    pub steps: Vec<Step>,
}

#[derive(Copy, Clone, Debug)]
pub struct Rooms {
    pub particles: usize,
    pub edges: usize,
    pub boundary: usize,
    pub log: usize,
}
impl Rooms {
    pub const LIMITS: Rooms =
        Rooms { particles: MAX_PARTICLES, edges: MAX_EDGES, boundary: MAX_BOUNDARY, log: MAX_LOG };
}
impl Outcome {
    /// R4.2: the first step that does not fit refuses, with 5 before 6, 7, 8. 0 if all fit.
    pub fn refusal(&self, r: Rooms) -> u32 {
        for s in &self.steps {
            for (need, room, limit, no) in [
                (s.particles, r.particles, MAX_PARTICLES, 5),
                (s.edges, r.edges, MAX_EDGES, 6),
                (s.boundary, r.boundary, MAX_BOUNDARY, 7),
                (s.log, r.log, MAX_LOG, 8),
            ] {
                if need > room.min(limit) {
                    return no;
                }
            }
        }
        0
    }
}

/// Puts the separate lists of the source into the order of happening and finds the steps. `opened`
/// belongs to the first splits, one each (a crack opens by exactly one `split_vertex`). The marks of a cut
/// (request L3, a step of the bench's own) stand before all else.
fn derive(
    start: &Mesh,
    marks: Option<Vec<Entry>>,
    ops: Vec<Op>,
    log: PlainLog,
    body: &SoftBody,
) -> (Vec<Entry>, Vec<Step>) {
    let mut steps = vec![];
    let (mut np, mut ne, mut nb) = (start.px.len(), start.ea.len(), start.ba.len());
    steps.push(Step { kind: StepKind::Copy, particles: np, edges: ne, boundary: nb, log: 0 });
    if let Some(m) = &marks {
        steps.push(Step { kind: StepKind::Mark, particles: np, edges: ne, boundary: nb, log: m.len() });
    }
    let mut out = marks.unwrap_or_default();
    let (mut splits, mut removed) = (log.splits.iter(), log.removed.iter());
    let (mut inserted, mut opened) = (log.inserted.iter(), log.opened.iter());
    let mut t = f32::NAN;
    let ops: Vec<Op> = (0..ops.len())
        .filter(|&i| ops[i] != Op::AskParticles || matches!(ops.get(i + 1), Some(Op::Retain(..))))
        .map(|i| ops[i])
        .collect();
    let mut i = 0;
    while i < ops.len() {
        match ops[i] {
            Op::T(x) => {
                t = x;
                i += 1;
            }
            Op::Push(PARTICLES) => {
                let mut fresh = 0;
                let mut pinned_t = true;
                while matches!(ops[i], Op::Push(PARTICLES) | Op::T(_)) {
                    if let Op::T(x) = ops[i] {
                        pinned_t &= x.to_bits() == t.to_bits();
                        t = x;
                    } else {
                        fresh += 1;
                    }
                    i += 1;
                }
                np += fresh;
                if let Op::Extend(EDGES, k) = ops[i] {
                    // split_vertex
                    i += 1;
                    ne += k;
                    let longest = ne;
                    for _ in 0..fresh {
                        let &(copy, source) = splits.next().unwrap();
                        out.push(Entry::Split { copy, source });
                    }
                    if let Op::Retain(EDGES, k) = ops[i] {
                        i += 1;
                        assert!(k > 0);
                        ne -= k;
                        for _ in 0..k {
                            let &[a, b] = removed.next().unwrap();
                            out.push(Entry::Removed { a, b });
                        }
                    }
                    assert_eq!(ops[i], Op::AskBoundary);
                    i += 1;
                    while i < ops.len() && ops[i] == Op::Push(BOUNDARY) {
                        nb += 1;
                        i += 1;
                    }
                    if let Some(&[a, b]) = opened.next() {
                        out.push(Entry::Opened { a, b });
                    }
                    steps.push(Step {
                        kind: StepKind::Split,
                        particles: np,
                        edges: longest,
                        boundary: nb,
                        log: out.len(),
                    });
                } else {
                    // insert_into_segment
                    assert_eq!((fresh, ops[i], ops[i + 1]), (2, Op::Push(EDGES), Op::AskBoundary));
                    assert!(pinned_t);
                    i += 2;
                    ne += 1;
                    while i < ops.len() && ops[i] == Op::Push(BOUNDARY) {
                        nb += 1;
                        i += 1;
                    }
                    let &[a, b, p, q] = inserted.next().unwrap();
                    out.push(Entry::Insert { a, b, p, q, t });
                    steps.push(Step { kind: StepKind::Insert, particles: np, edges: ne, boundary: nb, log: out.len() });
                }
            }
            Op::Retain(EDGES, _) | Op::AskParticles => {
                // cut_segments' own removal, or remove_straddlers_across_pieces.
                let (longest, most) = (ne, nb);
                let catch_all = ops[i] == Op::AskParticles;
                i += catch_all as usize;
                if let Op::Retain(EDGES, k) = ops[i] {
                    assert!(k > 0);
                    ne -= k;
                    for _ in 0..k {
                        let &[a, b] = removed.next().unwrap();
                        out.push(Entry::Removed { a, b });
                    }
                    i += 1;
                }
                if catch_all {
                    let Op::Retain(BOUNDARY, k) = ops[i] else { panic!("journal: {:?} at {i}", ops[i]) };
                    nb -= k;
                    i += 1;
                }
                steps.push(Step {
                    kind: StepKind::Remove,
                    particles: np,
                    edges: longest,
                    boundary: most,
                    log: out.len(),
                });
            }
            other => panic!("journal: {other:?} at {i}"),
        }
    }
    assert!(splits.next().is_none() && removed.next().is_none());
    assert!(inserted.next().is_none() && opened.next().is_none());
    assert_eq!((np, ne, nb), (body.particles.0.len(), body.edges.0.len(), body.boundary.0.len()));
    (out, steps)
}

fn finish(start: &Mesh, marks: Option<Vec<Entry>>, body: SoftBody, log: PlainLog) -> Outcome {
    let changed = !log.splits.is_empty() || !log.inserted.is_empty();
    let (log, steps) = derive(start, marks, journal::take(), log, &body);
    Outcome { changed, mesh: Mesh::from_body(&body), log, steps }
}

/// The marks of a blade's crossings on a mesh, by `blade_hit` in the order of the source's loops, and every point that it computed for them.
fn crossings(m: &Mesh, blade: Blade) -> (Vec<Entry>, Vec<(Vector, f32)>) {
    let (mut marks, mut points) = (vec![], vec![]);
    journal::hits();
    access::tested(&m.to_body(None), blade.ends(), |a, b, hit| {
        points.extend(journal::hits());
        if let Some(t) = hit {
            let (p, _) = points.last().expect("the point of a hit");
            marks.push(Entry::Met { a, b, x: p.x, y: p.y, t });
        }
    });
    (marks, points)
}

#[derive(Copy, Clone, Debug)]
pub struct Blade {
    pub x0: f32,
    pub y0: f32,
    pub x1: f32,
    pub y1: f32,
}
impl Blade {
    pub fn new(x0: f32, y0: f32, x1: f32, y1: f32) -> Self {
        Blade { x0, y0, x1, y1 }
    }
    pub fn ends(self) -> [Vector; 2] {
        [Vector::new(self.x0, self.y0), Vector::new(self.x1, self.y1)]
    }
}

pub fn kind(m: &Mesh) -> u32 {
    access::kind(&m.to_body(None))
}

/// The cut entry of R9.10: `cut_facets` or `cut_segments`, nothing after it.
pub fn cut(m: &Mesh, blade: Blade, fraction: f32) -> Outcome {
    let _g = journal::LOCK.lock().unwrap_or_else(|e| e.into_inner());
    journal::set_fraction(fraction);
    assert_eq!(access::fraction().to_bits(), fraction.to_bits());
    let (marks, points) = crossings(m, blade);
    journal::start();
    let mut b = m.to_body(None);
    let log = access::cut_core(&mut b, blade.ends());
    // The cut itself computed the same points, one by one: it looks in this order.
    let bits = |l: &[(Vector, f32)]| l.iter().map(|(p, t)| [p.x, p.y, *t].map(f32::to_bits)).collect::<Vec<_>>();
    assert_eq!(bits(&journal::hits()), bits(&points));
    finish(m, Some(marks), b, log)
}

/// The crate's whole `cut_topology`: the same, then (if anything was split or inserted) `damaged`
/// on every split source, copy and all four particles of each insertion, then
/// `remove_straddlers_across_pieces`.
pub fn cut_whole(m: &Mesh, blade: Blade, fraction: f32) -> Outcome {
    let first = cut(m, blade, fraction);
    let _g = journal::LOCK.lock().unwrap_or_else(|e| e.into_inner());
    journal::set_fraction(fraction);
    journal::start();
    let mut b = m.to_body(None);
    let (done, event) = access::cut_topology(&mut b, blade.ends());
    assert_eq!(done, first.changed);
    let ops = journal::take();
    if !done {
        // Nothing split or inserted, yet straddlers of cut_segments cannot have gone either.
        assert_eq!(Mesh::from_body(&b), first.mesh);
        return first;
    }
    let inserted: Vec<[u32; 4]> = first
        .log
        .iter()
        .filter_map(|e| match *e {
            Entry::Insert { a, b, p, q, .. } => Some([a, b, p, q]),
            _ => None,
        })
        .collect();
    assert_eq!(inserted.iter().flat_map(|&[_, _, p, q]| [p, q]).collect::<Vec<_>>(), event.inserted_particles);
    let log = PlainLog { splits: event.split_particles, removed: event.removed_edges, inserted, opened: vec![] };
    let (log, steps) = derive(m, Some(crossings(m, blade).0), ops, log, &b);
    Outcome { changed: true, mesh: Mesh::from_body(&b), log, steps }
}

/// Each pair that a cut of triangles tests, in its order, with the point and t that `blade_hit` computes for it before its end test, and with its verdict.
pub fn tested(m: &Mesh, blade: Blade) -> Vec<(u32, u32, Option<(Vector, f32)>, bool)> {
    let mut out = vec![];
    journal::hits();
    access::tested(&m.to_body(None), blade.ends(), |a, b, hit| out.push((a, b, journal::hits().pop(), hit.is_some())));
    out
}
/// A cut of triangles with marks, candidates and sides that are given: the published splits at the candidates, then the published closing pass. `sides`
/// is told where the particle stands and where the corners of each element of its fan do.
pub fn cut_by(
    m: &Mesh,
    marks: Vec<Entry>,
    candidates: &[u32],
    sides: impl Fn(Vector, &[Vec<Vector>]) -> Vec<usize>,
) -> Outcome {
    journal::start();
    let mut b = m.to_body(None);
    let log = access::cut_by(&mut b, candidates, sides);
    finish(m, Some(marks), b, log)
}

pub fn crack(m: &Mesh, torn: &[u32], min_piece: Option<u32>) -> Outcome {
    journal::start();
    let mut b = m.to_body(min_piece);
    let (done, log) = access::crack(&mut b, torn);
    let o = finish(m, None, b, log);
    assert_eq!(o.changed, done);
    o
}

fn sides_of(sides: &[u32]) -> Vec<usize> {
    sides.iter().map(|&s| s as usize).collect()
}

pub fn fan(m: &Mesh, v: u32) -> Vec<u32> {
    access::fan_elements(&m.to_body(None), v)
}

/// The groups and their number.
pub fn groups(m: &Mesh, v: u32, sides: &[u32]) -> (Vec<u32>, u32) {
    let (g, n) = access::groups(&m.to_body(None), v, &sides_of(sides));
    (g.into_iter().map(|x| x as u32).collect(), n as u32)
}

pub fn split_fan(m: &Mesh, v: u32, sides: &[u32]) -> Outcome {
    journal::start();
    let mut b = m.to_body(None);
    let (done, log) = access::split_fan(&mut b, v, &sides_of(sides));
    let o = finish(m, None, b, log);
    assert_eq!(o.changed, done);
    o
}

/// `None` on a mesh that is neither triangles nor straps (the source has no fan to ask about).
pub fn opens_without_confetti(m: &Mesh, v: u32, sides: &[u32], min_piece: Option<u32>) -> Option<bool> {
    access::opens_without_confetti(&m.to_body(min_piece), v, &sides_of(sides))
}

pub fn straddlers(m: &Mesh) -> Outcome {
    journal::start();
    let mut b = m.to_body(None);
    let log = access::straddlers(&mut b);
    finish(m, None, b, log)
}

pub fn rest_measure(m: &Mesh) -> f32 {
    m.to_body(None).rest_measure()
}
pub fn rest_measure_of(m: &Mesh, particles: &[u32]) -> f32 {
    m.to_body(None).rest_measure_of(particles)
}
/// The fraction of a hit, and the point that was tested.
pub fn blade_hit(blade: Blade, p: [f32; 2], q: [f32; 2]) -> Option<(f32, [f32; 2])> {
    journal::hits();
    let t = access::blade_hit(blade.ends(), Vector::new(p[0], p[1]), Vector::new(q[0], q[1]))?;
    // The benchmark keeps no record of points.
    let (hit, _) = journal::hits().last().copied().unwrap_or((Vector::ZERO, t));
    Some((t, [hit.x, hit.y]))
}

/// The pieces of R8.3, which are bodies from request L2 on: the crate's own `connected_pieces` on the elements alone. It
/// would also join by other edges and boundary, so these are taken away, and lone particles are not counted.
pub fn bodies(m: &Mesh) -> u32 {
    let mut b = m.to_body(None);
    let straps = access::kind(&b) == 2;
    b.edges.0.retain(|e| straps && e.kind == SoftBodyEdgeKind::Structural);
    b.boundary.0.clear();
    let sets = b.connected_pieces();
    sets.iter().filter(|s| s.len() > 1).count() as u32
}
/// The pieces of request L2. Straps go by bodies. Triangles are joined side by side: each side, whichever way round, names the
/// first triangle that has it, and a triangle takes over the label that it finds there.
pub fn pieces(m: &Mesh) -> u32 {
    let triangles = m.triangles();
    if triangles.is_empty() {
        return bodies(m);
    }
    let mut labels: Vec<usize> = (0..triangles.len()).collect();
    let mut first = HashMap::new();
    for (i, &(a, b, c)) in triangles.iter().enumerate() {
        for (x, y) in [(a, b), (b, c), (c, a)] {
            let j = *first.entry((x.min(y), x.max(y))).or_insert(i);
            let (old, new) = (labels[i], labels[j]);
            labels.iter_mut().filter(|l| **l == old).for_each(|l| *l = new);
        }
    }
    labels.iter().collect::<HashSet<_>>().len() as u32
}

/// Checks 1 to 3 (R3.2 to R3.4) on a mesh.
pub fn check_mesh(m: &Mesh) -> u32 {
    let (np, nt, ne, nb) = (m.px.len(), m.ta.len(), m.ea.len(), m.ba.len());
    let lengths = [(np, MAX_PARTICLES), (nt, MAX_TRIANGLES), (ne, MAX_EDGES), (nb, MAX_BOUNDARY)];
    if lengths.iter().any(|&(n, max)| n > max)
        || [&m.py, &m.rx, &m.ry, &m.mass, &m.inv, &m.vx, &m.vy].iter().any(|c| c.len() != np)
        || [&m.root, &m.damaged].iter().any(|c| c.len() != np)
        || [&m.tb, &m.tc].iter().any(|c| c.len() != nt)
        || [&m.volume, &m.tstress].iter().any(|c| c.len() != nt)
        || [&m.eb, &m.structural, &m.torn].iter().any(|c| c.len() != ne)
        || [&m.rest, &m.initial, &m.impulse, &m.estress].iter().any(|c| c.len() != ne)
        || m.bb.len() != nb
    {
        return 1;
    }
    let ok = |c: &[f32]| c.iter().all(|x| x.is_finite() && x.abs() <= MAX_NUMBER);
    if ![&m.px, &m.py, &m.rx, &m.ry, &m.mass, &m.vx, &m.vy].iter().all(|c| ok(c))
        || ![&m.tstress, &m.rest, &m.initial, &m.impulse, &m.estress].iter().all(|c| ok(c))
        || !m.inv.iter().all(|x| x.is_finite())
        || !m.volume.iter().all(|x| x.is_finite() && x.abs() <= MAX_VOLUME)
        || !m.rest.iter().chain(&m.initial).all(|x| *x >= 0.0)
        || [&m.damaged, &m.structural, &m.torn].iter().any(|c| c.iter().any(|&f| f > 1))
    {
        return 2;
    }
    let n = np as u32;
    let there = |c: &[u32]| c.iter().all(|&i| i < n);
    if ![&m.root, &m.ta, &m.tb, &m.tc, &m.ea, &m.eb, &m.ba, &m.bb].iter().all(|c| there(c))
        || m.triangles().iter().any(|&(a, b, c)| a == b || b == c || a == c)
        || m.edges().iter().any(|&(a, b)| a == b)
        || m.boundary().iter().any(|&(a, b)| a == b)
    {
        return 3;
    }
    0
}
/// Check 2 on a blade or a point.
pub fn number_ok(x: f32) -> bool {
    x.is_finite() && x.abs() <= MAX_NUMBER
}
/// Check 4 on an insertion fraction (a NaN is outside).
pub fn fraction_ok(f: f32) -> bool {
    (0.0..=0.5).contains(&f)
}
