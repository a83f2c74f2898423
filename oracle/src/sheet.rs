//! Sheets of both editions and the listing (docs/RULES.md, R13, R14 and R19), from bytes to text. Ours, not the crate's.
use crate::api::*;
use std::collections::{BTreeMap, BTreeSet};

pub struct Limits {
    pub particles: usize,
    pub triangles: usize,
    pub edges: usize,
    pub boundary: usize,
}
pub const CUTLIST: Limits = Limits { particles: 128, triangles: 128, edges: 256, boundary: 256 };
/// What a sheet may have outside of cutlist: the limits of `bench_sheet`.
pub const MESH: Limits =
    Limits { particles: MAX_PARTICLES, triangles: MAX_TRIANGLES, edges: MAX_EDGES, boundary: MAX_BOUNDARY };

#[derive(Clone, Debug, Default, PartialEq)]
pub struct Sheet {
    pub particles: Vec<(i32, i32, u32)>,
    pub triangles: Vec<[u32; 3]>,
    pub edges: Vec<(u32, u32, u32)>,
    pub boundary: Vec<(u32, u32)>,
    pub blade: [i32; 4],
}

struct Bits<'a> {
    bytes: &'a [u8],
    at: usize,
}
impl Bits<'_> {
    fn take(&mut self, n: usize) -> u32 {
        let mut x = 0;
        for _ in 0..n {
            x = x << 1 | (self.bytes[self.at / 8] >> (7 - self.at % 8) & 1) as u32;
            self.at += 1;
        }
        x
    }
    fn signed(&mut self) -> i32 {
        let x = self.take(11) as i32;
        if x >= 1024 { x - 2048 } else { x }
    }
}

/// The two editions of sheets: with a boundary that is typed, and without.
#[derive(Clone, Copy, Debug, PartialEq)]
pub enum Edition {
    First,
    Second,
}
use Edition::{First, Second};
impl Edition {
    /// The edition of bytes: the second begins with eleven ones.
    pub fn of(bytes: &[u8]) -> Edition {
        if matches!(bytes, [0xff, b, ..] if b >> 5 == 7) { Second } else { First }
    }
    /// The bits in front of the lists.
    fn header(self) -> usize {
        match self {
            First => 11 + 11 + 12 + 12,
            Second => 11 + 11 + 11 + 12,
        }
    }
    /// The bits of a sheet with these counts, before the spare ones.
    pub fn length(self, [np, nt, ne, nb]: [usize; 4]) -> usize {
        self.header() + np * 23 + nt * 30 + ne * 21 + nb * 20 + 44
    }
}

/// The counts in front of a sheet, with none for a boundary that is not typed; `None` if it is too short for them.
pub fn counts(bytes: &[u8]) -> Option<[usize; 4]> {
    let mut b = Bits { bytes, at: 0 };
    let mut next = |n: usize| b.take(n) as usize;
    (bytes.len() >= 6).then(|| match Edition::of(bytes) {
        First => [next(11), next(11), next(12), next(12)],
        Second => {
            next(11);
            [next(11), next(11), next(12), 0]
        }
    })
}
impl Limits {
    /// The lists, in order, whose count is above its limit.
    pub fn above(&self, counts: [usize; 4]) -> impl Iterator<Item = usize> {
        let limits = [self.particles, self.triangles, self.edges, self.boundary];
        (0..4).filter(move |&k| counts[k] > limits[k])
    }
}

/// What the bytes say, before a name or an outline is looked at.
pub fn typed(bytes: &[u8], l: &Limits) -> Result<Sheet, u32> {
    let counts = counts(bytes).ok_or(9u32)?;
    if l.above(counts).next().is_some() {
        return Err(1);
    }
    let edition = Edition::of(bytes);
    let bits = edition.length(counts);
    if bytes.len() != bits.div_ceil(8) {
        return Err(9);
    }
    let [np, nt, ne, nb] = counts;
    let mut b = Bits { bytes, at: edition.header() };
    let mut s = Sheet::default();
    for _ in 0..np {
        s.particles.push((b.signed(), b.signed(), b.take(1)));
    }
    for _ in 0..nt {
        s.triangles.push([b.take(10), b.take(10), b.take(10)]);
    }
    for _ in 0..ne {
        s.edges.push((b.take(10), b.take(10), b.take(1)));
    }
    for _ in 0..nb {
        s.boundary.push((b.take(10), b.take(10)));
    }
    for k in 0..4 {
        s.blade[k] = b.signed();
    }
    if b.take(bytes.len() * 8 - bits) != 0 {
        return Err(9);
    }
    Ok(s)
}

/// A side, whatever its direction.
fn side((a, b): (u32, u32)) -> (u32, u32) {
    (a.min(b), a.max(b))
}
/// The outline of a sheet whose names are sound: the sides of a single triangle, by triangle and then by side; without triangles the straps.
pub fn outline(s: &Sheet) -> Vec<(u32, u32)> {
    if s.triangles.is_empty() {
        return s.edges.iter().filter(|e| e.2 == 1).map(|&(a, b, _)| (a, b)).collect();
    }
    let faces = || s.triangles.iter().flat_map(|&[a, b, c]| [(a, b), (b, c), (c, a)]);
    let mut held = BTreeMap::new();
    faces().for_each(|f| *held.entry(side(f)).or_insert(0) += 1);
    faces().filter(|f| held[&side(*f)] == 1).collect()
}
/// Whether two outlines have the same sides: their order, direction and repeats do not count.
pub fn same_sides(a: &[(u32, u32)], b: &[(u32, u32)]) -> bool {
    let set = |l: &[(u32, u32)]| l.iter().map(|e| side(*e)).collect::<BTreeSet<_>>();
    set(a) == set(b)
}
/// The sheet as it is read, and whether its typed outline was replaced.
pub fn read(bytes: &[u8], l: &Limits) -> Result<(Sheet, bool), u32> {
    let mut s = typed(bytes, l)?;
    if check_mesh(&mesh(&s).0) == 3 {
        return Err(3);
    }
    let own = outline(&s);
    let stays = Edition::of(bytes) == First && same_sides(&s.boundary, &own);
    if !stays {
        s.boundary = own;
    }
    if s.boundary.len() > l.boundary {
        return Err(1);
    }
    Ok((s, Edition::of(bytes) == First && !stays))
}

pub fn write(s: &Sheet, edition: Edition) -> Vec<u8> {
    let mut bits: Vec<u8> = vec![];
    let mut put = |x: u32, n: usize| {
        for k in (0..n).rev() {
            bits.push((x >> k & 1) as u8);
        }
    };
    if edition == Second {
        put(2047, 11);
    }
    put(s.particles.len() as u32, 11);
    put(s.triangles.len() as u32, 11);
    put(s.edges.len() as u32, 12);
    if edition == First {
        put(s.boundary.len() as u32, 12);
    }
    for &(x, y, p) in &s.particles {
        put(x as u32 & 2047, 11);
        put(y as u32 & 2047, 11);
        put(p, 1);
    }
    for t in &s.triangles {
        for &v in t {
            put(v, 10);
        }
    }
    for &(a, b, k) in &s.edges {
        put(a, 10);
        put(b, 10);
        put(k, 1);
    }
    if edition == First {
        for &(a, b) in &s.boundary {
            put(a, 10);
            put(b, 10);
        }
    }
    for k in s.blade {
        put(k as u32 & 2047, 11);
    }
    bits.chunks(8).map(|c| c.iter().enumerate().fold(0, |x, (i, b)| x | b << (7 - i))).collect()
}

/// The sheet as lines that one can read (host/README.md has the form).
pub fn text(s: &Sheet) -> String {
    let mut out = String::new();
    for &(x, y, pinned) in &s.particles {
        out += &format!("particle {x} {y}{}\n", if pinned == 1 { " pinned" } else { "" });
    }
    for [a, b, c] in &s.triangles {
        out += &format!("triangle {a} {b} {c}\n");
    }
    for &(a, b, structural) in &s.edges {
        out += &format!("edge {a} {b}{}\n", if structural == 1 { " structural" } else { "" });
    }
    for (a, b) in &s.boundary {
        out += &format!("boundary {a} {b}\n");
    }
    let [x0, y0, x1, y1] = s.blade;
    out + &format!("blade {x0} {y0} {x1} {y1}\n")
}
pub fn mesh(s: &Sheet) -> (Mesh, Blade) {
    let mut m = Mesh::default();
    for &(x, y, pinned) in &s.particles {
        m.particle(x as f32, y as f32, 1.0, pinned == 1);
    }
    let p = |i: u32| s.particles.get(i as usize).copied().unwrap_or((0, 0, 0));
    for &[a, b, c] in &s.triangles {
        let (a_, b_, c_) = (p(a), p(b), p(c));
        let cross = (b_.0 - a_.0) * (c_.1 - a_.1) - (b_.1 - a_.1) * (c_.0 - a_.0);
        m.triangle(a, b, c, cross.abs() as f32 * 0.5);
    }
    for &(a, b, k) in &s.edges {
        let (a_, b_) = (p(a), p(b));
        let (dx, dy) = (b_.0 - a_.0, b_.1 - a_.1);
        m.edge(a, b, k == 1, ((dx * dx + dy * dy) as f32).sqrt());
    }
    for &(a, b) in &s.boundary {
        m.bound(a, b);
    }
    let [x0, y0, x1, y1] = s.blade.map(|k| k as f32);
    (m, Blade::new(x0, y0, x1, y1))
}

/// The whole of `cutlist`, with the cut entry read word for word (`whole` false) or as the crate's
/// `cut_topology` (`whole` true).
pub fn cutlist(bytes: &[u8], whole: bool) -> String {
    let refused = |n: u32| format!("refused {n}\n");
    let (s, replaced) = match read(bytes, &CUTLIST) {
        Ok(s) => s,
        Err(n) => return refused(n),
    };
    let (m, blade) = mesh(&s);
    let n = check_mesh(&m);
    if n != 0 {
        return refused(n);
    }
    let o = if whole { cut_whole(&m, blade, 0.1) } else { cut(&m, blade, 0.1) };
    let n = o.refusal(Rooms { particles: 256, edges: 512, boundary: 512, log: 640 });
    if n != 0 {
        return refused(n);
    }
    let mut out = String::from(if replaced { "tear 1\noutline replaced\n" } else { "tear 1\n" });
    for e in &o.log {
        if let Entry::Split { copy, source } = e {
            out += &format!("split {copy} {source}\n");
        }
    }
    for e in &o.log {
        if let Entry::Removed { a, b } = e {
            out += &format!("edge {a} {b}\n");
        }
    }
    for e in &o.log {
        if let Entry::Insert { a, b, p, q, .. } = e {
            out += &format!("insert {a} {b} {p} {q}\n");
        }
    }
    out + &format!("particles {}\npieces {}\n", o.mesh.px.len(), pieces(&o.mesh))
}
