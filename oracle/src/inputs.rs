//! Inputs for the C functions: random ones, large ones, ones at a limit, damaged ones.
use crate::api::*;
use crate::entries::{Args, Entry, Input, Lending};
use crate::expect::{checked, outcome, result_words};
use crate::image::{Image, bytes_of, words};
use crate::meshgen;
use crate::programs::sheets;
use crate::rng::Rng;
use crate::second;
use crate::sheet::{self, Edition, MESH, Sheet};
use crate::wholes;

#[derive(Clone, Copy, Debug, PartialEq, Eq)]
pub enum Kind {
    Random,
    Large,
    Limit,
    Damaged,
}
pub const KINDS: [Kind; 4] = [Kind::Random, Kind::Large, Kind::Limit, Kind::Damaged];

/// The call of this seed; the same on every machine.
pub fn input(entry: Entry, kind: Kind, seed: u64) -> Input {
    let mut r = Rng::new(seed ^ (entry as u64) << 56 ^ (kind as u64) << 48);
    let r = &mut r;
    let mesh = match (entry, kind) {
        _ if entry.meshless() => Mesh::default(),
        (_, Kind::Large) if entry.tears() => seasoned(r),
        (_, Kind::Large) => large(r),
        (_, Kind::Limit) => at_limit(r),
        (Entry::Crack, Kind::Random) if r.chance(3) => loaded(r),
        _ => meshgen::mesh(r),
    };
    let mesh = if entry == Entry::Straddlers && kind != Kind::Limit { apart(r, mesh) } else { mesh };
    let (mesh, args) = match (entry, kind) {
        (Entry::Cut, Kind::Random | Kind::Limit | Kind::Damaged) if r.chance(4) => whole_cut(r, kind),
        _ => {
            let args = args(r, entry, kind, &mesh);
            (mesh, args)
        }
    };
    let mut i = Input { image: Image::new(mesh), args, lending: Lending::default(), out: 0 };
    let need = if entry.tears() { lend(r, &mut i) } else { need(&i) };
    i.out = match kind {
        Kind::Limit => r.pick(&[need, need, need, need + 1, need.saturating_sub(1), 0]),
        _ => need + r.pick(&[0, 0, 1, 3, 4, 17, 200]),
    };
    if kind == Kind::Damaged {
        for _ in 0..1 + r.below(2) {
            damage(r, &mut i);
        }
    }
    i
}

/// A cut of edition 2 on whole numbers; at a limit, or damaged, one that may be off them or of straps.
fn whole_cut(r: &mut Rng, kind: Kind) -> (Mesh, Args) {
    let (mut m, b) = wholes::mesh(r, kind != Kind::Random);
    let mut blade = [b.x0, b.y0, b.x1, b.y1];
    let off = [1024.0, -1024.0, 1025.0, -1025.0, 0.5, -1023.5, 1.0e-45, -0.0, 1024.0001, 0.99999994, MAX_NUMBER];
    let n = m.px.len() as u32;
    if kind != Kind::Random {
        if r.chance(3) {
            m.drop_rows(1, &vec![true; m.ta.len()]);
        }
        match r.below(4) {
            0 if n > 0 => m.px[r.below(n) as usize] = r.pick(&off),
            1 if n > 0 => m.py[r.below(n) as usize] = r.pick(&off),
            2 => blade[r.below(4) as usize] = r.pick(&off),
            _ => {}
        }
    }
    let fraction = if r.chance(3) { r.span(0.0, 0.5) } else { 0.1 };
    (m, Args::Cut { blade: blade.map(f32::to_bits), length: None, edition: 2, fraction: fraction.to_bits() })
}

/// Bytes of the answer.
pub fn need(i: &Input) -> usize {
    match &i.args {
        Args::Groups { sides, .. } => 4 + 4 * sides.len(),
        Args::BladeHit { .. } => 16,
        Args::Fan { v } => 4 + 4 * second::fan(&i.image.mesh, second::kind(&i.image.mesh), *v).len(),
        Args::Sheet { bytes } => match sheet::read(bytes, &MESH) {
            Ok((s, _)) => 4 * (5 + words(&sheet::mesh(&s).0).len()),
            Err(_) => 4 * 9,
        },
        Args::SheetWrite { fields, .. } => {
            let counts: Vec<usize> = fields.iter().take(3).map(|&n| n as usize % 5000).chain([0]).collect();
            counts.try_into().map_or(12, |c| Edition::Second.length(c).div_ceil(8))
        }
        Args::ListCut { bytes } => sheet::cutlist(bytes, false).len(),
        _ if i.entry().tears() => torn_need(i, &run(i)),
        _ => 4,
    }
}
/// The Rust's run of a call that gives a mesh, whatever is lent; `None` if a check refuses it.
fn run(i: &Input) -> Option<Outcome> {
    let mut c = i.raw();
    c.rooms = bytes_of(&[u32::MAX; 4], None);
    checked(&c).ok().map(|m| outcome(&c, &m))
}
fn torn_need(i: &Input, o: &Option<Outcome>) -> usize {
    o.as_ref().map_or(i.image.bytes().len() + 8, |o| 4 * result_words(o).len())
}
/// Lends plenty, or just enough, or (in a third of the calls) too little for one of the steps.
/// Gives the bytes of the answer.
fn lend(r: &mut Rng, i: &mut Input) -> usize {
    let ran = run(i);
    let mesh = &i.image.mesh;
    let copy = vec![[mesh.px.len(), mesh.ea.len(), mesh.ba.len(), 0]];
    let steps = ran.as_ref().map_or(copy, |o| {
        o.steps.iter().map(|s| [s.particles, s.edges, s.boundary, s.log]).collect::<Vec<[usize; 4]>>()
    });
    let most = |k: usize| steps.iter().map(|s| s[k]).max().unwrap_or(0);
    let mood = r.below(6);
    let limits = [MAX_PARTICLES, MAX_EDGES, MAX_BOUNDARY, MAX_LOG];
    let mut rooms = [0, 1, 2, 3].map(|k| match mood {
        0..=2 if k < 3 => r.pick(&[limits[k], limits[k] + 1, 5000, most(k) + 9, u32::MAX as usize]),
        0..=2 if r.chance(60) => MAX_LOG + 1,
        0..=2 => most(k) + r.pick(&[0, 1, 7, 40]),
        _ => most(k),
    });
    let lists: Vec<usize> = (0..4).filter(|&k| most(k) > 0).collect();
    // One list lacks room, now and then two.
    for _ in 0..if mood > 3 && !lists.is_empty() { 1 + r.chance(4) as u32 } else { 0 } {
        let k = r.pick(&lists);
        let needs: Vec<usize> = steps.iter().map(|s| s[k]).filter(|&n| n > 0).collect();
        rooms[k] = r.pick(&needs) - 1;
        if r.chance(4) {
            rooms[k] = r.below(rooms[k] as u32 + 1) as usize;
        }
    }
    let triangles = mesh.ta.len() as u32 + r.pick(&[0, 0, 1, 2000]);
    i.lending.places = [rooms[0] as u32, triangles, rooms[1] as u32, rooms[2] as u32];
    i.lending.log = 24 * rooms[3] + r.pick(&[0, 0, 0, 1, 12, 23]);
    torn_need(i, &ran)
}

/// Good arguments of a call on this mesh; those of the kind at a limit may be one beyond.
pub fn args(r: &mut Rng, entry: Entry, kind: Kind, m: &Mesh) -> Args {
    let n = m.px.len() as u32;
    let v = if n == 0 { 0 } else { r.below(n) };
    // A large mesh is also asked at its busiest particle.
    let v = if kind == Kind::Large && r.chance(2) { busiest(m) } else { v };
    let v = if entry == Entry::Split && n > 0 && !r.chance(4) { busy(r, m) } else { v };
    match entry {
        Entry::Root => Args::Root { bits: root_bits(r, kind) },
        Entry::BladeHit => Args::BladeHit { words: blade_words(r, kind), length: None },
        Entry::Groups => Args::Groups { v, sides: sides(r, m, v) },
        Entry::RestMeasure => Args::RestMeasure,
        Entry::RestMeasureOf => {
            let keep = r.pick(&[1, 2, 8, 100]);
            let list = (0..n).filter(|_| keep == 1 || !r.chance(keep)).collect();
            Args::RestMeasureOf { list, length: None }
        }
        Entry::Opens => {
            let minimum = r.pick(&[0, 1, 1, 2, 3, 3, 4, 5, 8, 20, 500, u32::MAX]);
            Args::Opens { v, sides: sides(r, m, v), minimum }
        }
        Entry::Pieces => Args::Pieces,
        Entry::Fan => Args::Fan { v },
        Entry::Sheet => Args::Sheet { bytes: sheet_bytes(r, kind) },
        Entry::ListCut => Args::ListCut { bytes: sheet_bytes(r, kind) },
        Entry::SheetWrite => Args::SheetWrite { fields: fields(&whole_sheet(r, kind)), length: None },
        Entry::Split => Args::Split { v, sides: sides(r, m, v) },
        Entry::Straddlers => Args::Straddlers,
        Entry::Cut => {
            let b = if kind == Kind::Large { long_blade(r, m) } else { meshgen::blade(r, m) };
            let mut blade = [b.x0, b.y0, b.x1, b.y1];
            if kind == Kind::Limit && r.chance(4) {
                blade[r.below(4) as usize] = limit_number(r, MAX_NUMBER);
            }
            let fraction = match kind {
                Kind::Limit if r.chance(3) => limit_number(r, 0.5),
                _ if r.chance(4) => r.span(0.0, 0.5),
                _ => r.pick(&[0.1, 0.1, 0.2, 0.0, 0.5, 0.25, 0.45, 1.0e-45, -0.0]),
            };
            Args::Cut { blade: blade.map(f32::to_bits), length: None, edition: 1, fraction: fraction.to_bits() }
        }
        Entry::Crack => {
            let mut torn = meshgen::torn(r, m);
            if r.chance(4) {
                torn.extend(meshgen::torn(r, m));
            }
            if r.chance(6) {
                torn.push(r.pick(&[m.ea.len() as u32, 2048, 1 << 30, u32::MAX]));
            }
            if let (true, Some(&e)) = (r.chance(6), torn.first()) {
                torn.push(e);
            }
            // The longest list that is taken, and one number more.
            if kind == Kind::Limit && !torn.is_empty() && r.chance(4) {
                torn = torn.iter().copied().cycle().take(r.pick(&[2048, 2049])).collect();
            }
            Args::Crack { torn, length: None, minimum: r.pick(&[0, 1, 1, 1, 2, 3, 3, 5, 500, u32::MAX]) }
        }
    }
}
// ---- sheets ---------------------------------------------------------------------------------

/// The fields of a sheet as words: the counts, then column behind column, without a boundary.
pub fn fields(s: &Sheet) -> Vec<u32> {
    let mut w: Vec<u32> = [s.particles.len(), s.triangles.len(), s.edges.len()].map(|n| n as u32).to_vec();
    w.extend(s.particles.iter().map(|p| p.0 as u32));
    w.extend(s.particles.iter().map(|p| p.1 as u32));
    w.extend(s.particles.iter().map(|p| p.2));
    (0..3).for_each(|k| w.extend(s.triangles.iter().map(|t| t[k])));
    w.extend(s.edges.iter().map(|e| e.0));
    w.extend(s.edges.iter().map(|e| e.1));
    w.extend(s.edges.iter().map(|e| e.2));
    w.extend(s.blade.map(|x| x as u32));
    w
}
/// The bytes of a sheet: any of the random ones; a large one; one at a limit of a mesh or of the program.
fn sheet_bytes(r: &mut Rng, kind: Kind) -> Vec<u8> {
    if kind == Kind::Random {
        return sheets::random(r.below(u32::MAX) as u64);
    }
    let mut s = whole_sheet(r, kind);
    if kind != Kind::Limit || r.chance(4) {
        sheets::type_outline(r, &mut s);
    }
    sheet::write(&s, r.pick(&[Edition::First, Edition::Second]))
}
/// A sheet whose fields fit their bits. At a limit, one list is as long as a mesh or the program takes, or one entry longer, or a
/// coordinate is at the end of its range.
fn whole_sheet(r: &mut Rng, kind: Kind) -> Sheet {
    let mesh = match kind {
        Kind::Large => large(r),
        _ => meshgen::mesh(r),
    };
    let whole = |x: f32| (x * 3.0).round().clamp(-1024.0, 1023.0) as i32;
    let mut s = Sheet {
        particles: (0..mesh.px.len()).map(|i| (whole(mesh.px[i]), whole(mesh.py[i]), r.chance(5) as u32)).collect(),
        triangles: mesh.triangles().into_iter().map(|(a, b, c)| [a, b, c]).collect(),
        edges: (0..mesh.ea.len()).map(|i| (mesh.ea[i], mesh.eb[i], mesh.structural[i])).collect(),
        boundary: mesh.boundary(),
        blade: [0; 4].map(|_| r.range(-20, 20)),
    };
    if kind == Kind::Limit {
        while s.particles.len() < 3 {
            s.particles.push((s.particles.len() as i32, 1, 0));
        }
        let more = r.below(2) as usize;
        let full = |n: usize| n + more;
        let most = r.pick(&[[MAX_PARTICLES, MAX_TRIANGLES, MAX_EDGES, MAX_BOUNDARY], [128, 128, 256, 256]]);
        match r.below(7) {
            // An outline as long as is taken, or a few sides longer.
            5 | 6 => {
                let sides = most[3] as u32 + r.below(4) - 1;
                s = sheets::spread(r, sides);
                if r.chance(6) {
                    s.edges.push((0, r.pick(&[0, 1023]), 0));
                }
            }
            0 => s.particles.resize(full(most[0]).max(s.particles.len()), (1, 2, 0)),
            1 => s.triangles.resize(full(most[1]), [0, 1, 2]),
            2 => s.edges.resize(full(most[2]), (0, 1, 0)),
            3 => s.boundary.resize(full(most[3]), (1, 2)),
            _ => s.particles[0] = (r.pick(&[-1024, 1023]), r.pick(&[-1024, 1023]), 1),
        }
    }
    s
}

/// A particle with a large fan among a few taken at random.
fn busy(r: &mut Rng, m: &Mesh) -> u32 {
    let k = second::kind(m);
    let some: Vec<u32> = (0..4).map(|_| r.below(m.px.len().min(60) as u32)).collect();
    some.into_iter().max_by_key(|&v| second::fan(m, k, v).len()).unwrap_or(0)
}
/// A blade across a large mesh, or a part of it.
pub fn long_blade(r: &mut Rng, m: &Mesh) -> Blade {
    let most = |c: &[f32]| c.iter().copied().fold(0.0, f32::max);
    let (x, y) = (most(&m.px), most(&m.py));
    match r.below(5) {
        0 => Blade::new(-1., -1., x + 1., y + 1.),
        1 => Blade::new(r.span(0., x), -1., r.span(0., x), y + 1.),
        2 => Blade::new(-1., (y / 2.).round(), x + 1., (y / 2.).round()),
        3 => Blade::new(-9., r.span(0., y), 1000., r.span(0., y)),
        _ => Blade::new(r.span(0., x), r.span(0., y), r.span(0., x), r.span(0., y)),
    }
}
fn sides(r: &mut Rng, m: &Mesh, v: u32) -> Vec<u8> {
    meshgen::sides(r, m, v).into_iter().map(|s| s as u8).collect()
}
/// A particle that most elements hold.
fn busiest(m: &Mesh) -> u32 {
    let k = second::kind(m);
    let mut held = vec![0; m.px.len()];
    for e in second::elements(m, k) {
        for w in second::corners(m, k, e) {
            held[w as usize] += 1;
        }
    }
    (0..m.px.len()).max_by_key(|&v| held[v]).unwrap_or(0) as u32
}

fn root_bits(r: &mut Rng, kind: Kind) -> u32 {
    let edges =
        [0, 1, 2, 0x7f_ffff, 0x80_0000, 0x80_0001, 0x3f7f_ffff, 0x3f80_0000, 0x3f80_0001, 0x4080_0000, 0x7f7f_ffff];
    let bad = [0x8000_0000, 0x8000_0001, 0xbf80_0000, 0x7f80_0000, 0xff80_0000, 0x7fc0_0000, 0x7f80_0001, 0xffff_ffff];
    match kind {
        Kind::Random => match r.below(4) {
            0 => (r.below(1 << 24) as f32).to_bits(),
            1 => {
                // Squares and their neighbours, where rounding turns.
                let x = r.below(1 << 12) as f32 + 0.5 * r.below(2) as f32;
                ((x * x).to_bits() + r.below(3)).saturating_sub(1)
            }
            2 => r.below(1 << 23),
            _ => r.below(0x7f80_0000),
        },
        Kind::Large => 0x7f7f_ffff - r.below(1 << 24),
        Kind::Limit => r.pick(&edges),
        Kind::Damaged => r.pick(&bad),
    }
}
fn blade_words(r: &mut Rng, kind: Kind) -> [u32; 8] {
    let m = meshgen::mesh(r);
    let b = meshgen::blade(r, &m);
    let mood = if kind == Kind::Large { r.pick(&[4, 7, 8]) } else { r.below(9) };
    let mut w = [b.x0, b.y0, b.x1, b.y1, 0.0, 0.0, 0.0, 0.0];
    for k in 4..8 {
        let base = r.below(6) as f32;
        w[k] = meshgen::coordinate(r, mood, base);
    }
    if r.chance(2) && !m.px.is_empty() {
        for (k, i) in [(4, r.below(m.px.len() as u32)), (6, r.below(m.px.len() as u32))] {
            (w[k], w[k + 1]) = (m.px[i as usize], m.py[i as usize]);
        }
    }
    if kind == Kind::Large && r.chance(2) {
        let scale = r.pick(&[1.0, 1000.0, 150_000.0]);
        w = w.map(|x| (x * scale).clamp(-MAX_NUMBER, MAX_NUMBER));
    }
    if kind == Kind::Limit {
        let k = r.below(8) as usize;
        w[k] = limit_number(r, MAX_NUMBER);
    }
    w.map(f32::to_bits)
}
/// The largest magnitude that passes, the next one, and zeros of both signs.
fn limit_number(r: &mut Rng, most: f32) -> f32 {
    let over = f32::from_bits(most.to_bits() + 1);
    r.pick(&[most, -most, over, -over, -0.0, 1.0e-45, -1.0e-45])
}

/// Grids, nets, ropes, stars and soups up to the limits.
pub fn large(r: &mut Rng) -> Mesh {
    let mut m = match r.below(5) {
        0 | 1 => {
            let (w, h) = (8 + r.below(15), 8 + r.below(15));
            let jitter = r.pick(&[0.0, 0.2]);
            meshgen::grid(w, h, r, jitter)
        }
        2 => rope(2 + r.below(1023)),
        3 => {
            let n = 100 + r.below(400);
            star(r, n)
        }
        _ => {
            let (p, t, e) = (200 + r.below(825), 100 + r.below(900), r.below(1000));
            soup(r, p, t, e)
        }
    };
    if r.chance(4) && !m.ta.is_empty() && !m.ea.is_empty() {
        (m.ta, m.tb, m.tc) = (vec![], vec![], vec![]);
        (m.volume, m.tstress) = (vec![], vec![]);
    }
    meshgen::velocities(r, &mut m);
    m
}
/// A large mesh with pins, masses and stresses of its own.
fn seasoned(r: &mut Rng) -> Mesh {
    let mut m = large(r);
    let pins = r.pick(&[10, 40, 2000]);
    for i in 0..m.px.len() {
        if r.chance(pins) {
            m.inv[i] = 0.0;
        } else if r.chance(3) {
            m.mass[i] = r.span(0.0, 4.0);
            m.inv[i] = crate::utils::inv(m.mass[i]);
        }
    }
    m.tstress.iter_mut().for_each(|x| *x = r.span(-1.0, 3.0));
    m.estress.iter_mut().for_each(|x| *x = r.span(-1.0, 3.0));
    m.impulse.iter_mut().for_each(|x| *x = r.span(-1.0, 1.0));
    m
}
/// A small grid whose loads come from its edges alone, so that a crack next to another would find
/// other loads if it read them again.
fn loaded(r: &mut Rng) -> Mesh {
    let (w, h) = (2 + r.below(3), 2 + r.below(3));
    let mut m = meshgen::grid(w, h, r, 0.2);
    m.tstress.fill(0.0);
    m.estress.iter_mut().for_each(|x| *x = r.span(0.0, 9.0));
    m
}
/// The mesh cut, with further edges and boundary entries between any particles, so that some lie
/// across pieces.
fn apart(r: &mut Rng, m: Mesh) -> Mesh {
    let cut = second::cut(&m, if m.px.len() > 60 { long_blade(r, &m) } else { meshgen::blade(r, &m) }, 0.1).mesh;
    let mut m = if r.chance(3) || check_mesh(&cut) != 0 { m } else { cut };
    let n = m.px.len() as u32;
    let other = |r: &mut Rng, a: u32| (a + 1 + r.below(n - 1)) % n;
    for _ in 0..r.pick(&[0, 1, 3, 8]) {
        if n > 1 && m.ea.len() < MAX_EDGES && m.ba.len() < MAX_BOUNDARY {
            let (a, b) = (r.below(n), r.below(n));
            m.edge(a, other(r, a), false, r.span(0.0, 2.0));
            m.bound(b, other(r, b));
        }
    }
    m
}
/// n particles in a row, joined by straps, with bend edges over each.
pub fn rope(n: u32) -> Mesh {
    let mut m = Mesh::default();
    for i in 0..n {
        m.particle(i as f32 * 0.5, (i % 2) as f32, 1.0, i == 0);
    }
    for i in 0..n - 1 {
        m.edge(i, i + 1, true, 0.5);
        m.bound(i, i + 1);
    }
    for i in 0..n.saturating_sub(2) {
        m.edge(i, i + 2, false, 1.0);
    }
    m
}
/// Many triangles around particle 0, in runs that touch each other in 0 alone.
fn star(r: &mut Rng, n: u32) -> Mesh {
    let mut m = Mesh::default();
    m.particle(0.0, 0.0, 1.0, false);
    for i in 0..=n {
        let a = i as f32 * 0.05;
        m.particle(a.cos() * 9.0, a.sin() * 9.0, 1.0, false);
        m.edge(0, i + 1, r.chance(2), 9.0);
    }
    for i in 1..=n {
        if !r.chance(20) {
            m.triangle(0, i, i + 1, r.span(-2.0, 2.0));
        }
    }
    m
}
/// Triangles and edges between any particles.
pub fn soup(r: &mut Rng, particles: u32, triangles: u32, edges: u32) -> Mesh {
    let mut m = Mesh::default();
    for _ in 0..particles {
        let (x, y) = (r.span(-9.0, 9.0), r.span(-9.0, 9.0));
        m.particle(x, y, 1.0, false);
    }
    let near = |r: &mut Rng, a: u32| (a + 1 + r.below(3.min(particles - 1))) % particles;
    for _ in 0..triangles {
        let a = r.below(particles);
        let b = near(r, a);
        let c = near(r, b);
        if c != a {
            m.triangle(a, b, c, r.span(-3.0, 3.0));
        }
    }
    for _ in 0..edges {
        let a = r.below(particles);
        m.edge(a, near(r, a), r.chance(2), r.span(0.0, 3.0));
    }
    m
}

/// A small mesh with one list filled up to its limit or one beyond, or one number at its limit.
fn at_limit(r: &mut Rng) -> Mesh {
    let mut m = meshgen::mesh(r);
    while m.px.len() < 3 {
        m.particle(0.0, 1.0, 1.0, false);
    }
    let more = r.below(2) as usize;
    let n = m.px.len() as u32;
    let at = |r: &mut Rng, k: usize| r.below(k as u32) as usize;
    match r.below(12) {
        k @ 0..=3 => fill(&mut m, k, more),
        // Every list is full.
        10 => (0..4).for_each(|k| fill(&mut m, k, 0)),
        4 => {
            let (i, x) = (at(r, n as usize), limit_number(r, MAX_NUMBER));
            let k = r.below(8) as usize;
            m.floats_mut()[COLUMNS[0].0.clone()][k][i] = x;
        }
        5 if !m.ta.is_empty() => {
            let i = at(r, m.ta.len());
            if r.chance(2) {
                m.volume[i] = limit_number(r, MAX_VOLUME)
            } else {
                m.tstress[i] = limit_number(r, MAX_NUMBER)
            }
        }
        6 if !m.ea.is_empty() => {
            let (i, x) = (at(r, m.ea.len()), limit_number(r, MAX_NUMBER));
            let k = r.below(4) as usize;
            [&mut m.rest, &mut m.initial, &mut m.impulse, &mut m.estress][k][i] = x;
        }
        7 => {
            let i = at(r, n as usize);
            m.inv[i] = r.pick(&[f32::MAX, -f32::MAX, 1.0e-45]);
        }
        8 => {
            let i = at(r, n as usize);
            m.root[i] = n - 1 + more as u32;
        }
        9 => m = Mesh::default(),
        _ => {}
    }
    m
}

/// Fills list `k` up to its limit, or `more` beyond.
fn fill(m: &mut Mesh, k: u32, more: usize) {
    let n = m.px.len() as u32;
    let near = |i: usize, step: u32| (i as u32 + step) % n;
    match k {
        0 => (m.px.len()..MAX_PARTICLES + more).for_each(|_| {
            m.particle(1.0, 2.0, 1.0, false);
        }),
        1 => (m.ta.len()..MAX_TRIANGLES + more).for_each(|i| m.triangle(near(i, 0), near(i, 1), near(i, 2), 0.25)),
        2 => (m.ea.len()..MAX_EDGES + more).for_each(|i| m.edge(near(i, 0), near(i, 1), i % 40 == 0, 0.25)),
        _ => (m.ba.len()..MAX_BOUNDARY + more).for_each(|i| m.bound(near(i, 0), near(i, 1))),
    }
}

/// Patterns out of range in one column or another.
const BAD_NUMBERS: [u32; 12] = [
    0x7fc0_0000,
    0x7f80_0001,
    0xffc0_0001,
    0x7f80_0000,
    0xff80_0000,
    0x7f7f_ffff,
    0x4980_0001,
    0xc980_0001,
    0x4a80_0001,
    0xca80_0001,
    0x8000_0001,
    0xbf80_0000,
];
/// One fault of those that checks 1 to 4 look for (now and then it misses).
fn damage(r: &mut Rng, i: &mut Input) {
    let arguments = i.entry().meshless() || r.chance(3);
    if arguments {
        return damage_arguments(r, i);
    }
    let m = &mut i.image.mesh;
    let n = m.px.len() as u32;
    match r.below(6) {
        0 => {
            i.image.length = None;
            let len = i.image.bytes().len();
            let other = [len + 1, len - 1, len + 4, len - 4, len - 16, 0, 3, 4, 12, 15, 16, len / 2, len / 2 & !3];
            i.image.length = Some(r.pick(&other));
        }
        1 => {
            i.image.counts = None;
            let mut c = i.image.counts();
            let k = r.below(4) as usize;
            // The last two ask for the same length in 32 bits.
            c[k] =
                r.pick(&[c[k] + 1, c[k].saturating_sub(1), 1025, 2049, u32::MAX, c[k] + (1 << 29), c[k] + (1 << 31)]);
            i.image.counts = Some(c);
        }
        2 | 3 => {
            let k = r.below(14) as usize;
            let column = &mut *m.floats_mut()[k];
            if !column.is_empty() {
                let at = r.below(column.len() as u32) as usize;
                column[at] = f32::from_bits(r.pick(&BAD_NUMBERS));
            }
        }
        4 => {
            // Flags (1, 7, 8) and indices (the rest).
            let k = r.below(11) as usize;
            let column = &mut *m.numbers_mut()[k];
            if !column.is_empty() {
                let at = r.below(column.len() as u32) as usize;
                column[at] = match k {
                    1 | 7 | 8 => r.pick(&[2, 3, 256, 0x1_0000, u32::MAX]),
                    _ => r.pick(&[n, n + 1, 1024, 1 << 31, u32::MAX]),
                };
            }
        }
        _ => double(r, m),
    }
}
/// One particle named twice.
fn double(r: &mut Rng, m: &mut Mesh) {
    let which = r.below(5);
    let at = |r: &mut Rng, k: usize| r.below(k as u32) as usize;
    match which {
        0..=2 if !m.ta.is_empty() => {
            let i = at(r, m.ta.len());
            match which {
                0 => m.ta[i] = m.tb[i],
                1 => m.tb[i] = m.tc[i],
                _ => m.tc[i] = m.ta[i],
            }
        }
        3 if !m.ea.is_empty() => {
            let i = at(r, m.ea.len());
            m.ea[i] = m.eb[i];
        }
        _ if !m.ba.is_empty() => {
            let i = at(r, m.ba.len());
            m.ba[i] = m.bb[i];
        }
        _ => {}
    }
}
/// Rooms of another length, or too few triangle places.
fn damage_lending(r: &mut Rng, i: &mut Input) {
    let triangles = i.image.mesh.ta.len() as u32;
    match r.below(2) {
        0 => i.lending.length = Some(r.pick(&[0, 1, 4, 12, 15, 17, 20, 32])),
        _ => i.lending.places[1] = r.pick(&[0, triangles / 2, triangles.saturating_sub(1)]),
    }
}
/// A bit turned, bytes missing or too many, another count.
fn damage_sheet(r: &mut Rng, bytes: &mut Vec<u8>) {
    let n = bytes.len() as u32;
    match r.below(6) {
        0 if n > 0 => bytes.truncate(r.below(n) as usize),
        1 => bytes.push(r.pick(&[0, 1, 255])),
        2 => bytes.truncate(r.pick(&[0, 1, 5, 6])),
        3 if n > 0 => bytes[n as usize - 1] |= r.pick(&[1, 1, 2, 8]),
        4 if n > 5 => bytes[r.below(6) as usize] ^= 1 << r.below(8),
        _ if n > 0 => bytes[r.below(n) as usize] ^= 1 << r.below(8),
        _ => {}
    }
}
/// A count, a coordinate, a flag or a name that is none, or another length.
fn damage_fields(r: &mut Rng, w: &mut Vec<u32>, length: &mut Option<usize>) {
    let n = w.len() as u32;
    // As many particles as there can be, whatever the count says by now.
    let particles = w[0].min((n - 7) / 3);
    match r.below(6) {
        0 => *length = Some((4 * n as usize + 4 - r.pick(&[0, 1, 3, 5, 8])).min(4 * n as usize + 4)),
        1 => w[r.below(3) as usize] = r.pick(&[0, particles + 1, 1025, 2049, 1 << 31, u32::MAX]),
        2 if particles > 0 => {
            w[3 + r.below(2 * particles) as usize] = r.pick(&[1024, 1023, u32::MAX - 1024, u32::MAX - 1023, 1 << 31])
        }
        3 if particles > 0 => w[3 + (2 * particles + r.below(particles)) as usize] = r.pick(&[2, 3, u32::MAX]),
        4 => w[(n - 1 - r.below(4)) as usize] = r.pick(&[1024, u32::MAX - 1024, 1023, u32::MAX]),
        _ => {
            let k = 3 + r.below(n - 3);
            w[k as usize] = r.pick(&[particles, particles.wrapping_sub(1), 1023, 1024, 2047, u32::MAX])
        }
    }
}
fn damage_arguments(r: &mut Rng, i: &mut Input) {
    if i.entry().tears() && (i.entry() == Entry::Straddlers || r.chance(3)) {
        return damage_lending(r, i);
    }
    let n = i.image.mesh.px.len() as u32;
    let need = need(i);
    match &mut i.args {
        _ if r.chance(4) => i.out = r.pick(&[0, 1, need.saturating_sub(1), need.saturating_sub(4), need / 2]),
        Args::Fan { v } => *v = r.pick(&[n, n + 1, 1024, 1 << 31, u32::MAX]),
        Args::Sheet { bytes } | Args::ListCut { bytes } => damage_sheet(r, bytes),
        Args::SheetWrite { fields, length } => damage_fields(r, fields, length),
        Args::BladeHit { words, length } => match r.below(3) {
            0 => *length = Some(r.pick(&[0, 1, 4, 28, 31, 33, 36, 64])),
            _ => words[r.below(8) as usize] = r.pick(&BAD_NUMBERS),
        },
        Args::Cut { blade, length, edition, fraction } => match r.below(5) {
            4 => *edition = r.pick(&[0, 2, 2, 3, 257, 1 << 31, u32::MAX]),
            0 => *length = Some(r.pick(&[0, 1, 4, 12, 15, 17, 20, 32])),
            1 => *fraction = r.pick(&[0x3f00_0001, 0x3f80_0000, 0x8000_0001, 0xbf80_0000, 0x7f80_0000, 0x7fc0_0000]),
            _ => blade[r.below(4) as usize] = r.pick(&BAD_NUMBERS),
        },
        Args::Crack { torn, length, .. } => *length = Some(4 * torn.len() + r.pick(&[1, 2, 3])),
        Args::Groups { v, sides } | Args::Opens { v, sides, .. } | Args::Split { v, sides } => match r.below(4) {
            0 => *v = r.pick(&[n, n + 1, 1024, 1 << 31, u32::MAX]),
            1 => sides.push(r.below(2) as u8),
            2 => {
                sides.pop();
            }
            _ => {
                let k = sides.len() as u32;
                if k > 0 {
                    sides[r.below(k) as usize] = r.pick(&[2, 3, 128, 255]);
                }
            }
        },
        Args::RestMeasureOf { list, length } => {
            let k = list.len() as u32;
            match r.below(5) {
                0 if k > 1 => list.swap(0, 1),
                1 if k > 1 => {
                    let at = 1 + r.below(k - 1) as usize;
                    list[at] = list[at - 1];
                }
                2 if k > 1 => list.reverse(),
                3 => *length = Some(4 * list.len() + r.pick(&[1, 2, 3])),
                _ => list.push(r.pick(&[n, n + 1, u32::MAX])),
            }
        }
        _ => {}
    }
}
