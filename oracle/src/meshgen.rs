//! Random meshes and calls, all of them accepted by checks 1 to 4 (docs/RULES.md, R3).
use crate::api::*;
use crate::rng::Rng;
use crate::vectors::{Call, Case};

fn dist(m: &Mesh, a: u32, b: u32) -> f32 {
    let (a, b) = (a as usize, b as usize);
    let (dx, dy) = (m.rx[a] - m.rx[b], m.ry[a] - m.ry[b]);
    (dx * dx + dy * dy).sqrt().min(MAX_NUMBER)
}
fn area(m: &Mesh, a: u32, b: u32, c: u32) -> f32 {
    let (a, b, c) = (a as usize, b as usize, c as usize);
    let s = (m.rx[b] - m.rx[a]) * (m.ry[c] - m.ry[a]) - (m.ry[b] - m.ry[a]) * (m.rx[c] - m.rx[a]);
    (s * 0.5).clamp(-MAX_VOLUME, MAX_VOLUME)
}

/// A coordinate by the mesh's mood.
pub fn coordinate(r: &mut Rng, mood: u32, base: f32) -> f32 {
    match mood {
        0 => base,
        1 => base + r.span(-0.3, 0.3),
        2 => base * 7.0 - 3.0,
        3 => (base - 2.0) * 1.0e-22,
        4 => (base - 2.0) * 200_000.0,
        5 => r.pick(&[0.0, -0.0, 1.0, -1.0, 2.0, f32::MIN_POSITIVE, 1.0e-45, -1.0e-45, 1_048_576.0, -1_048_576.0]),
        6 => r.range(-3, 3) as f32,
        7 => f32::from_bits(((r.next() as u32) % 0x4980_0001) | ((r.below(2)) << 31)),
        _ => r.span(-1024.0, 1024.0),
    }
}
/// A stress by the mesh's mood: mixed, all negative, a few values (ties, zeros, tiny), wide.
fn stress(r: &mut Rng, mood: u32) -> f32 {
    match mood {
        0 => r.pick(&[0.0, -0.0, 1.0, -1.0, 0.5, 2.0, 3.0, 1.0e-45, -1.0e-45, 0.1, 1.0e-30, 7.25]),
        1 => -r.span(0.0, 3.0),
        2 => r.pick(&[0.0, -0.0, 1.0e-45, -1.0e-45, -1.0e-45, -2.8e-45]),
        3 => r.pick(&[MAX_NUMBER, -MAX_NUMBER, 1.0, 0.3333]),
        _ => r.span(-1.0, 4.0),
    }
}

/// Topology first; positions by mood; then the values.
pub fn mesh(r: &mut Rng) -> Mesh {
    let mut m = Mesh::default();
    let mood = r.pick(&[0, 0, 0, 1, 1, 1, 2, 3, 4, 5, 6, 6, 7, 8]);
    let mut outline = true;
    let shape = r.below(13);
    match shape {
        0..=3 => holed_grid(r, mood, &mut m),
        4 => strip(r, mood, &mut m),
        5 => pinched(r, mood, &mut m),
        6 | 7 => {
            triangles_at_random(r, mood, &mut m, if shape == 6 { 4 } else { 9 });
            outline = r.chance(2);
        }
        8 => short_rope(r, mood, &mut m),
        9 => net(r, mood, &mut m),
        10 => straps_at_random(r, mood, &mut m),
        11 => nothing(r, mood, &mut m),
        _ => touching(r, mood, &mut m),
    }
    further(r, &mut m, outline);
    values(r, &mut m);
    assert_eq!(check_mesh(&m), 0);
    m
}

/// R15.1: the fan of three triangles at particle 0, two of which share a facet.
pub fn document_fan() -> Mesh {
    let mut m = Mesh::default();
    for (x, y) in [(0., 0.), (1., 0.), (1., 1.), (0., 1.), (-1., 0.), (-1., -1.)] {
        m.particle(x, y, 1.0, false);
    }
    for [a, b, c] in [[0, 1, 2], [0, 2, 3], [0, 4, 5]] {
        m.triangle(a, b, c, 0.5);
    }
    m
}
/// R15.2: three straps at a shared end.
pub fn document_straps() -> Mesh {
    let mut m = Mesh::default();
    for i in 0..4 {
        m.particle(i as f32, (i * i) as f32, 1.0, false);
    }
    for i in 1..4 {
        m.edge(0, i, true, 1.0);
    }
    m
}

/// The corners of w by h squares, row by row.
fn lattice(r: &mut Rng, mood: u32, m: &mut Mesh, w: u32, h: u32) {
    for y in 0..=h {
        for x in 0..=w {
            let (px, py) = (coordinate(r, mood, x as f32), coordinate(r, mood, y as f32));
            m.particle(px, py, 1.0, false);
        }
    }
}
/// Grid of triangles with holes.
fn holed_grid(r: &mut Rng, mood: u32, m: &mut Mesh) {
    let (w, h) = (1 + r.below(5), 1 + r.below(5));
    lattice(r, mood, m, w, h);
    let holes = r.pick(&[0, 0, 5, 3]);
    let diagonal = r.below(3);
    for y in 0..h {
        for x in 0..w {
            let a = y * (w + 1) + x;
            let (b, c, d) = (a + 1, a + w + 2, a + w + 1);
            let other = match diagonal {
                0 => false,
                1 => true,
                _ => r.chance(2),
            };
            let (t, u, e, f) =
                if other { ([a, b, d], [b, c, d], (b, d), (a, c)) } else { ([a, b, c], [a, c, d], (a, c), (b, d)) };
            for t in [t, u] {
                if holes == 0 || !r.chance(holes) {
                    let k = r.below(3) as usize;
                    m.triangle(t[k], t[(k + 1) % 3], t[(k + 2) % 3], 0.0);
                }
            }
            m.edge(e.0, e.1, true, 0.0);
            if r.chance(2) {
                m.edge(f.0, f.1, false, 0.0);
            }
            m.edge(a, b, true, 0.0);
            m.edge(d, a, true, 0.0);
        }
    }
}
/// Strip.
fn strip(r: &mut Rng, mood: u32, m: &mut Mesh) {
    let n = 3 + r.below(10);
    for i in 0..n {
        let (x, y) = (coordinate(r, mood, (i / 2) as f32), coordinate(r, mood, (i % 2) as f32));
        m.particle(x, y, 1.0, false);
    }
    for i in 0..n - 2 {
        m.triangle(i, i + 1, i + 2, 0.0);
        m.edge(i, i + 1, true, 0.0);
        if r.chance(2) {
            m.edge(i, i + 2, r.chance(2), 0.0);
        }
    }
}
/// Fans pinched at particle 0.
fn pinched(r: &mut Rng, mood: u32, m: &mut Mesh) {
    m.particle(coordinate(r, mood, 2.0), coordinate(r, mood, 2.0), 1.0, false);
    let fans = 1 + r.below(4);
    for _ in 0..fans {
        let n = 1 + r.below(4);
        let first = m.px.len() as u32;
        for i in 0..=n {
            let (x, y) =
                (coordinate(r, mood, r.clone().below(5) as f32), coordinate(r, mood, (i + r.clone().below(3)) as f32));
            r.next();
            m.particle(x, y, 1.0, false);
        }
        for i in 0..n {
            let t = [0, first + i, first + i + 1];
            let k = r.below(3) as usize;
            m.triangle(t[k], t[(k + 1) % 3], t[(k + 2) % 3], 0.0);
            m.edge(0, first + i, true, 0.0);
        }
        m.edge(first, first + n, false, 0.0);
    }
}
/// Soup, with shared corners, doubles and edges held by three.
fn triangles_at_random(r: &mut Rng, mood: u32, m: &mut Mesh, most: u32) {
    let n = 3 + r.below(most);
    for _ in 0..n {
        let (b, c) = (r.below(5) as f32, r.below(5) as f32);
        let (x, y) = (coordinate(r, mood, b), coordinate(r, mood, c));
        m.particle(x, y, 1.0, false);
    }
    for _ in 0..1 + r.below(12) {
        let a = r.below(n);
        let b = (a + 1 + r.below(n - 1)) % n;
        let mut c = r.below(n);
        while c == a || c == b {
            c = (c + 1) % n;
        }
        m.triangle(a, b, c, 0.0);
    }
}
/// Rope with bend edges, perhaps closed.
fn short_rope(r: &mut Rng, mood: u32, m: &mut Mesh) {
    let n = 2 + r.below(12);
    for i in 0..n {
        let (x, y) = (coordinate(r, mood, i as f32 * 0.5), coordinate(r, mood, (i % 2) as f32));
        m.particle(x, y, 1.0, false);
    }
    for i in 0..n - 1 {
        if r.chance(2) { m.edge(i, i + 1, true, 0.0) } else { m.edge(i + 1, i, true, 0.0) }
    }
    if n > 2 && r.chance(2) {
        m.edge(n - 1, 0, true, 0.0);
    }
    for i in 0..n.saturating_sub(2) {
        if !r.chance(3) {
            m.edge(i, i + 2, false, 0.0);
        }
    }
}
/// Net of straps.
fn net(r: &mut Rng, mood: u32, m: &mut Mesh) {
    let (w, h) = (1 + r.below(4), 1 + r.below(4));
    lattice(r, mood, m, w, h);
    for y in 0..=h {
        for x in 0..=w {
            let a = y * (w + 1) + x;
            if x < w && !r.chance(6) {
                m.edge(a, a + 1, true, 0.0);
            }
            if y < h && !r.chance(6) {
                m.edge(a, a + w + 1, true, 0.0);
            }
            if x < w && y < h && r.chance(2) {
                m.edge(a, a + w + 2, r.chance(3), 0.0);
            }
            if x + 1 < w && r.chance(2) {
                m.edge(a, a + 2, false, 0.0);
            }
        }
    }
}
/// Star and soup of straps, with parallel ones.
fn straps_at_random(r: &mut Rng, mood: u32, m: &mut Mesh) {
    let n = 2 + r.below(6);
    for i in 0..n {
        let (x, y) = (coordinate(r, mood, i as f32), coordinate(r, mood, ((i * i) % 5) as f32));
        m.particle(x, y, 1.0, false);
    }
    for _ in 0..1 + r.below(10) {
        let a = r.below(n);
        let b = (a + 1 + r.below(n - 1)) % n;
        m.edge(a, b, !r.chance(4), 0.0);
    }
}
/// Nothing: no triangles, no structural edge; perhaps no particle.
fn nothing(r: &mut Rng, mood: u32, m: &mut Mesh) {
    let n = r.below(5);
    for i in 0..n {
        let x = coordinate(r, mood, i as f32);
        m.particle(x, 0.0, 1.0, false);
    }
    if n > 1 {
        for _ in 0..r.below(4) {
            let a = r.below(n);
            m.edge(a, (a + 1 + r.below(n - 1)) % n, r.chance(4), 0.0);
        }
    }
}
/// Two blocks that touch in one corner, and a lone particle.
fn touching(r: &mut Rng, mood: u32, m: &mut Mesh) {
    for i in 0..8 {
        let (b, c) = ([0., 1., 0., 1., 2., 1., 2., 3.][i], [0., 0., 1., 1., 1., 2., 2., 3.][i]);
        let (x, y) = (coordinate(r, mood, b), coordinate(r, mood, c));
        m.particle(x, y, 1.0, false);
    }
    for t in [[0, 1, 3], [0, 3, 2], [3, 4, 6], [3, 6, 5]] {
        m.triangle(t[0], t[1], t[2], 0.0);
    }
    for (a, b) in [(0, 3), (3, 6), (2, 5), (1, 4)] {
        m.edge(a, b, r.chance(2), 0.0);
    }
    for _ in 0..r.below(4) {
        let a = r.below(8);
        m.edge(a, (a + 1 + r.below(7)) % 8, r.chance(2), 0.0);
    }
}
/// Further edges and boundary entries, right and wrong.
fn further(r: &mut Rng, m: &mut Mesh, outline: bool) {
    let n = m.px.len() as u32;
    if n > 1 {
        for _ in 0..r.pick(&[0, 0, 0, 1, 2, 6]) {
            let a = r.below(n);
            let kind = if m.ta.is_empty() { r.chance(5) } else { r.chance(2) };
            m.edge(a, (a + 1 + r.below(n - 1)) % n, kind, 0.0);
        }
        if !m.ta.is_empty() {
            let ts = m.triangles();
            if outline {
                for &(a, b, c) in &ts {
                    for (x, y) in [(a, b), (b, c), (c, a)] {
                        let held =
                            ts.iter().filter(|t| [t.0, t.1, t.2].contains(&x) && [t.0, t.1, t.2].contains(&y)).count();
                        if held == 1 {
                            m.bound(x, y);
                        }
                    }
                }
            }
        } else if outline {
            for i in 0..m.ea.len() {
                if m.structural[i] == 1 && !r.chance(4) {
                    let (a, b) = (m.ea[i], m.eb[i]);
                    if r.chance(2) { m.bound(a, b) } else { m.bound(b, a) }
                }
            }
        }
        for _ in 0..r.pick(&[0, 0, 0, 1, 3]) {
            let a = r.below(n);
            m.bound(a, (a + 1 + r.below(n - 1)) % n);
        }
    }
}
/// A velocity for each particle, within the range of positions, by a mood of the mesh: all at rest, or of many sizes. The numbers are of a run of
/// their own, so that nothing else is drawn otherwise.
pub fn velocities(r: &Rng, m: &mut Mesh) {
    let mut r = Rng::new(r.clone().next() ^ 0x5eed);
    let mood = r.below(9);
    for v in m.vx.iter_mut().chain(&mut m.vy) {
        *v = match mood {
            0 => 0.0,
            1..=3 => r.span(-20.0, 20.0),
            4 => r.pick(&[0.0, -0.0, 1.0, -1.0, 1.0e-45, -1.0e-45, MAX_NUMBER, -MAX_NUMBER, 1.0e-30]),
            5 => r.span(-MAX_NUMBER, MAX_NUMBER),
            // Any pattern up to the limit.
            6 => f32::from_bits((r.next() as u32) % 0x4980_0001 | r.below(2) << 31),
            _ => r.range(-9, 9) as f32,
        };
    }
}
/// Numbers of every column.
pub fn values(r: &mut Rng, m: &mut Mesh) {
    velocities(r, m);
    let deformed = r.chance(3);
    let strange = r.chance(3);
    let stresses = r.below(7);
    for i in 0..m.px.len() {
        if deformed {
            m.px[i] += r.span(-0.4, 0.4);
            m.px[i] = m.px[i].clamp(-MAX_NUMBER, MAX_NUMBER);
        }
        if strange && r.chance(3) {
            m.mass[i] = r.pick(&[0.0, -0.0, 1.0e-20, 1.0e-21, 2.0e-20, -1.0, -2.5, 1_048_576.0, 1.0e-45, 0.1, 3.0]);
            m.inv[i] = crate::utils::inv(m.mass[i]);
        } else if strange && r.chance(2) {
            m.mass[i] = r.span(0.0, 10.0);
            m.inv[i] = crate::utils::inv(m.mass[i]);
        }
        if r.chance(if strange { 4 } else { 9 }) {
            m.inv[i] = r.pick(&[0.0, 0.0, -0.0]);
        } else if strange && r.chance(5) {
            m.inv[i] = r.pick(&[1.0, -1.0, f32::MAX, 1.0e-45, 3.0]);
        }
        m.root[i] = if r.chance(4) { r.below(m.px.len() as u32) } else { i as u32 };
        m.damaged[i] = r.chance(5) as u32;
    }
    for i in 0..m.ta.len() {
        m.volume[i] = match r.below(if strange { 6 } else { 20 }) {
            0 => 0.0,
            1 => r.pick(&[MAX_VOLUME, -MAX_VOLUME, -0.0, 1.0e-45, 1.0e-20]),
            2 => r.span(-3.0, 3.0),
            _ => area(m, m.ta[i], m.tb[i], m.tc[i]),
        };
        m.tstress[i] = stress(r, stresses);
    }
    let zero_rest = strange && r.chance(4);
    for i in 0..m.ea.len() {
        let d = dist(m, m.ea[i], m.eb[i]);
        m.rest[i] = match r.below(if strange { 6 } else { 20 }) {
            0 => 0.0,
            1 => r.pick(&[-0.0, 1.0e-45, MAX_NUMBER, 1.0e-20]),
            2 => r.span(0.0, 5.0),
            _ => d,
        };
        m.initial[i] = if r.chance(3) { r.pick(&[0.0, 1.0, 2.0, d, d, -0.0, 1.0e-40]) } else { m.rest[i] };
        if zero_rest {
            m.initial[i] = 0.0;
        }
        m.torn[i] = r.chance(5) as u32;
        m.impulse[i] = r.span(-2.0, 2.0);
        m.estress[i] = stress(r, stresses);
    }
}

pub fn blade(r: &mut Rng, m: &Mesh) -> Blade {
    let n = m.px.len() as u32;
    let point = |r: &mut Rng| -> (f32, f32) {
        if n == 0 || r.chance(6) {
            return (r.range(-3, 8) as f32, r.range(-3, 8) as f32);
        }
        let i = r.below(n) as usize;
        match r.below(4) {
            0 => (m.px[i], m.py[i]),
            1 => {
                let j = r.below(n) as usize;
                ((m.px[i] + m.px[j]) * 0.5, (m.py[i] + m.py[j]) * 0.5)
            }
            2 => (m.px[i] + r.range(-2, 2) as f32, m.py[i] + r.range(-2, 2) as f32),
            _ => (m.px[i] + r.span(-1.0, 1.0), m.py[i] + r.span(-1.0, 1.0)),
        }
    };
    let (a, b) = (point(r), point(r));
    let long = r.pick(&[0.0, 1.0, 1.0, 10.0]);
    let (dx, dy) = ((b.0 - a.0) * long, (b.1 - a.1) * long);
    let c = |x: f32| x.clamp(-MAX_NUMBER, MAX_NUMBER);
    if r.chance(40) {
        return Blade::new(a.0, a.1, a.0, a.1);
    }
    Blade::new(c(a.0 - dx), c(a.1 - dy), c(b.0 + dx), c(b.1 + dy))
}

pub fn sides(r: &mut Rng, m: &Mesh, v: u32) -> Vec<u32> {
    let n = fan(m, v).len();
    let mood = r.below(4);
    (0..n)
        .map(|i| match mood {
            0 => 0,
            1 => (i >= n / 2) as u32,
            _ => r.below(2),
        })
        .collect()
}
/// Torn edge numbers: any, or around the first one; some twice, some past the end.
pub fn torn(r: &mut Rng, m: &Mesh) -> Vec<u32> {
    let ne = m.ea.len() as u32;
    let mut torn: Vec<u32> = vec![];
    let near = r.chance(2);
    for _ in 0..r.pick(&[0, 1, 1, 2, 3, 4, 5, 8, 12]) {
        let mut e = r.below(ne + 1 + ne / 8);
        if near && !torn.is_empty() && torn[0] < ne {
            // again one of the first one's neighbours, perhaps itself
            let f = torn[0] as usize;
            let ends = [m.ea[f], m.eb[f]];
            for _ in 0..20 {
                let g = r.below(ne) as usize;
                if ends.contains(&m.ea[g]) || ends.contains(&m.eb[g]) {
                    e = g as u32;
                    break;
                }
            }
        }
        torn.push(e);
    }
    torn
}
fn min_piece(r: &mut Rng) -> Option<u32> {
    r.pick(&[None, Some(0), Some(1), Some(1), Some(2), Some(3), Some(5), Some(u32::MAX)])
}

/// One random call. Every call of number `seed` is the same on every machine.
pub fn case(seed: u64) -> Case {
    let mut r = Rng::new(seed);
    let r = &mut r;
    let m = mesh(r);
    let n = m.px.len() as u32;
    let which = r.below(20);
    let call = match which {
        0..=6 => {
            let fraction = r.pick(&[0.1, 0.1, 0.2, 0.0, 0.5, 0.25, 0.45, 1.0e-45]);
            let fraction = if r.chance(4) { r.span(0.0, 0.5) } else { fraction };
            Call::Cut { blade: blade(r, &m), fraction }
        }
        7..=11 => {
            let torn = torn(r, &m);
            Call::Crack { torn, min_piece: min_piece(r) }
        }
        12..=14 if n > 0 => {
            let v = r.below(n);
            Call::SplitFan { v, sides: sides(r, &m, v) }
        }
        15 => Call::Straddlers,
        16 if n > 0 => {
            let v = r.below(n);
            Call::Groups { v, sides: sides(r, &m, v) }
        }
        17 if n > 0 => {
            let v = r.below(n);
            Call::Opens { v, sides: sides(r, &m, v), min_piece: min_piece(r) }
        }
        18 => {
            let keep = r.pick(&[1, 2, 8]);
            Call::RestMeasureOf { list: (0..n).filter(|_| keep == 1 || !r.chance(keep)).collect() }
        }
        19 => {
            if r.chance(3) {
                Call::RestMeasure
            } else if r.chance(2) {
                Call::Pieces
            } else {
                let b = blade(r, &m);
                let mood = r.below(9);
                let c = |r: &mut Rng| {
                    let base = r.below(6) as f32;
                    coordinate(r, mood, base)
                };
                Call::BladeHit { blade: b, p: [c(r), c(r)], q: [c(r), c(r)] }
            }
        }
        _ => Call::Straddlers,
    };
    // Rooms: mostly the limits, else somewhere around what is needed.
    let rooms = if r.chance(3) {
        let mut near = |k: usize, max: usize| match r.below(3) {
            0 => max,
            _ => k + r.below(7) as usize,
        };
        Rooms {
            particles: near(m.px.len(), MAX_PARTICLES),
            edges: near(m.ea.len(), MAX_EDGES),
            boundary: near(m.ba.len(), MAX_BOUNDARY),
            log: near(0, MAX_LOG),
        }
    } else {
        Rooms::LIMITS
    };
    Case { seed, mesh: m, call, rooms }
}

/// A grid of w by h quads (two triangles each), all edges and both diagonals, its true outline.
pub fn grid(w: u32, h: u32, r: &mut Rng, jitter: f32) -> Mesh {
    let mut m = Mesh::default();
    for y in 0..=h {
        for x in 0..=w {
            let (jx, jy) = (r.span(-1.0, 1.0) * jitter, r.span(-1.0, 1.0) * jitter);
            m.particle(x as f32 + jx, y as f32 + jy, 1.0, false);
        }
    }
    let at = |x: u32, y: u32| y * (w + 1) + x;
    for y in 0..h {
        for x in 0..w {
            let (a, b, c, d) = (at(x, y), at(x + 1, y), at(x + 1, y + 1), at(x, y + 1));
            m.triangle(a, b, c, 0.0);
            m.triangle(a, c, d, 0.0);
            m.edge(a, c, true, 0.0);
            m.edge(b, d, false, 0.0);
        }
    }
    for y in 0..=h {
        for x in 0..=w {
            if x < w {
                m.edge(at(x, y), at(x + 1, y), true, 0.0);
            }
            if y < h {
                m.edge(at(x, y), at(x, y + 1), true, 0.0);
            }
        }
    }
    for x in 0..w {
        m.bound(at(x, 0), at(x + 1, 0));
        m.bound(at(x + 1, h), at(x, h));
    }
    for y in 0..h {
        m.bound(at(w, y), at(w, y + 1));
        m.bound(at(0, y + 1), at(0, y));
    }
    for i in 0..m.ta.len() {
        m.volume[i] = area(&m, m.ta[i], m.tb[i], m.tc[i]);
        m.tstress[i] = r.span(0.0, 2.0);
    }
    for i in 0..m.ea.len() {
        m.rest[i] = dist(&m, m.ea[i], m.eb[i]);
        m.initial[i] = m.rest[i];
        m.estress[i] = r.span(0.0, 2.0);
        m.impulse[i] = r.span(-1.0, 1.0);
    }
    velocities(r, &mut m);
    assert_eq!(check_mesh(&m), 0);
    m
}

/// Large calls, up to the limits of R2.9.
pub fn big_case(seed: u64) -> Case {
    let mut r = Rng::new(seed ^ 0xb16_b16);
    let r = &mut r;
    let (w, h) = (8 + r.below(15), 8 + r.below(15));
    let jitter = r.pick(&[0.0, 0.0, 0.2, 0.45]);
    let mut m = grid(w, h, r, jitter);
    if r.chance(3) {
        // straps: the same net without triangles
        m.ta.clear();
        m.tb.clear();
        m.tc.clear();
        m.volume.clear();
        m.tstress.clear();
    }
    for i in 0..m.px.len() {
        if r.chance(30) {
            m.inv[i] = 0.0;
        }
    }
    let (x, y) = (w as f32, h as f32);
    let call = if r.chance(3) {
        let n = m.ea.len() as u32;
        Call::Crack { torn: (0..1 + r.below(30)).map(|_| r.below(n)).collect(), min_piece: min_piece(r) }
    } else {
        let blade = match r.below(4) {
            0 => Blade::new(-1., -1., x + 1., y + 1.),
            1 => Blade::new(r.span(0., x), -1., r.span(0., x), y + 1.),
            2 => Blade::new(-1., (h / 2) as f32, x + 1., (h / 2) as f32),
            _ => Blade::new(r.span(0., x), r.span(0., y), r.span(0., x), r.span(0., y)),
        };
        Call::Cut { blade, fraction: r.pick(&[0.1, 0.2, 0.0, 0.5]) }
    };
    Case { seed, mesh: m, call, rooms: Rooms::LIMITS }
}

/// A random call with one to three faults that checks 1 to 4 look for (a fault may also miss).
pub fn bad_case(seed: u64) -> Case {
    let mut c = case(seed);
    let mut r = Rng::new(seed ^ 0xbad);
    let r = &mut r;
    for _ in 0..1 + r.below(3) {
        let number = r.pick(&[
            f32::NAN,
            f32::INFINITY,
            -f32::INFINITY,
            f32::MAX,
            1_048_576.1,
            -1_048_576.1,
            4_194_304.5,
            1_048_576.0,
            -1.0e-45,
            -0.0,
            0.5,
        ]);
        let m = &mut c.mesh;
        let n = m.px.len() as u32;
        let index = r.pick(&[n, n + 1, 1024, u32::MAX, n.wrapping_sub(1)]);
        let at = |r: &mut Rng, k: usize| r.below(k as u32) as usize;
        match r.below(16) {
            0 if n > 0 => {
                let i = at(r, n as usize);
                let k = r.below(8) as usize;
                m.floats_mut()[COLUMNS[0].0.clone()][k][i] = number;
            }
            1 if !m.ta.is_empty() => {
                let i = at(r, m.ta.len());
                if r.chance(2) { m.volume[i] = number } else { m.tstress[i] = number }
            }
            2 if !m.ea.is_empty() => {
                let i = at(r, m.ea.len());
                let k = r.below(4);
                [&mut m.rest, &mut m.initial, &mut m.impulse, &mut m.estress][k as usize][i] = number;
            }
            3 if n > 0 => m.root[at(r, n as usize)] = index,
            4 if !m.ta.is_empty() => {
                let i = at(r, m.ta.len());
                if r.chance(2) { m.tb[i] = m.tc[i] } else { m.ta[i] = index }
            }
            5 if !m.ea.is_empty() => {
                let i = at(r, m.ea.len());
                if r.chance(2) { m.ea[i] = m.eb[i] } else { m.eb[i] = index }
            }
            6 if !m.ba.is_empty() => {
                let i = at(r, m.ba.len());
                if r.chance(2) { m.bb[i] = m.ba[i] } else { m.ba[i] = index }
            }
            7 if n > 0 => m.damaged[at(r, n as usize)] = 2,
            8 if !m.ea.is_empty() => {
                let i = at(r, m.ea.len());
                if r.chance(2) { m.structural[i] = 2 } else { m.torn[i] = u32::MAX }
            }
            9 if r.chance(20) => {
                let (more, of) = (r.below(2) as usize, r.below(3));
                if n > 1 {
                    match of {
                        0 => {
                            while m.px.len() < 1024 + more {
                                m.particle(0.0, 0.0, 1.0, false);
                            }
                        }
                        1 => {
                            while m.ea.len() < 2048 + more {
                                m.edge(0, 1, false, 1.0);
                            }
                        }
                        _ => {
                            while m.ba.len() < 2048 + more {
                                m.bound(0, 1);
                            }
                        }
                    }
                }
            }
            _ => match &mut c.call {
                Call::Cut { blade, fraction } => {
                    if r.chance(2) {
                        *fraction =
                            r.pick(&[0.5, f32::from_bits(0x3f00_0001), -1.0e-45, -0.0, f32::NAN, 1.0, f32::INFINITY]);
                    } else {
                        blade.y0 = number;
                    }
                }
                Call::SplitFan { v, sides } | Call::Groups { v, sides } | Call::Opens { v, sides, .. } => {
                    match r.below(4) {
                        0 => *v = index,
                        1 => sides.push(0),
                        2 => {
                            sides.pop();
                        }
                        _ => {
                            if let Some(s) = sides.last_mut() {
                                *s = 2;
                            }
                        }
                    }
                }
                Call::RestMeasureOf { list } => {
                    if list.len() > 1 {
                        if r.chance(2) { list.swap(0, 1) } else { list[0] = list[1] }
                    }
                }
                Call::BladeHit { p, .. } => p[0] = number,
                _ => {}
            },
        }
    }
    c
}
