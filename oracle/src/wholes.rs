//! Random meshes and blades on whole numbers from -1,024 to 1,024, for edition 2 of a cut: many with particles and centroids on the blade's line, and with
//! blades that end on a side.
use crate::api::*;
use crate::entries::Args;
use crate::exact::Place;
use crate::meshgen;
use crate::rng::Rng;

/// As a coordinate: within the range, now and then a minus zero.
fn number(r: &mut Rng, x: i64) -> f32 {
    let x = x.clamp(-1024, 1024) as f32;
    if x == 0.0 && r.chance(4) { -0.0 } else { x }
}
fn inside((x, y): Place) -> bool {
    x.abs() <= 1024 && y.abs() <= 1024
}
fn divisor(a: i64, b: i64) -> i64 {
    if b == 0 { a.abs() } else { divisor(b, a % b) }
}
/// The places of whole numbers from a to b, ends included.
fn between(a: Place, b: Place) -> Vec<Place> {
    let (dx, dy) = (b.0 - a.0, b.1 - a.1);
    let n = divisor(dx, dy).max(1);
    (0..=n).map(|k| (a.0 + dx / n * k, a.1 + dy / n * k)).collect()
}
fn anywhere(r: &mut Rng, size: i64) -> Place {
    (r.range(-size as i32, size as i32) as i64, r.range(-size as i32, size as i32) as i64)
}
fn place(m: &Mesh, v: u32) -> Place {
    (m.px[v as usize] as i64, m.py[v as usize] as i64)
}

/// A whole blade for a mesh: through particles, places near them, places on sides, or anywhere; longer, or as it is, or none.
pub fn blade(r: &mut Rng, m: &Mesh) -> Blade {
    let n = m.px.len() as u32;
    let end = |r: &mut Rng| -> Place {
        if n == 0 || r.chance(8) {
            let size = r.pick(&[3, 9, 1024]);
            return anywhere(r, size);
        }
        let v = r.below(n);
        let (x, y) = place(m, v);
        match r.below(5) {
            0 => (x, y),
            1 => (x + r.range(-2, 2) as i64, y + r.range(-2, 2) as i64),
            2 | 3 if !m.ta.is_empty() => {
                let t = r.below(m.ta.len() as u32) as usize;
                let corners = [m.ta[t], m.tb[t], m.tc[t]];
                let k = r.below(3) as usize;
                let on = between(place(m, corners[k]), place(m, corners[(k + 1) % 3]));
                on[r.below(on.len() as u32) as usize]
            }
            _ => {
                let (a, b) = place(m, r.below(n));
                ((x + a).div_euclid(2), (y + b).div_euclid(2))
            }
        }
    };
    let (a, mut b) = (end(r), end(r));
    if r.chance(40) {
        b = a;
    }
    let long = r.pick(&[0, 0, 1, 1, 3]);
    let (dx, dy) = ((b.0 - a.0) * long, (b.1 - a.1) * long);
    let (from, to) = ((a.0 - dx, a.1 - dy), (b.0 + dx, b.1 + dy));
    let (from, to) = if inside(from) && inside(to) { (from, to) } else { (a, b) };
    Blade::new(number(r, from.0), number(r, from.1), number(r, to.0), number(r, to.1))
}

/// A cut of edition 2 along a whole blade, for a mesh on whole numbers.
pub fn second_cut(r: &mut Rng, m: &Mesh) -> Args {
    let b = blade(r, m);
    let blade = [b.x0, b.y0, b.x1, b.y1].map(f32::to_bits);
    Args::Cut { blade, length: None, edition: 2, fraction: 0.1f32.to_bits() }
}

/// The corners of w by h squares of any size, anywhere in the range, now and then moved a little; two triangles a square, some left out.
fn grid(r: &mut Rng, m: &mut Mesh) {
    let most = if r.chance(60) { 22 } else { 4 };
    let (w, h) = (1 + r.below(most), 1 + r.below(most));
    let step = match r.below(4) {
        0 => 1 + r.below(2048 / w.max(h)) as i64,
        1 => 1 + r.below(9) as i64,
        _ => 1 + r.below(3) as i64,
    };
    let room = 2048 - step * w.max(h) as i64;
    let corner = |r: &mut Rng| {
        if r.chance(3) { -1024 + r.below(room.max(1) as u32 + 1) as i64 } else { -(r.below(3) as i64) * step }
    };
    let (x0, y0) = (corner(r), corner(r));
    let moved = r.pick(&[0, 0, 1, step as i32]);
    for y in 0..=h as i64 {
        for x in 0..=w as i64 {
            let (px, py) =
                (x0 + x * step + r.range(-moved, moved) as i64, y0 + y * step + r.range(-moved, moved) as i64);
            m.particle(number(r, px), number(r, py), 1.0, false);
        }
    }
    let holes = r.pick(&[1000, 1000, 6, 3]);
    for y in 0..h {
        for x in 0..w {
            let a = y * (w + 1) + x;
            let (b, c, d) = (a + 1, a + w + 2, a + w + 1);
            for t in if r.chance(2) { [[a, b, c], [a, c, d]] } else { [[a, b, d], [b, c, d]] } {
                if !r.chance(holes) {
                    let k = r.below(3) as usize;
                    m.triangle(t[k], t[(k + 1) % 3], t[(k + 2) % 3], 0.0);
                }
            }
        }
    }
}
/// A few particles at places of a small size, and triangles of any three of them.
fn heap(r: &mut Rng, m: &mut Mesh) {
    let size = r.pick(&[1, 2, 3, 3, 7, 1024]);
    let n = 3 + r.below(7);
    for _ in 0..n {
        let (x, y) = anywhere(r, size);
        m.particle(number(r, x), number(r, y), 1.0, false);
    }
    for _ in 0..1 + r.below(9) {
        let a = r.below(n);
        let b = (a + 1 + r.below(n - 1)) % n;
        let c = (0..n).filter(|&c| c != a && c != b).nth(r.below(n - 2) as usize).expect("a third");
        m.triangle(a, b, c, 0.0);
    }
}
/// Triangles around a line: corners on it, and third corners that put the centroid on it. Gives the line's ends.
fn around(r: &mut Rng, m: &mut Mesh) -> (Place, Place) {
    let size = r.pick(&[4, 9, 60, 340, 1024]);
    let (from, to) = (anywhere(r, size), anywhere(r, size));
    let line = between(from, to);
    let on = |r: &mut Rng| line[r.below(line.len() as u32) as usize];
    for _ in 0..4 + r.below(5) {
        let n = m.px.len() as u32;
        let (x, y) = match r.below(4) {
            0 => on(r),
            1 if n > 1 => {
                let ((ax, ay), (bx, by), (gx, gy)) = (place(m, r.below(n)), place(m, r.below(n)), on(r));
                (3 * gx - ax - bx, 3 * gy - ay - by)
            }
            _ => anywhere(r, size),
        };
        let (x, y) = if inside((x, y)) { (x, y) } else { anywhere(r, size) };
        m.particle(number(r, x), number(r, y), 1.0, false);
    }
    let n = m.px.len() as u32;
    let (mut middling, mut others) = (vec![], vec![]);
    let off = |v: u32| (to.0 - from.0) * (place(m, v).1 - from.1) - (to.1 - from.1) * (place(m, v).0 - from.0);
    for a in 0..n {
        for b in a + 1..n {
            for c in b + 1..n {
                if off(a) + off(b) + off(c) == 0 { &mut middling } else { &mut others }.push([a, b, c]);
            }
        }
    }
    for _ in 0..2 + r.below(7) {
        let list = if !middling.is_empty() && r.chance(2) || others.is_empty() { &middling } else { &others };
        let t = list[r.below(list.len() as u32) as usize];
        let k = r.below(3) as usize;
        m.triangle(t[k], t[(k + 1) % 3], t[(k + 2) % 3], 0.0);
    }
    (from, to)
}
/// Any mesh, its positions rounded: triangles, straps or nothing.
fn rounded(r: &mut Rng) -> Mesh {
    let mut m = meshgen::mesh(r);
    let scale = r.pick(&[1.0, 1.0, 2.0, 7.0]);
    for x in m.px.iter_mut().chain(&mut m.py) {
        *x = (*x * scale).round().clamp(-1024.0, 1024.0);
    }
    m
}

/// An accepted mesh on whole numbers, of triangles unless straps may be, and a whole blade for it.
pub fn mesh(r: &mut Rng, any: bool) -> (Mesh, Blade) {
    let mut m = Mesh::default();
    let (mut line, mut bare) = (None, true);
    match r.below(8) {
        0 | 1 => grid(r, &mut m),
        2 | 3 => heap(r, &mut m),
        4..=6 => line = Some(around(r, &mut m)),
        _ => (m, bare) = (rounded(r), false),
    }
    if m.ta.is_empty() && !any {
        return mesh(r, any);
    }
    if bare {
        sides(r, &mut m);
        // The columns besides positions: these stay whole.
        let (px, py) = (m.px.clone(), m.py.clone());
        meshgen::values(r, &mut m);
        (m.px, m.py) = (px, py);
    }
    assert_eq!(check_mesh(&m), 0);
    let b = blade(r, &m);
    let b = match line {
        Some((f, t)) if !r.chance(5) => Blade::new(number(r, f.0), number(r, f.1), number(r, t.0), number(r, t.1)),
        _ => b,
    };
    (m, b)
}
/// Edges along sides and between any two, and boundary entries.
fn sides(r: &mut Rng, m: &mut Mesh) {
    let often = r.pick(&[2, 4, 1000]);
    for (a, b, c) in m.triangles() {
        for (x, y) in [(a, b), (b, c), (c, a)] {
            if r.chance(often) {
                m.edge(x, y, r.chance(2), 1.0);
            }
            if r.chance(often) {
                m.bound(x, y);
            }
        }
    }
    let n = m.px.len() as u32;
    for _ in 0..r.pick(&[0, 0, 1, 4]) {
        let a = r.below(n);
        m.edge(a, (a + 1 + r.below(n - 1)) % n, r.chance(2), 1.0);
    }
}
