//! Fans that the grouping is timed on: many elements around particle 0, in orders that are hard for it, and few of them.
use crate::api::Mesh;
use crate::rng::Rng;

/// A fan around particle 0, and the side of each of its elements.
pub struct Fan {
    pub name: &'static str,
    pub mesh: Mesh,
    pub sides: Vec<u8>,
}
const MOST: u32 = 1024;

/// Particle 0 and these many around it.
fn around(n: u32) -> Mesh {
    let mut m = Mesh::default();
    m.particle(0.0, 0.0, 1.0, false);
    for i in 0..n {
        let a = i as f32 * 0.0061;
        m.particle(a.cos() * 9.0, a.sin() * 9.0, 1.0, false);
    }
    m
}
/// Triangles around particle 0, each beside the next; `order` has the place of each along the way. So many that a mesh has not
/// the particles for them close the ring, and the last lies across it.
fn strip(order: &[u32]) -> Mesh {
    let n = order.len() as u32;
    let others = (n + 1).min(MOST - 1);
    let mut m = around(others);
    for &i in order {
        let (a, b) = if i < others { (i, (i + 1) % others) } else { (i % others, (i + 2) % others) };
        m.triangle(0, a + 1, b + 1, 1.0);
    }
    m
}
/// Straps from particle 0, some to the same particle.
fn straps(n: u32) -> Mesh {
    let others = n.min(MOST - 1);
    let mut m = around(others);
    (0..n).for_each(|i| m.edge(0, i % others + 1, true, 9.0));
    m
}
fn shuffled(r: &mut Rng, n: u32) -> Vec<u32> {
    let mut order: Vec<u32> = (0..n).collect();
    (1..n).rev().for_each(|i| order.swap(i as usize, r.below(i + 1) as usize));
    order
}
/// The first along the strip is the first of the fan, the next the last, and from there on they fall, so that a label that is
/// spread pass by pass gets one element on in each pass.
fn falling(n: u32) -> Vec<u32> {
    (0..n).map(|i| if i == 0 { 0 } else { n - i }).collect()
}
fn halves(n: u32) -> Vec<u8> {
    (0..n).map(|i| (2 * i >= n) as u8).collect()
}
fn random(r: &mut Rng, n: u32) -> Vec<u8> {
    (0..n).map(|_| r.below(2) as u8).collect()
}

pub fn fans() -> Vec<Fan> {
    let mut r = Rng::new(7);
    let mixed = shuffled(&mut r, MOST);
    let in_order = |n: u32| strip(&(0..n).collect::<Vec<u32>>());
    let fan = |name, mesh, sides| Fan { name, mesh, sides };
    // The halves along the strip, wherever its elements stand.
    let along = mixed.iter().map(|&i| (2 * i >= MOST) as u8).collect();
    let far = random(&mut r, MOST);
    vec![
        fan("fan of 1 triangle", in_order(1), halves(1)),
        fan("fan of 2 triangles", in_order(2), halves(2)),
        fan("fan of 6 triangles, two halves", in_order(6), halves(6)),
        fan("fan of 12 triangles, two halves", in_order(12), halves(12)),
        fan("fan of 6 straps, two sides", straps(6), halves(6)),
        fan("fan of 1,024 in order, one side", in_order(MOST), vec![0; 1024]),
        fan("fan of 1,024 in random order, one side", strip(&mixed), vec![0; 1024]),
        fan("fan of 1,024 in random order, two halves", strip(&mixed), along),
        fan("fan of 1,024 in random order, random sides", strip(&mixed), far),
        fan("fan of 1,024 in the worst order, one side", strip(&falling(MOST)), vec![0; 1024]),
        fan("2,048 straps at one end, two halves", straps(2048), halves(2048)),
        fan("2,048 straps at one end, random sides", straps(2048), random(&mut r, 2048)),
    ]
}
