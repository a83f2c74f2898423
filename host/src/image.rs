//! A mesh as the words of an image, and back (docs/C-FUNCTIONS.md).
use crate::mesh::{Edge, Mesh, Particle, Triangle};

/// The bytes of some words.
pub(crate) fn bytes_of(words: &[u32]) -> Vec<u8> {
    words.iter().flat_map(|w| w.to_le_bytes()).collect()
}
/// The whole words at the front of some bytes.
pub(crate) fn words_of(bytes: &[u8]) -> Vec<u32> {
    bytes.chunks_exact(4).map(|c| u32::from_le_bytes([c[0], c[1], c[2], c[3]])).collect()
}
/// The length of a list as a word; one that no word holds is above every limit, and so is the largest word.
fn count<T>(list: &[T]) -> u32 {
    u32::try_from(list.len()).unwrap_or(u32::MAX)
}
/// The number of words of an image with these counts.
pub(crate) fn words_in([p, t, e, b]: [usize; 4]) -> usize {
    4 + 10 * p + 5 * t + 8 * e + 2 * b
}

/// Puts one column behind the others.
fn column<T>(words: &mut Vec<u32>, list: &[T], field: impl Fn(&T) -> u32) {
    words.extend(list.iter().map(field));
}

/// The image of a mesh.
pub(crate) fn image(m: &Mesh) -> Vec<u8> {
    let mut w = vec![count(&m.particles), count(&m.triangles), count(&m.edges), count(&m.boundary)];
    let (p, t, e) = (&m.particles, &m.triangles, &m.edges);
    column(&mut w, p, |p| p.position[0].to_bits());
    column(&mut w, p, |p| p.position[1].to_bits());
    column(&mut w, p, |p| p.rest[0].to_bits());
    column(&mut w, p, |p| p.rest[1].to_bits());
    column(&mut w, p, |p| p.mass.to_bits());
    column(&mut w, p, |p| p.inverse_mass.to_bits());
    column(&mut w, p, |p| p.velocity[0].to_bits());
    column(&mut w, p, |p| p.velocity[1].to_bits());
    column(&mut w, p, |p| p.root);
    column(&mut w, p, |p| u32::from(p.damaged));
    for k in 0..3 {
        column(&mut w, t, |t| t.corners[k]);
    }
    column(&mut w, t, |t| t.rest_volume.to_bits());
    column(&mut w, t, |t| t.stress.to_bits());
    for k in 0..2 {
        column(&mut w, e, |e| e.ends[k]);
    }
    column(&mut w, e, |e| u32::from(e.structural));
    column(&mut w, e, |e| u32::from(e.torn));
    column(&mut w, e, |e| e.rest_length.to_bits());
    column(&mut w, e, |e| e.initial_rest_length.to_bits());
    column(&mut w, e, |e| e.impulse.to_bits());
    column(&mut w, e, |e| e.stress.to_bits());
    for k in 0..2 {
        column(&mut w, &m.boundary, |b| b[k]);
    }
    bytes_of(&w)
}

/// The columns of an image, taken one after the other.
struct Columns<'a>(&'a [u32]);
impl<'a> Columns<'a> {
    fn take(&mut self, n: usize) -> &'a [u32] {
        let (column, behind) = self.0.split_at(n);
        self.0 = behind;
        column
    }
    fn floats(&mut self, n: usize) -> Vec<f32> {
        self.take(n).iter().map(|w| f32::from_bits(*w)).collect()
    }
}

/// The mesh of the image at the front of some words, which the bench wrote.
pub(crate) fn mesh(words: &[u32]) -> Mesh {
    let [np, nt, ne, nb] = [0, 1, 2, 3].map(|k| words[k] as usize);
    let mut c = Columns(&words[4..]);
    let (x, y, rx, ry, mass, inverse) =
        (c.floats(np), c.floats(np), c.floats(np), c.floats(np), c.floats(np), c.floats(np));
    let (vx, vy) = (c.floats(np), c.floats(np));
    let (root, damaged) = (c.take(np), c.take(np));
    let corners = [c.take(nt), c.take(nt), c.take(nt)];
    let (volume, load) = (c.floats(nt), c.floats(nt));
    let ends = [c.take(ne), c.take(ne)];
    let (structural, torn) = (c.take(ne), c.take(ne));
    let (rest, initial, impulse, stress) = (c.floats(ne), c.floats(ne), c.floats(ne), c.floats(ne));
    let outline = [c.take(nb), c.take(nb)];
    let particle = |i: usize| Particle {
        position: [x[i], y[i]],
        rest: [rx[i], ry[i]],
        mass: mass[i],
        inverse_mass: inverse[i],
        velocity: [vx[i], vy[i]],
        root: root[i],
        damaged: damaged[i] == 1,
    };
    let triangle = |i: usize| Triangle { corners: corners.map(|c| c[i]), rest_volume: volume[i], stress: load[i] };
    let edge = |i: usize| Edge {
        ends: ends.map(|c| c[i]),
        structural: structural[i] == 1,
        torn: torn[i] == 1,
        rest_length: rest[i],
        initial_rest_length: initial[i],
        impulse: impulse[i],
        stress: stress[i],
    };
    Mesh {
        particles: (0..np).map(particle).collect(),
        triangles: (0..nt).map(triangle).collect(),
        edges: (0..ne).map(edge).collect(),
        boundary: (0..nb).map(|i| outline.map(|c| c[i])).collect(),
    }
}

#[cfg(test)]
mod tests {
    use super::*;

    /// Each field has a word of its own, and comes back.
    #[test]
    fn an_image_comes_back() {
        let number = |k: u32| k as f32 + 0.5;
        let particle = |k: u32| Particle {
            position: [number(k), number(k + 1)],
            rest: [number(k + 2), number(k + 3)],
            mass: number(k + 4),
            inverse_mass: number(k + 5),
            velocity: [number(k + 6), number(k + 7)],
            root: k + 8,
            damaged: k < 25,
        };
        let triangle =
            |k: u32| Triangle { corners: [k, k + 1, k + 2], rest_volume: number(k + 3), stress: number(k + 4) };
        let edge = |k: u32| Edge {
            ends: [k, k + 1],
            structural: k < 75,
            torn: k > 65,
            rest_length: number(k + 2),
            initial_rest_length: number(k + 3),
            impulse: number(k + 4),
            stress: number(k + 5),
        };
        let mesh_ = Mesh {
            particles: [10, 21, 30].map(particle).to_vec(),
            triangles: [40, 50].map(triangle).to_vec(),
            edges: [60, 71, 80, 90].map(edge).to_vec(),
            boundary: vec![[1, 2], [3, 4], [5, 6], [7, 8], [9, 10]],
        };
        let bytes = image(&mesh_);
        assert_eq!(bytes.len(), 4 * words_in([3, 2, 4, 5]));
        assert_eq!(mesh(&words_of(&bytes)), mesh_);
    }
}
