//! Which elements lie in one piece, for pictures and legends. How many pieces there are is the bench's to say ([`Mesh::pieces`]); a test holds the two together.
use crate::mesh::Mesh;
use crate::refusal::Refusal;

/// One piece of a mesh.
#[derive(Clone, Debug, PartialEq)]
pub struct Piece {
    /// Its elements, rising: triangles, or straps by their edge numbers.
    pub elements: Vec<u32>,
    /// Its particles, rising.
    pub particles: Vec<u32>,
    /// What its particles weigh; one that several pieces hold counts for each of them by an equal part.
    pub mass: f32,
    /// Its rest volume, or its initial rest length.
    pub measure: f32,
}

/// The elements of a mesh: their numbers and particles.
fn elements(m: &Mesh) -> Vec<(u32, Vec<u32>)> {
    match m.triangles.is_empty() {
        false => (0..).zip(&m.triangles).map(|(k, t)| (k, t.corners.to_vec())).collect(),
        true => (0..).zip(&m.edges).filter(|(_, e)| e.structural).map(|(k, e)| (k, e.ends.to_vec())).collect(),
    }
}

/// For each element the first one of its piece.
fn firsts(elements: &[(u32, Vec<u32>)], shared: usize) -> Vec<usize> {
    let near = |i: usize, j: usize| elements[i].1.iter().filter(|v| elements[j].1.contains(v)).count() >= shared;
    let mut first = vec![usize::MAX; elements.len()];
    for start in 0..elements.len() {
        if first[start] != usize::MAX {
            continue;
        }
        first[start] = start;
        let mut edge = vec![start];
        while let Some(i) = edge.pop() {
            let found: Vec<usize> = (0..elements.len()).filter(|j| first[*j] == usize::MAX && near(i, *j)).collect();
            found.iter().for_each(|j| first[*j] = start);
            edge.extend(found);
        }
    }
    first
}

/// How many particles two elements share that lie in one piece (docs/RULES.md, R8.3): a triangle's side, or a strap's end.
fn shared(m: &Mesh) -> usize {
    if m.triangles.is_empty() { 1 } else { 2 }
}

impl Mesh {
    /// The pieces, in the order of their first elements.
    ///
    /// ```
    /// # let mut mesh = cutting_bench::Mesh::new();
    /// # for (x, y) in [(0.0, 0.0), (4.0, 0.0), (4.0, 4.0), (9.0, 0.0), (9.0, 4.0), (5.0, 4.0)] { mesh.add_particle(x, y); }
    /// mesh.add_triangle(0, 1, 2);
    /// mesh.add_triangle(3, 4, 5);
    /// let pieces = mesh.list_pieces()?;
    /// assert_eq!(pieces[1].particles, [3, 4, 5]);
    /// assert_eq!((pieces[0].mass, pieces[0].measure), (3.0, 8.0));
    /// # Ok::<(), cutting_bench::Refusal>(())
    /// ```
    pub fn list_pieces(&self) -> Result<Vec<Piece>, Refusal> {
        let count = self.pieces()?;
        let elements = elements(self);
        let first = firsts(&elements, shared(self));
        let mut pieces: Vec<Piece> = vec![];
        for k in 0..elements.len() {
            if first[k] != k {
                continue;
            }
            let own = || (0..elements.len()).filter(|j| first[*j] == k).map(|j| &elements[j]);
            let mut particles: Vec<u32> = own().flat_map(|(_, corners)| corners.clone()).collect();
            particles.sort_unstable();
            particles.dedup();
            let measure = own().map(|(number, _)| self.measure_of(*number)).sum();
            pieces.push(Piece { elements: own().map(|(number, _)| *number).collect(), particles, mass: 0.0, measure });
        }
        assert_eq!(pieces.len(), count as usize, "pieces as the bench counts them");
        let holders = |v: &u32| pieces.iter().filter(|p| p.particles.binary_search(v).is_ok()).count() as f32;
        let weight = |p: &Piece| p.particles.iter().map(|v| self.particles[*v as usize].mass / holders(v)).sum();
        let masses: Vec<f32> = pieces.iter().map(weight).collect();
        pieces.iter_mut().zip(masses).for_each(|(p, mass)| p.mass = mass);
        Ok(pieces)
    }

    /// The measure of an element.
    fn measure_of(&self, element: u32) -> f32 {
        match self.triangles.get(element as usize) {
            Some(t) => t.rest_volume.abs(),
            None => self.edges[element as usize].initial_rest_length.abs(),
        }
    }
}
