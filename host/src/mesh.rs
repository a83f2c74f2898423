//! Meshes as plain structs.

/// A particle of a mesh.
#[derive(Clone, Copy, Debug, Default, PartialEq)]
pub struct Particle {
    /// Where it is: x and y.
    pub position: [f32; 2],
    /// Where it rests.
    pub rest: [f32; 2],
    /// Its mass.
    pub mass: f32,
    /// The inverse of its mass; 0 pins it.
    pub inverse_mass: f32,
    /// How fast it goes, in x and y: a copy has its source's, a particle that is put into a strap the mix of its ends'.
    pub velocity: [f32; 2],
    /// The particle that it was copied from, through all copies; its own number if it never was.
    pub root: u32,
    /// The host's mark.
    pub damaged: bool,
}

/// A triangle of foam.
#[derive(Clone, Copy, Debug, Default, PartialEq)]
pub struct Triangle {
    /// Its three particles.
    pub corners: [u32; 3],
    /// Its volume at rest.
    pub rest_volume: f32,
    /// Its load, which a crack reads.
    pub stress: f32,
}

/// An edge: a strap if it is structural and the mesh has no triangles, else a spring.
#[derive(Clone, Copy, Debug, Default, PartialEq)]
pub struct Edge {
    /// Its two particles.
    pub ends: [u32; 2],
    /// Whether it is structural.
    pub structural: bool,
    /// Whether it is torn; the bench carries it and does not read it.
    pub torn: bool,
    /// Its length at rest.
    pub rest_length: f32,
    /// Its length at rest before anything was done to it: what it weighs.
    pub initial_rest_length: f32,
    /// The host's impulse.
    pub impulse: f32,
    /// Its load, which a crack reads.
    pub stress: f32,
}

/// A mesh: triangles if it has any, else straps if an edge is structural.
///
/// The lists are plain; the functions that add to them fill in what follows from the positions.
#[derive(Clone, Debug, Default, PartialEq)]
pub struct Mesh {
    /// The particles, numbered from 0.
    pub particles: Vec<Particle>,
    /// The triangles.
    pub triangles: Vec<Triangle>,
    /// The edges.
    pub edges: Vec<Edge>,
    /// The boundary entries, two particles each.
    pub boundary: Vec<[u32; 2]>,
}

impl Mesh {
    /// A mesh of nothing.
    ///
    /// ```
    /// assert_eq!(cutting_bench::Mesh::new().pieces(), Ok(0));
    /// ```
    pub fn new() -> Mesh {
        Mesh::default()
    }

    /// Adds a free particle of mass 1 that rests where it is, has no velocity and is its own root, and gives its number.
    ///
    /// ```
    /// let mut mesh = cutting_bench::Mesh::new();
    /// assert_eq!(mesh.add_particle(2.0, 3.0), 0);
    /// assert_eq!(mesh.particles[0].rest, [2.0, 3.0]);
    /// ```
    pub fn add_particle(&mut self, x: f32, y: f32) -> u32 {
        let number = self.particles.len() as u32;
        let place = [x, y];
        self.particles.push(Particle {
            position: place,
            rest: place,
            mass: 1.0,
            inverse_mass: 1.0,
            velocity: [0.0; 2],
            root: number,
            damaged: false,
        });
        number
    }

    /// Adds such a particle that is pinned.
    ///
    /// ```
    /// let mut mesh = cutting_bench::Mesh::new();
    /// let nail = mesh.add_pin(0.0, 0.0);
    /// assert_eq!(mesh.particles[nail as usize].inverse_mass, 0.0);
    /// ```
    pub fn add_pin(&mut self, x: f32, y: f32) -> u32 {
        let number = self.add_particle(x, y);
        self.particles[number as usize].inverse_mass = 0.0;
        number
    }

    /// Where a particle rests; the origin if it is not there (the call that meets such a number refuses it).
    fn rest_of(&self, v: u32) -> [f32; 2] {
        self.particles.get(v as usize).map_or([0.0; 2], |p| p.rest)
    }

    /// Adds a triangle whose rest volume is the area between the places where its corners rest.
    ///
    /// ```
    /// let mut mesh = cutting_bench::Mesh::new();
    /// for (x, y) in [(0.0, 0.0), (4.0, 0.0), (4.0, 4.0)] {
    ///     mesh.add_particle(x, y);
    /// }
    /// mesh.add_triangle(0, 1, 2);
    /// assert_eq!(mesh.triangles[0].rest_volume, 8.0);
    /// ```
    pub fn add_triangle(&mut self, a: u32, b: u32, c: u32) {
        let ([ax, ay], [bx, by], [cx, cy]) = (self.rest_of(a), self.rest_of(b), self.rest_of(c));
        let cross = (bx - ax) * (cy - ay) - (by - ay) * (cx - ax);
        self.triangles.push(Triangle { corners: [a, b, c], rest_volume: cross.abs() * 0.5, stress: 0.0 });
    }

    /// Adds an edge as long as the places where its ends rest are apart; a spring if it is not structural.
    ///
    /// ```
    /// let mut mesh = cutting_bench::Mesh::new();
    /// mesh.add_particle(0.0, 0.0);
    /// mesh.add_particle(3.0, 4.0);
    /// mesh.add_edge(0, 1, false);
    /// assert_eq!(mesh.edges[0].rest_length, 5.0);
    /// ```
    pub fn add_edge(&mut self, a: u32, b: u32, structural: bool) {
        let ([ax, ay], [bx, by]) = (self.rest_of(a), self.rest_of(b));
        let (dx, dy) = (bx - ax, by - ay);
        let length = (dx * dx + dy * dy).sqrt();
        self.edges.push(Edge {
            ends: [a, b],
            structural,
            rest_length: length,
            initial_rest_length: length,
            ..Edge::default()
        });
    }
}
