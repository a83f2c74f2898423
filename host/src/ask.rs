//! The calls that read.
use crate::calls;
use crate::image::{bytes_of, image, words_of};
use crate::mesh::Mesh;
use crate::refusal::Refusal;

/// The groups of a fan: how many there are, and the group of each of its elements.
#[derive(Clone, Debug, PartialEq, Eq)]
pub struct Groups {
    /// The number of groups.
    pub count: u32,
    /// The group of each fan element.
    pub of: Vec<u32>,
}

/// The first n words that a call answers with, or its refusal.
pub(crate) fn answer(n: usize, call: impl FnOnce(&mut [u8]) -> u32) -> Result<Vec<u32>, Refusal> {
    let mut out = vec![0; 4 * n];
    match Refusal::of(call(&mut out)) {
        None => Ok(words_of(&out)),
        Some(why) => Err(why),
    }
}

/// The layout of images, logs, fields and results that this crate was written for.
const LAYOUT: u32 = 4;

/// Whether the archive speaks the layout of images, logs, fields and results that this crate does.
///
/// ```
/// assert!(cutting_bench::layout_fits());
/// ```
pub fn layout_fits() -> bool {
    calls::layout() == LAYOUT
}

/// The square root, correctly rounded.
///
/// ```
/// use cutting_bench::{root, Refusal};
/// assert_eq!(root(0.25), Ok(0.5));
/// assert_eq!(root(-1.0), Err(Refusal::BadArgument));
/// ```
pub fn root(x: f32) -> Result<f32, Refusal> {
    answer(1, |out| calls::root(x.to_bits(), out)).map(|w| f32::from_bits(w[0]))
}

/// Where a blade hits an edge.
#[derive(Clone, Copy, Debug, PartialEq)]
pub struct Hit {
    /// How far from the edge's first end, as a fraction of the edge.
    pub t: f32,
    /// The point that the bench found on the blade: p + (q - p) t, each operation rounded.
    pub at: [f32; 2],
}

/// Where the blade (x0, y0, x1, y1) hits the edge from p to q; `None` if it misses.
///
/// ```
/// use cutting_bench::{blade_hit, Hit};
/// let quarter = Hit { t: 0.25, at: [2.0, 0.0] };
/// assert_eq!(blade_hit([2.0, -1.0, 2.0, 1.0], [0.0, 0.0], [8.0, 0.0]), Ok(Some(quarter)));
/// assert_eq!(blade_hit([2.0, -1.0, 2.0, 1.0], [2.0, 0.0], [2.0, 5.0]), Ok(None));
/// ```
pub fn blade_hit(blade: [f32; 4], p: [f32; 2], q: [f32; 2]) -> Result<Option<Hit>, Refusal> {
    let words: Vec<u32> = blade.iter().chain(&p).chain(&q).map(|x| x.to_bits()).collect();
    let answer = answer(4, |out| calls::blade_hit(&bytes_of(&words), out))?;
    let [t, x, y] = [answer[1], answer[2], answer[3]].map(f32::from_bits);
    Ok((answer[0] == 1).then_some(Hit { t, at: [x, y] }))
}

impl Mesh {
    /// The number of pieces.
    ///
    /// ```
    /// # let mut mesh = cutting_bench::Mesh::new();
    /// # for (x, y) in [(0.0, 0.0), (4.0, 0.0), (4.0, 4.0), (9.0, 0.0), (9.0, 4.0), (5.0, 4.0)] { mesh.add_particle(x, y); }
    /// mesh.add_triangle(0, 1, 2);
    /// mesh.add_triangle(3, 4, 5);
    /// assert_eq!(mesh.pieces(), Ok(2));
    /// ```
    pub fn pieces(&self) -> Result<u32, Refusal> {
        answer(1, |out| calls::pieces(&image(self), out)).map(|w| w[0])
    }

    /// The fan of v: the elements at it, in the order in which sides are given for them; triangles, or straps (as edges) where the mesh has no triangles.
    ///
    /// ```
    /// let mut mesh = cutting_bench::Mesh::new();
    /// for x in 0..3 {
    ///     mesh.add_particle(x as f32, 0.0);
    /// }
    /// mesh.add_edge(0, 1, true);
    /// mesh.add_edge(0, 2, false);
    /// mesh.add_edge(1, 2, true);
    /// assert_eq!(mesh.fan(1)?, [0, 2]);
    /// # Ok::<(), cutting_bench::Refusal>(())
    /// ```
    pub fn fan(&self, v: u32) -> Result<Vec<u32>, Refusal> {
        // A fan has at most all edges.
        let words = answer(1 + 2048, |out| calls::fan(&image(self), v, out))?;
        Ok(words[1..=words[0] as usize].to_vec())
    }

    /// The groups of the elements at v under these sides, 0 or 1 for each element in the order of [`Mesh::fan`].
    ///
    /// ```
    /// # let mut mesh = cutting_bench::Mesh::new();
    /// # for (x, y) in [(0.0, 0.0), (1.0, 0.0), (1.0, 1.0), (0.0, 1.0), (-1.0, 0.0), (-1.0, -1.0)] { mesh.add_particle(x, y); }
    /// mesh.add_triangle(0, 1, 2);
    /// mesh.add_triangle(0, 2, 3);
    /// mesh.add_triangle(0, 4, 5);
    /// assert_eq!(mesh.groups(0, &[0, 0, 0])?.of, [0, 0, 1]);
    /// assert_eq!(mesh.groups(0, &[1, 0, 0])?.of, [2, 0, 1]);
    /// # Ok::<(), cutting_bench::Refusal>(())
    /// ```
    pub fn groups(&self, v: u32, sides: &[u8]) -> Result<Groups, Refusal> {
        let words = answer(1 + sides.len(), |out| calls::groups(&image(self), v, sides, out))?;
        Ok(Groups { count: words[0], of: words[1..].to_vec() })
    }

    /// The rest volume of all triangles, or the initial rest length of all straps.
    ///
    /// ```
    /// # let mut mesh = cutting_bench::Mesh::new();
    /// # for (x, y) in [(0.0, 0.0), (4.0, 0.0), (4.0, 4.0)] { mesh.add_particle(x, y); }
    /// mesh.add_triangle(0, 1, 2);
    /// assert_eq!(mesh.rest_measure(), Ok(8.0));
    /// ```
    pub fn rest_measure(&self) -> Result<f32, Refusal> {
        answer(1, |out| calls::rest_measure(&image(self), out)).map(|w| f32::from_bits(w[0]))
    }

    /// The same of the elements whose particles all stand in a list, which must rise.
    ///
    /// ```
    /// # use cutting_bench::Refusal;
    /// # let mut mesh = cutting_bench::Mesh::new();
    /// # for (x, y) in [(0.0, 0.0), (4.0, 0.0), (4.0, 4.0), (0.0, 4.0)] { mesh.add_particle(x, y); }
    /// mesh.add_triangle(0, 1, 2);
    /// mesh.add_triangle(0, 2, 3);
    /// assert_eq!(mesh.rest_measure_of(&[0, 2, 3]), Ok(8.0));
    /// assert_eq!(mesh.rest_measure_of(&[3, 2, 0]), Err(Refusal::BadArgument));
    /// ```
    pub fn rest_measure_of(&self, particles: &[u32]) -> Result<f32, Refusal> {
        let list = bytes_of(particles);
        answer(1, |out| calls::rest_measure_of(&image(self), &list, out)).map(|w| f32::from_bits(w[0]))
    }

    /// Whether each group at v, under these sides, would reach at least `minimum` elements without v (0 counts as 1).
    ///
    /// ```
    /// # let mut mesh = cutting_bench::Mesh::new();
    /// # for (x, y) in [(0.0, 0.0), (4.0, 0.0), (4.0, 4.0), (0.0, 4.0)] { mesh.add_particle(x, y); }
    /// mesh.add_triangle(0, 1, 2);
    /// mesh.add_triangle(0, 2, 3);
    /// assert_eq!(mesh.opens_without_confetti(0, &[0, 1], 1), Ok(true));
    /// assert_eq!(mesh.opens_without_confetti(0, &[0, 1], 3), Ok(false));
    /// ```
    pub fn opens_without_confetti(&self, v: u32, sides: &[u8], minimum: u32) -> Result<bool, Refusal> {
        answer(1, |out| calls::opens_without_confetti(&image(self), v, sides, minimum, out)).map(|w| w[0] == 1)
    }
}
