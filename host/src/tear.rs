//! The calls that give a mesh.
use crate::calls;
use crate::image::{bytes_of, image, mesh, words_in, words_of};
use crate::mesh::Mesh;
use crate::refusal::Refusal;
use std::fmt;

/// What happened in a call, an entry of its log.
#[derive(Clone, Copy, Debug, PartialEq)]
pub enum Event {
    /// Particle `copy` is a new copy of `source`.
    Split {
        /// The new particle.
        copy: u32,
        /// The particle that was split.
        source: u32,
    },
    /// The edge from `a` to `b` went, by the particle numbers of that moment.
    Removed {
        /// Its first end.
        a: u32,
        /// Its second end.
        b: u32,
    },
    /// The strap from `a` to `b` was cut through: it became the straps `a` to `p` and `q` to `b`.
    Inserted {
        /// The strap's first end.
        a: u32,
        /// The strap's second end.
        b: u32,
        /// The new end of the first half.
        p: u32,
        /// The new end of the second half.
        q: u32,
        /// How far from `a`, as a fraction of the strap.
        t: f32,
    },
    /// The torn edge that was `a` to `b` in the input opened.
    Opened {
        /// Its first end in the input.
        a: u32,
        /// Its second end in the input.
        b: u32,
    },
    /// The blade of a cut met the side from `a` to `b` of a triangle of the input, or that strap. Each element that finds it tells it, so a side of two triangles is
    /// told twice; all of them stand before the other events.
    Crossed {
        /// The first corner, as the side was tested.
        a: u32,
        /// The second.
        b: u32,
        /// The point of the blade.
        at: [f32; 2],
        /// How far from `a`, as a fraction of the side.
        t: f32,
    },
}
impl Event {
    /// Whether it tells where a blade went, and no change of the mesh.
    ///
    /// ```
    /// use cutting_bench::Event;
    /// assert!(Event::Crossed { a: 0, b: 1, at: [2.0, 0.0], t: 0.25 }.is_mark());
    /// assert!(!Event::Removed { a: 0, b: 1 }.is_mark());
    /// ```
    pub fn is_mark(&self) -> bool {
        matches!(self, Event::Crossed { .. })
    }
}

/// The edition of the rules by which a blade cuts (docs/RULES.md, R9 and R25). A cut names its edition, so that old papers keep their answers.
///
/// `Display` says it in words; [`Edition::number`] is what the bench is told.
///
/// ```
/// use cutting_bench::{Edition, Mesh};
/// let mut foam = Mesh::new();
/// for (x, y) in [(0.0, 0.0), (1.0, 0.0), (0.0, 2.0), (0.0, 1.0)] {
///     foam.add_particle(x, y);
/// }
/// foam.add_triangle(3, 1, 2);
/// foam.add_triangle(3, 0, 1);
/// let (there, back) = ([0.0, 0.0, 1.0, 1.0], [1.0, 1.0, 0.0, 0.0]);
/// let cut = |blade, edition| foam.cut(blade, edition, 0.1).map(|torn| torn.mesh);
/// assert_ne!(cut(there, Edition::First)?, cut(back, Edition::First)?);
/// assert_eq!(cut(there, Edition::Second)?, cut(back, Edition::Second)?);
/// # Ok::<(), cutting_bench::Refusal>(())
/// ```
#[derive(Clone, Copy, Debug, PartialEq, Eq, Hash)]
pub enum Edition {
    /// 1: every number is rounded as the Rust rounds it. It takes all meshes. A triangle whose middle lies on the line may fall to either side of it, and to the other one
    /// if the line is drawn the other way. The program `cutlist` cuts by it.
    First,
    /// 2: crossings and sides are decided exactly, and a triangle whose middle lies on the line stays with the kept side, so a line cuts alike whichever way it is drawn. It takes
    /// triangles alone, and whole coordinates from -1,024 to 1,024.
    Second,
}
impl Edition {
    /// Its number.
    ///
    /// ```
    /// use cutting_bench::Edition;
    /// assert_eq!([Edition::First, Edition::Second].map(Edition::number), [1, 2]);
    /// ```
    pub fn number(self) -> u32 {
        match self {
            Edition::First => 1,
            Edition::Second => 2,
        }
    }
}
impl fmt::Display for Edition {
    fn fmt(&self, f: &mut fmt::Formatter<'_>) -> fmt::Result {
        f.write_str(match self {
            Edition::First => "the first edition, as the Rust rounds",
            Edition::Second => "the second edition, exact on whole coordinates",
        })
    }
}

/// What a call that gives a mesh gives.
#[derive(Clone, Debug, PartialEq)]
pub struct Torn {
    /// The new mesh.
    pub mesh: Mesh,
    /// What happened, in order.
    pub events: Vec<Event>,
    /// Whether anything was split or inserted. It stays false where only edges were removed.
    pub changed: bool,
}

/// The places lent to a call that gives a mesh: what it may grow to.
///
/// The default lends all that the bench can take. Then no call of a mesh of triangles is refused for particles as long as its first number of particles, plus three for
/// each triangle, less the particles that triangles held at first, is at most 1,024.
///
/// ```
/// use cutting_bench::{Edition, Mesh, Refusal, Rooms};
/// # let mut mesh = Mesh::new();
/// # for (x, y) in [(0.0, 0.0), (4.0, 0.0), (4.0, 4.0), (0.0, 4.0)] { mesh.add_particle(x, y); }
/// # mesh.add_triangle(0, 1, 2);
/// # mesh.add_triangle(0, 2, 3);
/// let few = Rooms { particles: 5, ..Rooms::default() };
/// assert_eq!(mesh.cut_within([-1.0, -1.0, 5.0, 5.0], Edition::First, 0.1, few), Err(Refusal::NoParticleRoom));
/// ```
#[derive(Clone, Copy, Debug, PartialEq, Eq)]
pub struct Rooms {
    /// Places for particles; 1,024 at most count.
    pub particles: u32,
    /// Places for triangles; 1,024 at most count.
    pub triangles: u32,
    /// Places for edges; 2,048 at most count.
    pub edges: u32,
    /// Places for boundary entries; 2,048 at most count.
    pub boundary: u32,
    /// Places for log entries; 4,096 at most count.
    pub log: u32,
}
impl Default for Rooms {
    fn default() -> Rooms {
        Rooms { particles: 1024, triangles: 1024, edges: 2048, boundary: 2048, log: 4096 }
    }
}
impl Rooms {
    /// The rooms as the bench counts them, and so the counts that a result can have.
    fn counted(self) -> Rooms {
        let most = Rooms::default();
        Rooms {
            particles: self.particles.min(most.particles),
            triangles: self.triangles.min(most.triangles),
            edges: self.edges.min(most.edges),
            boundary: self.boundary.min(most.boundary),
            log: self.log.min(most.log),
        }
    }
}

/// An entry of six words.
fn event(w: &[u32]) -> Event {
    match w[0] {
        1 => Event::Split { copy: w[1], source: w[2] },
        2 => Event::Removed { a: w[1], b: w[2] },
        3 => Event::Inserted { a: w[1], b: w[2], p: w[3], q: w[4], t: f32::from_bits(w[5]) },
        4 => Event::Opened { a: w[1], b: w[2] },
        5 => {
            let [x, y, t] = [w[3], w[4], w[5]].map(f32::from_bits);
            Event::Crossed { a: w[1], b: w[2], at: [x, y], t }
        }
        kind => unreachable!("the bench logs no entry of kind {kind}"),
    }
}

/// Makes such a call with room for the largest answer, and unpacks it.
fn torn(rooms: Rooms, call: impl FnOnce(&[u8], &mut [u8], &mut [u8]) -> u32) -> Result<Torn, Refusal> {
    let r = rooms.counted();
    let lent = [r.particles, r.triangles, r.edges, r.boundary];
    let mut out = vec![0; 4 * (2 + words_in(lent.map(|n| n as usize)))];
    let mut log = vec![0; 24 * r.log as usize];
    if let Some(why) = Refusal::of(call(&bytes_of(&lent), &mut out, &mut log)) {
        return Err(why);
    }
    let words = words_of(&out);
    let entries = words_of(&log[..24 * words[1] as usize]);
    Ok(Torn { mesh: mesh(&words[2..]), events: entries.chunks_exact(6).map(event).collect(), changed: words[0] == 1 })
}

impl Mesh {
    /// Cuts the mesh along a blade (x0, y0, x1, y1), by the rules of an edition, and marks where the blade crosses it. `fraction`, from 0 to 0.5, is how near to a strap's end, as a part of the strap, it is cut at
    /// the end itself; a mesh of triangles does not read it.
    ///
    /// ```
    /// use cutting_bench::{Edition, Event, Mesh};
    /// let mut strap = Mesh::new();
    /// strap.add_particle(0.0, 0.0);
    /// strap.add_particle(8.0, 0.0);
    /// strap.add_edge(0, 1, true);
    /// let torn = strap.cut([2.0, -1.0, 2.0, 1.0], Edition::First, 0.1)?;
    /// let crossed = Event::Crossed { a: 0, b: 1, at: [2.0, 0.0], t: 0.25 };
    /// assert_eq!(torn.events, [crossed, Event::Inserted { a: 0, b: 1, p: 2, q: 3, t: 0.25 }]);
    /// assert_eq!(torn.mesh.pieces()?, 2);
    /// # Ok::<(), cutting_bench::Refusal>(())
    /// ```
    pub fn cut(&self, blade: [f32; 4], edition: Edition, fraction: f32) -> Result<Torn, Refusal> {
        self.cut_within(blade, edition, fraction, Rooms::default())
    }

    /// [`Mesh::cut`] with rooms of the caller's choice.
    ///
    /// ```
    /// use cutting_bench::{Edition, Mesh, Refusal, Rooms};
    /// # let mut strap = Mesh::new();
    /// # strap.add_particle(0.0, 0.0);
    /// # strap.add_particle(8.0, 0.0);
    /// # strap.add_edge(0, 1, true);
    /// let no_log = Rooms { log: 0, ..Rooms::default() };
    /// assert_eq!(strap.cut_within([2.0, -1.0, 2.0, 1.0], Edition::First, 0.1, no_log), Err(Refusal::NoLogRoom));
    /// ```
    pub fn cut_within(&self, blade: [f32; 4], edition: Edition, fraction: f32, rooms: Rooms) -> Result<Torn, Refusal> {
        let (blade, edition) = (bytes_of(&blade.map(f32::to_bits)), edition.number());
        torn(rooms, |lent, out, log| calls::cut(&image(self), &blade, edition, fraction.to_bits(), lent, out, log))
    }

    /// Opens a crack across each of these edges, in the order of the list, as long as no group falls below `minimum` elements
    /// ([`crate::MINIMUM_PIECE`] is what the bench offers). Numbers past the end are skipped; at most 2,048 are taken.
    ///
    /// ```
    /// use cutting_bench::{Event, Mesh};
    /// let mut rope = Mesh::new();
    /// for x in 0..4 {
    ///     rope.add_particle(x as f32, 0.0);
    /// }
    /// for x in 0..3 {
    ///     rope.add_edge(x, x + 1, true);
    /// }
    /// let torn = rope.crack(&[1], 1)?;
    /// assert!(torn.events.contains(&Event::Opened { a: 1, b: 2 }));
    /// assert_eq!(torn.mesh.pieces()?, 2);
    /// # Ok::<(), cutting_bench::Refusal>(())
    /// ```
    pub fn crack(&self, torn_edges: &[u32], minimum: u32) -> Result<Torn, Refusal> {
        self.crack_within(torn_edges, minimum, Rooms::default())
    }

    /// [`Mesh::crack`] with rooms of the caller's choice.
    ///
    /// ```
    /// use cutting_bench::{Mesh, Rooms};
    /// assert_eq!(Mesh::new().crack_within(&[5], 1, Rooms { log: 0, ..Rooms::default() })?.events, []);
    /// # Ok::<(), cutting_bench::Refusal>(())
    /// ```
    pub fn crack_within(&self, torn_edges: &[u32], minimum: u32, rooms: Rooms) -> Result<Torn, Refusal> {
        let edges = bytes_of(torn_edges);
        torn(rooms, |lent, out, log| calls::crack(&image(self), &edges, minimum, lent, out, log))
    }

    /// Splits particle v by the sides, 0 or 1, of the elements at it, in the order of [`Mesh::fan`].
    ///
    /// ```
    /// use cutting_bench::{Event, Mesh};
    /// # let mut mesh = Mesh::new();
    /// # for (x, y) in [(0.0, 0.0), (4.0, 0.0), (4.0, 4.0), (0.0, 4.0)] { mesh.add_particle(x, y); }
    /// mesh.add_triangle(0, 1, 2);
    /// mesh.add_triangle(0, 2, 3);
    /// let torn = mesh.split(0, &[0, 1])?;
    /// assert_eq!(torn.events, [Event::Split { copy: 4, source: 0 }]);
    /// assert_eq!(torn.mesh.triangles[1].corners, [4, 2, 3]);
    /// # Ok::<(), cutting_bench::Refusal>(())
    /// ```
    pub fn split(&self, v: u32, sides: &[u8]) -> Result<Torn, Refusal> {
        self.split_within(v, sides, Rooms::default())
    }

    /// [`Mesh::split`] with rooms of the caller's choice.
    ///
    /// ```
    /// use cutting_bench::{Mesh, Refusal, Rooms};
    /// assert_eq!(Mesh::new().split_within(0, &[], Rooms::default()), Err(Refusal::BadArgument));
    /// ```
    pub fn split_within(&self, v: u32, sides: &[u8], rooms: Rooms) -> Result<Torn, Refusal> {
        torn(rooms, |lent, out, log| calls::split(&image(self), v, sides, lent, out, log))
    }

    /// Removes each edge, other than a strap, between two pieces.
    ///
    /// ```
    /// use cutting_bench::{Event, Mesh};
    /// # let mut mesh = Mesh::new();
    /// # for (x, y) in [(0.0, 0.0), (4.0, 0.0), (4.0, 4.0), (9.0, 0.0), (9.0, 4.0), (5.0, 4.0)] { mesh.add_particle(x, y); }
    /// mesh.add_triangle(0, 1, 2);
    /// mesh.add_triangle(3, 4, 5);
    /// mesh.add_edge(1, 3, false);
    /// let torn = mesh.straddlers()?;
    /// assert_eq!(torn.events, [Event::Removed { a: 1, b: 3 }]);
    /// assert!(!torn.changed);
    /// # Ok::<(), cutting_bench::Refusal>(())
    /// ```
    pub fn straddlers(&self) -> Result<Torn, Refusal> {
        self.straddlers_within(Rooms::default())
    }

    /// [`Mesh::straddlers`] with rooms of the caller's choice.
    ///
    /// ```
    /// use cutting_bench::{Mesh, Refusal, Rooms};
    /// let mut lone = Mesh::new();
    /// lone.add_particle(0.0, 0.0);
    /// let none = Rooms { particles: 0, ..Rooms::default() };
    /// assert_eq!(lone.straddlers_within(none), Err(Refusal::NoParticleRoom));
    /// ```
    pub fn straddlers_within(&self, rooms: Rooms) -> Result<Torn, Refusal> {
        torn(rooms, |lent, out, log| calls::straddlers(&image(self), lent, out, log))
    }
}
