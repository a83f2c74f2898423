//! Sheets: a mesh and a blade in whole numbers, as the bytes of a file. There are two editions of sheets; a reader takes both. The first has boundary
//! entries that are typed, and replaced where they are not the outline of the mesh; the second has none.
use crate::ask::answer;
use crate::calls;
use crate::image::{bytes_of, mesh, words_in};
use crate::mesh::Mesh;
use crate::refusal::Refusal;
use std::collections::BTreeSet;

/// A particle of a sheet.
#[derive(Clone, Copy, Debug, Default, PartialEq, Eq)]
pub struct SheetParticle {
    /// From -1,024 to 1,023.
    pub x: i32,
    /// From -1,024 to 1,023.
    pub y: i32,
    /// Whether it is pinned.
    pub pinned: bool,
}

/// An edge of a sheet.
#[derive(Clone, Copy, Debug, Default, PartialEq, Eq)]
pub struct SheetEdge {
    /// Its two particles.
    pub ends: [u32; 2],
    /// Whether it is structural: a strap, where there are no triangles.
    pub structural: bool,
}

/// What a sheet holds. [`std::fmt::Display`] gives it as text, [`str::parse`] reads such text.
///
/// ```
/// use cutting_bench::Sheet;
/// let sheet: Sheet = "particle 0 0 pinned\nparticle 8 0\nedge 0 1 structural\nblade 2 -1 2 1".parse()?;
/// assert_eq!(sheet.particles.len(), 2);
/// assert!(sheet.to_string().starts_with("particle 0 0 pinned\n"));
/// # Ok::<(), Box<dyn std::error::Error>>(())
/// ```
#[derive(Clone, Debug, Default, PartialEq, Eq)]
pub struct Sheet {
    /// The particles, numbered from 0.
    pub particles: Vec<SheetParticle>,
    /// The triangles, three particles each.
    pub triangles: Vec<[u32; 3]>,
    /// The edges.
    pub edges: Vec<SheetEdge>,
    /// The boundary entries, two particles each: of a sheet that was read, the outline that it was read with; of a text, those that were typed.
    pub boundary: Vec<[u32; 2]>,
    /// The blade: x0, y0, x1, y1, from -1,024 to 1,023.
    pub blade: [i32; 4],
    /// Whether the sheet was read from bytes whose typed boundary was not the outline of the mesh, and was replaced by it.
    pub replaced: bool,
}

/// The counts that a sheet can have, and so the longest answer.
const MOST: [usize; 4] = [1024, 1024, 2048, 2048];

/// What a call that reads a sheet answers: the mesh, the blade, and whether the outline was replaced.
fn taken(call: impl FnOnce(&mut [u8]) -> u32) -> Result<(Mesh, [f32; 4], bool), Refusal> {
    let words = answer(5 + words_in(MOST), call)?;
    Ok((mesh(&words[5..]), [1, 2, 3, 4].map(|k| f32::from_bits(words[k])), words[0] == 1))
}

/// The same of the bytes of a sheet.
fn opened(bytes: &[u8]) -> Result<(Mesh, [f32; 4], bool), Refusal> {
    taken(|out| calls::sheet(bytes, out))
}

/// The sides of an outline, whatever their order, direction and repeats.
fn sides(outline: &[[u32; 2]]) -> BTreeSet<[u32; 2]> {
    outline.iter().map(|&[a, b]| [a.min(b), a.max(b)]).collect()
}

/// Bits that are written one behind the other, the highest first.
struct Bits {
    bytes: Vec<u8>,
    n: usize,
    /// Whether every number fitted its bits.
    fits: bool,
}
impl Bits {
    fn put(&mut self, x: u32, width: usize) {
        self.fits &= x < 1 << width;
        for k in (0..width).rev() {
            if self.n % 8 == 0 {
                self.bytes.push(0);
            }
            self.bytes[self.n / 8] |= ((x >> k & 1) as u8) << (7 - self.n % 8);
            self.n += 1;
        }
    }
    fn put_signed(&mut self, x: i32) {
        self.fits &= (-1024..=1023).contains(&x);
        self.put(x as u32 & 2047, 11);
    }
}

impl Sheet {
    /// Reads the bytes of a sheet, of either edition.
    ///
    /// ```
    /// use cutting_bench::{Refusal, Sheet};
    /// let bytes = std::fs::read("../examples/worked.sheet")?;
    /// assert_eq!(Sheet::read(&bytes)?.triangles, [[0, 1, 2], [0, 2, 3]]);
    /// assert_eq!(Sheet::read(&bytes[1..]), Err(Refusal::BadSheet));
    /// // Its boundary was typed, and is the outline; that of the rope was not typed at all.
    /// assert!(!Sheet::read(&bytes)?.replaced);
    /// let rope = Sheet::read(&std::fs::read("../examples/rope.sheet")?)?;
    /// assert!(rope.replaced && rope.boundary.len() == 8);
    /// # Ok::<(), Box<dyn std::error::Error>>(())
    /// ```
    pub fn read(bytes: &[u8]) -> Result<Sheet, Refusal> {
        Sheet::told(|out| calls::sheet(bytes, out))
    }

    /// The sheet that a call answers with.
    pub(crate) fn told(call: impl FnOnce(&mut [u8]) -> u32) -> Result<Sheet, Refusal> {
        let (m, blade, replaced) = taken(call)?;
        let particle = |p: &crate::Particle| SheetParticle {
            x: p.position[0] as i32,
            y: p.position[1] as i32,
            pinned: p.inverse_mass == 0.0,
        };
        Ok(Sheet {
            particles: m.particles.iter().map(particle).collect(),
            triangles: m.triangles.iter().map(|t| t.corners).collect(),
            edges: m.edges.iter().map(|e| SheetEdge { ends: e.ends, structural: e.structural }).collect(),
            boundary: m.boundary,
            blade: blade.map(|x| x as i32),
            replaced,
        })
    }

    /// The fields as words, column by column; the boundary is none of them.
    fn fields(&self) -> Vec<u32> {
        let (p, t, e) = (&self.particles, &self.triangles, &self.edges);
        let mut w: Vec<u32> = [p.len(), t.len(), e.len()].map(|n| u32::try_from(n).unwrap_or(u32::MAX)).to_vec();
        w.extend(p.iter().map(|p| p.x as u32));
        w.extend(p.iter().map(|p| p.y as u32));
        w.extend(p.iter().map(|p| u32::from(p.pinned)));
        for k in 0..3 {
            w.extend(t.iter().map(|t| t[k]));
        }
        for k in 0..2 {
            w.extend(e.iter().map(|e| e.ends[k]));
        }
        w.extend(e.iter().map(|e| u32::from(e.structural)));
        w.extend(self.blade.map(|x| x as u32));
        w
    }

    /// The bytes of the sheet, in the second edition: without its boundary, which reading finds again as the outline of the mesh.
    ///
    /// ```
    /// use cutting_bench::Sheet;
    /// let bytes = std::fs::read("../examples/grid2.sheet")?;
    /// assert_eq!(Sheet::read(&bytes)?.write()?, bytes);
    /// // The same grid in the first edition.
    /// assert_eq!(Sheet::read(&std::fs::read("../examples/grid.sheet")?)?.write()?, bytes);
    /// # Ok::<(), Box<dyn std::error::Error>>(())
    /// ```
    pub fn write(&self) -> Result<Vec<u8>, Refusal> {
        let fields = bytes_of(&self.fields());
        let (p, t, e) = (self.particles.len(), self.triangles.len(), self.edges.len());
        let mut out = vec![0; (89 + 23 * p + 30 * t + 21 * e).div_ceil(8)];
        match Refusal::of(calls::sheet_write(&fields, &mut out)) {
            None => Ok(out),
            Some(why) => Err(why),
        }
    }

    /// The bytes of the sheet in the first edition, with its boundary, for tests. The bench writes the second edition alone: these bits are packed here,
    /// and the bench reads them once, so that nothing is given which it refuses.
    ///
    /// ```
    /// use cutting_bench::Sheet;
    /// let bytes = std::fs::read("../examples/grid.sheet")?;
    /// assert_eq!(Sheet::read(&bytes)?.write_first()?, bytes);
    /// # Ok::<(), Box<dyn std::error::Error>>(())
    /// ```
    pub fn write_first(&self) -> Result<Vec<u8>, Refusal> {
        let counts = [self.particles.len(), self.triangles.len(), self.edges.len(), self.boundary.len()];
        if (0..4).any(|k| counts[k] > MOST[k]) {
            return Err(Refusal::BadCount);
        }
        let mut bits = Bits { bytes: vec![], n: 0, fits: true };
        for (n, width) in counts.into_iter().zip([11, 11, 12, 12]) {
            bits.put(n as u32, width);
        }
        for p in &self.particles {
            bits.put_signed(p.x);
            bits.put_signed(p.y);
            bits.put(p.pinned.into(), 1);
        }
        self.triangles.iter().flatten().for_each(|v| bits.put(*v, 10));
        for e in &self.edges {
            e.ends.iter().for_each(|v| bits.put(*v, 10));
            bits.put(e.structural.into(), 1);
        }
        self.boundary.iter().flatten().for_each(|v| bits.put(*v, 10));
        self.blade.iter().for_each(|x| bits.put_signed(*x));
        if !bits.fits {
            return Err(Refusal::BadNumber);
        }
        opened(&bits.bytes).map(|_| bits.bytes)
    }

    /// The first element, edge or typed boundary entry that names a particle which is not there or one twice, in words.
    ///
    /// ```
    /// use cutting_bench::Sheet;
    /// let sheet: Sheet = "particle 0 0\nparticle 8 0\nedge 0 1\nedge 1 2\nblade 0 0 1 1".parse()?;
    /// assert_eq!(sheet.misnamed().unwrap(), "edge 1 (line 2 of the edges) is 1 2, but there are 2 particles, 0 to 1");
    /// # Ok::<(), Box<dyn std::error::Error>>(())
    /// ```
    pub fn misnamed(&self) -> Option<String> {
        let n = self.particles.len() as u32;
        let rows = |kind: &'static str, lists: Vec<Vec<u32>>| {
            lists.into_iter().enumerate().map(move |(k, names)| (kind, k, names))
        };
        let triangles = rows("triangle", self.triangles.iter().map(|t| t.to_vec()).collect());
        let edges = rows("edge", self.edges.iter().map(|e| e.ends.to_vec()).collect());
        let boundary = rows("boundary", self.boundary.iter().map(|b| b.to_vec()).collect());
        let twice = |names: &[u32]| (1..names.len()).any(|k| names[..k].contains(&names[k]));
        let bad = |(_, _, names): &(&str, usize, Vec<u32>)| names.iter().any(|v| *v >= n) || twice(names);
        let (kind, k, names) = triangles.chain(edges).chain(boundary).find(bad)?;
        let told: Vec<String> = names.iter().map(u32::to_string).collect();
        let list = if kind == "boundary" { "boundary".to_string() } else { format!("{kind}s") };
        let why = match names.iter().any(|v| *v >= n) {
            true => format!("but there are {n} particles, 0 to {}", n as i64 - 1),
            false => "and names one particle twice".to_string(),
        };
        Some(format!("{kind} {k} (line {} of the {list}) is {}, {why}", k + 1, told.join(" ")))
    }

    /// The mesh that the sheet means: masses 1, everything at rest, each particle its own root. Its boundary is the sheet's where that is the outline of the
    /// mesh, in any order and direction, else the outline.
    ///
    /// ```
    /// use cutting_bench::Sheet;
    /// let sheet = Sheet::read(&std::fs::read("../examples/worked.sheet")?)?;
    /// assert_eq!(sheet.mesh()?.triangles[0].rest_volume, 8.0);
    /// # Ok::<(), Box<dyn std::error::Error>>(())
    /// ```
    pub fn mesh(&self) -> Result<Mesh, Refusal> {
        let (mut mesh, _, _) = opened(&self.write()?)?;
        if sides(&self.boundary) == sides(&mesh.boundary) {
            mesh.boundary.clone_from(&self.boundary);
        }
        Ok(mesh)
    }

    /// What the program `cutlist` prints for the bytes of a sheet: the listing of its cut, or the line `refused` with a number.
    ///
    /// ```
    /// use cutting_bench::Sheet;
    /// assert_eq!(Sheet::list(&std::fs::read("../examples/worked.sheet")?), std::fs::read_to_string("../examples/worked.txt")?);
    /// assert_eq!(Sheet::list(&[]), "refused 9\n");
    /// # Ok::<(), std::io::Error>(())
    /// ```
    pub fn list(bytes: &[u8]) -> String {
        printed(|out| calls::list_cut(bytes, out))
    }

    /// What the program `sheetdiff` prints for the bytes of two sheets: a line for each place at which they differ, with the first one's reading before the stroke, and
    /// how many; or the line `refused` with a number.
    ///
    /// ```
    /// use cutting_bench::Sheet;
    /// let sheet = |name| std::fs::read(format!("../examples/differences/{name}.sheet"));
    /// let told = Sheet::difference(&sheet("worked")?, &sheet("other")?);
    /// assert_eq!(told, std::fs::read_to_string("../examples/differences/worked-other.txt")?);
    /// assert_eq!(Sheet::difference(&sheet("other")?, &sheet("other")?), "0\n");
    /// assert_eq!(Sheet::difference(&[], &sheet("other")?), "refused 9\n");
    /// # Ok::<(), std::io::Error>(())
    /// ```
    pub fn difference(first: &[u8], second: &[u8]) -> String {
        printed(|out| calls::difference(first, second, out))
    }
}

/// The text that a call writes; so many bytes hold each.
fn printed(call: impl FnOnce(&mut [u8]) -> u32) -> String {
    let mut out = vec![0; 65_536];
    assert_eq!(call(&mut out), 0, "the bytes hold every text");
    out.truncate(out.iter().position(|b| *b == 0).unwrap_or(out.len()));
    out.into_iter().map(char::from).collect()
}
