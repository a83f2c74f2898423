//! Why a call was refused.
use std::error::Error;
use std::fmt;

/// Why a call was refused, by the bench's numbers 1 to 12. `Display` says it in words.
///
/// ```
/// use cutting_bench::{Mesh, Refusal};
/// let mut lone = Mesh::new();
/// lone.add_particle(0.0, 0.0);
/// lone.boundary.push([0, 7]);
/// let why = lone.pieces().unwrap_err();
/// assert_eq!(why, Refusal::BadIndex);
/// assert_eq!(why.number(), 3);
/// assert!(why.to_string().contains("a particle that is not there"));
/// ```
#[derive(Clone, Copy, Debug, PartialEq, Eq, Hash)]
#[non_exhaustive]
pub enum Refusal {
    /// 1: a count is above its limit.
    BadCount,
    /// 2: a number of mesh, blade or point is not finite or out of range.
    BadNumber,
    /// 3: an index or root names no particle, or something names one twice.
    BadIndex,
    /// 4: an argument beside the mesh is bad.
    BadArgument,
    /// 5: no room for the particles.
    NoParticleRoom,
    /// 6: no room for the edges.
    NoEdgeRoom,
    /// 7: no room for the boundary entries.
    NoBoundaryRoom,
    /// 8: no room for the log.
    NoLogRoom,
    /// 9: the bytes are no sheet, or a sheet is too long for the lent bytes.
    BadSheet,
    /// 10: a reader of sheets is closed.
    ReaderClosed,
    /// 11: the second edition of the cut is asked for, and a coordinate is no whole number from -1,024 to 1,024.
    NotWhole,
    /// 12: the second edition of the cut is asked for, and the mesh is of straps.
    NotForStraps,
    /// A number that this crate does not know.
    Other(u32),
}

impl Refusal {
    /// The refusals that the bench knows, in the order of their numbers.
    pub const ALL: [Refusal; 12] = [
        Refusal::BadCount,
        Refusal::BadNumber,
        Refusal::BadIndex,
        Refusal::BadArgument,
        Refusal::NoParticleRoom,
        Refusal::NoEdgeRoom,
        Refusal::NoBoundaryRoom,
        Refusal::NoLogRoom,
        Refusal::BadSheet,
        Refusal::ReaderClosed,
        Refusal::NotWhole,
        Refusal::NotForStraps,
    ];

    /// The refusal of a number; `None` for 0, which accepts.
    ///
    /// ```
    /// use cutting_bench::Refusal;
    /// assert_eq!(Refusal::of(9), Some(Refusal::BadSheet));
    /// assert_eq!(Refusal::of(0), None);
    /// ```
    pub fn of(number: u32) -> Option<Refusal> {
        match number {
            0 => None,
            n => Some(Refusal::ALL.get(n as usize - 1).copied().unwrap_or(Refusal::Other(n))),
        }
    }

    /// Its number.
    ///
    /// ```
    /// assert_eq!(cutting_bench::Refusal::NoLogRoom.number(), 8);
    /// ```
    pub fn number(self) -> u32 {
        match self {
            Refusal::Other(n) => n,
            known => Refusal::ALL.iter().position(|r| *r == known).expect("it is listed") as u32 + 1,
        }
    }

    /// What to look at, in a sentence or two, for someone who drew the mesh or the sheet.
    ///
    /// ```
    /// assert!(cutting_bench::Refusal::BadSheet.advice().contains("file"));
    /// ```
    pub fn advice(self) -> &'static str {
        match self {
            Refusal::BadCount => {
                "A mesh has at most 1,024 particles, 1,024 triangles, 2,048 edges and 2,048 boundary entries, those of a sheet's outline too; the program cutlist takes 128, 128, 256 and 256."
            }
            Refusal::BadNumber => {
                "Coordinates, velocities, masses, lengths and stresses lie within 1,048,576 of 0, rest volumes within 4,194,304, rest lengths are not below 0; no number is infinite or missing. On a sheet coordinates are whole numbers from -1,024 to 1,023."
            }
            Refusal::BadIndex => {
                "Particles are numbered from 0, so the last one has the number of particles less 1. A triangle needs three different ones; an edge and a boundary entry two."
            }
            Refusal::BadArgument => {
                "The particle asked about must be there; a split takes one side, 0 or 1, for each element at it; the insertion fraction lies from 0 to 0.5; a list of particles rises."
            }
            Refusal::NoParticleRoom | Refusal::NoEdgeRoom | Refusal::NoBoundaryRoom | Refusal::NoLogRoom => {
                "The mesh is whole and so is the call: lend more places and ask again, or, at the limit of the bench, cut a smaller mesh."
            }
            Refusal::BadSheet => {
                "The file was cut short, has something behind its end, or was damaged on the way; or it is no sheet at all."
            }
            Refusal::ReaderClosed => {
                "A reader gives one sheet: open it again for the next one, before its first bytes come."
            }
            Refusal::NotWhole => {
                "The second edition decides exactly, which it can where each position and both ends of the blade have whole coordinates from -1,024 to 1,024; move them there, or cut in the first edition, which takes all numbers."
            }
            Refusal::NotForStraps => "The second edition cuts triangles alone: cut straps in the first edition.",
            Refusal::Other(_) => "This number is of another edition of the bench.",
        }
    }
}

impl fmt::Display for Refusal {
    fn fmt(&self, f: &mut fmt::Formatter<'_>) -> fmt::Result {
        f.write_str(match self {
            Refusal::BadCount => "there are too many particles, triangles, edges or boundary entries",
            Refusal::BadNumber => "a number is too large, is not finite, or is below 0 where it must not be",
            Refusal::BadIndex => "something names a particle that is not there, or names one twice",
            Refusal::BadArgument => "an argument of the call is bad",
            Refusal::NoParticleRoom => "there are not enough places for the particles",
            Refusal::NoEdgeRoom => "there are not enough places for the edges",
            Refusal::NoBoundaryRoom => "there are not enough places for the boundary entries",
            Refusal::NoLogRoom => "there are not enough places for the log",
            Refusal::BadSheet => "the bytes are not a whole sheet",
            Refusal::ReaderClosed => "the reader of sheets is closed",
            Refusal::NotWhole => {
                "for the second edition of the cut a coordinate is not a whole number from -1,024 to 1,024"
            }
            Refusal::NotForStraps => "the second edition of the cut is not for straps",
            Refusal::Other(n) => return write!(f, "refusal {n}, which is not known here"),
        })
    }
}

impl Error for Refusal {}
