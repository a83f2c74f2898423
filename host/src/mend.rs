//! A broken sheet mended: the bytes of the mended sheet, and what was dropped of it.
use crate::calls;
use crate::refusal::Refusal;
use crate::sheet::Sheet;
use std::fmt;

/// A list of a sheet of which rows can be dropped.
#[derive(Clone, Copy, Debug, PartialEq, Eq)]
pub enum List {
    /// The triangles.
    Triangles,
    /// The edges.
    Edges,
    /// The boundary entries.
    Boundary,
}

/// Why a row is dropped.
#[derive(Clone, Copy, Debug, PartialEq, Eq)]
pub enum Why {
    /// It names a particle that the sheet has not.
    Absent,
    /// It names a particle twice.
    Twice,
    /// An earlier boundary entry has the same two ends.
    Double,
}

/// A row that was dropped. [`std::fmt::Display`] tells it in words.
#[derive(Clone, Debug, PartialEq, Eq)]
pub struct Dropped {
    /// The list that it stood in.
    pub list: List,
    /// Its place in the broken sheet, from 0.
    pub place: usize,
    /// Why it went.
    pub why: Why,
    /// The particles that it names.
    pub names: Vec<u32>,
}

/// A mended sheet.
#[derive(Clone, Debug, PartialEq, Eq)]
pub struct Mended {
    /// The bytes of the mended sheet, in the edition of the broken one.
    pub bytes: Vec<u8>,
    /// What was dropped: for names, triangles, edges, boundary; then the doubles.
    pub dropped: Vec<Dropped>,
}

impl fmt::Display for Dropped {
    fn fmt(&self, f: &mut fmt::Formatter<'_>) -> fmt::Result {
        let list = match self.list {
            List::Triangles => "triangle",
            List::Edges => "edge",
            List::Boundary => "boundary",
        };
        let names: Vec<String> = self.names.iter().map(u32::to_string).collect();
        let why = match self.why {
            Why::Absent => "names a particle that is not there",
            Why::Twice => "names one particle twice",
            Why::Double => "has the two ends of an earlier one",
        };
        write!(f, "{list} {} ({}) went: it {why}", self.place, names.join(" "))
    }
}

/// So many bytes hold every mended sheet, and every text.
const BYTES: usize = 17_292;
const TEXT: usize = 131_072;

/// The number in `n` bits from bit `at` on.
fn field(bytes: &[u8], at: usize, n: usize) -> u32 {
    (at..at + n).fold(0, |x, k| x << 1 | u32::from(bytes[k / 8] >> (7 - k % 8) & 1))
}

/// The particles that a row of a sheet names.
fn names(bytes: &[u8], list: List, place: usize) -> Vec<u32> {
    let second = field(bytes, 0, 11) == 2047;
    let (counts, start) = if second { (11, 45) } else { (0, 46) };
    let [p, t, e] = [(0, 11), (11, 11), (22, 12)].map(|(at, n)| field(bytes, counts + at, n) as usize);
    let triangles = start + 23 * p;
    let edges = triangles + 30 * t;
    let (at, many) = match list {
        List::Triangles => (triangles + 30 * place, 3),
        List::Edges => (edges + 21 * place, 2),
        List::Boundary => (edges + 21 * e + 20 * place, 2),
    };
    (0..many).map(|k| field(bytes, at + 10 * k, 10)).collect()
}

/// A line of the text.
fn dropped(bytes: &[u8], line: &str) -> Option<Dropped> {
    let [list, place, why] = line.split(' ').collect::<Vec<_>>()[..] else { return None };
    let list = match list {
        "triangle" => List::Triangles,
        "edge" => List::Edges,
        "boundary" => List::Boundary,
        _ => return None,
    };
    let why = match why {
        "absent" => Why::Absent,
        "twice" => Why::Twice,
        "double" => Why::Double,
        _ => return None,
    };
    let place = place.parse().ok()?;
    Some(Dropped { list, place, why, names: names(bytes, list, place) })
}

impl Sheet {
    /// Mends the bytes of a broken sheet of either edition: drops what reading would refuse with 3 and doubled boundary entries, and sets the spare bits to 0.
    ///
    /// ```
    /// use cutting_bench::{Refusal, Sheet};
    /// let broken = std::fs::read("../examples/mend/broken.sheet")?;
    /// let mended = Sheet::mend(&broken)?;
    /// assert_eq!(mended.bytes, std::fs::read("../examples/mend/mended.sheet")?);
    /// assert_eq!(mended.dropped.len(), 8);
    /// assert_eq!(mended.dropped[0].to_string(), "triangle 0 (0 1 1) went: it names one particle twice");
    /// assert_eq!(mended.dropped[5].to_string(), "boundary 1 (0 1) went: it has the two ends of an earlier one");
    /// assert_eq!(Sheet::mend(&mended.bytes)?.dropped, []);
    /// assert_eq!(Sheet::mend(&broken[..68]), Err(Refusal::BadSheet));
    /// # Ok::<(), Box<dyn std::error::Error>>(())
    /// ```
    pub fn mend(bytes: &[u8]) -> Result<Mended, Refusal> {
        let (mut out, mut text, mut counts) = (vec![0; BYTES], vec![0; TEXT], [0; 8]);
        if let Some(why) = Refusal::of(calls::mend(bytes, &mut out, &mut text, &mut counts)) {
            return Err(why);
        }
        let [sheet, said] = [0, 4].map(|k| u32::from_le_bytes([0, 1, 2, 3].map(|j| counts[k + j])) as usize);
        out.truncate(sheet);
        text.truncate(said);
        let text: String = text.into_iter().map(char::from).collect();
        let dropped = text.lines().map(|line| dropped(bytes, line).expect("a line for each drop")).collect();
        Ok(Mended { bytes: out, dropped })
    }
}
