//! The C functions of docs/C-FUNCTIONS.md: declarations, tables of those that are there, and the
//! one safe way to call them.
use crate::image::{Image, bytes_of};
use std::sync::atomic::{AtomicBool, Ordering};

/// The type of a C function by its arguments: `bytes` is a pointer and a length, `number` a u32; last stands what it fills, the
/// bytes of an `answer`, or those of a `mesh` and of its log.
macro_rules! c_type {
    ($($kind:ident)*) => { c_type!(@ [] $($kind)*) };
    (@ [$($t:ty,)*] bytes $($rest:ident)*) => { c_type!(@ [$($t,)* *const u8, usize,] $($rest)*) };
    (@ [$($t:ty,)*] number $($rest:ident)*) => { c_type!(@ [$($t,)* u32,] $($rest)*) };
    (@ [$($t:ty,)*] answer) => { unsafe extern "C" fn($($t,)* *mut u8, usize) -> u32 };
    (@ [$($t:ty,)*] mesh) => { unsafe extern "C" fn($($t,)* *mut u8, usize, *mut u8, usize) -> u32 };
}
type Root = c_type!(number answer);
type Slice = c_type!(bytes answer);
type Sides = c_type!(bytes number bytes answer);
type List = c_type!(bytes bytes answer);
type Opens = c_type!(bytes number bytes number answer);
/// Image, particle.
type Around = c_type!(bytes number answer);
/// Image, rooms.
type Removal = c_type!(bytes bytes mesh);
/// Image, particle, sides, rooms.
type Split = c_type!(bytes number bytes bytes mesh);
/// Image, blade, edition, fraction, rooms.
type Cut = c_type!(bytes bytes number number bytes mesh);
/// Image, torn edges, minimum, rooms.
type Crack = c_type!(bytes bytes number bytes mesh);

/// One side of a comparison: the C functions that it has.
#[derive(Clone, Copy)]
pub struct Table {
    pub root: Option<Root>,
    pub blade_hit: Option<Slice>,
    pub groups: Option<Sides>,
    pub rest_measure: Option<Slice>,
    pub rest_measure_of: Option<List>,
    pub opens: Option<Opens>,
    pub pieces: Option<Slice>,
    pub fan: Option<Around>,
    pub sheet: Option<Slice>,
    pub sheet_write: Option<Slice>,
    pub list_cut: Option<Slice>,
    pub split: Option<Split>,
    pub straddlers: Option<Removal>,
    pub cut: Option<Cut>,
    pub crack: Option<Crack>,
}

/// `Some` of an archive's function if `run` found its name there (`--cfg have="NAME"`).
macro_rules! linked {
    ($have:tt, $name:ident as $type:ty) => {{
        #[cfg(have = $have)]
        {
            unsafe extern "C" {
                fn $name();
            }
            // SAFETY: docs/C-FUNCTIONS.md has its parameters; it is declared without them to say them once.
            Some(unsafe { std::mem::transmute::<unsafe extern "C" fn(), $type>($name) })
        }
        #[cfg(not(have = $have))]
        None
    }};
}
/// The Rattle archive's functions.
pub fn archive() -> Table {
    Table {
        root: linked!("bench_root", bench_root as Root),
        blade_hit: linked!("bench_blade_hit", bench_blade_hit as Slice),
        groups: linked!("bench_groups", bench_groups as Sides),
        rest_measure: linked!("bench_rest_measure", bench_rest_measure as Slice),
        rest_measure_of: linked!("bench_rest_measure_of", bench_rest_measure_of as List),
        opens: linked!("bench_opens_without_confetti", bench_opens_without_confetti as Opens),
        pieces: linked!("bench_pieces", bench_pieces as Slice),
        fan: linked!("bench_fan", bench_fan as Around),
        sheet: linked!("bench_sheet", bench_sheet as Slice),
        sheet_write: linked!("bench_sheet_write", bench_sheet_write as Slice),
        list_cut: linked!("bench_list_cut", bench_list_cut as Slice),
        split: linked!("bench_split", bench_split as Split),
        straddlers: linked!("bench_straddlers", bench_straddlers as Removal),
        cut: linked!("bench_cut", bench_cut as Cut),
        crack: linked!("bench_crack", bench_crack as Crack),
    }
}

/// The number of the archive's layout; `None` if it does not tell.
pub fn layout() -> Option<u32> {
    let f: Option<unsafe extern "C" fn() -> u32> =
        linked!("bench_layout", bench_layout as unsafe extern "C" fn() -> u32);
    // SAFETY: it takes nothing.
    f.map(|f| unsafe { f() })
}

/// The three functions of a reader that is fed a sheet in parts; they change the bytes of the reader.
#[derive(Clone, Copy)]
pub struct Feeding {
    pub open: unsafe extern "C" fn(*mut u8, usize) -> u32,
    pub feed: unsafe extern "C" fn(*mut u8, usize, *const u8, usize) -> u32,
    pub close: unsafe extern "C" fn(*mut u8, usize, *mut u8, usize) -> u32,
}
/// The archive's; `None` if one of them is not there.
pub fn feeding() -> Option<Feeding> {
    Some(Feeding {
        open: linked!("bench_sheet_open", bench_sheet_open as unsafe extern "C" fn(*mut u8, usize) -> u32)?,
        feed: linked!(
            "bench_sheet_feed",
            bench_sheet_feed as unsafe extern "C" fn(*mut u8, usize, *const u8, usize) -> u32
        )?,
        close: linked!(
            "bench_sheet_close",
            bench_sheet_close as unsafe extern "C" fn(*mut u8, usize, *mut u8, usize) -> u32
        )?,
    })
}

#[derive(Clone, Copy, Debug, PartialEq, Eq, PartialOrd, Ord)]
pub enum Entry {
    Root,
    BladeHit,
    Groups,
    RestMeasure,
    RestMeasureOf,
    Opens,
    Pieces,
    Split,
    Straddlers,
    Cut,
    Crack,
    Fan,
    Sheet,
    SheetWrite,
    ListCut,
}
pub const ENTRIES: [Entry; 15] = [
    Entry::Root,
    Entry::BladeHit,
    Entry::Groups,
    Entry::RestMeasure,
    Entry::RestMeasureOf,
    Entry::Opens,
    Entry::Pieces,
    Entry::Split,
    Entry::Straddlers,
    Entry::Cut,
    Entry::Crack,
    Entry::Fan,
    Entry::Sheet,
    Entry::SheetWrite,
    Entry::ListCut,
];
/// The functions that read a mesh, those that give one, and those that a host has fans and sheets from.
#[derive(Clone, Copy, Debug, PartialEq, Eq)]
pub enum Group {
    Reading,
    Tearing,
    Hosting,
}
pub const GROUPS: [Group; 3] = [Group::Reading, Group::Tearing, Group::Hosting];
impl Group {
    pub fn name(self) -> &'static str {
        ["reading", "tearing", "hosting"][self as usize]
    }
}
impl Entry {
    pub fn name(self) -> &'static str {
        match self {
            Entry::Root => "bench_root",
            Entry::BladeHit => "bench_blade_hit",
            Entry::Groups => "bench_groups",
            Entry::RestMeasure => "bench_rest_measure",
            Entry::RestMeasureOf => "bench_rest_measure_of",
            Entry::Opens => "bench_opens_without_confetti",
            Entry::Pieces => "bench_pieces",
            Entry::Split => "bench_split",
            Entry::Straddlers => "bench_straddlers",
            Entry::Cut => "bench_cut",
            Entry::Crack => "bench_crack",
            Entry::Fan => "bench_fan",
            Entry::Sheet => "bench_sheet",
            Entry::SheetWrite => "bench_sheet_write",
            Entry::ListCut => "bench_list_cut",
        }
    }
    /// Whether it gives a mesh and a log.
    pub fn tears(self) -> bool {
        matches!(self, Entry::Split | Entry::Straddlers | Entry::Cut | Entry::Crack)
    }
    /// What kind of function it is.
    pub fn group(self) -> Group {
        match self {
            _ if self.tears() => Group::Tearing,
            Entry::Fan | Entry::Sheet | Entry::SheetWrite | Entry::ListCut => Group::Hosting,
            _ => Group::Reading,
        }
    }
    /// Whether it is about a sheet.
    pub fn sheets(self) -> bool {
        matches!(self, Entry::Sheet | Entry::SheetWrite | Entry::ListCut)
    }
    /// Whether it takes no image.
    pub fn meshless(self) -> bool {
        self.sheets() || matches!(self, Entry::Root | Entry::BladeHit)
    }
}
/// Whether `--partial` was among the words: what the archive lacks is left out then, and is no failure.
static PARTIAL: AtomicBool = AtomicBool::new(false);
pub fn set_partial() {
    PARTIAL.store(true, Ordering::Relaxed);
}
impl Table {
    /// Says which of these entries are not there. Gives how many of them are failures: all, as nothing is compared that is not there,
    /// or none with `--partial`.
    pub fn lacking(&self, entries: &[Entry]) -> usize {
        let names: Vec<&str> = entries.iter().filter(|&&e| !self.has(e)).map(|e| e.name()).collect();
        if names.is_empty() {
            return 0;
        }
        let partial = PARTIAL.load(Ordering::Relaxed);
        let how = if partial { "left out" } else { "NOT COMPARED, a failure (--partial leaves them out)" };
        println!("not in the archive, {how}: {}", names.join(", "));
        if partial { 0 } else { names.len() }
    }
    pub fn has(&self, e: Entry) -> bool {
        match e {
            Entry::Root => self.root.is_some(),
            Entry::BladeHit => self.blade_hit.is_some(),
            Entry::Groups => self.groups.is_some(),
            Entry::RestMeasure => self.rest_measure.is_some(),
            Entry::RestMeasureOf => self.rest_measure_of.is_some(),
            Entry::Opens => self.opens.is_some(),
            Entry::Pieces => self.pieces.is_some(),
            Entry::Split => self.split.is_some(),
            Entry::Straddlers => self.straddlers.is_some(),
            Entry::Cut => self.cut.is_some(),
            Entry::Crack => self.crack.is_some(),
            Entry::Fan => self.fan.is_some(),
            Entry::Sheet => self.sheet.is_some(),
            Entry::SheetWrite => self.sheet_write.is_some(),
            Entry::ListCut => self.list_cut.is_some(),
        }
    }
}

/// The arguments besides the image, the rooms and the result bytes. A `length` is that of the
/// bytes where it is another than the words'.
#[derive(Clone, Debug)]
pub enum Args {
    Root { bits: u32 },
    BladeHit { words: [u32; 8], length: Option<usize> },
    Groups { v: u32, sides: Vec<u8> },
    RestMeasure,
    RestMeasureOf { list: Vec<u32>, length: Option<usize> },
    Opens { v: u32, sides: Vec<u8>, minimum: u32 },
    Pieces,
    Split { v: u32, sides: Vec<u8> },
    Straddlers,
    Cut { blade: [u32; 4], length: Option<usize>, edition: u32, fraction: u32 },
    Crack { torn: Vec<u32>, length: Option<usize>, minimum: u32 },
    Fan { v: u32 },
    Sheet { bytes: Vec<u8> },
    SheetWrite { fields: Vec<u32>, length: Option<usize> },
    ListCut { bytes: Vec<u8> },
}
/// What is lent to an entry that gives a mesh: places for particles, triangles, edges and boundary
/// entries, and the bytes of the log. `length` is that of the rooms' bytes where it isn't 16.
#[derive(Clone, Copy, Debug, Default, PartialEq)]
pub struct Lending {
    pub places: [u32; 4],
    pub length: Option<usize>,
    pub log: usize,
}
/// One call. Entries without a mesh have the empty image.
#[derive(Clone, Debug)]
pub struct Input {
    pub image: Image,
    pub args: Args,
    pub lending: Lending,
    /// Number of result bytes lent.
    pub out: usize,
}
impl Input {
    pub fn entry(&self) -> Entry {
        match self.args {
            Args::Root { .. } => Entry::Root,
            Args::BladeHit { .. } => Entry::BladeHit,
            Args::Groups { .. } => Entry::Groups,
            Args::RestMeasure => Entry::RestMeasure,
            Args::RestMeasureOf { .. } => Entry::RestMeasureOf,
            Args::Opens { .. } => Entry::Opens,
            Args::Pieces => Entry::Pieces,
            Args::Split { .. } => Entry::Split,
            Args::Straddlers => Entry::Straddlers,
            Args::Cut { .. } => Entry::Cut,
            Args::Crack { .. } => Entry::Crack,
            Args::Fan { .. } => Entry::Fan,
            Args::Sheet { .. } => Entry::Sheet,
            Args::SheetWrite { .. } => Entry::SheetWrite,
            Args::ListCut { .. } => Entry::ListCut,
        }
    }
    /// The call as the C function gets it.
    pub fn raw(&self) -> Raw {
        let image = |second: Vec<u8>| (self.image.bytes(), second);
        let (first, second) = match &self.args {
            Args::Root { .. } => (vec![], vec![]),
            Args::BladeHit { words, length } => (bytes_of(words, *length), vec![]),
            Args::Groups { sides, .. } | Args::Opens { sides, .. } | Args::Split { sides, .. } => image(sides.clone()),
            Args::RestMeasureOf { list, length } | Args::Crack { torn: list, length, .. } => {
                image(bytes_of(list, *length))
            }
            Args::Cut { blade, length, .. } => image(bytes_of(blade, *length)),
            Args::Sheet { bytes } | Args::ListCut { bytes } => (bytes.clone(), vec![]),
            Args::SheetWrite { fields, length } => (bytes_of(fields, *length), vec![]),
            Args::RestMeasure | Args::Pieces | Args::Straddlers | Args::Fan { .. } => image(vec![]),
        };
        let (number, minimum) = match self.args {
            Args::Root { bits } => (bits, 0),
            Args::Groups { v, .. } | Args::Split { v, .. } | Args::Fan { v } => (v, 0),
            Args::Opens { v, minimum, .. } => (v, minimum),
            Args::Cut { edition, fraction, .. } => (fraction, edition),
            Args::Crack { minimum, .. } => (0, minimum),
            _ => (0, 0),
        };
        let (entry, out) = (self.entry(), self.out);
        let (rooms, log) = match entry.tears() {
            true => (bytes_of(&self.lending.places, self.lending.length), self.lending.log),
            false => (vec![], 0),
        };
        Raw { entry, first, second, number, minimum, rooms, out, log }
    }
}

/// A call as bytes and numbers; what an entry has no use for is empty or 0.
#[derive(Clone, Debug, PartialEq)]
pub struct Raw {
    pub entry: Entry,
    /// The image; where there is none, the blade's words, the sheet or its fields.
    pub first: Vec<u8>,
    /// The sides, the list, the blade's ends or the torn edges.
    pub second: Vec<u8>,
    /// The particle, or the bits of the number or of the fraction.
    pub number: u32,
    /// The minimum piece, or the edition of a cut.
    pub minimum: u32,
    /// The places lent, four words.
    pub rooms: Vec<u8>,
    /// Numbers of bytes lent for result and log.
    pub out: usize,
    pub log: usize,
}

/// What a call did: its answer, the result's and the log's bytes, and whether it wrote where it
/// must not.
#[derive(Clone, Debug, PartialEq)]
pub struct Got {
    pub refusal: u32,
    pub out: Vec<u8>,
    pub log: Vec<u8>,
    pub stray: Option<&'static str>,
}

/// Bytes that every lent place holds before a call, and that stand around it.
pub const FILL: u8 = 0xa5;
const GUARD: usize = 64;
/// A slice between guards, at any alignment.
struct Lent {
    bytes: Vec<u8>,
    at: usize,
    len: usize,
}
impl Lent {
    fn new(content: &[u8], shift: usize) -> Lent {
        let at = GUARD + shift % 8;
        let mut bytes = vec![FILL; at + content.len() + GUARD];
        bytes[at..at + content.len()].copy_from_slice(content);
        Lent { bytes, at, len: content.len() }
    }
    fn content(&self) -> &[u8] {
        &self.bytes[self.at..self.at + self.len]
    }
    fn guarded(&self) -> bool {
        let (front, back) = (&self.bytes[..self.at], &self.bytes[self.at + self.len..]);
        front.iter().chain(back).all(|&b| b == FILL)
    }
    fn content_mut(&mut self) -> &mut [u8] {
        &mut self.bytes[self.at..self.at + self.len]
    }
}

/// Calls the entry on the call's own bytes; `None` if the table lacks it.
pub fn invoke(t: &Table, c: &Raw, out: &mut [u8], log: &mut [u8]) -> Option<u32> {
    invoke_at(t, c, [&c.first, &c.second, &c.rooms], out, log)
}
/// The same with the bytes of image, argument and rooms at other places.
fn invoke_at(t: &Table, c: &Raw, given: [&[u8]; 3], out: &mut [u8], log: &mut [u8]) -> Option<u32> {
    let [(pa, na), (pb, nb), (pr, nr)] = given.map(|g| (g.as_ptr(), g.len()));
    let (po, no, pl, nl) = (out.as_mut_ptr(), out.len(), log.as_mut_ptr(), log.len());
    // SAFETY: every pointer comes with the length of the bytes that stand there; the bytes of
    // result and log are borrowed alone.
    Some(unsafe {
        match c.entry {
            Entry::Root => t.root?(c.number, po, no),
            Entry::BladeHit => t.blade_hit?(pa, na, po, no),
            Entry::Groups => t.groups?(pa, na, c.number, pb, nb, po, no),
            Entry::RestMeasure => t.rest_measure?(pa, na, po, no),
            Entry::RestMeasureOf => t.rest_measure_of?(pa, na, pb, nb, po, no),
            Entry::Opens => t.opens?(pa, na, c.number, pb, nb, c.minimum, po, no),
            Entry::Pieces => t.pieces?(pa, na, po, no),
            Entry::Split => t.split?(pa, na, c.number, pb, nb, pr, nr, po, no, pl, nl),
            Entry::Straddlers => t.straddlers?(pa, na, pr, nr, po, no, pl, nl),
            Entry::Cut => t.cut?(pa, na, pb, nb, c.minimum, c.number, pr, nr, po, no, pl, nl),
            Entry::Crack => t.crack?(pa, na, pb, nb, c.minimum, pr, nr, po, no, pl, nl),
            Entry::Fan => t.fan?(pa, na, c.number, po, no),
            Entry::Sheet => t.sheet?(pa, na, po, no),
            Entry::SheetWrite => t.sheet_write?(pa, na, po, no),
            Entry::ListCut => t.list_cut?(pa, na, po, no),
        }
    })
}

/// Calls the entry between guards; `None` if the table lacks it.
pub fn call(t: &Table, c: &Raw) -> Option<Got> {
    let a = Lent::new(&c.first, c.first.len() / 4 + c.out);
    let b = Lent::new(&c.second, c.second.len() + 3 * c.out + 1);
    let r = Lent::new(&c.rooms, c.out / 4 + 2);
    let mut o = Lent::new(&vec![FILL; c.out], c.out + 5);
    let mut l = Lent::new(&vec![FILL; c.log], c.log + c.out + 3);
    let refusal = invoke_at(t, c, [a.content(), b.content(), r.content()], o.content_mut(), l.content_mut())?;
    let stray = if a.content() != c.first || b.content() != c.second || r.content() != c.rooms {
        Some("it changed its input")
    } else if ![&a, &b, &r, &o, &l].iter().all(|s| s.guarded()) {
        Some("it wrote beside what it was lent")
    } else {
        None
    };
    Some(Got { refusal, out: o.content().to_vec(), log: l.content().to_vec(), stray })
}
