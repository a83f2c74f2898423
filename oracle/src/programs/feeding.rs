//! feeding [--self] [--fault NAME | --fault all] [COUNT [SEED]]: sheets that come in parts (request L5), through the three C functions of a
//! reader, against one read of the whole by `bench_sheet`. Behind each call its answer, the bytes of the reader and of the result, and what stands
//! around them are held to a plain reading of docs/RULES.md, R21. The times are those of feeds of one byte, at the start and at the end.
use crate::entries::{Args, Entry, FILL, Feeding, archive, feeding};
use crate::inputs::{KINDS, input};
use crate::rng::Rng;
use crate::sheet::{self, Edition, Sheet};
use std::collections::BTreeMap;
use std::time::Instant;

const COUNT: u64 = 100_000;
/// The bytes of a reader, and how many of a sheet it keeps.
const SIZE: usize = 17_301;
const MOST: usize = 17_293;
/// The bytes that hold every answer of a sheet.
const RESULT: usize = 4 * (9 + 10 * 1024 + 5 * 1024 + 8 * 2048 + 2 * 2048);
const GUARD: usize = 64;

// ---- two sides ------------------------------------------------------------------------------

/// Mistakes of the second writing, each of which must be found.
#[derive(Clone, Copy, Debug, PartialEq, Eq)]
enum Fault {
    Nothing,
    /// It keeps as many bytes as the longest sheet has, and forgets that more came.
    KeepsOneLess,
    /// It stores each part at place 0.
    StoresAtPlace0,
    /// A feed behind the close opens it again.
    OpensAgain,
    /// A feed is refused once more came than any sheet has.
    RefusesLong,
    /// An empty part is the end.
    EmptyEnds,
    /// Too few result bytes are told before a close behind the close.
    RoomFirst,
    /// A refused close leaves it open.
    RefusedStays,
    /// A late close leaves the result bytes as they were.
    DirtyLate,
    /// A number of bytes kept above the most is refused.
    OddNumber,
}
const FAULTS: [Fault; 9] = [
    Fault::KeepsOneLess,
    Fault::StoresAtPlace0,
    Fault::OpensAgain,
    Fault::RefusesLong,
    Fault::EmptyEnds,
    Fault::RoomFirst,
    Fault::RefusedStays,
    Fault::DirtyLate,
    Fault::OddNumber,
];
/// Who is asked: the archive, or the second writing with a fault.
#[derive(Clone, Copy)]
enum Side {
    Archive(Feeding),
    Second(Fault),
}
/// What reading bytes in one piece gives, by the archive.
fn whole(bytes: &[u8], out: &mut [u8]) -> u32 {
    let f = archive().sheet.expect("bench_sheet was looked for");
    // SAFETY: pointers with the lengths of live slices.
    unsafe { f(bytes.as_ptr(), bytes.len(), out.as_mut_ptr(), out.len()) }
}
fn word(b: &[u8], k: usize) -> usize {
    u32::from_le_bytes([b[4 * k], b[4 * k + 1], b[4 * k + 2], b[4 * k + 3]]) as usize
}
fn put(b: &mut [u8], k: usize, w: usize) {
    b[4 * k..4 * k + 4].copy_from_slice(&(w as u32).to_le_bytes());
}
impl Side {
    fn open(self, b: &mut [u8]) -> u32 {
        match self {
            // SAFETY: as above, in the other two as well; what is written is borrowed alone.
            Side::Archive(f) => unsafe { (f.open)(b.as_mut_ptr(), b.len()) },
            Side::Second(_) if b.len() != SIZE => 4,
            Side::Second(_) => {
                b[..8].fill(0);
                0
            }
        }
    }
    fn feed(self, b: &mut [u8], part: &[u8]) -> u32 {
        let fault = match self {
            Side::Archive(f) => return unsafe { (f.feed)(b.as_mut_ptr(), b.len(), part.as_ptr(), part.len()) },
            Side::Second(fault) => fault,
        };
        if b.len() != SIZE {
            return 4;
        }
        if word(b, 1) != 0 {
            if fault != Fault::OpensAgain {
                return 10;
            }
            b[..8].fill(0);
        }
        let most = if fault == Fault::KeepsOneLess { MOST - 1 } else { MOST };
        if fault == Fault::OddNumber && word(b, 0) > MOST {
            return 4;
        }
        let kept = word(b, 0).min(most);
        if fault == Fault::RefusesLong && kept + part.len() >= MOST {
            return 9;
        }
        if fault == Fault::EmptyEnds && part.is_empty() {
            put(b, 1, 1);
            return 0;
        }
        let mut now = kept;
        for (i, x) in part.iter().enumerate() {
            if now < most {
                b[8 + if fault == Fault::StoresAtPlace0 { i } else { now }] = *x;
                now += 1;
            }
        }
        put(b, 0, now);
        0
    }
    fn close(self, b: &mut [u8], out: &mut [u8]) -> u32 {
        let fault = match self {
            Side::Archive(f) => {
                return unsafe { (f.close)(b.as_mut_ptr(), b.len(), out.as_mut_ptr(), out.len()) };
            }
            Side::Second(fault) => fault,
        };
        let closed = b.len() == SIZE && word(b, 1) != 0;
        if b.len() != SIZE || closed {
            if fault != Fault::DirtyLate {
                out.fill(0);
            }
            return if b.len() != SIZE || fault == Fault::RoomFirst && out.len() < 36 { 4 } else { 10 };
        }
        let most = if fault == Fault::KeepsOneLess { MOST - 1 } else { MOST };
        let kept = word(b, 0).min(most);
        let answer = whole(&b[8..8 + kept], out);
        if answer == 0 || fault != Fault::RefusedStays {
            put(b, 1, 1);
        }
        answer
    }
}

// ---- inputs ---------------------------------------------------------------------------------

/// A sheet with as many of everything as there can be.
fn full(r: &mut Rng) -> Sheet {
    let two = |r: &mut Rng| {
        let a = r.below(1024);
        (a, (a + 1 + r.below(1023)) % 1024)
    };
    Sheet {
        particles: (0..1024).map(|i| (i % 64, i / 64, r.chance(9) as u32)).collect(),
        triangles: (0..1024).map(|_| r.pick(&[[0, 1, 2], [1, 2, 3], [2, 3, 4]])).collect(),
        edges: (0..2048).map(|_| two(r)).map(|(a, b)| (a, b, 0)).collect(),
        boundary: (0..2048).map(|_| two(r)).collect(),
        blade: [1, 2, 3, 4],
    }
}
/// The bytes that come: random sheets of either edition, damaged ones, full ones, with bytes behind the end or not.
fn bytes(r: &mut Rng, number: u64) -> Vec<u8> {
    let mut s = match r.below(40) {
        0 => sheet::write(&full(r), r.pick(&[Edition::First, Edition::Second])),
        1 => vec![],
        2 => [&[128, 16, 2, 0, 32, 0][..], &vec![r.below(256) as u8; 17_280 + r.below(20) as usize]].concat(),
        k => match input(Entry::Sheet, KINDS[k as usize % 4], number).args {
            Args::Sheet { bytes } => bytes,
            other => unreachable!("{other:?}"),
        },
    };
    match r.below(8) {
        0 => s.extend(vec![r.pick(&[0, 255]); r.pick(&[1, 1, 2, 7, 40]) as usize]),
        1 if r.chance(8) => s.extend(vec![r.below(256) as u8; r.below(40_000) as usize]),
        2 => s.truncate(s.len().saturating_sub(r.pick(&[1, 1, 2, 9]) as usize)),
        _ => {}
    }
    s
}
/// The lengths of the parts that n bytes come in; some are 0.
fn cut(r: &mut Rng, n: usize) -> Vec<usize> {
    let (mut parts, mut left) = (vec![], n);
    let way = r.below(6);
    let most = match way {
        0 => n,
        1 if n < 400 => 1,
        2 => 1 + r.below(9) as usize,
        _ => 1 + r.below(n as u32 / 3 + 2) as usize,
    };
    while left > 0 {
        let grown = if way == 3 { parts.len() } else { most };
        let most = grown.max(left / 200).min(left);
        let part = if way < 4 { most } else { r.below(most as u32 + 1) as usize };
        parts.push(part);
        left -= part;
    }
    if r.chance(3) {
        parts.insert(r.below(parts.len() as u32 + 1) as usize, 0);
    }
    parts
}

// ---- the statement --------------------------------------------------------------------------

/// What a reader is, and the bytes that it should have.
struct Model {
    fed: Option<Vec<u8>>,
    bytes: Vec<u8>,
}
impl Model {
    /// Every pattern of so many bytes is a reader.
    fn new(bytes: &[u8]) -> Model {
        let open = bytes.len() == SIZE && word(bytes, 1) == 0;
        Model { fed: open.then(|| bytes[8..8 + word(bytes, 0).min(MOST)].to_vec()), bytes: bytes.to_vec() }
    }
    fn sized(&self) -> bool {
        self.bytes.len() == SIZE
    }
    fn late(&self) -> u32 {
        if self.sized() { 10 } else { 4 }
    }
    fn open(&mut self) -> u32 {
        if !self.sized() {
            return 4;
        }
        self.bytes[..8].fill(0);
        self.fed = Some(vec![]);
        0
    }
    fn feed(&mut self, part: &[u8]) -> u32 {
        let Some(fed) = &mut self.fed else { return self.late() };
        let before = fed.len().min(MOST);
        fed.extend(part);
        let now = fed.len().min(MOST);
        self.bytes[8 + before..8 + now].copy_from_slice(&fed[before..now]);
        put(&mut self.bytes, 0, now);
        0
    }
    fn close(&mut self, out: &mut [u8]) -> u32 {
        let Some(fed) = self.fed.take() else {
            out.fill(0);
            return self.late();
        };
        put(&mut self.bytes, 1, 1);
        whole(&fed, out)
    }
}
/// Bytes between guards, at any alignment.
struct Lent {
    bytes: Vec<u8>,
    at: usize,
    len: usize,
}
impl Lent {
    fn new(content: &[u8], shift: u32) -> Lent {
        let at = GUARD + shift as usize;
        let mut bytes = vec![FILL; at + content.len() + GUARD];
        bytes[at..at + content.len()].copy_from_slice(content);
        Lent { bytes, at, len: content.len() }
    }
    fn content(&mut self) -> &mut [u8] {
        &mut self.bytes[self.at..self.at + self.len]
    }
    /// Whether it is this, and what stands around it as it was.
    fn is(&self, want: &[u8]) -> bool {
        let around = self.bytes[..self.at].iter().chain(&self.bytes[self.at + self.len..]);
        self.bytes[self.at..self.at + self.len] == *want && around.fold(true, |so, b| so & (*b == FILL))
    }
}
/// What was met: the numbers that closes answered, and how many feeds there were.
#[derive(Default)]
struct Met {
    closes: BTreeMap<u32, u64>,
    feeds: u64,
}
/// One story: opened (or as the bytes lie), fed, closed, then calls behind the close; some readers are opened again for another sheet.
fn story(side: Side, number: u64, met: &mut Met) -> Result<(), String> {
    let mut r = Rng::new(number ^ 0x4c35_0000_0000);
    let r = &mut r;
    let size = if r.chance(40) { r.pick(&[0, 1, 8, SIZE - 1, SIZE + 1]) } else { SIZE };
    let mut lying = vec![r.pick(&[0, 7, 255]); size];
    if size == SIZE && r.chance(2) {
        let words = [r.pick(&[0, 1, 46, MOST - 1, MOST, MOST + 1, 1 << 31]), r.pick(&[0, 0, 1, 1 << 24])];
        (0..2).for_each(|k| put(&mut lying, k, words[k]));
    }
    let mut lent = Lent::new(&lying, r.below(8));
    let mut model = Model::new(&lying);
    let held = |lent: &Lent, model: &Model, got: u32, want: u32, what: &str| match (got == want, lent.is(&model.bytes))
    {
        (true, true) => Ok(()),
        (false, _) => Err(format!("{what} answered {got}, and not {want}")),
        (_, false) => Err(format!("{what} left other bytes in the reader, or wrote beside it")),
    };
    for _ in 0..1 + r.below(2) {
        if !r.chance(8) {
            let (got, want) = (side.open(lent.content()), model.open());
            held(&lent, &model, got, want, "an opening")?;
        }
        let all = bytes(r, number);
        let parts = cut(r, all.len());
        let (mut at, every) = (0, 1 + parts.len() / 16);
        for (k, n) in parts.iter().enumerate() {
            let part = &all[at..at + n];
            let (got, want) = (side.feed(lent.content(), part), model.feed(part));
            if k % every == 0 || k + 1 == parts.len() || got != want {
                held(&lent, &model, got, want, "a feed")?;
            }
            at += n;
            met.feeds += 1;
        }
        for late in 0..1 + r.below(3) {
            let need = need(&model);
            let length = r.pick(&[need, need, need, need + 5, need - 1, need / 2, 4, 0]);
            let (mut want, mut out) = (vec![FILL; length], Lent::new(&vec![FILL; length], r.below(8)));
            let (got, right) = (side.close(lent.content(), out.content()), model.close(&mut want));
            held(&lent, &model, got, right, "a close")?;
            if !out.is(&want) {
                return Err("a close left other result bytes, or wrote beside them".to_string());
            }
            *met.closes.entry(got).or_default() += 1;
            if late > 0 || r.chance(2) {
                let part = [r.below(256) as u8; 3];
                let n = r.below(4) as usize;
                let (got, want) = (side.feed(lent.content(), &part[..n]), model.feed(&part[..n]));
                held(&lent, &model, got, want, "a feed behind the close")?;
                met.feeds += 1;
            }
        }
    }
    Ok(())
}
/// The result bytes that a close of this reader needs.
fn need(model: &Model) -> usize {
    let Some(fed) = &model.fed else { return 36 };
    let mut out = vec![0; RESULT];
    match whole(fed, &mut out) {
        0 => 4 * (9 + 10 * word(&out, 5) + 5 * word(&out, 6) + 8 * word(&out, 7) + 2 * word(&out, 8)),
        _ => 36,
    }
}

// ---- times ----------------------------------------------------------------------------------

/// Nanoseconds of a feed of one byte, the mean of the first thousand and of the last thousand before the reader is full; and of one feed that fills it.
fn times(f: Feeding) -> [f64; 3] {
    let (side, mut reader, part) = (Side::Archive(f), vec![0; SIZE], vec![7; MOST]);
    let mut best = [f64::MAX; 3];
    for _ in 0..20 {
        side.open(&mut reader);
        let mut thousand = || {
            let start = Instant::now();
            (0..1000).for_each(|k| assert_eq!(side.feed(&mut reader, &[k as u8]), 0));
            start.elapsed().as_nanos() as f64 / 1000.0
        };
        best[0] = best[0].min(thousand());
        (0..15).for_each(|_| {
            thousand();
        });
        best[1] = best[1].min(thousand());
        side.open(&mut reader);
        let start = Instant::now();
        assert_eq!(side.feed(&mut reader, &part), 0);
        best[2] = best[2].min(start.elapsed().as_nanos() as f64);
    }
    best
}

pub fn run(words: &[String]) -> i32 {
    let itself = words.iter().any(|w| w == "--self");
    let planted = words.iter().position(|w| w == "--fault").and_then(|k| words.get(k + 1));
    let n: Vec<u64> = words.iter().filter_map(|w| w.parse().ok()).collect();
    let (count, seed) = (n.first().copied().unwrap_or(COUNT), n.get(1).copied().unwrap_or(1));
    if archive().sheet.is_none() {
        println!("bench_sheet is not in the archive: NOTHING WAS COMPARED");
        return 1;
    }
    if let Some(name) = planted {
        let some: Vec<Fault> = FAULTS.into_iter().filter(|f| name == "all" || *name == format!("{f:?}")).collect();
        let found =
            |f: &Fault| (seed..seed + count).find_map(|k| story(Side::Second(*f), k, &mut Met::default()).err());
        let missed: Vec<&Fault> = some.iter().filter(|f| found(f).is_none()).collect();
        println!("{} of {} faults of a reader found, not found: {missed:?}", some.len() - missed.len(), some.len());
        return (some.is_empty() || !missed.is_empty()) as i32;
    }
    let (archived, mut met) = (feeding(), Met::default());
    let side = match (itself, archived) {
        (true, _) => Side::Second(Fault::Nothing),
        (false, Some(f)) => Side::Archive(f),
        (false, None) => {
            println!(
                "bench_sheet_open, bench_sheet_feed or bench_sheet_close is not in the archive: NOTHING WAS COMPARED"
            );
            return 1;
        }
    };
    for number in seed..seed + count {
        if let Err(why) = story(side, number, &mut met) {
            println!("story {number}: {why} (oracle/run feeding 1 {number})");
            return 1;
        }
    }
    if let Some(f) = archived {
        let [first, last, all] = times(f);
        println!(
            "a feed of one byte: {first:.1} ns at the start, {last:.1} with 16,000 bytes kept; of 17,293 bytes: {all:.0}"
        );
    }
    let closes: Vec<String> = met.closes.iter().map(|(n, times)| format!("{n}: {times}")).collect();
    println!("{count} readers as one whole read, {} feeds; closes by their answer: {}", met.feeds, closes.join(", "));
    0
}
