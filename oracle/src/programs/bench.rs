//! bench [--self] [--only NAME]: median times of the C functions, or of one, and of the published Rust on the same meshes.
use crate::api::{Blade, Mesh, kind};
use crate::dynamics::soft_body::tearing::access;
use crate::dynamics::soft_body::tearing::access::PlainLog;
use crate::dynamics::soft_body::{SoftBody, SoftBodyEdgeKind};
use crate::entries::{Args, ENTRIES, Entry, FILL, Input, Lending, Raw, Table, archive, invoke};
use crate::expect::{checked, expected};
use crate::fans::fans;
use crate::image::{Image, words, words_of};
use crate::inputs::{need, rope, soup};
use crate::journal::set_fraction;
use crate::math::Vector;
use crate::meshgen::grid;
use crate::rng::Rng;
use crate::second;
use crate::wrapped::table;
use std::cell::RefCell;
use std::hint::black_box;
use std::time::Instant;

const REPETITIONS: usize = 101;
/// Calls are repeated within a measurement until it takes about this long.
const BATCH_NS: f64 = 50_000.0;
/// Calls of a batch at most, and where each has a body of its own.
const MOST: u32 = 1 << 20;
const MOST_BODIES: u32 = 32;

/// Calls that are timed in batches; `before`, which gets the number of calls to come, is not timed.
struct Timed<B: FnMut(u32), F: FnMut()> {
    before: B,
    call: F,
    batch: u32,
}
impl<B: FnMut(u32), F: FnMut()> Timed<B, F> {
    /// With a batch that takes long enough, or the largest allowed.
    fn new(before: B, call: F, most: u32) -> Self {
        let mut t = Timed { before, call, batch: 1 };
        while t.once() * (t.batch as f64) < BATCH_NS && t.batch < most {
            t.batch *= 2;
        }
        t
    }
    /// Nanoseconds of one call, by one batch.
    fn once(&mut self) -> f64 {
        (self.before)(self.batch);
        let start = Instant::now();
        for _ in 0..self.batch {
            (self.call)();
        }
        start.elapsed().as_nanos() as f64 / self.batch as f64
    }
}
/// The median of this many repetitions.
fn middle(mut once: impl FnMut() -> f64) -> f64 {
    let mut all: Vec<f64> = (0..REPETITIONS).map(|_| once()).collect();
    all.sort_by(f64::total_cmp);
    all[REPETITIONS / 2]
}
/// The medians of two times and of their quotient, the two taken in turn: a machine that is slower for a while is so for both.
fn in_turn(mut ours: impl FnMut() -> f64, mut other: impl FnMut() -> f64) -> [f64; 3] {
    let pairs: Vec<[f64; 2]> = (0..REPETITIONS).map(|_| [ours(), other()]).collect();
    let of = |pick: fn(&[f64; 2]) -> f64| {
        let mut all: Vec<f64> = pairs.iter().map(pick).collect();
        all.sort_by(f64::total_cmp);
        all[REPETITIONS / 2]
    };
    [of(|p| p[0]), of(|p| p[1]), of(|p| p[0] / p[1])]
}
/// Median nanoseconds of one call.
fn median(before: impl FnMut(u32), call: impl FnMut()) -> f64 {
    let mut t = Timed::new(before, call, MOST);
    middle(|| t.once())
}

fn meshes() -> [(&'static str, Mesh); 3] {
    let mut r = Rng::new(1);
    [
        ("grid of 22 by 22", grid(22, 22, &mut r, 0.0)),
        ("rope of 1,000", rope(1000)),
        ("soup", soup(&mut r, 1000, 1000, 1900)),
    ]
}
/// The call of an entry on a mesh: its busiest particle, half of its fan on each side.
fn input(e: Entry, m: &Mesh) -> Input {
    let k = second::kind(m);
    let fan = |v: u32| second::fan(m, k, v).len();
    let v = (0..m.px.len() as u32).rev().max_by_key(|&v| fan(v)).unwrap_or(0);
    let sides: Vec<u8> = (0..fan(v)).map(|i| (2 * i >= fan(v)) as u8).collect();
    let args = match e {
        Entry::Root => Args::Root { bits: 2.0f32.to_bits() },
        Entry::BladeHit => {
            let w = [2.0f32, -1., 2., 1., 0., 0., 8., 0.];
            Args::BladeHit { words: w.map(f32::to_bits), length: None }
        }
        Entry::Groups => Args::Groups { v, sides },
        Entry::RestMeasure => Args::RestMeasure,
        Entry::RestMeasureOf => {
            let list = (0..m.px.len() as u32).filter(|p| p % 10 != 0).collect();
            Args::RestMeasureOf { list, length: None }
        }
        Entry::Opens => Args::Opens { v, sides, minimum: 3 },
        Entry::Pieces => Args::Pieces,
        Entry::Fan => Args::Fan { v },
        _ => unreachable!("an entry that gives a mesh has rows of its own, and one on sheets has none"),
    };
    reading(m, args)
}
/// A call that answers about a mesh, with just enough result bytes.
fn reading(m: &Mesh, args: Args) -> Input {
    let mut i = Input { image: Image::new(m.clone()), args, lending: Lending::default(), out: 0 };
    i.out = need(&i);
    i
}
/// A call that gives a mesh, with room up to the limits.
fn tearing(m: &Mesh, args: Args) -> Input {
    let lending = Lending { places: [1024, 1024, 2048, 2048], length: None, log: 24 * 4096 };
    let out = 4 * (2 + 4 + 10 * 1024 + 5 * 1024 + 8 * 2048 + 2 * 2048);
    Input { image: Image::new(m.clone()), args, lending, out }
}
/// A call that gives a mesh, and the name of its row.
struct Row {
    name: &'static str,
    mesh: Mesh,
    call: Raw,
}
/// Rows on one mesh, behind the row in which nothing is split but all else is done.
struct Rows {
    idle: Row,
    rows: Vec<Row>,
}
fn rows<const N: usize>(m: &Mesh, idle: (&'static str, &Mesh, Args), rows: [(&'static str, Args); N]) -> Rows {
    let row = |name, m: &Mesh, args| Row { name, mesh: m.clone(), call: tearing(m, args).raw() };
    let (name, still, args) = idle;
    Rows { idle: row(name, still, args), rows: rows.map(|(name, args)| row(name, m, args)).into() }
}
/// The same mesh with this particle pinned.
fn pinned(m: &Mesh, v: u32) -> Mesh {
    let mut m = m.clone();
    m.inv[v as usize] = 0.0;
    m
}
/// Rows of the entries that give a mesh.
fn tearing_rows() -> Vec<Rows> {
    let m = grid(22, 22, &mut Rng::new(1), 0.0);
    let line = rope(1000);
    let blade = |x0: f32, y0: f32, x1: f32, y1: f32| Args::Cut {
        blade: [x0, y0, x1, y1].map(f32::to_bits),
        length: None,
        edition: 1,
        fraction: 0.1f32.to_bits(),
    };
    let crack = |count: u32| {
        // Inner edges, far from each other.
        let inner = |e: &u32| (3.0..19.0).contains(&m.px[m.ea[*e as usize] as usize]) && m.structural[*e as usize] == 1;
        let edges: Vec<u32> = (0..m.ea.len() as u32).filter(inner).collect();
        let torn = (0..count).map(|k| edges[edges.len() * (2 * k as usize + 1) / (2 * count as usize)]).collect();
        Args::Crack { torn, length: None, minimum: 3 }
    };
    let v = 11 * 23 + 11;
    let split = |m: &Mesh| {
        let fan = second::fan(m, second::kind(m), v).len();
        Args::Split { v, sides: (0..fan).map(|i| (2 * i >= fan) as u8).collect() }
    };
    // Nothing splits, but the tables are made that a split needs.
    let whole = |m: &Mesh| Args::Split { v, sides: vec![0; second::fan(m, second::kind(m), v).len()] };
    let apart = second::cut(&m, Blade::new(-1., -1., 23., 23.), 0.1).mesh;
    let mut joined = apart.clone();
    (m.px.len()..apart.px.len()).for_each(|copy| joined.edge(apart.root[copy], copy as u32, false, 0.0));
    let pin = "grid, split at a pinned particle (idle)";
    let pin_apart = "grid in two pieces, split at a pinned particle (idle)";
    vec![
        rows(&m, (pin, &pinned(&m, v), split(&m)), [("grid, tables and two sides", split(&m)), ("grid", Args::Straddlers)]),
        rows(&m, ("grid, all on one side (idle)", &m, whole(&m)), [("grid, two sides at the middle", split(&m))]),
        rows(&apart, (pin_apart, &pinned(&apart, v), split(&apart)), [("grid in two pieces", Args::Straddlers)]),
        rows(
            &joined,
            ("the same with edges across (idle)", &pinned(&joined, v), split(&joined)),
            [("grid in two pieces, edges across", Args::Straddlers)],
        ),
        rows(
            &m,
            ("grid, miss (idle)", &m, blade(-1., -3., 23., -2.)),
            [("grid, diagonal", blade(-1., -1., 23., 23.)), ("grid, slanted", blade(-1., 7.3, 23., 12.9))],
        ),
        rows(
            &line,
            ("rope of 1,000, miss (idle)", &line, blade(-1., -3., 23., -2.)),
            [
                ("rope of 1,000, one strap", blade(250.25, -1., 250.25, 2.)),
                ("rope of 1,000, ten straps", blade(249.75, -0.2, 254.25, 1.2)),
            ],
        ),
        rows(
            &m,
            ("grid, no torn edge (idle)", &m, crack(0)),
            [("grid, one torn edge", crack(1)), ("grid, ten torn edges", crack(10))],
        ),
    ]
}
/// The same split on grids of 8, 16 and 22 and on ropes of 250, 500 and 1,000: the work apart is to stay what it is. The idle call has the same tables made, and all sides
/// of the fan alike, so that nothing splits: what a call does once, however many particles it splits, is not the split's. Behind them the same cut of one strap on those ropes.
fn growth_rows() -> Vec<Rows> {
    let sides_of = |m: &Mesh, v: u32, two: bool| {
        let fan = second::fan(m, second::kind(m), v).len();
        Args::Split { v, sides: (0..fan).map(|i| (two && 2 * i >= fan) as u8).collect() }
    };
    let split_of = |name: &'static str, m: &Mesh, v: u32| {
        rows(m, ("the same, all on one side (idle)", m, sides_of(m, v, false)), [(name, sides_of(m, v, true))])
    };
    // Apart from a call at a pinned particle, which makes no table: the tables are in it.
    let tabled_of = |name: &'static str, m: &Mesh, v: u32| {
        rows(m, ("the same, pinned (idle)", &pinned(m, v), sides_of(m, v, true)), [(name, sides_of(m, v, true))])
    };
    let grids = [("grid of 8", 8), ("grid of 16", 16), ("grid of 22", 22)].map(|(name, size)| {
        split_of(name, &grid(size, size, &mut Rng::new(1), 0.0), ((size / 2) * (size + 1) + size / 2) as u32)
    });
    let split_ropes =
        [("rope of 250", 250), ("rope of 500", 500), ("rope of 1,000", 1000)].map(|(name, size)| split_of(name, &rope(size), 60));
    let tabled_grids = [("tables and grid of 8", 8), ("tables and grid of 22", 22)].map(|(name, size)| {
        tabled_of(name, &grid(size, size, &mut Rng::new(1), 0.0), ((size / 2) * (size + 1) + size / 2) as u32)
    });
    let tabled_ropes = [("tables and rope of 250", 250), ("tables and rope of 1,000", 1000)].map(|(name, size)| tabled_of(name, &rope(size), 60));
    let ropes = [("strap in a rope of 250", 250), ("strap in a rope of 500", 500), ("strap in a rope of 1,000", 1000)].map(|(name, size)| {
        let line = rope(size);
        let blade = |x: f32, y0: f32, y1: f32| Args::Cut {
            blade: [x, y0, x, y1].map(f32::to_bits),
            length: None,
            edition: 1,
            fraction: 0.1f32.to_bits(),
        };
        rows(&line, ("the same, missed (idle)", &line, blade(60.25, -3., -2.)), [(name, blade(60.25, -1., 2.))])
    });
    grids.into_iter().chain(split_ropes).chain(tabled_grids).chain(tabled_ropes).chain(ropes).collect()
}
/// The body that `connected_pieces` counts: elements alone. It goes by shared particles, ours by shared sides: the Rust has no such count.
fn elements_alone(m: &Mesh) -> SoftBody {
    let mut b = m.to_body(None);
    let straps = kind(m) == 2;
    b.edges.0.retain(|e| straps && e.kind == SoftBodyEdgeKind::Structural);
    b.boundary.0.clear();
    b
}
/// The source alone, on a body that stands ready.
fn rust_alone(c: &Raw, m: &Mesh) -> f64 {
    let body = m.to_body(Some(c.minimum));
    let sides: Vec<usize> = c.second.iter().map(|&s| s as usize).collect();
    let list = words_of(&c.second);
    let w: Vec<f32> = words_of(&c.first).into_iter().map(f32::from_bits).collect();
    let once = |_: u32| {};
    match c.entry {
        Entry::Root => median(once, || {
            black_box(f32::from_bits(black_box(c.number)).sqrt());
        }),
        Entry::BladeHit => median(once, || {
            let w = black_box(&w);
            let (p, q) = (Vector::new(w[4], w[5]), Vector::new(w[6], w[7]));
            black_box(access::blade_hit(Blade::new(w[0], w[1], w[2], w[3]).ends(), p, q));
        }),
        Entry::Groups => median(once, || {
            black_box(access::groups(black_box(&body), c.number, &sides));
        }),
        Entry::RestMeasure => median(once, || {
            black_box(black_box(&body).rest_measure());
        }),
        Entry::RestMeasureOf => median(once, || {
            black_box(black_box(&body).rest_measure_of(&list));
        }),
        Entry::Fan => median(once, || {
            black_box(access::fan_elements(black_box(&body), c.number));
        }),
        Entry::Opens => median(once, || {
            black_box(access::opens_without_confetti(black_box(&body), c.number, &sides));
        }),
        Entry::Pieces => {
            let body = elements_alone(m);
            median(once, || {
                black_box(black_box(&body).connected_pieces());
            })
        }
        _ => {
            // Each call has a body of its own, which is neither built nor dropped in the time.
            let (fresh, done) = (RefCell::new(vec![]), RefCell::new(vec![]));
            let ready = |calls: u32| {
                done.borrow_mut().clear();
                *fresh.borrow_mut() = (0..calls).map(|_| m.to_body(Some(c.minimum))).collect();
            };
            let call = || {
                let mut body = fresh.borrow_mut().pop().expect("a body for each call");
                black_box(torn(c, black_box(&mut body)));
                done.borrow_mut().push(body);
            };
            let mut t = Timed::new(ready, call, MOST_BODIES);
            middle(|| t.once())
        }
    }
}
/// The source's own function on a body.
fn torn(c: &Raw, body: &mut SoftBody) -> PlainLog {
    let w = words_of(&c.second);
    match c.entry {
        Entry::Split => {
            let sides: Vec<usize> = c.second.iter().map(|&s| s as usize).collect();
            access::split_fan(body, c.number, &sides).1
        }
        Entry::Cut => {
            set_fraction(f32::from_bits(c.number));
            let f: Vec<f32> = w.into_iter().map(f32::from_bits).collect();
            access::cut_core(body, Blade::new(f[0], f[1], f[2], f[3]).ends())
        }
        Entry::Crack => access::crack(body, &w).1,
        _ => access::straddlers(body),
    }
}
/// The same work as ours but for the room of each step, the order of the log and the marks of a cut: decoding, checks 1
/// to 4, building the body, the source's function, the result's image, the log's words.
fn torn_from_image(c: &Raw) -> Option<(Vec<u32>, Vec<u32>)> {
    let mut body = checked(c).ok()?.to_body(Some(c.minimum));
    let log = torn(c, &mut body);
    let splits = log.splits.iter().map(|&(copy, source)| [1, copy, source, 0, 0, 0]);
    let removed = log.removed.iter().map(|&[a, b]| [2, a, b, 0, 0, 0]);
    let inserted = log.inserted.iter().map(|&[a, b, p, q]| [3, a, b, p, q, 0]);
    let opened = log.opened.iter().map(|&[a, b]| [4, a, b, 0, 0, 0]);
    let entries: Vec<u32> = splits.chain(removed).chain(inserted).chain(opened).flatten().collect();
    let changed = !log.splits.is_empty() || !log.inserted.is_empty();
    let head = vec![changed as u32, entries.len() as u32 / 6];
    Some(([head, words(&Mesh::from_body(&body))].concat(), entries))
}
/// The bytes lent for result and log.
type Lent = RefCell<(Vec<u8>, Vec<u8>)>;
/// The C function, which must accept the call, ready to be timed; `None` if the table lacks it.
fn timed<'a>(t: &'a Table, c: &'a Raw, lent: &'a Lent) -> Option<Timed<impl FnMut(u32) + 'a, impl FnMut() + 'a>> {
    let call = move || {
        let (out, log) = &mut *lent.borrow_mut();
        invoke(t, black_box(c), out, log)
    };
    assert_eq!(call()?, 0, "a call that is accepted");
    let fill = move |_: u32| {
        let (out, log) = &mut *lent.borrow_mut();
        out.fill(FILL);
        log.fill(FILL);
    };
    let again = move || {
        black_box(call());
    };
    Some(Timed::new(fill, again, MOST))
}
fn lent(c: &Raw) -> Lent {
    RefCell::new((vec![FILL; c.out], vec![FILL; c.log]))
}
/// The C function, the Rust from the image, and their quotient.
fn beside(t: &Table, c: &Raw, whole: impl Fn(&Raw)) -> Option<[f64; 3]> {
    let lent = lent(c);
    let mut ours = timed(t, c, &lent)?;
    let mut whole = Timed::new(|_| {}, || whole(black_box(c)), MOST);
    Some(in_turn(|| ours.once(), || whole.once()))
}
/// What the C function takes beyond an idle call: the median of differences, the two timed in turn. Both are lent the same bytes, as two sets of them would not stay in the same
/// caches, which is more than a split takes.
fn ours_apart(t: &Table, c: &Raw, idle: &Raw) -> Option<f64> {
    let lent = lent(c);
    let (mut ours, mut idle) = (timed(t, c, &lent)?, timed(t, idle, &lent)?);
    Some(middle(|| ours.once() - idle.once()))
}

/// How many plain copies a call takes: of the image, and of the answer's words, those of the mesh that it gives and of its log.
fn copies(t: &Table, c: &Raw) -> Option<f64> {
    let lent = lent(c);
    let mut ours = timed(t, c, &lent)?;
    let head = words_of(&lent.borrow().0[..24]);
    let image = 4 * (4 + 10 * head[2] + 5 * head[3] + 8 * head[4] + 2 * head[5]) as usize;
    let (answer, entries) = (vec![FILL; 8 + image], vec![FILL; 24 * head[1] as usize]);
    let mut room = vec![FILL; c.first.len()];
    let (mut out, mut log) = (vec![FILL; c.out], vec![FILL; c.log]);
    let copy = || {
        room.copy_from_slice(black_box(&c.first));
        out[..answer.len()].copy_from_slice(black_box(&answer));
        log[..entries.len()].copy_from_slice(black_box(&entries));
        black_box((&room, &out, &log));
    };
    let mut plain = Timed::new(|_| {}, copy, MOST);
    Some(in_turn(|| ours.once(), || plain.once())[2])
}

fn time(ns: f64) -> String {
    if ns.abs() < 10_000.0 { format!("{ns:.0} ns") } else { format!("{:.1} us", ns / 1000.0) }
}

pub fn run(words: &[String]) -> i32 {
    let own = words.first().is_some_and(|w| w == "--self");
    let only = words.iter().skip_while(|w| *w != "--only").nth(1);
    let asked = |e: Entry| only.is_none_or(|name| e.name() == name);
    let t = if own { table() } else { archive() };
    let emulated = std::env::var("ORACLE_EMULATED").is_ok_and(|v| v == "1");
    println!("Medians of {REPETITIONS} repetitions, batches of at least {} us.", BATCH_NS / 1000.0);
    println!("Ours: {}.", if own { "the second writing behind the C functions" } else { "the archive's C functions" });
    println!("Ours and the Rust from the image are timed in turn, and so are ours and a plain copy; a quotient is the median of theirs.");
    println!("The Rust's allocator keeps what it has taken, which is its fastest (docs/DECISIONS.md, 168).");
    println!("Result bytes were not cleared before a call (filled with {FILL:02x} before each batch, not timed).");
    match emulated {
        true => println!("It ran on an emulator: only the ratios say something."),
        false => println!("It ran on the machine itself."),
    }
    println!();
    println!("\"Rust alone\": the published function on a body that stands ready. \"Rust from the image\": the same");
    println!("work as ours, that is decoding, checks 1 to 4, building the body, the published function; where a mesh");
    println!("is given also its image and the log's words, but not the room of each step, nor the marks of a cut.");
    println!();
    println!(
        "\"The work apart\", where a mesh is given: ours less an idle call, in which nothing is split but decoding,"
    );
    println!(
        "checks, copy and store are done; the median of differences, the two timed in turn. Its row stands before. A split's idle call makes its tables too, but in the rows that say \"tables\"."
    );
    println!(
        "Straddlers have no idle call, so that of a split is taken; pieces none, so that of the rest measure. A cut that misses has looked at every element."
    );
    println!();
    let mut all = vec![];
    println!("| function | mesh | {} | {} |", COLUMNS[..5].join(" | "), COLUMNS[5..].join(" | "));
    println!("|---|---|{}", "---|".repeat(COLUMNS.len()));
    for e in ENTRIES.into_iter().filter(|e| !e.tears() && !e.sheets() && asked(*e)) {
        for (k, (name, m)) in meshes().iter().enumerate() {
            let meshless = matches!(e, Entry::Root | Entry::BladeHit);
            if meshless && k > 0 {
                continue;
            }
            let idle = (e == Entry::Pieces).then(|| input(Entry::RestMeasure, m).raw());
            all.push(read_row(&t, if meshless { "-" } else { name }, m, &input(e, m).raw(), idle.as_ref()));
        }
    }
    for f in fans().into_iter().filter(|_| asked(Entry::Groups)) {
        all.push(read_row(&t, f.name, &f.mesh, &reading(&f.mesh, Args::Groups { v: 0, sides: f.sides }).raw(), None));
    }
    let mut grown = vec![];
    for (kept, Rows { idle, rows }) in
        tearing_rows().iter().map(|r| (true, r)).chain(growth_rows().iter().map(|r| (false, r)))
    {
        let mut rows = rows.iter().filter(|r| asked(r.call.entry)).peekable();
        if rows.peek().is_some() {
            let mut still = torn_row(&t, idle, None);
            still.copies = copies(&t, &idle.call);
            if kept { all.push(still) } else { grown.push(still) }
        }
        let into = if kept { &mut all } else { &mut grown };
        rows.for_each(|r| into.push(torn_row(&t, r, Some(&idle.call))));
    }
    wanted(&all, &grown);
    0
}
/// What was measured of a row, in nanoseconds.
struct Measured {
    function: &'static str,
    mesh: String,
    alone: f64,
    ours: Option<f64>,
    /// Ours beside the Rust from the image, and beside a plain copy.
    imaged: Option<f64>,
    apart: Option<f64>,
    copies: Option<f64>,
}
impl Measured {
    fn is(&self, function: &str, mesh: &str) -> bool {
        self.function == function && self.mesh.starts_with(mesh)
    }
}
/// What a ratio is of.
enum Of {
    Alone,
    Apart,
    Copy,
}
/// The ratios that are wanted of single rows: function, the mesh's first words, of what, at most.
const WANTED: [(&str, &str, Of, f64); 17] = [
    ("bench_cut", "grid, diagonal", Of::Alone, 0.25),
    ("bench_cut", "grid, slanted", Of::Alone, 0.25),
    ("bench_crack", "grid, ten torn edges", Of::Alone, 0.08),
    ("bench_split", "grid, two sides", Of::Apart, 0.25),
    ("bench_split", "grid, tables and two sides", Of::Apart, 0.25),
    ("bench_cut", "rope of 1,000, one strap", Of::Alone, 1.0),
    ("bench_cut", "rope of 1,000, ten straps", Of::Alone, 1.0),
    ("bench_cut", "rope of 1,000, one strap", Of::Apart, 1.0),
    ("bench_cut", "rope of 1,000, ten straps", Of::Apart, 1.0),
    ("bench_pieces", "grid of 22 by 22", Of::Apart, 1.0),
    ("bench_pieces", "rope of 1,000", Of::Apart, 1.0),
    ("bench_straddlers", "grid (", Of::Apart, 1.0),
    ("bench_straddlers", "grid in two pieces, edges across", Of::Apart, 1.0),
    ("bench_split", "grid, split at a pinned", Of::Copy, 5.0),
    ("bench_cut", "grid, miss", Of::Copy, 5.0),
    ("bench_cut", "rope of 1,000, miss", Of::Copy, 5.0),
    ("bench_crack", "grid, no torn edge", Of::Copy, 5.0),
];
/// The largest ratio wanted of ours to the Rust from the same image, and of the last to the first of a split on growing meshes.
const FROM_IMAGE: f64 = 0.3;
const GROWTH: f64 = 1.25;

fn verdict(what: &str, got: f64, most: f64) {
    println!("| {what} | {most:.2} | {got:.2} | {} |", if got <= most { "yes" } else { "NO" });
}
/// A table that says for each number that is wanted whether it is reached; rows that were not measured are left out.
fn wanted(all: &[Measured], grown: &[Measured]) {
    println!();
    println!("What is wanted. \"A plain copy\": of the image, and of the words of the answer and the log.");
    println!();
    println!("| what | at most | measured | reached |");
    println!("|---|---|---|---|");
    for (function, mesh, of, most) in WANTED {
        for r in all.iter().filter(|r| r.is(function, mesh)) {
            let (got, of) = match of {
                Of::Alone => (r.ours.map(|n| n / r.alone), "Rust alone"),
                Of::Apart => (r.apart.map(|n| n / r.alone), "Rust alone, the work apart"),
                Of::Copy => (r.copies, "a plain copy"),
            };
            if let Some(got) = got {
                verdict(&format!("`{function}`, {mesh}: ours / {of}"), got, most);
            }
        }
    }
    // A root and a blade test have no image.
    let imaged: Vec<(f64, &Measured)> =
        all.iter().chain(grown).filter(|r| r.mesh != "-").filter_map(|r| Some((r.imaged?, r))).collect();
    if let Some((got, r)) = imaged.iter().max_by(|a, b| a.0.total_cmp(&b.0)) {
        let rows = imaged.iter().filter(|(got, _)| *got <= FROM_IMAGE).count();
        let what = format!("all rows: ours / Rust from the image; the largest is `{}`, {}", r.function, r.mesh);
        verdict(&format!("{what}; {rows} of {} rows reach it", imaged.len()), *got, FROM_IMAGE);
    }
    let growth = |kind: &str, of: &str| {
        let apart: Vec<f64> = grown.iter().filter(|r| r.mesh.starts_with(kind)).filter_map(|r| r.apart).collect();
        let (first, last) = (*apart.first()?, *apart.last()?);
        Some((format!("the work apart of one {of}, {kind}: in the largest / in the smallest: {} / {}", time(last), time(first)), last / first))
    };
    for kind in ["grid", "rope"] {
        if let Some((what, got)) = growth(kind, "split") {
            verdict(&what, got, GROWTH);
        }
    }
    // The tables of a call and the passes of a strap cut grow with the mesh.
    let besides: Vec<(String, f64)> =
        [("tables and grid", "split"), ("tables and rope", "split"), ("strap", "cut")].into_iter().filter_map(|(kind, of)| growth(kind, of)).collect();
    if !besides.is_empty() {
        println!();
        println!("Held to no number (docs/DECISIONS.md, 166): what a call does once beside its splits grows with the mesh.");
        println!();
        println!("| what | measured |");
        println!("|---|---|");
        besides.iter().for_each(|(what, got)| println!("| {what} | {got:.2} |"));
    }
}
/// Behind the function's and the mesh's.
const COLUMNS: [&str; 7] = [
    "Rust alone",
    "Rust from the image",
    "ours",
    "ours / Rust alone",
    "ours / Rust from the image",
    "the work apart",
    "the work apart / Rust alone",
];
fn read_row(t: &Table, name: &str, m: &Mesh, c: &Raw, idle: Option<&Raw>) -> Measured {
    let whole = |c: &Raw| {
        black_box(expected(c));
    };
    row(t, name, m, c, whole, idle)
}
fn torn_row(t: &Table, r: &Row, idle: Option<&Raw>) -> Measured {
    let entries = torn_from_image(&r.call).expect("a call that passes the checks").1.len() / 6;
    let whole = |c: &Raw| {
        black_box(torn_from_image(c));
    };
    row(t, &format!("{} ({entries} log entries of the Rust)", r.name), &r.mesh, &r.call, whole, idle)
}
fn row(t: &Table, name: &str, m: &Mesh, c: &Raw, whole: impl Fn(&Raw), idle: Option<&Raw>) -> Measured {
    let alone = rust_alone(c, m);
    let beside = beside(t, c, &whole);
    print!("| `{}` | {name} | {} |", c.entry.name(), time(alone));
    match beside {
        Some([ns, whole, imaged]) => print!(" {} | {} | {:.2} | {imaged:.2} |", time(whole), time(ns), ns / alone),
        None => print!(" {} | not there yet | - | - |", time(median(|_| {}, || whole(black_box(c))))),
    }
    let (ours, imaged) = (beside.map(|b| b[0]), beside.map(|b| b[2]));
    let apart = idle.and_then(|idle| ours_apart(t, c, idle));
    match apart {
        Some(ns) => println!(" {} | {:.2} |", time(ns), ns / alone),
        None => println!(" - | - |"),
    }
    Measured { function: c.entry.name(), mesh: name.to_string(), alone, ours, imaged, apart, copies: None }
}
