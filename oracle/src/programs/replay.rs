//! replay write reading|tearing|hosting > FILE: a fixed list of small calls of the C functions that read, that
//! give a mesh, or that a host has fans and sheets from, with the Rust's answers.
//! replay again FILE > OTHER: its calls with today's answers, and one more for each wrong variant that none of them fails.
//! replay read FILE: the Rust, the archive and every wrong variant of the second writing against it.
use crate::api::Mesh;
use crate::entries::{Args, ENTRIES, Entry, GROUPS, Group, Input, Lending, Raw, Table, archive, call};
use crate::expect::{Expected, checked, expected, fault, hex_words, outcome};
use crate::faults::{Fault, faults, plant};
use crate::image::Image;
use crate::inputs::{Kind, fields, input, need};
use crate::meshgen::{document_fan, document_straps};
use crate::sheet::{self, Edition, Sheet};
use crate::shrink::shrink;
use crate::wrapped::table;
use std::fmt::Write;

/// Longest byte slice in the list, so that it can be computed in a proof too.
const SMALL: usize = 720;
/// The same for the bytes lent where a mesh is given.
const SMALL_LENT: usize = 1400;
/// The same for the bytes of the log.
const SMALL_LOG: usize = 1200;
/// Cases of an entry and a kind that each wrong variant fails, the smallest found.
const EACH: usize = 4;
/// Further cases of each entry, as they come: random ones, damaged ones, ones at a limit.
const FURTHER: [(Kind, usize); 3] = [(Kind::Random, 12), (Kind::Damaged, 12), (Kind::Limit, 5)];
/// Calls of each refusal number for an entry that gives a mesh.
const OF_EACH_NUMBER: usize = 2;
const TRIES: u64 = 2_000;

// ---- the list -----------------------------------------------------------------------------

fn plain(image: Mesh, args: Args) -> Raw {
    lent(image, args, [64, 64, 64, 64], 8)
}
/// A call with these places of particles, triangles, edges and boundary, and of log entries.
fn lent(image: Mesh, args: Args, places: [u32; 4], entries: usize) -> Raw {
    let lending = Lending { places, length: None, log: 24 * entries };
    let mut i = Input { image: Image::new(image), args, lending, out: 0 };
    i.out = need(&i);
    i.raw()
}
/// The worked strap.
fn strap() -> Mesh {
    let mut m = Mesh::default();
    m.particle(0., 0., 1.0, false);
    m.particle(8., 0., 1.0, false);
    m.edge(0, 1, true, 8.0);
    m
}
/// The worked square.
fn square() -> Mesh {
    let mut m = Mesh::default();
    for (x, y) in [(0., 0.), (4., 0.), (4., 4.), (0., 4.)] {
        m.particle(x, y, 1.0, false);
    }
    m.triangle(0, 1, 2, 8.0);
    m.triangle(0, 2, 3, 8.0);
    m.edge(0, 2, true, 32f32.sqrt());
    m.edge(1, 3, false, 32f32.sqrt());
    for i in 0..4 {
        m.bound(i, (i + 1) % 4);
    }
    m
}
/// Six straps in a row, loaded and moving, of which the third is torn.
fn row() -> Mesh {
    let mut m = Mesh::default();
    for i in 0..7 {
        m.particle(i as f32, 1.0, 1.0, false);
    }
    (m.vx, m.vy) = (vec![1.0; 7], vec![1.0; 7]);
    for i in 0..6 {
        m.edge(i, i + 1, true, 1.0);
    }
    (m.impulse, m.estress) = (vec![1.0; 6], vec![1.0; 6]);
    m.torn[2] = 1;
    m
}
fn cut(edition: u32, b: [f32; 4], fraction: f32) -> Args {
    Args::Cut { blade: b.map(f32::to_bits), length: None, edition, fraction: fraction.to_bits() }
}
/// The two worked cuts, a split and a crack, with as many places as they take on their way: the square has three edges until a straddler goes.
/// The row opens behind its torn strap: before it a part of two straps would come off, and three is the least.
fn just_enough() -> Vec<Raw> {
    vec![
        lent(strap(), cut(1, [2., -1., 2., 1.], 0.1), [4, 0, 2, 0], 2),
        lent(square(), cut(1, [-1., -1., 5., 5.], 0.1), [6, 2, 3, 6], 8),
        lent(square(), Args::Split { v: 0, sides: vec![0, 1] }, [5, 2, 3, 6], 8),
        lent(row(), Args::Crack { torn: vec![2], length: None, minimum: 3 }, [8, 0, 6, 0], 2),
    ]
}
/// The mesh that a call gives; one of triangles comes without edges and boundary, which its pieces do not ask for.
fn given(c: &Raw) -> Mesh {
    let before = checked(c).expect("an accepted call");
    let mut m = outcome(c, &before).mesh;
    if !m.ta.is_empty() {
        m.drop_rows(2, &vec![true; m.ea.len()]);
        m.drop_rows(3, &vec![true; m.ba.len()]);
    }
    m
}
/// The cases to hold (R15) for the entries that give a mesh.
fn document_tearing() -> Vec<Raw> {
    let fan = document_fan();
    let mut pinned = fan.clone();
    pinned.inv[0] = 0.0;
    let (strap, square) = (strap(), square());
    let cut = |edition: u32, b: [f32; 4]| cut(edition, b, 0.1);
    let blade = |b: [f32; 4]| cut(1, b);
    let mut moving = strap.clone();
    (moving.vx, moving.vy) = (vec![1.0, -3.0], vec![0.1, 0.7]);
    let with = |change: fn(&mut Mesh)| {
        let mut m = square.clone();
        change(&mut m);
        m
    };
    let mut straps = strap.clone();
    straps.px[1] = 8.5;
    let diagonal = [-1., -1., 5., 5.];
    // Edition 2: the square either way round, what is whole and what is not, straps, and other editions.
    let editions = [
        plain(square.clone(), cut(2, diagonal)),
        plain(square.clone(), cut(2, [5., 5., -1., -1.])),
        plain(square.clone(), cut(2, [-1024., -1024., 1024., 1024.])),
        plain(square.clone(), cut(2, [-1., -1., 1025., 5.])),
        plain(square.clone(), cut(2, [-1., -1., 5., 0.5])),
        plain(square.clone(), cut(2, [-1., -1., 5., 1048577.])),
        plain(with(|m| (m.px[0], m.rx[1]) = (-0.0, 0.5)), cut(2, diagonal)),
        plain(with(|m| m.py[3] = 4.5), cut(2, diagonal)),
        plain(strap.clone(), cut(2, [2., -1., 2., 1.])),
        plain(straps.clone(), cut(2, [2., -1., 2., 1.])),
        plain(straps, cut(3, [2., -1., 2., 1.])),
        plain(square.clone(), cut(0, diagonal)),
        plain(Mesh::default(), cut(2, diagonal)),
    ];
    // The first of them again, as much lent, with a fraction above a half.
    let enough = just_enough();
    let above = Raw { number: 0.75f32.to_bits(), ..enough[0].clone() };
    let split = |m: &Mesh, sides: Vec<u8>| plain(m.clone(), Args::Split { v: 0, sides });
    vec![
        split(&fan, vec![0, 0, 0]),
        split(&fan, vec![1, 0, 0]),
        split(&pinned, vec![1, 0, 0]),
        plain(strap, blade([2., -1., 2., 1.])),
        plain(moving, blade([2., -1., 2., 1.])),
        plain(square.clone(), blade([-1., -1., 5., 5.])),
        plain(square.clone(), Args::Crack { torn: vec![0], length: None, minimum: 1 }),
        plain(square, Args::Straddlers),
    ]
    .into_iter()
    .chain(editions)
    .chain(enough)
    .chain([above])
    .collect()
}
/// The cases to hold (R15) for the entries that read.
fn document() -> Vec<Raw> {
    let fan = document_fan();
    let straps = document_straps();
    let mut list = vec![
        plain(fan.clone(), Args::Groups { v: 0, sides: vec![0, 0, 0] }),
        plain(fan, Args::Groups { v: 0, sides: vec![1, 0, 0] }),
        plain(straps, Args::Groups { v: 0, sides: vec![0, 1, 0] }),
    ];
    for w in [
        [2., -1., 2., 1., 0., 0., 8., 0.],
        [2., -1., 2., 1., 2., 0., 2., 5.],
        [2., 0., 2., 1., 0., 0., 8., 0.],
        [3., 3., 3., 3., 0., 0., 8., 0.],
    ] {
        list.push(plain(Mesh::default(), Args::BladeHit { words: w.map(f32::to_bits), length: None }));
    }
    for x in [0.0f32, 4.0, 0.25] {
        list.push(plain(Mesh::default(), Args::Root { bits: x.to_bits() }));
    }
    list.push(plain(square(), Args::Pieces));
    for sides in [vec![0, 0], vec![0, 1], vec![0, 2]] {
        list.push(plain(square(), Args::Groups { v: 0, sides }));
    }
    list.extend(just_enough().iter().map(|c| plain(given(c), Args::Pieces)));
    list
}
/// The worked sheet (R15.7) in both editions and without its outline, its fields, its listings, and the fan of a corner of its square.
fn document_hosting() -> Vec<Raw> {
    let s = Sheet {
        particles: vec![(0, 0, 0), (4, 0, 0), (4, 4, 0), (0, 4, 0)],
        triangles: vec![[0, 1, 2], [0, 2, 3]],
        edges: vec![(0, 2, 1), (1, 3, 0)],
        boundary: (0..4).map(|i| (i, (i + 1) % 4)).collect(),
        blade: [-1, -1, 5, 5],
    };
    let open = Sheet { boundary: vec![], ..s.clone() };
    let mut list = vec![
        plain(Mesh::default(), Args::SheetWrite { fields: fields(&s), length: None }),
        plain(sheet::mesh(&s).0, Args::Fan { v: 0 }),
        plain(document_straps(), Args::Fan { v: 0 }),
    ];
    for (s, edition) in [(&s, Edition::First), (&s, Edition::Second), (&open, Edition::First)] {
        let bytes = sheet::write(s, edition);
        list.push(plain(Mesh::default(), Args::Sheet { bytes: bytes.clone() }));
        list.push(plain(Mesh::default(), Args::ListCut { bytes }));
    }
    list
}
/// Whether a call belongs in the list: small, and its answer is stated.
fn fits(c: &Raw) -> bool {
    let most = if c.entry.tears() { SMALL_LENT } else { SMALL };
    c.first.len().max(c.second.len()) <= SMALL && c.out <= most && c.log <= SMALL_LOG
}
fn fails(t: &Table, c: &Raw) -> bool {
    call(t, c).is_some_and(|got| fault(&expected(c), &got).is_some())
}
fn choose(group: Group) -> Vec<Raw> {
    let tearing = group == Group::Tearing;
    let mut list = [document, document_tearing, document_hosting][group as usize]();
    let add = |list: &mut Vec<Raw>, c: Raw| {
        if !list.contains(&c) {
            list.push(c);
        }
    };
    let t = table();
    for e in ENTRIES.into_iter().filter(|e| e.group() == group) {
        for (k, count) in FURTHER {
            let calls = (1..TRIES).map(|s| input(e, k, s).raw()).filter(fits);
            calls.take(count).for_each(|c| add(&mut list, c));
        }
        let tries = |k: Kind| -> Vec<Raw> { (1..TRIES).map(|s| input(e, k, s).raw()).filter(fits).collect() };
        let calls = [Kind::Random, Kind::Damaged].map(|k| (tries(k), if tearing { 1 } else { EACH }));
        for no in if group == Group::Reading { 0..0 } else { 1..13 } {
            let refused = calls.iter().flat_map(|c| &c.0).filter(|c| expected(c) == Expected::Refused(no));
            refused.take(OF_EACH_NUMBER).for_each(|c| add(&mut list, c.clone()));
        }
        for f in faults(group) {
            plant(f);
            for (calls, count) in &calls {
                let mut failing: Vec<&Raw> = calls.iter().filter(|c| fails(&t, c)).collect();
                failing.sort_by_key(|c| c.first.len() + c.second.len() + c.out);
                failing.into_iter().take(*count).for_each(|c| add(&mut list, c.clone()));
            }
        }
    }
    for f in faults(group) {
        plant(f);
        if !list.iter().any(|c| fails(&t, c)) {
            list.extend(smallest(&t, group));
        }
    }
    plant(Fault::Nothing);
    list
}
/// The first failing call of any size, made small.
fn smallest(t: &Table, group: Group) -> Option<Raw> {
    let kinds = [Kind::Random, Kind::Limit].into_iter();
    let mut calls = kinds.flat_map(|k| {
        let entries = ENTRIES.into_iter().filter(move |e| e.group() == group);
        entries.flat_map(move |e| (1..3 * TRIES).map(move |s| input(e, k, s)))
    });
    let found = calls.find(|i| fails(t, &i.raw()))?;
    Some(shrink(found, &|i| fails(t, &i.raw())).raw())
}

// ---- text ---------------------------------------------------------------------------------

fn hex(bytes: &[u8]) -> String {
    if bytes.is_empty() {
        return "-".into();
    }
    bytes.iter().map(|b| format!("{b:02x}")).collect()
}
fn unhex(s: &str) -> Vec<u8> {
    let digits = if s == "-" { "" } else { s };
    (0..digits.len() / 2).map(|k| u8::from_str_radix(&digits[2 * k..2 * k + 2], 16).expect("hex")).collect()
}
fn line(c: &Raw) -> String {
    let (first, second, v, out) = (hex(&c.first), hex(&c.second), c.number, c.out);
    let (rooms, log) = (hex(&c.rooms), c.log);
    let mut s = c.entry.name().to_string();
    match c.entry {
        Entry::Root => write!(s, " {v:08x} {out}"),
        Entry::BladeHit | Entry::RestMeasure | Entry::Pieces => write!(s, " {first} {out}"),
        Entry::Sheet | Entry::SheetWrite | Entry::ListCut => write!(s, " {first} {out}"),
        Entry::Fan => write!(s, " {first} {v} {out}"),
        Entry::Groups => write!(s, " {first} {v} {second} {out}"),
        Entry::RestMeasureOf => write!(s, " {first} {second} {out}"),
        Entry::Opens => write!(s, " {first} {v} {second} {} {out}", c.minimum),
        Entry::Split => write!(s, " {first} {v} {second} {rooms} {out} {log}"),
        Entry::Straddlers => write!(s, " {first} {rooms} {out} {log}"),
        Entry::Cut => write!(s, " {first} {second} {} {v:08x} {rooms} {out} {log}", c.minimum),
        Entry::Crack => write!(s, " {first} {second} {} {rooms} {out} {log}", c.minimum),
    }
    .unwrap();
    match expected(c) {
        Expected::Refused(n) => write!(s, " = {n}"),
        Expected::Words(w, _) if !c.entry.tears() => write!(s, " = 0 {}", hex_words(&w)),
        Expected::Words(w, log) if log.is_empty() => write!(s, " = 0 {} |", hex_words(&w)),
        Expected::Words(w, log) => write!(s, " = 0 {} | {}", hex_words(&w), hex_words(&log)),
    }
    .unwrap();
    s
}
fn parse(s: &str) -> (Raw, Expected) {
    let (call, answer) = s.split_once(" = ").expect("a call = an answer");
    let w: Vec<&str> = call.split(' ').collect();
    let n = |s: &str| s.parse::<u32>().expect("a number");
    let entry = *ENTRIES.iter().find(|e| e.name() == w[0]).expect("an entry's name");
    let bits = |s: &str| u32::from_str_radix(s, 16).expect("hex");
    // The last of a call that gives a mesh are its rooms, its result bytes and its log bytes.
    let end = w.len() - 1 - entry.tears() as usize;
    let mut c = Raw {
        entry,
        first: vec![],
        second: vec![],
        number: 0,
        minimum: 0,
        rooms: if entry.tears() { unhex(w[end - 1]) } else { vec![] },
        out: n(w[end]) as usize,
        log: if entry.tears() { n(w[end + 1]) as usize } else { 0 },
    };
    match entry {
        Entry::Root => c.number = bits(w[1]),
        _ => c.first = unhex(w[1]),
    }
    match entry {
        Entry::Groups | Entry::Opens | Entry::Split => (c.number, c.second) = (n(w[2]), unhex(w[3])),
        Entry::Fan => c.number = n(w[2]),
        Entry::RestMeasureOf => c.second = unhex(w[2]),
        Entry::Cut => (c.second, c.minimum, c.number) = (unhex(w[2]), n(w[3]), bits(w[4])),
        Entry::Crack => (c.second, c.minimum) = (unhex(w[2]), n(w[3])),
        _ => {}
    }
    if entry == Entry::Opens {
        c.minimum = n(w[4]);
    }
    let (no, words) = answer.split_once(' ').unwrap_or((answer, ""));
    let (words, log) = words.split_once('|').unwrap_or((words, ""));
    let list = |s: &str| s.split_whitespace().map(bits).collect();
    (c, if n(no) == 0 { Expected::Words(list(words), list(log)) } else { Expected::Refused(n(no)) })
}

// ---- programs -----------------------------------------------------------------------------

pub fn run(words: &[String]) -> i32 {
    match words {
        [w, which] if w == "write" && GROUPS.iter().any(|g| g.name() == which) => {
            println!("# Calls of the C functions with the published Rust's answers; oracle/README.md has the format.");
            let group = GROUPS.into_iter().find(|g| g.name() == which).unwrap_or(Group::Reading);
            choose(group).iter().for_each(|c| println!("{}", line(c)));
            0
        }
        [w, file] if w == "read" => read(file),
        [w, file] if w == "again" => again(file),
        _ => {
            eprintln!("replay write reading|tearing|hosting > FILE | replay read FILE | replay again FILE > OTHER");
            2
        }
    }
}
/// The same calls with the answers of today, and behind them a call for each wrong variant that none of them fails.
fn again(file: &str) -> i32 {
    let text = std::fs::read_to_string(file).expect("the list");
    let mut calls = vec![];
    for l in text.lines() {
        if l.starts_with('#') {
            println!("{l}");
            continue;
        }
        let c = parse(l).0;
        println!("{}", line(&c));
        calls.push(c);
    }
    let group = calls.first().map_or(Group::Reading, |c: &Raw| c.entry.group());
    for f in faults(group) {
        plant(f);
        if !calls.iter().any(|c| fails(&table(), c)) {
            let more = smallest(&table(), group);
            more.iter().for_each(|c| println!("{}", line(c)));
            calls.extend(more);
        }
    }
    plant(Fault::Nothing);
    0
}
/// Lines whose answer the table does not give; `None` if it has none of their entries.
fn differ(t: &Table, list: &[(Raw, Expected)]) -> Option<usize> {
    let got = list.iter().filter_map(|(c, want)| call(t, c).map(|got| fault(want, &got)));
    let all: Vec<bool> = got.map(|f| f.is_some()).collect();
    (!all.is_empty()).then(|| all.iter().filter(|&&f| f).count())
}
fn read(file: &str) -> i32 {
    let text = std::fs::read_to_string(file).expect("the list");
    let list: Vec<(Raw, Expected)> = text.lines().filter(|l| !l.starts_with('#')).map(parse).collect();
    let rust = list.iter().filter(|(c, want)| expected(c) != *want).count();
    println!("{} calls; the Rust answers {rust} otherwise", list.len());
    plant(Fault::Nothing);
    let own = differ(&table(), &list).unwrap_or(0);
    println!("the second writing answers {own} otherwise");
    let kinds = GROUPS.into_iter().filter(|&k| list.iter().any(|(c, _)| c.entry.group() == k));
    let tried: Vec<Fault> = kinds.flat_map(faults).collect();
    let missed: Vec<Fault> = tried
        .iter()
        .copied()
        .filter(|&f| {
            plant(f);
            differ(&table(), &list) == Some(0)
        })
        .collect();
    plant(Fault::Nothing);
    println!("{} of {} wrong variants fail; {missed:?} do not", tried.len() - missed.len(), tried.len());
    let asked: Vec<Entry> = ENTRIES.into_iter().filter(|&e| list.iter().any(|(c, _)| c.entry == e)).collect();
    let lacking = archive().lacking(&asked);
    let bench = differ(&archive(), &list);
    match bench {
        Some(n) => println!("the archive answers {n} otherwise"),
        None => println!("the archive has none of these functions"),
    }
    (rust + own + missed.len() + lacking + bench.unwrap_or(0) > 0) as i32
}
