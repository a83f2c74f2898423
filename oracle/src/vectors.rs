//! Calls, their answers, and the text form of both (see README.md, "Vector file").
use crate::api::*;
use crate::entries::{Args, Input};
use crate::expect::{Expected, hex_words};
use std::fmt::Write;

#[derive(Clone, Debug)]
pub enum Call {
    Cut { blade: Blade, fraction: f32 },
    Crack { torn: Vec<u32>, min_piece: Option<u32> },
    SplitFan { v: u32, sides: Vec<u32> },
    Straddlers,
    Groups { v: u32, sides: Vec<u32> },
    Opens { v: u32, sides: Vec<u32>, min_piece: Option<u32> },
    RestMeasure,
    RestMeasureOf { list: Vec<u32> },
    Pieces,
    BladeHit { blade: Blade, p: [f32; 2], q: [f32; 2] },
}
#[derive(Clone, Debug)]
pub struct Case {
    pub seed: u64,
    pub mesh: Mesh,
    pub call: Call,
    pub rooms: Rooms,
}

#[derive(Clone, Debug, PartialEq)]
pub enum Answer {
    Mesh(Outcome),
    Groups(Vec<u32>, u32),
    Flag(Option<bool>),
    Number(u32),
    /// Bits, since NaN and -0 matter.
    Float(u32),
    /// The fraction and the point.
    Hit(Option<[u32; 3]>),
    /// By checks 1 to 4.
    Refused(u32),
}

pub fn oracle(c: &Case) -> Answer {
    let no = check_call(c);
    if no != 0 {
        return Answer::Refused(no);
    }
    let m = &c.mesh;
    match &c.call {
        Call::Cut { blade, fraction } => Answer::Mesh(cut(m, *blade, *fraction)),
        Call::Crack { torn, min_piece } => Answer::Mesh(crack(m, torn, *min_piece)),
        Call::SplitFan { v, sides } => Answer::Mesh(split_fan(m, *v, sides)),
        Call::Straddlers => Answer::Mesh(straddlers(m)),
        Call::Groups { v, sides } => {
            let (g, n) = groups(m, *v, sides);
            Answer::Groups(g, n)
        }
        Call::Opens { v, sides, min_piece } => Answer::Flag(opens_without_confetti(m, *v, sides, *min_piece)),
        Call::RestMeasure => Answer::Float(rest_measure(m).to_bits()),
        Call::RestMeasureOf { list } => Answer::Float(rest_measure_of(m, list).to_bits()),
        Call::Pieces => Answer::Number(pieces(m)),
        Call::BladeHit { blade, p, q } => {
            Answer::Hit(blade_hit(*blade, *p, *q).map(|(t, [x, y])| [t, x, y].map(f32::to_bits)))
        }
    }
}
pub fn second(c: &Case) -> Answer {
    use crate::second as x;
    let no = check_call(c);
    if no != 0 {
        return Answer::Refused(no);
    }
    let m = &c.mesh;
    match &c.call {
        Call::Cut { blade, fraction } => Answer::Mesh(x::cut(m, *blade, *fraction)),
        Call::Crack { torn, min_piece } => Answer::Mesh(x::crack(m, torn, *min_piece)),
        Call::SplitFan { v, sides } => Answer::Mesh(x::split_fan(m, *v, sides)),
        Call::Straddlers => Answer::Mesh(x::straddlers(m)),
        Call::Groups { v, sides } => {
            let (g, n) = x::groups(m, *v, sides);
            Answer::Groups(g, n)
        }
        Call::Opens { v, sides, min_piece } => Answer::Flag(x::opens_without_confetti(m, *v, sides, *min_piece)),
        Call::RestMeasure => Answer::Float(x::rest_measure(m).to_bits()),
        Call::RestMeasureOf { list } => Answer::Float(x::rest_measure_of(m, list).to_bits()),
        Call::Pieces => Answer::Number(x::pieces(m)),
        Call::BladeHit { blade, p, q } => {
            let hit = x::blade_hit(*blade, (p[0], p[1]), (q[0], q[1]));
            Answer::Hit(hit.map(|(t, (x, y))| [t, x, y].map(f32::to_bits)))
        }
    }
}

/// Checks 1 to 4 (docs/RULES.md, R3) on a call, in that order; 0 if it passes. Ours (the source checks
/// nothing). "Particle absent" is read as: the particle argument, and each of a particle list.
pub fn check_call(c: &Case) -> u32 {
    let no = check_mesh(&c.mesh);
    if no == 1 {
        return 1;
    }
    let blade_ok = |b: &Blade| [b.x0, b.y0, b.x1, b.y1].iter().all(|&x| number_ok(x));
    let numbers = match &c.call {
        Call::Cut { blade, .. } => blade_ok(blade),
        Call::BladeHit { blade, p, q } => blade_ok(blade) && p.iter().chain(q).all(|&x| number_ok(x)),
        _ => true,
    };
    if no == 2 || !numbers {
        return 2;
    }
    if no == 3 {
        return 3;
    }
    let n = c.mesh.px.len() as u32;
    let sides_ok = |v: u32, s: &[u32]| v < n && s.iter().all(|&x| x < 2) && fan(&c.mesh, v).len() == s.len();
    let fine = match &c.call {
        Call::Cut { fraction, .. } => fraction_ok(*fraction),
        Call::SplitFan { v, sides } | Call::Groups { v, sides } | Call::Opens { v, sides, .. } => sides_ok(*v, sides),
        Call::RestMeasureOf { list } => list.windows(2).all(|w| w[0] < w[1]) && list.iter().all(|&x| x < n),
        _ => true,
    };
    if fine { 0 } else { 4 }
}

// ---- writer -------------------------------------------------------------------------------

fn h(x: f32) -> String {
    format!("{:08x}", x.to_bits())
}
/// One NaN for all in results: R1.4 counts any two as equal.
fn one_nan(m: &Mesh) -> Mesh {
    let mut m = m.clone();
    for c in m.floats_mut() {
        c.iter_mut().filter(|x| x.is_nan()).for_each(|x| *x = f32::NAN);
    }
    m
}
fn list<T: std::fmt::Display>(xs: &[T]) -> String {
    let mut s = format!("{}", xs.len());
    for x in xs {
        write!(s, " {x}").unwrap();
    }
    s
}
fn min_text(m: Option<u32>) -> String {
    m.map_or("-".into(), |n| n.to_string())
}
/// The tag of a list's rows, and whether their f32 stand first.
const ROWS: [(&str, bool); 4] = [("p", true), ("t", false), ("e", false), ("b", false)];
pub fn write_mesh(out: &mut String, m: &Mesh) {
    let counts = [m.px.len(), m.ta.len(), m.ea.len(), m.ba.len()];
    writeln!(out, "mesh {} {} {} {}", counts[0], counts[1], counts[2], counts[3]).unwrap();
    for (list, (tag, floats_first)) in ROWS.into_iter().enumerate() {
        let (f, n) = COLUMNS[list].clone();
        for i in 0..counts[list] {
            let mut row: Vec<String> = m.floats()[f.clone()].iter().map(|c| h(c[i])).collect();
            let at = if floats_first { row.len() } else { 0 };
            row.splice(at..at, m.numbers()[n.clone()].iter().map(|c| c[i].to_string()));
            writeln!(out, "{tag} {}", row.join(" ")).unwrap();
        }
    }
}
fn blade_text(b: &Blade) -> String {
    format!("{} {} {} {}", h(b.x0), h(b.y0), h(b.x1), h(b.y1))
}
pub fn write_case(out: &mut String, c: &Case, a: &Answer) {
    writeln!(out, "case {}", c.seed).unwrap();
    write_mesh(out, &c.mesh);
    match &c.call {
        Call::Cut { blade, fraction } => writeln!(out, "cut {} {}", blade_text(blade), h(*fraction)),
        Call::Crack { torn, min_piece } => writeln!(out, "crack {} {}", min_text(*min_piece), list(torn)),
        Call::SplitFan { v, sides } => writeln!(out, "split_fan {v} {}", list(sides)),
        Call::Straddlers => writeln!(out, "straddlers"),
        Call::Groups { v, sides } => writeln!(out, "groups {v} {}", list(sides)),
        Call::Opens { v, sides, min_piece } => {
            writeln!(out, "opens {} {v} {}", min_text(*min_piece), list(sides))
        }
        Call::RestMeasure => writeln!(out, "rest_measure"),
        Call::RestMeasureOf { list: l } => writeln!(out, "rest_measure_of {}", list(l)),
        Call::Pieces => writeln!(out, "pieces"),
        Call::BladeHit { blade, p, q } => {
            writeln!(out, "blade_hit {} {} {} {} {}", blade_text(blade), h(p[0]), h(p[1]), h(q[0]), h(q[1]))
        }
    }
    .unwrap();
    match a {
        Answer::Mesh(o) => {
            let r = &c.rooms;
            writeln!(out, "rooms {} {} {} {}", r.particles, r.edges, r.boundary, r.log).unwrap();
            let no = o.refusal(*r);
            writeln!(out, "answer {no}").unwrap();
            if no == 0 {
                writeln!(out, "changed {}", o.changed as u32).unwrap();
                write_mesh(out, &one_nan(&o.mesh));
                writeln!(out, "log {}", o.log.len()).unwrap();
                for e in &o.log {
                    match e {
                        Entry::Split { copy, source } => writeln!(out, "s {copy} {source}"),
                        Entry::Removed { a, b } => writeln!(out, "r {a} {b}"),
                        Entry::Insert { a, b, p, q, t } => writeln!(out, "i {a} {b} {p} {q} {}", h(*t)),
                        Entry::Opened { a, b } => writeln!(out, "o {a} {b}"),
                        Entry::Met { a, b, x, y, t } => writeln!(out, "m {a} {b} {} {} {}", h(*x), h(*y), h(*t)),
                    }
                    .unwrap();
                }
            }
        }
        Answer::Refused(n) => writeln!(out, "answer {n}").unwrap(),
        Answer::Groups(g, n) => writeln!(out, "answer groups {n} {}", list(g)).unwrap(),
        Answer::Flag(f) => writeln!(out, "answer flag {}", f.map_or("-".into(), |x| (x as u32).to_string())).unwrap(),
        Answer::Number(n) => writeln!(out, "answer number {n}").unwrap(),
        Answer::Float(b) => writeln!(out, "answer float {}", h(f32::from_bits(*b))).unwrap(),
        Answer::Hit(None) => writeln!(out, "answer miss").unwrap(),
        Answer::Hit(Some(w)) => writeln!(out, "answer hit {}", hex_words(w)).unwrap(),
    }
    writeln!(out, "end").unwrap();
}

/// The line of a C function's call and arguments.
pub fn args_line(out: &mut String, a: &Args) {
    match a {
        Args::Root { bits } => writeln!(out, "root {bits:08x}"),
        Args::BladeHit { words, .. } => writeln!(out, "blade_hit {}", hex_words(words)),
        Args::Groups { v, sides } => writeln!(out, "groups {v} {}", list(sides)),
        Args::Opens { v, sides, minimum } => writeln!(out, "opens {minimum} {v} {}", list(sides)),
        Args::RestMeasure => writeln!(out, "rest_measure"),
        Args::RestMeasureOf { list: l, .. } => writeln!(out, "rest_measure_of {}", list(l)),
        Args::Pieces => writeln!(out, "pieces"),
        Args::Split { v, sides } => writeln!(out, "split_fan {v} {}", list(sides)),
        Args::Straddlers => writeln!(out, "straddlers"),
        Args::Cut { blade, edition, fraction, .. } => {
            writeln!(
                out,
                "cut {} {fraction:08x}{}",
                hex_words(blade),
                if *edition == 1 { String::new() } else { format!(" {edition}") }
            )
        }
        Args::Crack { torn, minimum, .. } => writeln!(out, "crack {minimum} {}", list(torn)),
        Args::Fan { v } => writeln!(out, "fan {v}"),
        Args::Sheet { bytes } => writeln!(out, "sheet {}", list(bytes)),
        Args::SheetWrite { fields, .. } => writeln!(out, "sheet_write {}", list(fields)),
        Args::ListCut { bytes } => writeln!(out, "list_cut {}", list(bytes)),
    }
    .unwrap();
}
/// A call of a C function, with what is wrong with its bytes and what it must answer.
pub fn write_input(out: &mut String, seed: u64, i: &Input, want: &Expected) {
    writeln!(out, "case {seed}").unwrap();
    write_mesh(out, &i.image.mesh);
    args_line(out, &i.args);
    let (length, list_bytes) = match i.args {
        Args::BladeHit { length, .. } | Args::SheetWrite { length, .. } => (length, None),
        Args::RestMeasureOf { length, .. } | Args::Cut { length, .. } | Args::Crack { length, .. } => {
            (i.image.length, length)
        }
        _ => (i.image.length, None),
    };
    if let Some(n) = list_bytes {
        writeln!(out, "list_bytes {n}").unwrap();
    }
    if i.entry().tears() {
        let [p, t, e, b] = i.lending.places;
        writeln!(out, "places {p} {t} {e} {b}").unwrap();
        if let Some(n) = i.lending.length {
            writeln!(out, "places_bytes {n}").unwrap();
        }
        writeln!(out, "log {}", i.lending.log).unwrap();
    }
    if let Some([p, t, e, b]) = i.image.counts {
        writeln!(out, "counts {p} {t} {e} {b}").unwrap();
    }
    if let Some(n) = length {
        writeln!(out, "bytes {n}").unwrap();
    }
    writeln!(out, "out {}", i.out).unwrap();
    match want {
        Expected::Refused(n) => writeln!(out, "answer {n}"),
        Expected::Words(w, log) if i.entry().tears() => {
            writeln!(out, "answer 0 words {} log {}", hex_words(w), hex_words(log))
        }
        Expected::Words(w, _) => writeln!(out, "answer 0 words {}", hex_words(w)),
    }
    .unwrap();
    writeln!(out, "end").unwrap();
}

// ---- reader -------------------------------------------------------------------------------

fn f(s: &str) -> f32 {
    f32::from_bits(u32::from_str_radix(s, 16).unwrap())
}
fn n(s: &str) -> u32 {
    s.parse().unwrap()
}
fn read_list(w: &[&str]) -> Vec<u32> {
    let k = n(w[0]) as usize;
    assert_eq!(w.len(), k + 1);
    w[1..].iter().map(|s| n(s)).collect()
}
fn read_min(s: &str) -> Option<u32> {
    (s != "-").then(|| n(s))
}
fn read_blade(w: &[&str]) -> Blade {
    Blade::new(f(w[0]), f(w[1]), f(w[2]), f(w[3]))
}
pub fn read_mesh<'a>(lines: &mut impl Iterator<Item = &'a str>) -> Mesh {
    let head: Vec<&str> = lines.next().unwrap().split(' ').collect();
    assert_eq!(head[0], "mesh");
    let mut m = Mesh::default();
    for (list, (tag, floats_first)) in ROWS.into_iter().enumerate() {
        let (floats, numbers) = COLUMNS[list].clone();
        for _ in 0..n(head[1 + list]) {
            let w: Vec<&str> = lines.next().unwrap().split(' ').collect();
            assert_eq!((w[0], w.len()), (tag, 1 + floats.len() + numbers.len()));
            let (a, b) = w[1..].split_at(if floats_first { floats.len() } else { numbers.len() });
            let (fs, ns) = if floats_first { (a, b) } else { (b, a) };
            m.floats_mut()[floats.clone()].iter_mut().zip(fs).for_each(|(c, s)| c.push(f(s)));
            m.numbers_mut()[numbers.clone()].iter_mut().zip(ns).for_each(|(c, s)| c.push(n(s)));
        }
    }
    m
}
/// Reads one case back: the call, and the text of the answer from the line `rooms` or `answer` on.
/// `None` at the end of the file.
pub fn read_case<'a>(lines: &mut impl Iterator<Item = &'a str>) -> Option<(Case, String)> {
    let head = lines.next()?;
    let seed = head.strip_prefix("case ").expect("case").parse().unwrap();
    let mesh = read_mesh(lines);
    let w: Vec<&str> = lines.next().unwrap().split(' ').collect();
    let call = match w[0] {
        "cut" => Call::Cut { blade: read_blade(&w[1..]), fraction: f(w[5]) },
        "crack" => Call::Crack { min_piece: read_min(w[1]), torn: read_list(&w[2..]) },
        "split_fan" => Call::SplitFan { v: n(w[1]), sides: read_list(&w[2..]) },
        "straddlers" => Call::Straddlers,
        "groups" => Call::Groups { v: n(w[1]), sides: read_list(&w[2..]) },
        "opens" => Call::Opens { min_piece: read_min(w[1]), v: n(w[2]), sides: read_list(&w[3..]) },
        "rest_measure" => Call::RestMeasure,
        "rest_measure_of" => Call::RestMeasureOf { list: read_list(&w[1..]) },
        "pieces" => Call::Pieces,
        "blade_hit" => Call::BladeHit { blade: read_blade(&w[1..]), p: [f(w[5]), f(w[6])], q: [f(w[7]), f(w[8])] },
        other => panic!("call {other}"),
    };
    let mut rooms = Rooms::LIMITS;
    let mut text = String::new();
    loop {
        let l = lines.next().unwrap();
        if l.starts_with("rooms ") {
            let w: Vec<&str> = l.split(' ').collect();
            rooms = Rooms {
                particles: n(w[1]) as usize,
                edges: n(w[2]) as usize,
                boundary: n(w[3]) as usize,
                log: n(w[4]) as usize,
            };
        }
        text.push_str(l);
        text.push('\n');
        if l == "end" {
            break;
        }
    }
    Some((Case { seed, mesh, call, rooms }, text))
}
