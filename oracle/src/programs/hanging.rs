//! hanging letter | [--self] [--fault NAME | --fault all] [COUNT [SEED]]: no halves left hanging by a corner (request L9), on random cuts
//! and cracks of triangles by the C functions. When the closing pass begins is seen in the published Rust, which runs the same
//! call; the verdict is from the words that come back.
use crate::api::{self, Blade, MAX_BOUNDARY, MAX_EDGES, MAX_LOG, MAX_PARTICLES, MAX_TRIANGLES, Mesh, check_mesh};
use crate::entries::{Args, Entry, Got, Input, Lending, Table, archive, call};
use crate::exact;
use crate::faults::{Fault, plant};
use crate::image::{Image, read, words_of};
use crate::inputs::{self, Kind};
use crate::journal::{Begins, pass_began};
use crate::meshgen;
use crate::rng::Rng;
use crate::sheet::{self, Sheet};
use crate::shrink::shrink;
use crate::vectors::{args_line, write_mesh};
use crate::wholes;
use crate::wrapped::table;

const COUNT: u64 = 100_000;
/// Wrong closing passes of the second writing, each of which must leave a corner hanging.
const PASSES: [Fault; 6] = [
    Fault::PinchedStay,
    Fault::PinchedEnds,
    Fault::PinchedFirst,
    Fault::PinchedCopies,
    Fault::PinchedOld,
    Fault::PinchedInTwo,
];

// ---- inputs ---------------------------------------------------------------------------------

/// A few particles on a small grid of whole points, and triangles of any three of them: corners that hold nothing, sides of
/// three triangles, doubled triangles and weightless ones are common.
fn dense(r: &mut Rng) -> Mesh {
    let (n, mut m) = (4 + r.below(5), Mesh::default());
    let pins = r.pick(&[2, 6, 1000]);
    for _ in 0..n {
        let (x, y) = (r.below(4) as f32, r.below(4) as f32);
        m.particle(x, y, r.pick(&[1.0, 1.0, 2.0, 0.3, 1e-20]), r.chance(pins));
    }
    for _ in 0..2 + r.below(7) {
        let a = r.below(n);
        let b = (a + 1 + r.below(n - 1)) % n;
        let c = (0..n).filter(|&c| c != a && c != b).nth(r.below(n - 2) as usize).expect("a third");
        let side = |p: u32| (m.px[p as usize] - m.px[a as usize], m.py[p as usize] - m.py[a as usize]);
        let ((x0, y0), (x1, y1)) = (side(b), side(c));
        let volume = if r.chance(5) { 0.0 } else { (x0 * y1 - x1 * y0).abs() / 2.0 };
        m.triangle(a, b, c, volume);
        for (x, y) in [(a, b), (b, c), (c, a)] {
            if r.chance(2) {
                m.edge(x, y, r.chance(2), 1.0);
            }
        }
    }
    m
}
/// An accepted mesh of triangles; one in three was cut before, so that corners farther off may be pinched already.
fn mesh(r: &mut Rng) -> Mesh {
    loop {
        let mut m = match r.below(8) {
            0 => meshgen::grid(1 + r.below(5), 1 + r.below(4), r, 0.3),
            1..=3 => meshgen::mesh(r),
            _ => dense(r),
        };
        if r.chance(3) && !m.ta.is_empty() && check_mesh(&m) == 0 {
            let blade = meshgen::blade(r, &m);
            if [blade.x0, blade.y0, blade.x1, blade.y1].into_iter().all(api::number_ok) {
                m = api::cut(&m, blade, 0.1).mesh;
            }
        }
        meshgen::velocities(r, &mut m);
        if !m.ta.is_empty() && check_mesh(&m) == 0 {
            return m;
        }
    }
}
/// The cut or crack of this number, with all the room that there is.
fn input(number: u64) -> Input {
    let mut r = Rng::new(number ^ 0x4c39_0000_0000);
    let r = &mut r;
    // One in eight is a cut of edition 2.
    if r.chance(8) {
        let m = wholes::mesh(r, false).0;
        let args = wholes::second_cut(r, &m);
        return lent(m, args);
    }
    let m = mesh(r);
    let entry = if r.chance(2) { Entry::Cut } else { Entry::Crack };
    let mut args = inputs::args(r, entry, Kind::Random, &m);
    if let Args::Crack { minimum, .. } = &mut args
        && !r.chance(4)
    {
        *minimum = 1;
    }
    lent(m, args)
}
fn lent(m: Mesh, args: Args) -> Input {
    let rows = 10 * MAX_PARTICLES + 5 * m.ta.len() + 8 * MAX_EDGES + 2 * MAX_BOUNDARY;
    let places = [MAX_PARTICLES, MAX_TRIANGLES, MAX_EDGES, MAX_BOUNDARY].map(|n| n as u32);
    let lending = Lending { places, length: None, log: 24 * MAX_LOG };
    Input { image: Image::new(m), args, lending, out: 4 * (2 + 4 + rows) }
}

// ---- the statement --------------------------------------------------------------------------

/// The triangles and splits with which the closing pass of the published Rust begins on this input; `None` if it does not.
fn begins(i: &Input) -> Option<Begins> {
    let m = &i.image.mesh;
    match &i.args {
        Args::Cut { blade, edition, fraction, .. } => {
            let [x0, y0, x1, y1] = blade.map(f32::from_bits);
            let blade = Blade::new(x0, y0, x1, y1);
            match edition {
                2 => drop(exact::cut(m, blade)),
                _ => drop(api::cut(m, blade, f32::from_bits(*fraction))),
            }
        }
        Args::Crack { torn, minimum, .. } => drop(api::crack(m, torn, Some(*minimum))),
        _ => unreachable!("a cut or a crack"),
    }
    pass_began()
}
/// The mesh that was given, and the copies of the log in order.
fn decoded(got: &Got) -> Option<(Mesh, Vec<u32>)> {
    let w = words_of(&got.out);
    let n: Vec<usize> = w.get(2..6)?.iter().map(|&n| n as usize).collect();
    let mesh = read(got.out.get(8..8 + 4 * (4 + 10 * n[0] + 5 * n[1] + 8 * n[2] + 2 * n[3]))?)?;
    let log = words_of(&got.log);
    let entries = log.get(..6 * w[1] as usize)?.chunks_exact(6);
    Some((mesh, entries.filter(|e| e[0] == 1).map(|e| e[1]).collect()))
}
/// The particles that are spoken of: those that share a triangle with a split particle or its copy when the pass begins, and
/// every copy that was made since.
fn spoken(b: &Begins, copies: &[u32]) -> Vec<u32> {
    let split = |v: &u32| b.splits.iter().any(|(c, s)| c == v || s == v);
    let near = b.triangles.iter().filter(|t| t.iter().any(split)).flatten();
    let mut all: Vec<u32> = near.chain(copies.iter().skip(b.splits.len())).copied().collect();
    all.sort_unstable();
    all.dedup();
    all
}
/// Are all triangles at x joined by chains of triangles that share x and one more particle?
fn joined(triangles: &[[u32; 3]], x: u32) -> bool {
    let at: Vec<&[u32; 3]> = triangles.iter().filter(|t| t.contains(&x)).collect();
    let mut reached = vec![false; at.len()];
    let mut next = if at.is_empty() { vec![] } else { vec![0] };
    while let Some(i) = next.pop() {
        if !std::mem::replace(&mut reached[i], true) {
            next.extend((0..at.len()).filter(|&j| at[i].iter().any(|v| *v != x && at[j].contains(v))));
        }
    }
    reached.into_iter().all(|r| r)
}
fn triangles(m: &Mesh) -> Vec<[u32; 3]> {
    m.triangles().into_iter().map(|(a, b, c)| [a, b, c]).collect()
}

#[derive(Default)]
struct Tally {
    calls: [u64; 2],
    refused: u64,
    split: [u64; 2],
    spoken: u64,
    pinned: u64,
    several: u64,
    made: u64,
}
/// What breaks the statement on this input; nothing if it holds.
fn broken(t: &Table, i: &Input, tally: &mut Tally) -> Option<String> {
    let got = call(t, &i.raw()).expect("a function that is there");
    let kind = (i.entry() == Entry::Crack) as usize;
    tally.calls[kind] += 1;
    if got.refusal != 0 {
        tally.refused += 1;
        return None;
    }
    let begins = begins(i)?;
    let Some((m, copies)) = decoded(&got) else { return Some("the result is no image of a mesh".into()) };
    let after = triangles(&m);
    tally.split[kind] += 1;
    tally.made += copies.len().saturating_sub(begins.splits.len()) as u64;
    for x in spoken(&begins, &copies) {
        tally.spoken += 1;
        let Some(&inv) = m.inv.get(x as usize) else { return Some(format!("particle {x} is not there")) };
        if inv == 0.0 {
            tally.pinned += 1;
            continue;
        }
        if !joined(&after, x) {
            return Some(format!("particle {x} is free and holds triangles by a corner alone"));
        }
        tally.several += (after.iter().filter(|t| t.contains(&x)).count() > 1) as u64;
    }
    None
}

// ---- the letter -----------------------------------------------------------------------------

/// Twice the area of a triangle, above 0 where its corners go round against the clock.
fn twice_area(t: &[u32; 3], points: &[(i32, i32)]) -> i32 {
    let [(ax, ay), (bx, by), (cx, cy)] = t.map(|k| points[k as usize]);
    (bx - ax) * (cy - ay) - (by - ay) * (cx - ax)
}
/// Sheets of so many particles at whole points below `side`, in every order, with these triangles, particle 0 pinned and every blade between
/// two such points: the first whose cut leaves one body in two pieces, and how many were looked at. With three particles no triangle is
/// flat; with more each goes round against the clock, so that two on one side do not lie over each other.
fn first_parted(n: u32, triangles: &[[u32; 3]], side: u32) -> (Option<Sheet>, u64) {
    let places = side * side;
    let at = |k: u32| ((k % side) as i32, (k / side) as i32);
    let mut looked = 0;
    for code in 0..places.pow(n) {
        let points: Vec<(i32, i32)> = (0..n).map(|i| at(code / places.pow(i) % places)).collect();
        let proper = |t: &[u32; 3]| if n == 3 { twice_area(t, &points) != 0 } else { twice_area(t, &points) > 0 };
        if !triangles.iter().all(proper) {
            continue;
        }
        for blade in 0..places * places {
            let ((x0, y0), (x1, y1)) = (at(blade % places), at(blade / places));
            let s = Sheet {
                particles: points.iter().zip(0..).map(|(&(x, y), i)| (x, y, (i == 0) as u32)).collect(),
                triangles: triangles.to_vec(),
                edges: vec![],
                boundary: vec![],
                blade: [x0, y0, x1, y1],
            };
            let (m, blade) = sheet::mesh(&s);
            looked += 1;
            let after = api::cut(&m, blade, 0.1).mesh;
            if api::bodies(&after) == 1 && api::pieces(&after) == 2 && api::pieces(&m) == 1 {
                return (Some(s), looked);
            }
        }
    }
    (None, looked)
}
/// The smallest sheet of the letter ("it says one piece, but the halves slide apart"): none has three particles, and of those with four
/// and two triangles the first is printed.
fn letter() -> i32 {
    let orders = [[0, 1, 2], [0, 2, 1], [1, 0, 2], [1, 2, 0], [2, 0, 1], [2, 1, 0]];
    let mut looked = 0;
    for order in orders {
        let (found, n) = first_parted(3, &[[0, 1, 2], order], 3);
        looked += n;
        if let Some(s) = found {
            print!("three particles:\n{}", sheet::text(&s));
            return 1;
        }
    }
    println!("# none of {looked} sheets with three particles, one of them pinned, and two triangles");
    let (found, n) = first_parted(4, &[[0, 1, 2], [0, 2, 3]], 2);
    let Some(s) = found else { return 1 };
    println!("# four particles and two triangles: number {n}");
    print!("{}", sheet::text(&s));
    let (m, blade) = sheet::mesh(&s);
    let after = api::cut(&m, blade, 0.1).mesh;
    println!("# bodies {}, pieces {}", api::bodies(&after), api::pieces(&after));
    0
}

// ---- the program ----------------------------------------------------------------------------

/// The first number from `seed` on that breaks the statement, and why.
fn search(t: &Table, seed: u64, count: u64, tally: &mut Tally) -> Option<(u64, String)> {
    (seed..seed + count).find_map(|n| Some((n, broken(t, &input(n), tally)?)))
}
fn show(t: &Table, number: u64) {
    let fails = |i: &Input| check_mesh(&i.image.mesh) == 0 && !i.image.mesh.ta.is_empty() && broken(t, i, &mut Tally::default()).is_some();
    let small = shrink(input(number), &fails);
    let mut out = String::new();
    write_mesh(&mut out, &small.image.mesh);
    args_line(&mut out, &small.args);
    print!("{out}");
    println!("# {}", broken(t, &small, &mut Tally::default()).unwrap_or_default());
}
pub fn run(words: &[String]) -> i32 {
    let mut rest: Vec<&str> = words.iter().map(String::as_str).collect();
    if rest.first() == Some(&"letter") {
        return letter();
    }
    let own = rest.first() == Some(&"--self");
    if own {
        rest.remove(0);
    }
    let fault = match rest.first() {
        Some(&"--fault") if rest.len() > 1 => {
            rest.remove(0);
            Some(rest.remove(0).to_string())
        }
        _ => None,
    };
    let number = |k: usize| rest.get(k).map(|w| w.parse::<u64>().expect("a number"));
    let (count, seed) = (number(0).unwrap_or(COUNT), number(1).unwrap_or(1_000_000_000));
    if let Some(name) = fault {
        return faulty(&name, seed, count);
    }
    plant(Fault::Nothing);
    let t = if own { table() } else { archive() };
    if !t.has(Entry::Cut) || !t.has(Entry::Crack) {
        println!("hanging: the archive lacks bench_cut or bench_crack: nothing was looked at");
        return 2;
    }
    let mut tally = Tally::default();
    let found = search(&t, seed, count, &mut tally);
    if let Some((number, why)) = &found {
        println!("{number}: {why}");
        show(&t, *number);
    }
    println!(
        "{} cuts and {} cracks of triangles, {} refused; {} and {} split something: {} particles spoken of ({} pinned, {} that hold \
         several triangles, {} copies made by the pass); {}",
        tally.calls[0],
        tally.calls[1],
        tally.refused,
        tally.split[0],
        tally.split[1],
        tally.spoken,
        tally.pinned,
        tally.several,
        tally.made,
        if found.is_some() { "a corner hangs" } else { "none hangs" }
    );
    found.is_some() as i32
}
/// Plants each wrong pass, or the one of this name, and asks that a corner is found to hang.
fn faulty(name: &str, seed: u64, count: u64) -> i32 {
    let chosen: Vec<Fault> = PASSES.into_iter().filter(|f| name == "all" || format!("{f:?}") == name).collect();
    let mut missed = chosen.is_empty() as i32;
    for f in &chosen {
        plant(*f);
        let mut tally = Tally::default();
        match search(&table(), seed, count, &mut tally) {
            Some((_, why)) => println!("{f:?}: found after {} calls: {why}", tally.calls[0] + tally.calls[1]),
            None => {
                println!("{f:?}: NOT FOUND in {count} calls");
                missed = 1;
            }
        }
        if name != "all" {
            show(&table(), search(&table(), seed, count, &mut Tally::default()).map_or(seed, |f| f.0));
        }
    }
    plant(Fault::Nothing);
    println!("{} wrong passes, {}", chosen.len(), if missed == 0 { "all found" } else { "not all found" });
    missed
}
