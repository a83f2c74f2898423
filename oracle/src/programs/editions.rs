//! editions [--self] [COUNT [SEED]] | editions faults [COUNT [SEED]]: edition 2 of bench_cut (request L7) on random meshes and blades of whole numbers. Every answer is held
//! to the exact reference (`exact.rs`), every cut to the one with the blade's ends swapped, and calls off the whole numbers, on straps and of unknown
//! editions to the order of refusals. `faults` plants wrong rules in the reference; each must be found.
use crate::api::{Blade, MAX_BOUNDARY, MAX_EDGES, MAX_LOG, MAX_PARTICLES, MAX_TRIANGLES, Mesh};
use crate::entries::{Args, Entry, Got, Input, Lending, Table, archive, call};
use crate::exact::{self, WRONGS, Wrong};
use crate::expect::{self, Expected, expected, fault};
use crate::image::{Image, read, words, words_of};
use crate::inputs::need;
use crate::rng::Rng;
use crate::shrink::shrink;
use crate::vectors::write_input;
use crate::wholes;
use crate::wrapped::table;

const COUNT: u64 = 20_000;

// ---- calls ----------------------------------------------------------------------------------

/// A cut with all the room that there is, and ample bytes for result and log.
fn cut(m: Mesh, b: Blade, edition: u32) -> Input {
    let blade = [b.x0, b.y0, b.x1, b.y1].map(f32::to_bits);
    let args = Args::Cut { blade, length: None, edition, fraction: 0.1f32.to_bits() };
    let places = [MAX_PARTICLES, MAX_TRIANGLES, MAX_EDGES, MAX_BOUNDARY].map(|n| n as u32);
    // A mark for each side, a copy for each corner; an edge may be copied for each triangle at its far end.
    let (t, e) = (m.ta.len(), m.ea.len());
    let log = 24 * (6 * t + e * (t + 1)).min(MAX_LOG);
    let (particles, edges, boundary) = (m.px.len() + 3 * t, e * (t + 1), m.ba.len() + 6 * t * t);
    let rows = 10 * particles.min(MAX_PARTICLES) + 5 * t + 8 * edges.min(MAX_EDGES) + 2 * boundary.min(MAX_BOUNDARY);
    Input { image: Image::new(m), args, lending: Lending { places, length: None, log }, out: 4 * (6 + rows) }
}
/// The whole cut of this number.
fn input(number: u64) -> Input {
    let mut r = Rng::new(number ^ 0x4c37_0000_0000);
    let r = &mut r;
    let any = r.chance(20);
    let (mut m, b) = wholes::mesh(r, any);
    if r.chance(2) {
        // Rest positions need not be whole.
        m.rx.iter_mut().for_each(|x| *x = (*x + r.span(-1.0, 1.0)).clamp(-1024.0, 1024.0));
    }
    cut(m, b, 2)
}
/// The call in another edition, or with the blade's ends swapped.
fn in_edition(i: &Input, other: u32) -> Input {
    let mut i = i.clone();
    if let Args::Cut { edition, .. } = &mut i.args {
        *edition = other;
    }
    i
}
fn swapped(i: &Input) -> Input {
    let mut i = i.clone();
    if let Args::Cut { blade: [a, b, c, d], .. } = &mut i.args {
        (*a, *b, *c, *d) = (*c, *d, *a, *b);
    }
    i
}
/// The call with one to three things that a check or a step may refuse.
fn spoiled(number: u64, i: &Input) -> Input {
    let mut r = Rng::new(number ^ 0x4c37_bad0_0000);
    let r = &mut r;
    let mut i = i.clone();
    let off = [
        0.5,
        -0.5,
        1025.0,
        -1025.0,
        1024.5,
        1.0e-45,
        1023.9999,
        1024.0,
        -1024.0,
        -0.0,
        1_048_576.0,
        1_048_577.0,
        f32::NAN,
    ];
    for _ in 0..1 + r.below(3) {
        let m = &mut i.image.mesh;
        let n = m.px.len() as u32;
        match (r.below(10), &mut i.args) {
            (0, _) if n > 0 => m.px[r.below(n) as usize] = r.pick(&off),
            (1, _) if n > 0 => m.py[r.below(n) as usize] = r.pick(&off),
            (2 | 3, Args::Cut { blade, .. }) => blade[r.below(4) as usize] = r.pick(&off).to_bits(),
            (4, Args::Cut { edition, .. }) => *edition = r.pick(&[0, 3, 258, u32::MAX]),
            (5, Args::Cut { fraction, .. }) => *fraction = r.pick(&[0.5f32, 0.6, -1.0, f32::NAN]).to_bits(),
            (6 | 7, _) => {
                // Straps, or nothing where no edge is structural.
                m.drop_rows(1, &vec![true; m.ta.len()]);
                if n > 1 && r.chance(2) {
                    m.edge(0, 1, true, 1.0);
                }
            }
            (8, _) => i.lending.places[r.below(4) as usize] = r.below(2 * n + 1),
            (9, _) => match r.below(3) {
                0 => i.lending.length = Some(r.pick(&[0, 12, 15, 20])),
                1 => i.lending.log = 24 * r.below(6) as usize,
                _ => i.out = need(&i).saturating_sub(4),
            },
            _ => {}
        }
    }
    i
}

// ---- verdicts -------------------------------------------------------------------------------

/// What is wrong with the answer to a call, by the reference.
fn wrong(t: &Table, i: &Input) -> Option<String> {
    let c = i.raw();
    fault(&expected(&c), &call(t, &c)?)
}
/// The entries of an accepted answer's log.
fn log(got: &Got) -> Vec<Vec<u32>> {
    let count = words_of(&got.out).get(1).map_or(0, |&n| n as usize);
    words_of(&got.log).chunks_exact(6).take(count).map(<[u32]>::to_vec).collect()
}
/// Two entries of logs of one cut with the blade this way and that: equal, but that the t and the point of a mark are equal as numbers.
fn same_entry(a: &[u32], b: &[u32]) -> bool {
    let number = |w: u32| f32::from_bits(w);
    match a[0] == 5 {
        true => a[..3] == b[..3] && (3..6).all(|k| number(a[k]) == number(b[k])),
        false => a == b,
    }
}
/// What differs between a cut and the one with the blade's ends swapped.
fn turned(t: &Table, i: &Input) -> Option<String> {
    let (a, b) = (call(t, &i.raw())?, call(t, &swapped(i).raw())?);
    if a.refusal != b.refusal {
        return Some(format!("swapped it answers {}, not {}", b.refusal, a.refusal));
    }
    if a.out != b.out {
        return Some("swapped it gives another mesh".into());
    }
    let (a, b) = (log(&a), log(&b));
    let same = a.len() == b.len() && a.iter().zip(&b).all(|(a, b)| same_entry(a, b));
    (!same).then(|| "swapped it gives another log".into())
}
/// What is wrong with a whole cut: its answer, the one with the ends swapped, or that the two differ.
fn broken(t: &Table, i: &Input) -> Option<String> {
    wrong(t, i).or_else(|| wrong(t, &swapped(i)).map(|w| format!("swapped: {w}"))).or_else(|| turned(t, i))
}

#[derive(Default)]
struct Tally {
    cuts: u64,
    changed: u64,
    marks: u64,
    centroids: u64,
    candidates: u64,
    /// Meshes that edition 1 cuts otherwise; of these, those with no centroid of a candidate's triangle on the line.
    other: [u64; 2],
    spoiled: u64,
    numbers: [u64; 13],
}
impl Tally {
    /// Notes a cut that was found right.
    fn note(&mut self, t: &Table, i: &Input) {
        self.cuts += 1;
        let c = i.raw();
        let Expected::Words(words, log) = expected(&c) else { return };
        let Args::Cut { blade, .. } = i.args else { return };
        let [x0, y0, x1, y1] = blade.map(f32::from_bits);
        let (centroids, candidates) = exact::on_line(&i.image.mesh, Blade::new(x0, y0, x1, y1));
        self.changed += (words[0] == 1) as u64;
        self.marks += log.chunks_exact(6).filter(|e| e[0] == 5).count() as u64;
        self.centroids += centroids;
        self.candidates += candidates;
        if let Some(first) = call(t, &in_edition(i, 1).raw())
            && words_of(&first.out).get(2..words.len()) != Some(&words[2..])
        {
            self.other[(centroids == 0) as usize] += 1;
        }
    }
}
/// The first cut from `seed` on that is broken, or whose spoiled call is answered wrongly, and why. One in four is spoiled too.
fn search(t: &Table, seed: u64, count: u64, tally: &mut Tally) -> Option<(Input, String)> {
    for n in seed..seed + count {
        let i = input(n);
        if let Some(why) = broken(t, &i) {
            return Some((i, why));
        }
        tally.note(t, &i);
        if n % 4 == 0 {
            let bad = spoiled(n, &i);
            if let Some(why) = broken(t, &bad) {
                return Some((bad, why));
            }
            tally.spoiled += 1;
            if let Expected::Refused(no) = expected(&bad.raw()) {
                tally.numbers[no as usize] += 1;
            } else {
                tally.numbers[0] += 1;
            }
        }
    }
    None
}
/// A failing call made small, as text.
fn show(t: &Table, i: Input) {
    let small = shrink(i, &|i| broken(t, i).is_some());
    let mut out = String::new();
    write_input(&mut out, 0, &small, &expected(&small.raw()));
    println!("{out}# {}", broken(t, &small).unwrap_or_default());
}

// ---- the examples of the request ------------------------------------------------------------

/// Whole positions and triangles, all particles free, with masses of 1 and weights of 1, but those that are pinned.
fn example(points: &[(i32, i32)], pinned: &[u32], triangles: &[[u32; 3]]) -> Mesh {
    let mut m = Mesh::default();
    for (k, &(x, y)) in points.iter().enumerate() {
        m.particle(x as f32, y as f32, 1.0, pinned.contains(&(k as u32)));
    }
    triangles.iter().for_each(|&[a, b, c]| m.triangle(a, b, c, 1.0));
    m
}
/// The mesh, the blade, the triangles behind the cut, and copy and source of each split.
type Example = (Mesh, [f32; 4], Vec<[u32; 3]>, Vec<(u32, u32)>);
fn examples() -> Vec<Example> {
    let square = [(0, 0), (4, 0), (4, 4), (0, 4)];
    let ring = [(1, 1), (0, 1), (0, 0), (1, 0)];
    vec![
        // The first triangle's centroid is on the line.
        (
            example(&[(0, 0), (1, 0), (0, 2), (0, 1)], &[], &[[3, 1, 2], [3, 0, 1]]),
            [0., 0., 1., 1.],
            vec![[3, 4, 2], [5, 0, 1]],
            vec![(4, 1), (5, 3)],
        ),
        // At 0, on the line, the first element is on it and the second sets the kept side.
        (
            example(&ring, &[], &[[0, 3, 1], [0, 1, 2], [2, 0, 3]]),
            [1., 1., 0., 0.],
            vec![[0, 3, 1], [0, 1, 2], [5, 4, 6]],
            vec![(4, 0), (5, 2), (6, 3)],
        ),
        // The second triangle stays with 3 and, at 1, with 1, where the closing pass parts it.
        (
            example(&[(1, 0), (0, 2), (2, 0), (0, 0)], &[], &[[1, 2, 3], [1, 0, 3]]),
            [1., 0., 0., 1.],
            vec![[1, 2, 4], [5, 0, 3]],
            vec![(4, 3), (5, 1)],
        ),
        // The side (0, 1) meets the blade's very end, which the rounded test misses.
        (
            example(&[(0, 6), (0, -7), (-3, -1), (3, -1)], &[0], &[[0, 1, 2], [0, 1, 3]]),
            [0., -1., -2., 5.],
            vec![[0, 1, 2], [0, 4, 3]],
            vec![(4, 1)],
        ),
        // The worked listing.
        (
            example(&square, &[], &[[0, 1, 2], [0, 2, 3]]),
            [-1., -1., 5., 5.],
            vec![[0, 1, 2], [4, 5, 3]],
            vec![(4, 0), (5, 2)],
        ),
    ]
}
/// How many answers to the examples, either way round, are not those of the request.
fn wrong_examples(t: &Table) -> u64 {
    let mut wrong = 0;
    for (m, [x0, y0, x1, y1], triangles, splits) in examples() {
        let i = cut(m, Blade::new(x0, y0, x1, y1), 2);
        for i in [i.clone(), swapped(&i)] {
            let got = call(t, &i.raw()).expect("a function that is there");
            let now = read(&got.out[8..8 + 4 * words(&outcome(&i)).len()]).unwrap_or_default().triangles();
            let copies: Vec<(u32, u32)> = log(&got).iter().filter(|e| e[0] == 1).map(|e| (e[1], e[2])).collect();
            let right = now == triangles.iter().map(|&[a, b, c]| (a, b, c)).collect::<Vec<_>>() && copies == splits;
            wrong += (!right || broken(t, &i).is_some()) as u64;
        }
    }
    wrong
}
/// The mesh behind a cut, by the reference.
fn outcome(i: &Input) -> Mesh {
    let c = i.raw();
    expect::checked(&c).map(|m| expect::outcome(&c, &m).mesh).unwrap_or_default()
}

// ---- the program ----------------------------------------------------------------------------

pub fn run(given: &[String]) -> i32 {
    let mut rest: Vec<&str> = given.iter().map(String::as_str).collect();
    let own = rest.first() == Some(&"--self");
    if own {
        rest.remove(0);
    }
    let planted = rest.first() == Some(&"faults");
    if planted {
        rest.remove(0);
    }
    let number = |k: usize| rest.get(k).map(|w| w.parse::<u64>().expect("a number"));
    let (count, seed) = (number(0).unwrap_or(COUNT), number(1).unwrap_or(1_000_000_000));
    let t = if own { table() } else { archive() };
    if !t.has(Entry::Cut) {
        println!("editions: the archive lacks bench_cut: nothing was compared");
        return 2;
    }
    if planted { faults(&t, seed, count) } else { plain(&t, seed, count) }
}
fn plain(t: &Table, seed: u64, count: u64) -> i32 {
    exact::plant(Wrong::Nothing);
    let mut tally = Tally::default();
    let otherwise = wrong_examples(t);
    println!("{} examples of the request, either way round: {otherwise} different", examples().len());
    let found = search(t, seed, count, &mut tally);
    if let Some((i, why)) = &found {
        println!("{why}");
        show(t, i.clone());
    }
    let refused: Vec<String> =
        [1, 2, 3, 4, 11, 12, 5, 6, 7, 8].iter().map(|&n| format!("{n}: {}", tally.numbers[n])).collect();
    println!("spoiled calls: {}, of them {} accepted, refused {}", tally.spoiled, tally.numbers[0], refused.join(", "));
    println!(
        "{} cuts of edition 2, each with the blade's ends swapped too: {} split something, {} crossings; on the line {} centroids and {} candidates; \
         {} cut otherwise by edition 1 ({} without a centroid on the line); {}",
        tally.cuts,
        tally.changed,
        tally.marks,
        tally.centroids,
        tally.candidates,
        tally.other[0] + tally.other[1],
        tally.other[1],
        if found.is_some() { "a difference" } else { "0 different" }
    );
    (found.is_some() || otherwise > 0) as i32
}
/// Plants each wrong rule in the reference and asks that a difference is found; then asks that swapping is seen to matter in edition 1.
fn faults(t: &Table, seed: u64, count: u64) -> i32 {
    let mut missed = 0;
    for w in WRONGS {
        exact::plant(w);
        let mut tally = Tally::default();
        match search(t, seed, count, &mut tally) {
            Some((_, why)) => {
                println!("{w:?}: found after {} cuts: {}", tally.cuts + 1, why.chars().take(60).collect::<String>())
            }
            None => {
                println!("{w:?}: NOT FOUND in {count} cuts");
                missed += 1;
            }
        }
    }
    exact::plant(Wrong::Nothing);
    match (seed..seed + count).position(|n| turned(t, &in_edition(&input(n), 1)).is_some()) {
        Some(n) => println!("edition 1 in the place of edition 2: swapped blades found after {} cuts", n + 1),
        None => {
            println!("edition 1 in the place of edition 2: swapped blades NOT FOUND");
            missed += 1;
        }
    }
    println!("{} wrong rules, {}", WRONGS.len() + 1, if missed == 0 { "all found" } else { "not all found" });
    (missed > 0) as i32
}
