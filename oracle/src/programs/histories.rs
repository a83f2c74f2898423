//! histories [--self | --fill] [--fault N | --fault all] [COUNT [SEED]]: random histories of a mesh of
//! triangles over the C functions that give a mesh. Each result is held to every sentence of demand 3
//! (docs/STATEMENTS.md), on the words that the call returned. It says nothing of the answers otherwise;
//! `compare` does.
use crate::api::{MAX_BOUNDARY, MAX_EDGES, MAX_LOG, MAX_NUMBER, MAX_PARTICLES, MAX_TRIANGLES, Mesh, check_mesh};
use crate::entries::{Args, Entry, Got, Input, Lending, Table, archive, call};
use crate::exact;
use crate::faults::{Fault, plant};
use crate::image::{Image, bytes_of, read, words, words_of};
use crate::inputs::{self, Kind};
use crate::meshgen;
use crate::rng::Rng;
use crate::shrink::shrink;
use crate::vectors::{args_line, write_mesh};
use crate::wholes;
use crate::wrapped::table;
use std::fmt::Write;

const COUNT: u64 = 3_000;
/// The entries that give a mesh.
const CALLS: [Entry; 4] = [Entry::Cut, Entry::Split, Entry::Crack, Entry::Straddlers];

// ---- histories ------------------------------------------------------------------------------

/// What is done next. Its arguments come from its own number and from the mesh as it is by then, so
/// that a history without one of its steps is a history too.
#[derive(Clone, Copy)]
enum Step {
    Call(Entry, u64),
    /// The host moves points and changes masses, stresses and the like.
    Move(u64),
}
#[derive(Clone)]
struct History {
    first: Mesh,
    steps: Vec<Step>,
}

/// The history of this number, over the calls that are there.
fn history(number: u64, there: &[Entry]) -> History {
    let mut r = Rng::new(number ^ 0x4157_0000_0000);
    let r = &mut r;
    let first = first(r);
    let count = match r.below(10) {
        0..=5 => 1 + r.below(8),
        6..=8 => 8 + r.below(16),
        _ => 40 + r.below(80),
    };
    // One in three is torn as far as it goes, mostly by splits.
    let apart = r.chance(3);
    let steps = (0..count).map(|_| step(r, there, apart)).collect();
    History { first, steps }
}
/// An accepted mesh of triangles, in which each particle is its own root.
fn first(r: &mut Rng) -> Mesh {
    loop {
        let mut m = match r.below(60) {
            0 => inputs::large(r),
            1..=12 => {
                let (w, h, jitter) = (1 + r.below(6), 1 + r.below(4), r.pick(&[0.0, 0.2, 0.45]));
                meshgen::grid(w, h, r, jitter)
            }
            13..=28 => wholes::mesh(r, false).0,
            _ => meshgen::mesh(r),
        };
        own_roots(&mut m);
        if !m.ta.is_empty() && check_mesh(&m) == 0 {
            return m;
        }
    }
}
fn own_roots(m: &mut Mesh) {
    m.root = (0..m.px.len() as u32).collect();
}
fn step(r: &mut Rng, there: &[Entry], apart: bool) -> Step {
    let [cut, split, crack, straddlers] = if apart { [1, 16, 3, 1] } else { [6, 5, 4, 2] };
    let weights = [(Entry::Cut, cut), (Entry::Split, split), (Entry::Crack, crack), (Entry::Straddlers, straddlers)];
    let calls: Vec<Entry> =
        weights.into_iter().filter(|(e, _)| there.contains(e)).flat_map(|(e, n)| vec![e; n]).collect();
    let (moves, number) = (r.below(8) == 0, r.next());
    if moves { Step::Move(number) } else { Step::Call(r.pick(&calls), number) }
}

/// The arguments of a call on this mesh: always good ones.
fn args(e: Entry, number: u64, m: &Mesh) -> Args {
    let mut r = Rng::new(number);
    let r = &mut r;
    if e == Entry::Split
        && !r.chance(3)
        && let Some(a) = parting(r, m)
    {
        return a;
    }
    // Of a mesh on whole numbers, cuts of both editions.
    if e == Entry::Cut && exact::whole_mesh(m) && !r.chance(3) {
        return wholes::second_cut(r, m);
    }
    let kind = if m.px.len() > 60 && r.chance(2) { Kind::Large } else { Kind::Random };
    let mut a = inputs::args(r, e, kind, m);
    if let Args::Cut { blade, .. } = &mut a {
        // A blade across a mesh may begin or end beyond the limit.
        *blade = blade.map(|w| f32::from_bits(w).clamp(-MAX_NUMBER, MAX_NUMBER).to_bits());
    }
    a
}
/// How many triangles hold each particle.
fn held(m: &Mesh) -> Vec<u32> {
    let mut held = vec![0; m.px.len()];
    for &w in m.ta.iter().chain(&m.tb).chain(&m.tc).filter(|w| (**w as usize) < m.px.len()) {
        held[w as usize] += 1;
    }
    held
}
/// Both sides at a free particle that several triangles hold; `None` if there is no such particle.
fn parting(r: &mut Rng, m: &Mesh) -> Option<Args> {
    let held = held(m);
    let free: Vec<u32> = (0..m.px.len()).filter(|&v| held[v] > 1 && m.inv[v] != 0.0).map(|v| v as u32).collect();
    let v = *free.get(r.below(free.len().max(1) as u32) as usize)?;
    let turn = r.below(2) as u8;
    Some(Args::Split { v, sides: (0..held[v as usize]).map(|k| k as u8 % 2 ^ turn).collect() })
}
/// The mesh after the host was at work: other accepted numbers and flags, the same triangles, roots, ends
/// and counts.
fn moved(number: u64, m: &Mesh) -> Mesh {
    let mut r = Rng::new(number);
    let r = &mut r;
    let mut n = m.clone();
    let mood = r.below(9);
    for (x, y, often) in [(0, 1, 3), (2, 3, 4)] {
        if r.chance(often) {
            for k in [x, y] {
                n.floats_mut()[k].iter_mut().for_each(|c| *c = meshgen::coordinate(r, mood, c.abs().round() % 6.0));
            }
        }
    }
    meshgen::values(r, &mut n);
    n.root = m.root.clone();
    if r.chance(2) {
        n.inv.fill(r.pick(&[1.0, 0.5, -1.0]));
    }
    assert_eq!(check_mesh(&n), 0, "a host's mesh is accepted");
    n
}

// ---- the sentences --------------------------------------------------------------------------

/// The most particles of a history: the first number, plus three per triangle, less those that triangles
/// hold at first.
fn bound(first: &Mesh) -> usize {
    first.px.len() + 3 * first.ta.len() - held(first).iter().filter(|&&n| n > 0).count()
}
/// A history under way.
struct Now {
    first: Mesh,
    mesh: Mesh,
    /// Copy and source of each split, of all calls so far.
    copies: Vec<(u32, u32)>,
    bound: usize,
}
impl Now {
    fn new(first: &Mesh) -> Now {
        Now { first: first.clone(), mesh: first.clone(), copies: vec![], bound: bound(first) }
    }
    /// The particle that x was at first: the last split is undone first, a copy was its source.
    fn origin(&self, x: u32) -> u32 {
        self.copies.iter().rev().fold(x, |x, &(copy, source)| if x == copy { source } else { x })
    }
    /// What breaks a sentence, behind the letter of the sentence; nothing if all hold.
    fn broken(&self) -> Vec<String> {
        let (m, most) = (&self.mesh, self.bound);
        let mut out = self.changed_triangles();
        out.extend(self.lone_copy().map(|w| format!("b: no triangle holds the copy {w}")));
        if m.px.len() > most {
            out.push(format!("c: {} particles, at most {most}", m.px.len()));
        }
        match check_mesh(m) {
            0 => {}
            no => out.push(format!("e: the result gets {no} as input")),
        }
        out
    }
    fn changed_triangles(&self) -> Vec<String> {
        let (m, n, mut out) = (&self.mesh, self.mesh.px.len() as u32, vec![]);
        let (now, was) = (m.triangles(), self.first.triangles());
        let back: Vec<u32> = (0..n).map(|x| self.origin(x)).collect();
        if now.len() != was.len() {
            out.push(format!("a: {} triangles, at first {}", now.len(), was.len()));
        }
        for (k, (&(a, b, c), &first)) in now.iter().zip(&was).enumerate() {
            if a.max(b).max(c) >= n || a == b || b == c || c == a {
                out.push(format!("a: triangle {k} is {a} {b} {c}: not three different particles of {n}"));
                continue;
            }
            let through = |of: &[u32]| (of[a as usize], of[b as usize], of[c as usize]);
            for (how, then) in [("traced back", through(&back)), ("by its roots", through(&m.root))] {
                if then != first {
                    out.push(format!("a: triangle {k}, {a} {b} {c}, is {then:?} {how}, and was {first:?}"));
                }
            }
        }
        out
    }
    /// A particle beyond the first number, or a copy of the log, that no triangle holds.
    fn lone_copy(&self) -> Option<u32> {
        let held = held(&self.mesh);
        let beyond = self.first.px.len() as u32..self.mesh.px.len() as u32;
        beyond.chain(self.copies.iter().map(|c| c.0)).find(|&w| held.get(w as usize).is_none_or(|&n| n == 0))
    }
}
/// Room for as many particles as a history can have, and ample other room.
fn input(now: &Now, args: Args) -> Input {
    let particles = now.bound.min(MAX_PARTICLES);
    let rows = 10 * particles + 5 * now.mesh.ta.len() + 8 * MAX_EDGES + 2 * MAX_BOUNDARY;
    let places = [particles, MAX_TRIANGLES, MAX_EDGES, MAX_BOUNDARY].map(|n| n as u32);
    let lending = Lending { places, length: None, log: 24 * MAX_LOG };
    Input { image: Image::new(now.mesh.clone()), args, lending, out: 4 * (2 + 4 + rows) }
}
/// The mesh that was given, the number of log entries, and copy and source of each split; `None` if the
/// words are no such answer.
fn decoded(got: &Got) -> Option<(Mesh, u32, Vec<(u32, u32)>)> {
    let w = words_of(&got.out);
    let n: Vec<usize> = w.get(2..6)?.iter().map(|&n| n as usize).collect();
    let length = 4 * (4 + 10 * n[0] + 5 * n[1] + 8 * n[2] + 2 * n[3]);
    let mesh = read(got.out.get(8..8 + length)?)?;
    let log = words_of(&got.log);
    let entries = log.get(..6 * w[1] as usize)?.chunks_exact(6);
    Some((mesh, w[1], entries.filter(|e| e[0] == 1).map(|e| (e[1], e[2])).collect()))
}

// ---- planted mistakes -----------------------------------------------------------------------

/// What can be done to an answer with a copy, and the letter of the sentence that must find it.
const MISTAKES: [(&str, char); 10] = [
    ("two corners of a triangle exchanged", 'a'),
    ("a copy that no triangle holds", 'b'),
    ("a wrong root", 'a'),
    ("a call refused with 5", 'd'),
    ("triangles in another order", 'a'),
    ("a particle twice in a triangle", 'a'),
    ("a copy that is not in the log", 'a'),
    ("a particle more than the bound", 'c'),
    ("a mass that is no number", 'e'),
    ("a call refused with 2", 'd'),
];
/// Plants mistake `which` (from 1 on) in an accepted answer that has more particles than `began`.
fn spoil(which: usize, began: usize, most: usize, got: &mut Got) {
    let Some((mut m, _, mut copies)) = decoded(got) else { return };
    let (n, last) = (m.px.len(), m.ta.len() - 1);
    if n <= began || which == 8 && most >= MAX_PARTICLES {
        return;
    }
    let held = m.ta[0] as usize;
    match which {
        1 => (m.ta[last], m.tb[last]) = (m.tb[last], m.ta[last]),
        2 | 8 => (n..if which == 2 { n + 1 } else { most + 1 }).for_each(|_| {
            copies.push((m.px.len() as u32, held as u32));
            let copy = m.particle(0.0, 0.0, 1.0, false);
            m.root[copy as usize] = m.root[held];
        }),
        3 => m.root[held] = (m.root[held] + 1) % began as u32,
        4 => got.refusal = 5,
        5 => [&mut m.ta, &mut m.tb, &mut m.tc].into_iter().for_each(|c| c.swap(0, last)),
        6 => m.tb[last] = m.ta[last],
        7 => drop(copies.pop()),
        9 => m.mass[held] = f32::NAN,
        _ => got.refusal = 2,
    }
    let log: Vec<u32> = copies.iter().flat_map(|&(copy, source)| [1, copy, source, 0, 0, 0]).collect();
    let out = [vec![1, copies.len() as u32], words(&m)].concat();
    let room = got.out.len().max(4 * out.len());
    (got.out, got.log) = (bytes_of(&out, Some(room)), bytes_of(&log, Some(got.log.len())));
}

// ---- runs -----------------------------------------------------------------------------------

/// What happened, over all histories.
#[derive(Default)]
struct Tally {
    steps: u64,
    moves: u64,
    /// Of each call: accepted, and with log entries.
    calls: [[u64; 2]; 4],
    refused: [u64; 9],
    copies: u64,
    /// Accepted cuts of edition 2.
    second: u64,
    /// Calls that were lent just the bound, and calls that were lent the limit below it.
    lent: [u64; 2],
}
/// The functions, and the mistake planted in their answers (0: none).
struct Side {
    table: Table,
    mistake: usize,
}
impl Side {
    /// One call. Where it is refused for room that demand 3 does not speak of, nothing has changed.
    fn called(&self, now: &mut Now, e: Entry, number: u64, t: &mut Tally) -> Result<(), Vec<String>> {
        let c = input(now, args(e, number, &now.mesh)).raw();
        let mut got = call(&self.table, &c).expect("a function that is there");
        if self.mistake > 0 && got.refusal == 0 {
            spoil(self.mistake, now.first.px.len(), now.bound, &mut got);
        }
        t.lent[(now.bound > MAX_PARTICLES) as usize] += 1;
        t.refused[got.refusal.min(8) as usize] += 1;
        match got.refusal {
            0 => {}
            5 if now.bound > MAX_PARTICLES => return Ok(()),
            6..=8 => return Ok(()),
            5 => return Err(vec![format!("d: refused with 5, with room for {} particles", now.bound)]),
            no => return Err(vec![format!("d: refused with {no}")]),
        }
        if let Some(s) = got.stray {
            return Err(vec![s.into()]);
        }
        let Some((mesh, entries, copies)) = decoded(&got) else {
            return Err(vec!["e: the result is no image of a mesh".into()]);
        };
        let kind = CALLS.iter().position(|&c| c == e).expect("a call that gives a mesh");
        t.calls[kind][0] += 1;
        t.calls[kind][1] += (entries > 0) as u64;
        t.copies += copies.len() as u64;
        t.second += (e == Entry::Cut && c.minimum == 2) as u64;
        now.mesh = mesh;
        now.copies.extend(copies);
        let mut broken = now.broken();
        broken.extend(self.refused_again(now).map(|no| format!("e: a further call on the result gets {no}")));
        if broken.is_empty() { Ok(()) } else { Err(broken) }
    }
    /// The number that the C functions give the result as an input, if it isn't 0.
    fn refused_again(&self, now: &Now) -> Option<u32> {
        let mut i = input(now, Args::Pieces);
        i.out = 4;
        call(&self.table, &i.raw()).map(|got| got.refusal).filter(|&no| no != 0)
    }
    /// One step; what it broke otherwise.
    fn go(&self, now: &mut Now, s: Step, t: &mut Tally) -> Result<(), Vec<String>> {
        t.steps += 1;
        match s {
            Step::Call(e, number) => self.called(now, e, number, t),
            Step::Move(number) => {
                t.moves += 1;
                now.mesh = moved(number, &now.mesh);
                let broken = now.broken();
                if broken.is_empty() { Ok(()) } else { Err(broken) }
            }
        }
    }
    /// The whole history: how it ends, or the step that failed and what it broke.
    fn play(&self, h: &History, t: &mut Tally) -> Result<Now, (usize, Vec<String>)> {
        let mut now = Now::new(&h.first);
        for (k, &s) in h.steps.iter().enumerate() {
            self.go(&mut now, s, t).map_err(|broken| (k, broken))?;
        }
        Ok(now)
    }
    /// What the history breaks in the end.
    fn fails(&self, h: &History) -> Option<(usize, Vec<String>)> {
        self.play(h, &mut Tally::default()).err()
    }
}

// ---- a failure made small -------------------------------------------------------------------

/// A failing history with as few steps, and as small a first mesh, as can be found.
fn smaller(side: &Side, mut h: History, failed: usize) -> History {
    h.steps.truncate(failed + 1);
    let fails = |h: &History| side.fails(h);
    // The last step alone may do it, from the mesh that it was given.
    if let Ok(now) =
        side.play(&History { first: h.first.clone(), steps: h.steps[..failed].to_vec() }, &mut Tally::default())
    {
        let mut alone = History { first: now.mesh, steps: vec![h.steps[failed]] };
        own_roots(&mut alone.first);
        if fails(&alone).is_some() {
            h = alone;
        }
    }
    let mut k = h.steps.len();
    while k > 0 {
        k -= 1;
        let mut less = h.clone();
        less.steps.remove(k);
        if let Some((at, _)) = fails(&less) {
            less.steps.truncate(at + 1);
            k = k.min(less.steps.len());
            h = less;
        }
    }
    // The first mesh alone is made smaller; it is carried by a call that has no arguments.
    let carrier =
        |m: &Mesh| Input { image: Image::new(m.clone()), args: Args::Pieces, lending: Lending::default(), out: 4 };
    let with = |i: &Input| {
        let mut first = i.image.mesh.clone();
        own_roots(&mut first);
        History { first, steps: h.steps.clone() }
    };
    let small = shrink(carrier(&h.first), &|i| {
        let h = with(i);
        !h.first.ta.is_empty() && check_mesh(&h.first) == 0 && fails(&h).is_some()
    });
    with(&small)
}
/// The history as text: its first mesh, each call as in a vector file, the mesh after each move.
fn text(side: &Side, h: &History) -> String {
    let mut out = String::new();
    write_mesh(&mut out, &h.first);
    let mut now = Now::new(&h.first);
    for &s in &h.steps {
        if let Step::Call(e, number) = s {
            args_line(&mut out, &args(e, number, &now.mesh));
        }
        let went = side.go(&mut now, s, &mut Tally::default());
        if let Step::Move(_) = s {
            out += "host\n";
            write_mesh(&mut out, &now.mesh);
        }
        for why in went.err().into_iter().flatten() {
            writeln!(out, "# {why}").unwrap();
        }
    }
    out
}

// ---- the program ----------------------------------------------------------------------------

/// The functions asked for.
fn functions(own: bool, fill: bool) -> Table {
    plant(Fault::Nothing);
    let (mut t, mine) = (if own { table() } else { archive() }, table());
    if fill {
        t.cut = t.cut.or(mine.cut);
        t.split = t.split.or(mine.split);
        t.crack = t.crack.or(mine.crack);
        t.straddlers = t.straddlers.or(mine.straddlers);
        t.pieces = t.pieces.or(mine.pieces);
    }
    t
}
/// Plays histories up to the first that fails, which is made small and told.
fn search(
    side: &Side,
    there: &[Entry],
    numbers: std::ops::Range<u64>,
    seen: &mut Seen,
) -> Option<(Vec<String>, String)> {
    for number in numbers {
        let h = history(number, there);
        match side.play(&h, &mut seen.tally) {
            Ok(now) => seen.ended(&now),
            Err((step, broken)) => {
                let small = smaller(side, h, step);
                let head = format!("history {number} fails at its step {}: {}\n", step + 1, broken.join("; "));
                let again = format!("(made small; the whole: histories 1 {number})\n");
                return Some((broken, head + &again + &text(side, &small)));
            }
        }
    }
    None
}
/// How far histories went.
#[derive(Default)]
struct Seen {
    tally: Tally,
    histories: u64,
    /// Histories that could have no copy; of the others, by tenths of the copies that the bound allows, the
    /// last for those that met it.
    roomless: u64,
    shares: [u64; 11],
    most: usize,
}
impl Seen {
    fn ended(&mut self, now: &Now) {
        self.histories += 1;
        let (made, most) = (now.mesh.px.len() - now.first.px.len(), now.bound - now.first.px.len());
        match most {
            0 => self.roomless += 1,
            _ => self.shares[10 * made / most] += 1,
        }
        self.most = self.most.max(now.mesh.px.len());
    }
    fn print(&self) {
        let (t, [just, less]) = (&self.tally, self.tally.lent);
        println!("{} histories, {} steps, {} of them the host's", self.histories, t.steps, t.moves);
        for (e, [accepted, logged]) in CALLS.iter().zip(t.calls) {
            println!("  {:17} {accepted:6} accepted, {logged} of them with log entries", e.name());
        }
        println!("  {} of the cuts were of edition 2", t.second);
        println!(
            "  {just} calls were lent just the bound, {less} the limit of 1024 below it ({} of these got 5)",
            t.refused[5]
        );
        println!("  refused for other room: 6: {}, 7: {}, 8: {}", t.refused[6], t.refused[7], t.refused[8]);
        println!("  {} copies; at most {} particles", t.copies, self.most);
        println!("  histories by tenths of the copies that the bound allows: {:?}", &self.shares[..10]);
        let reached = 10 * self.shares.iter().rposition(|&n| n > 0).unwrap_or(0);
        println!("  {} met the bound exactly (largest share {reached}%)", self.shares[10]);
        println!("  {} could have no copy", self.roomless);
    }
}

/// The words of the command.
struct Asked {
    own: bool,
    fill: bool,
    mistakes: Vec<usize>,
    count: u64,
    seed: u64,
}
fn asked(given: &[String]) -> Option<Asked> {
    let (mut a, mut numbers) = (Asked { own: false, fill: false, mistakes: vec![], count: COUNT, seed: 1 }, vec![]);
    let mut rest = given.iter();
    while let Some(w) = rest.next() {
        match w.as_str() {
            "--self" => a.own = true,
            "--fill" => a.fill = true,
            "--fault" => {
                let all = 1..=MISTAKES.len();
                a.mistakes = match rest.next()?.as_str() {
                    "all" => all.collect(),
                    w => vec![w.parse().ok().filter(|n| all.contains(n))?],
                }
            }
            w => numbers.push(w.parse().ok()?),
        }
    }
    a.count = numbers.first().copied().unwrap_or(a.count);
    a.seed = numbers.get(1).copied().unwrap_or(a.seed);
    Some(a)
}
pub fn run(given: &[String]) -> i32 {
    let Some(Asked { own, fill, mistakes, count, seed }) = asked(given) else { return usage() };
    let table = functions(own, fill);
    // The four calls, and one that takes each result as its input.
    if table.lacking(&[&CALLS[..], &[Entry::Pieces]].concat()) > 0 {
        println!("no histories");
        return 1;
    }
    let there: Vec<Entry> = CALLS.into_iter().filter(|&e| table.has(e)).collect();
    if there.is_empty() {
        println!("no histories: none of the calls is there");
        return 1;
    }
    if !mistakes.is_empty() {
        return planted(&table, &there, &mistakes, seed..seed + count);
    }
    let (side, mut seen) = (Side { table, mistake: 0 }, Seen::default());
    let failed = search(&side, &there, seed..seed + count, &mut seen);
    seen.print();
    if let Some((_, text)) = &failed {
        print!("{text}");
    }
    let (n, t, failures) = (seen.histories, &seen.tally, failed.is_some() as i32);
    let met = seen.shares[10];
    let cuts = t.second;
    println!(
        "{n} histories, {} steps, {cuts} cuts of edition 2, {} copies, {met} met the bound; {failures} failures",
        t.steps, t.copies
    );
    failures
}
fn usage() -> i32 {
    eprintln!("histories [--self | --fill] [--fault N | --fault all] [COUNT [SEED]]");
    MISTAKES.iter().enumerate().for_each(|(k, (name, _))| eprintln!("  fault {}: {name}", k + 1));
    2
}
/// Plays with each mistake planted; every one must break the sentence that it is about. One alone ends as
/// a failure does, with 1.
fn planted(table: &Table, there: &[Entry], mistakes: &[usize], numbers: std::ops::Range<u64>) -> i32 {
    let mut missed = 0;
    for &n in mistakes {
        let (name, letter) = MISTAKES[n - 1];
        let side = Side { table: *table, mistake: n };
        let found = search(&side, there, numbers.clone(), &mut Seen::default());
        match &found {
            Some((broken, text)) => {
                let right = broken.iter().any(|b| b.starts_with(letter));
                missed += !right as u32;
                let how = if right { "found" } else { "FOUND, BUT NOT BY ITS SENTENCE" };
                print!("planted {n}, {name}: {how}\n{text}");
            }
            None => {
                missed += 1;
                println!("planted {n}, {name}: NOT FOUND");
            }
        }
    }
    println!("{} planted, {missed} not found", mistakes.len());
    (missed > 0 || mistakes.len() == 1) as i32
}
