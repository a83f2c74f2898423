//! sheets COUNT [PROGRAM] [--seed N]: random and damaged sheets of both editions through the oracle's cutlist and
//! through a compiled program (default: cutlist as `run` compiles it), standard input to standard output.
use crate::api::Blade;
use crate::inputs::{long_blade, rope, soup};
use crate::meshgen;
use crate::rng::Rng;
use crate::sheet::{CUTLIST, Edition, Sheet, counts, cutlist, outline, same_sides, typed, write};
use std::collections::BTreeMap;
use std::io::{Read, Write};
use std::ops::Range;
use std::process::{Child, Command, ExitStatus, Stdio};
use std::sync::Mutex;
use std::sync::atomic::{AtomicU64, Ordering};

// ---- random sheets --------------------------------------------------------------------------

/// Bytes of a sheet: mostly sound, some damaged.
pub fn random(seed: u64) -> Vec<u8> {
    let mut r = Rng::new(seed ^ 0x5ee7);
    let r = &mut r;
    let mut s = sound(r);
    if !r.chance(4) {
        type_outline(r, &mut s);
    }
    if r.chance(5) {
        damage_fields(r, &mut s);
    }
    let mut bytes = write(&s, r.pick(&[Edition::First, Edition::Second]));
    if r.chance(6) {
        damage_bytes(r, &mut bytes);
    }
    bytes
}
/// Types an outline: that of the mesh, as it is or in another order, turned and with repeats; or with a side too few or too many, or none.
pub fn type_outline(r: &mut Rng, s: &mut Sheet) {
    s.boundary = outline(s);
    let some = |r: &mut Rng, n: usize| r.below(n as u32) as usize;
    if r.chance(2) {
        for k in (1..s.boundary.len()).rev() {
            let j = some(r, k + 1);
            s.boundary.swap(j, k);
        }
    }
    for e in &mut s.boundary {
        if r.chance(4) {
            *e = (e.1, e.0);
        }
    }
    let (n, all) = (s.boundary.len(), s.particles.len() as u32);
    match r.below(8) {
        0 if n > 0 => drop(s.boundary.remove(some(r, n))),
        1 if all > 1 => {
            let a = r.below(all);
            s.boundary.insert(some(r, n + 1), (a, (a + 1 + r.below(all - 1)) % all));
        }
        2 if n > 0 => {
            let e = s.boundary[some(r, n)];
            s.boundary.insert(some(r, n + 1), r.pick(&[e, (e.1, e.0)]));
        }
        3 => s.boundary.clear(),
        _ => {}
    }
}
/// Triangles that share no side, or some of them one each, so that the outline has so many sides; each particle is in many.
pub fn spread(r: &mut Rng, sides: u32) -> Sheet {
    // Around a ring, (i, i + 1, i + 3): each side of it is (j, j + 1), (j, j + 2) or (j, j + 3) in one triangle alone. A triangle over such a side with a
    // particle far from both ends takes that side from the outline and adds two.
    let ring = sides / 3;
    let n = (ring.max(8) + 2).max(r.pick(&[0, sides * 3 / 8])).min(if sides > 256 { 1024 } else { 128 });
    let over = sides % 3;
    let place = |k: u32| ((k * 37 % 101) as i32 - 50, (k * 53 % 97) as i32 - 48, r.chance(9) as u32);
    Sheet {
        particles: (0..n).map(place).collect(),
        triangles: (0..ring)
            .map(|i| [i % n, (i + 1) % n, (i + 3) % n])
            .chain((0..over).map(|k| [6 * k % n, (6 * k + 1) % n, (6 * k + n / 2) % n]))
            .collect(),
        edges: vec![],
        boundary: vec![],
        blade: [-60, r.range(-20, 20), 60, r.range(-20, 20)],
    }
}
/// An outline about as long as cutlist takes, now and then beside a name that is none.
fn rim(r: &mut Rng) -> Sheet {
    let sides = 250 + r.below(14);
    let mut s = spread(r, sides);
    if r.chance(5) {
        s.edges.push((0, r.pick(&[0, 1023]), 0));
    }
    s
}
/// A sheet of any shape, small or up to cutlist's limits (now and then beyond).
fn sound(r: &mut Rng) -> Sheet {
    if r.chance(12) {
        return [slit, crowd, book, rim, knot][r.below(5) as usize](r);
    }
    let mesh = match r.below(12) {
        0 => {
            let (w, h) = (1 + r.below(8), 1 + r.below(7));
            meshgen::grid(w, h, r, 0.0)
        }
        1 => rope(2 + r.below(128)),
        // Crowded: pinched corners, copied edges and straddlers need more room than is lent.
        2 => {
            let (p, t, e) = (4 + r.below(100), 1 + r.below(128), r.below(258));
            soup(r, p, t, e)
        }
        4 => {
            let (p, t, e) = (30 + r.below(90), 100 + r.below(29), 200 + r.below(57));
            let mut m = soup(r, p, t, e);
            for _ in 0..r.pick(&[0, 100, 256]) {
                let a = r.below(p);
                m.bound(a, (a + 1 + r.below(3)) % p);
            }
            m
        }
        3 => {
            let (p, e) = (4 + r.below(100), r.below(250));
            soup(r, p, 0, e)
        }
        _ => meshgen::mesh(r),
    };
    let scale = r.pick(&[1.0, 1.0, 2.0, 7.0, 100.0]);
    let whole = |x: f32| (x * scale).round().clamp(-1024.0, 1023.0) as i32;
    let b = match mesh.px.len() {
        0..20 => meshgen::blade(r, &mesh),
        _ if r.chance(3) => Blade::new(-10.0, r.span(-4.0, 4.0), 10.0, r.span(-4.0, 4.0)),
        _ if r.chance(2) => long_blade(r, &mesh),
        _ => meshgen::blade(r, &mesh),
    };
    let pins = r.pick(&[3, 20, 1000]);
    let mut s = Sheet {
        particles: (0..mesh.px.len()).map(|i| (whole(mesh.px[i]), whole(mesh.py[i]), r.chance(pins) as u32)).collect(),
        triangles: mesh.triangles().into_iter().map(|(a, b, c)| [a, b, c]).collect(),
        edges: (0..mesh.ea.len()).map(|i| (mesh.ea[i], mesh.eb[i], mesh.structural[i])).collect(),
        boundary: mesh.boundary(),
        blade: [b.x0, b.y0, b.x1, b.y1].map(whole),
    };
    let n = s.particles.len() as u32;
    if n > 1 && r.chance(20) {
        // Many boundary entries, or edges that lie across.
        for _ in 0..r.below(256) {
            let a = r.below(n);
            let b = (a + 1 + r.below(n - 1)) % n;
            if r.chance(2) { s.boundary.push((a, b)) } else { s.edges.push((a, b, 0)) }
        }
    }
    s
}
/// Doubled triangles at one particle on the blade, each crossed at all its sides, and behind them a square slit along its diagonal, with many edges
/// across: the log may be too long.
fn knot(r: &mut Rng) -> Sheet {
    let n = 48 + r.below(14);
    let wing = |k: u32| [(1 + k as i32 % 8, 1 + k as i32 % 3, 0), (1 + k as i32 % 7, -1 - k as i32 % 2, 0)];
    let square = [(10, 0, 0), (12, -2, 0), (14, 0, 0), (12, 2, 0)];
    let s = 1 + 2 * n;
    Sheet {
        particles: [(0, 0, 0)].into_iter().chain((0..n).flat_map(wing)).chain(square).collect(),
        triangles: (0..2 * n)
            .map(|k| [0, 1 + 2 * (k % n), 2 + 2 * (k % n)])
            .chain([[s, s + 1, s + 2], [s, s + 2, s + 3]])
            .collect(),
        edges: vec![(s + 1, s + 3, 0); r.pick(&[0, 256, 256])],
        boundary: vec![],
        blade: [-1, 0, 16, 0],
    }
}
/// A strip slit lengthwise, with many edges across the diagonals: its log is long.
fn slit(r: &mut Rng) -> Sheet {
    let n = 2 + r.below(14);
    let quad = |x: u32| [x, x + 1, n + x + 2, n + x + 1];
    let diagonals = r.pick(&[n, 150, 240, 256]);
    Sheet {
        particles: (0..2).flat_map(|y| (0..=n).map(move |x| (2 * x as i32, 2 * y, 0))).collect(),
        triangles: (0..n).map(quad).flat_map(|[a, b, c, d]| [[a, b, c], [a, c, d]]).collect(),
        edges: (0..diagonals).map(|k| quad(k % n)).map(|[_, b, _, d]| (b, d, 0)).collect(),
        boundary: vec![],
        blade: [-1, 1, 2 * n as i32 + 1, 1],
    }
}
/// Triangles between any particles, which a cut across takes apart: its copies may need too much room.
fn crowd(r: &mut Rng) -> Sheet {
    let n = 60 + r.below(69);
    let place = |r: &mut Rng| r.range(-20, 20);
    let triangle = |r: &mut Rng| {
        let (a, k) = (r.below(n), 1 + r.below(n - 2));
        [a, (a + k) % n, (a + k + 1 + r.below(n - 1 - k)) % n]
    };
    Sheet {
        particles: (0..n).map(|_| (place(r), place(r), 0)).collect(),
        triangles: (0..60 + r.below(69)).map(|_| triangle(r)).collect(),
        edges: vec![],
        boundary: vec![],
        blade: [-30, place(r) / 4, 30, place(r) / 4],
    }
}
/// Many triangles over one side, on both of its sides, and a blade along it: each pair of them opens a facet, so that the boundary may
/// need too much room, and each edge there gets a copy.
fn book(r: &mut Rng) -> Sheet {
    let (above, below) = (1 + r.below(24), 1 + r.below(24));
    let page = |k: u32| (k as i32 % 9, if k < above { 2 } else { -2 }, 0);
    Sheet {
        particles: [(0, 0, 0), (8, 0, 0)].into_iter().chain((0..above + below).map(page)).collect(),
        triangles: (0..above + below).map(|k| [0, 1, 2 + k]).collect(),
        edges: vec![(0, 1, 0); r.pick(&[0, 1, 200, 256])],
        boundary: vec![(0, 1); r.pick(&[0, 1, 200, 256])],
        blade: [-1, 0, 9, 0],
    }
}
/// Indices that name nothing, doubles, counts above cutlist's limits.
fn damage_fields(r: &mut Rng, s: &mut Sheet) {
    let n = s.particles.len() as u32;
    let index = r.pick(&[n, n + 1, 1023]).min(1023);
    let at = |r: &mut Rng, k: usize| r.below(k as u32) as usize;
    match r.below(8) {
        0 if !s.triangles.is_empty() => {
            let i = at(r, s.triangles.len());
            s.triangles[i][r.below(3) as usize] = index;
        }
        1 if !s.triangles.is_empty() => {
            let i = at(r, s.triangles.len());
            s.triangles[i][0] = s.triangles[i][2];
        }
        2 if !s.edges.is_empty() => {
            let i = at(r, s.edges.len());
            s.edges[i].1 = r.pick(&[index, s.edges[i].0]);
        }
        3 if !s.boundary.is_empty() => {
            let i = at(r, s.boundary.len());
            s.boundary[i].0 = r.pick(&[index, s.boundary[i].1]);
        }
        4 => s.particles.resize(127 + r.below(3) as usize, (0, 0, 0)),
        5 if n > 2 => s.triangles.resize(127 + r.below(3) as usize, [0, 1, 2]),
        6 if n > 1 => s.edges.resize(255 + r.below(3) as usize, (0, 1, r.below(2))),
        7 if n > 1 => s.boundary.resize(255 + r.below(3) as usize, (0, 1)),
        _ => s.blade = s.blade.map(|k| r.pick(&[k, 0, -1024, 1023])),
    }
}
/// Another length, other bits.
fn damage_bytes(r: &mut Rng, bytes: &mut Vec<u8>) {
    match r.below(6) {
        0 => bytes.truncate(r.below(bytes.len() as u32) as usize),
        1 => bytes.truncate(r.below(8) as usize),
        2 => bytes.push(0),
        3 => {
            let last = bytes.len() - 1;
            bytes[last] |= 1 << r.below(8);
        }
        4 => {
            let k = r.below(6.min(bytes.len() as u32)) as usize;
            bytes[k] ^= 1 << r.below(8);
        }
        _ => {
            let k = r.below(bytes.len() as u32) as usize;
            bytes[k] = r.next() as u8;
        }
    }
}

// ---- the comparison -------------------------------------------------------------------------

/// Starts the program on these bytes. `ORACLE_LAUNCH` stands before it where it cannot be started by itself.
fn started(program: &str, bytes: &[u8]) -> std::io::Result<Child> {
    let launch = std::env::var("ORACLE_LAUNCH").unwrap_or_default();
    let words: Vec<&str> = launch.split_whitespace().chain([program]).collect();
    let mut child = Command::new(words[0]).args(&words[1..]).stdin(Stdio::piped()).stdout(Stdio::piped()).spawn()?;
    // A program may end before it has read all; what it printed is compared all the same.
    let _ = child.stdin.take().expect("its standard input").write_all(bytes);
    Ok(child)
}
/// What it prints, and how it ended.
fn printed(mut child: Child) -> std::io::Result<(Vec<u8>, ExitStatus)> {
    let mut out = vec![];
    child.stdout.take().expect("its standard output").read_to_end(&mut out)?;
    Ok((out, child.wait()?))
}

/// Everything that a sheet can come to, and whether one of the second edition can: it has no typed boundary. A cut cannot meet 6, as it copies or cuts an
/// edge once at most and twice the edges are lent; cutlist cannot meet 2 or 4.
const ROWS: [(&str, bool); 23] = [
    ("listing, nothing changed", true),
    ("listing, splits", true),
    ("listing, insertions", true),
    ("listing, splits and insertions", true),
    ("listing, outline as typed", false),
    ("listing, outline in another form", false),
    ("listing, outline replaced", false),
    ("refused 9, short header", true),
    ("refused 9, ends early", true),
    ("refused 9, bytes left over", true),
    ("refused 9, a spare bit", true),
    ("refused 1, particles", true),
    ("refused 1, triangles", true),
    ("refused 1, edges", true),
    ("refused 1, boundary", false),
    ("refused 1, outline", true),
    ("refused 3, triangles", true),
    ("refused 3, edges", true),
    ("refused 3, boundary", false),
    ("refused 3, and the outline too long", true),
    ("refused 5", true),
    ("refused 7", true),
    ("refused 8", true),
];
const COLUMNS: [&str; 4] = ["triangles", "straps", "neither", "unread"];
/// The rows and the column of a sheet, by its bytes and by what is printed.
fn place(bytes: &[u8], want: &str) -> (Vec<String>, usize) {
    let lists = ["particles", "triangles", "edges", "boundary"];
    let said = typed(bytes, &CUTLIST);
    let column = match &said {
        Err(_) => 3,
        Ok(s) if !s.triangles.is_empty() => 0,
        Ok(s) => 2 - s.edges.iter().any(|e| e.2 == 1) as usize,
    };
    let edition = Edition::of(bytes);
    let mut rows: Vec<String> = vec![];
    match (want.trim_end(), counts(bytes)) {
        ("refused 9", None) => rows.push("refused 9, short header".into()),
        ("refused 9", Some(c)) => {
            rows.push(format!("refused 9, {}", misfit(bytes.len(), edition.length(c).div_ceil(8))))
        }
        ("refused 1", Some(c)) => {
            rows.push(format!("refused 1, {}", CUTLIST.above(c).next().map_or("outline", |k| lists[k])))
        }
        ("refused 3", _) => {
            let s = said.expect("a sheet that is read");
            rows.push(format!("refused 3, {}", lists[1 + unsound(&s)]));
            if outline(&s).len() > CUTLIST.boundary {
                rows.push("refused 3, and the outline too long".into());
            }
        }
        (w, _) if w.starts_with("refused") => rows.push(w.into()),
        (w, _) => {
            rows.push(
                match (w.contains("\nsplit "), w.contains("\ninsert ")) {
                    (false, false) => "listing, nothing changed",
                    (true, false) => "listing, splits",
                    (false, true) => "listing, insertions",
                    (true, true) => "listing, splits and insertions",
                }
                .into(),
            );
            let s = said.expect("a sheet that is read");
            let own = outline(&s);
            match edition {
                Edition::Second => {}
                _ if s.boundary == own => rows.push("listing, outline as typed".into()),
                _ if same_sides(&s.boundary, &own) => rows.push("listing, outline in another form".into()),
                _ => rows.push("listing, outline replaced".into()),
            }
        }
    }
    (rows, column + 4 * (edition == Edition::Second) as usize)
}
fn misfit(there: usize, asked: usize) -> &'static str {
    match there.cmp(&asked) {
        std::cmp::Ordering::Less => "ends early",
        std::cmp::Ordering::Greater => "bytes left over",
        std::cmp::Ordering::Equal => "a spare bit",
    }
}
/// The first list, of triangles, edges and boundary, that names no particle or one twice.
fn unsound(s: &Sheet) -> usize {
    let n = s.particles.len() as u32;
    let bad = |names: &[u32]| names.iter().enumerate().any(|(k, x)| *x >= n || names[..k].contains(x));
    let lists = [
        s.triangles.iter().any(|t| bad(t)),
        s.edges.iter().any(|&(a, b, _)| bad(&[a, b])),
        s.boundary.iter().any(|&(a, b)| bad(&[a, b])),
    ];
    lists.into_iter().position(|b| b).expect("a list that is not sound")
}
/// The table of what was met; gives the rows that nothing met.
fn print(met: &Met) -> Vec<String> {
    let line = |head: &str, cells: [String; 8]| {
        let cells: String = cells.iter().map(|c| format!(" {c:>9}")).collect();
        println!("{head:36}{cells}");
    };
    println!("{:36} {:39} second edition", "", "first edition");
    line("", [0, 1, 2, 3, 0, 1, 2, 3].map(|k| COLUMNS[k].to_string()));
    let others = met.keys().map(String::as_str).filter(|k| ROWS.iter().all(|r| r.0 != *k));
    for row in ROWS.into_iter().map(|r| r.0).chain(others) {
        line(row, met.get(row).copied().unwrap_or_default().map(|n| n.to_string()));
    }
    let there = |row: &str, half: usize| met.get(row).is_some_and(|n| n[4 * half..][..4].iter().any(|&k| k > 0));
    let both = ROWS.into_iter().flat_map(|(row, second)| [(row, 0)].into_iter().chain(second.then_some((row, 1))));
    let told = |(row, half): (&str, usize)| format!("{row} ({} edition)", ["first", "second"][half]);
    both.filter(|&(row, half)| !there(row, half)).map(told).collect()
}

/// What sheets came to: counts by row and column.
type Met = BTreeMap<String, [u64; 8]>;
/// One sheet: where it belongs in the table, or how the program differs from the Rust.
fn tried(program: &str, bytes: &[u8]) -> std::io::Result<Result<(Vec<String>, usize), String>> {
    let child = started(program, bytes)?;
    // The Rust works while the program does.
    let want = cutlist(bytes, false);
    let (got, ended) = printed(child)?;
    if got == want.as_bytes() && ended.success() {
        return Ok(Ok(place(bytes, &want)));
    }
    Ok(Err(format!("{program} ({ended}):\n{}the Rust:\n{want}", String::from_utf8_lossy(&got))))
}
/// Sheets by several threads in turn, up to the first that differs (its number, and how); what the others came to.
fn all(program: &str, numbers: Range<u64>, threads: u64) -> std::io::Result<(Met, Option<(u64, String)>)> {
    let (met, failed) = (Mutex::new(Met::new()), Mutex::new(None));
    let next = AtomicU64::new(numbers.start);
    let work = || -> std::io::Result<()> {
        loop {
            let s = next.fetch_add(1, Ordering::Relaxed);
            if s >= numbers.end || failed.lock().unwrap().is_some() {
                return Ok(());
            }
            match tried(program, &random(s))? {
                Ok((rows, column)) => {
                    let mut met = met.lock().unwrap();
                    rows.into_iter().for_each(|row| met.entry(row).or_default()[column] += 1);
                }
                Err(how) => {
                    failed.lock().unwrap().get_or_insert((s, how));
                }
            }
        }
    };
    std::thread::scope(|scope| {
        let all: Vec<_> = (0..threads).map(|_| scope.spawn(work)).collect();
        all.into_iter().map(|t| t.join().expect("a thread that ends")).collect::<std::io::Result<()>>()
    })?;
    Ok((met.into_inner().unwrap(), failed.into_inner().unwrap()))
}
/// One for each processor; one where an emulator starts the program.
fn threads() -> u64 {
    let emulated = std::env::var("ORACLE_EMULATED").is_ok_and(|v| v == "1");
    if emulated { 1 } else { std::thread::available_parallelism().map_or(1, |n| n.get() as u64) }
}

pub fn run(words: &[String]) -> i32 {
    let mut rest = words.to_vec();
    let mut seed = 1;
    if let Some(k) = rest.iter().position(|w| w == "--seed") {
        seed = rest[k + 1].parse().expect("a number");
        rest.drain(k..k + 2);
    }
    let Some(count) = rest.first().and_then(|w| w.parse::<u64>().ok()) else {
        eprintln!("sheets COUNT [PROGRAM] [--seed N]");
        return 2;
    };
    let root = std::env::var("ORACLE_ROOT").unwrap_or(".".into());
    let Some(program) = rest.get(1).cloned().or(std::env::var("ORACLE_CUTLIST").ok()) else {
        eprintln!("sheets: no program is named");
        return 2;
    };
    let first = seed * 1_000_000_000;
    let (met, failed) = match all(&program, first..first + count, threads()) {
        Ok(r) => r,
        Err(e) => {
            eprintln!("{program}: {e}");
            return 2;
        }
    };
    let lacking = print(&met);
    if let Some((s, how)) = failed {
        let file = format!("{root}/oracle/target/sheet-{s}.bin");
        std::fs::write(&file, random(s)).expect("the sheet's file");
        println!("{how}sheet {s} differs; it is in {file}");
        return 1;
    }
    let lacking = if lacking.is_empty() { "nothing".into() } else { lacking.join("; ") };
    println!("{count} sheets, no difference; not met: {lacking}");
    0
}
