//! Request L8 a second time (docs/RULES.md, R22), from bytes to bytes and text, and the program `mend` held to it on random broken sheets
//! of both editions: what it prints and, byte for byte, the file that it makes. `oracle/mend` builds and runs it.
use std::io::Write;
use std::process::{Command, Stdio};

#[derive(Clone, Default)]
struct Sheet {
    two: bool,
    particles: Vec<[u32; 3]>,
    triangles: Vec<[u32; 3]>,
    edges: Vec<[u32; 3]>,
    boundary: Vec<[u32; 3]>,
    blade: [u32; 4],
}
const PARTICLE: [u32; 3] = [11, 11, 1];
const TRIANGLE: [u32; 3] = [10, 10, 10];
const EDGE: [u32; 3] = [10, 10, 1];
const SIDE: [u32; 3] = [10, 10, 0];

/// Bits, the most significant of each byte first.
fn bits(bytes: &[u8]) -> Vec<bool> {
    bytes.iter().flat_map(|b| (0..8).map(move |k| b >> (7 - k) & 1 == 1)).collect()
}
struct Reader<'a>(&'a [bool]);
impl Reader<'_> {
    fn take(&mut self, n: u32) -> u32 {
        let (now, rest) = self.0.split_at(n as usize);
        self.0 = rest;
        now.iter().fold(0, |x, &b| x << 1 | b as u32)
    }
    fn rows(&mut self, n: u32, widths: [u32; 3]) -> Vec<[u32; 3]> {
        (0..n).map(|_| widths.map(|w| self.take(w))).collect()
    }
}

/// The bytes of a sheet in its edition; the spare bits are all `spare`.
fn bytes(s: &Sheet, spare: bool) -> Vec<u8> {
    let mut out: Vec<bool> = vec![];
    let mut put = |v: u32, w: u32| out.extend((0..w).rev().map(|k| v >> k & 1 == 1));
    let counts = [&s.particles, &s.triangles, &s.edges, &s.boundary].map(|l| l.len() as u32);
    let widths: &[u32] = if s.two { &[11, 11, 12] } else { &[11, 11, 12, 12] };
    if s.two {
        put(2047, 11);
    }
    widths.iter().zip(counts).for_each(|(&w, n)| put(n, w));
    for (list, widths) in [(&s.particles, PARTICLE), (&s.triangles, TRIANGLE), (&s.edges, EDGE), (&s.boundary, SIDE)] {
        for row in list {
            (0..3).for_each(|k| put(row[k], widths[k]));
        }
    }
    s.blade.iter().for_each(|&v| put(v, 11));
    while out.len() % 8 != 0 {
        out.push(spare);
    }
    out.chunks(8).map(|c| c.iter().fold(0, |x, &b| x << 1 | b as u8)).collect()
}

/// The faults that can be planted in this writing.
const FAULTS: [&str; 6] = ["earlier-goes", "turned-missed", "new-places", "old-counts", "spare-kept", "gone-counts"];

enum Answer {
    Refused(u32),
    Mended(Vec<u8>, String),
}
fn read(given: &[u8]) -> Result<Sheet, u32> {
    if given.len() < 6 {
        return Err(9);
    }
    let all = bits(given);
    let mut b = Reader(&all);
    let two = all[..11].iter().all(|&x| x);
    if two {
        b.take(11);
    }
    let [p, t, e] = [11, 11, 12].map(|w| b.take(w));
    let n = if two { 0 } else { b.take(12) };
    if p > 1024 || t > 1024 || e > 2048 || n > 2048 {
        return Err(1);
    }
    let end = if two { 45 } else { 46 } + p * 23 + t * 30 + e * 21 + n * 20 + 44;
    if given.len() != end.div_ceil(8) as usize {
        return Err(9);
    }
    let mut s = Sheet { two, ..Sheet::default() };
    s.particles = b.rows(p, PARTICLE);
    s.triangles = b.rows(t, TRIANGLE);
    s.edges = b.rows(e, EDGE);
    s.boundary = b.rows(n, SIDE);
    s.blade = [0; 4].map(|_| b.take(11));
    Ok(s)
}
fn cause(n: usize, names: &[u32]) -> Option<&'static str> {
    if names.iter().any(|&v| v as usize >= n) {
        return Some("absent");
    }
    (0..names.len()).any(|i| names[..i].contains(&names[i])).then_some("twice")
}
/// Drops the rows of a list that would get 3, and says so.
fn drop_wrong(word: &str, n: usize, width: usize, rows: &[[u32; 3]], text: &mut String, fault: &str) -> Vec<(usize, [u32; 3])> {
    let mut kept = vec![];
    for (place, row) in rows.iter().enumerate() {
        match cause(n, &row[..width]) {
            None => kept.push((place, *row)),
            Some(why) => {
                let told = if fault == "new-places" { kept.len() } else { place };
                *text += &format!("{word} {told} {why}\n");
            }
        }
    }
    kept
}
fn mend(given: &[u8], fault: &str) -> Answer {
    let s = match read(given) {
        Ok(s) => s,
        Err(code) => return Answer::Refused(code),
    };
    let n = s.particles.len();
    let mut text = String::new();
    let plain = |l: Vec<(usize, [u32; 3])>| l.into_iter().map(|(_, r)| r).collect::<Vec<_>>();
    let triangles = plain(drop_wrong("triangle", n, 3, &s.triangles, &mut text, fault));
    let edges = plain(drop_wrong("edge", n, 2, &s.edges, &mut text, fault));
    let left = drop_wrong("boundary", n, 2, &s.boundary, &mut text, fault);
    let same = |a: &[u32; 3], b: &[u32; 3]| a[..2] == b[..2] || (fault != "turned-missed" && a[0] == b[1] && a[1] == b[0]);
    let double = |i: usize| match fault {
        "earlier-goes" => left[i + 1..].iter().any(|(_, r)| same(r, &left[i].1)),
        "gone-counts" => left[..i].iter().any(|(_, r)| same(r, &left[i].1)) || s.boundary[..left[i].0].iter().any(|r| r[0] == r[1] && r[0] == left[i].1[0]),
        _ => left[..i].iter().any(|(_, r)| same(r, &left[i].1)),
    };
    let mut boundary = vec![];
    for (i, (place, row)) in left.iter().enumerate() {
        if double(i) {
            text += &format!("boundary {} double\n", if fault == "new-places" { boundary.len() } else { *place });
        } else {
            boundary.push(*row);
        }
    }
    let spare = fault == "spare-kept" && given.last().is_some_and(|b| b & 1 == 1);
    let counts = [s.triangles.len(), s.edges.len(), s.boundary.len()];
    let out = Sheet { triangles, edges, boundary, ..s };
    let mut made = bytes(&out, spare);
    if fault == "old-counts" && !out.two && counts[2] != out.boundary.len() {
        made[4] = (made[4] & 0xc0) | (counts[2] >> 6) as u8;
        made[5] = (made[5] & 0x03) | ((counts[2] & 63) << 2) as u8;
    }
    Answer::Mended(made, text)
}

/// splitmix64.
struct Rng(u64);
impl Rng {
    fn below(&mut self, n: u32) -> u32 {
        self.0 = self.0.wrapping_add(0x9e37_79b9_7f4a_7c15);
        let mut z = self.0;
        z = (z ^ (z >> 30)).wrapping_mul(0xbf58_476d_1ce4_e5b9);
        z = (z ^ (z >> 27)).wrapping_mul(0x94d0_49bb_1331_11eb);
        (((z ^ (z >> 31)) >> 32) * n as u64 >> 32) as u32
    }
}
/// A random sheet, most often broken: names up to two above the particles, few of them, so that twice and double happen.
fn random(r: &mut Rng) -> Vec<u8> {
    let large = r.below(400) == 0;
    let most = |r: &mut Rng, n: u32| if large { r.below(n) } else { r.below(12) };
    let n = most(r, 1025);
    let names = (n + 2).min(1024);
    let two = r.below(2) == 0;
    let mut s = Sheet { two, ..Sheet::default() };
    s.particles = (0..n).map(|_| [r.below(2048), r.below(2048), r.below(2)]).collect();
    let rows = |r: &mut Rng, k: u32, last: u32| (0..k).map(|_| [r.below(names), r.below(names), r.below(last)]).collect::<Vec<_>>();
    let (t, e, b) = (most(r, 1025), most(r, 2049), most(r, 2049));
    s.triangles = rows(r, t, names);
    s.edges = rows(r, e, 2);
    s.boundary = if two { vec![] } else { rows(r, b, 1) };
    s.blade = [0; 4].map(|_| r.below(2048));
    let mut out = bytes(&s, r.below(2) == 0);
    match r.below(20) {
        0 => out.truncate(r.below(out.len() as u32) as usize),
        1 => out.push(r.below(256) as u8),
        2 => {
            let k = r.below(6.min(out.len() as u32)) as usize;
            out[k] = r.below(256) as u8;
        }
        _ => {}
    }
    out
}

/// What the program prints, and the file that it makes.
fn run(program: &str, given: &[u8], file: &str) -> std::io::Result<(String, Option<Vec<u8>>)> {
    let _ = std::fs::remove_file(file);
    let mut child = Command::new(program).arg(file).stdin(Stdio::piped()).stdout(Stdio::piped()).spawn()?;
    child.stdin.take().unwrap().write_all(given)?;
    let out = child.wait_with_output()?;
    Ok((String::from_utf8_lossy(&out.stdout).into_owned(), std::fs::read(file).ok()))
}
fn expected(given: &[u8], fault: &str) -> (String, Option<Vec<u8>>) {
    match mend(given, fault) {
        Answer::Refused(code) => (format!("refused {code}\n"), None),
        Answer::Mended(made, text) => (text, Some(made)),
    }
}

fn main() {
    let words: Vec<String> = std::env::args().skip(1).collect();
    let [program, count, seed] = &words[..] else {
        eprintln!("mend_second PROGRAM COUNT SEED");
        std::process::exit(2);
    };
    let (count, seed): (u64, u64) = (count.parse().unwrap(), seed.parse().unwrap());
    let file = std::env::temp_dir().join(format!("mended-{}", std::process::id()));
    let file = file.to_str().unwrap();
    let mut rng = Rng(seed);
    let (mut mended, mut refused, mut dropped, mut same, mut second) = (0, 0, 0u64, 0, 0);
    let mut found = [0u64; FAULTS.len()];
    for i in 0..count {
        let given = random(&mut rng);
        let got = run(program, &given, file).expect("the program runs");
        let want = expected(&given, "");
        if got != want {
            eprintln!("sheet {i} of seed {seed}: {given:?}\nmend {got:?}\nsecond writing {want:?}");
            std::process::exit(1);
        }
        match &want.1 {
            None => refused += 1,
            Some(made) => {
                mended += 1;
                second += (made.len() > 1 && made[0] == 255 && made[1] >> 5 == 7) as u64;
                dropped += want.0.lines().count() as u64;
                same += (*made == given) as u64;
                // Mended once is mended: the second run says nothing and gives the same bytes.
                assert!(expected(made, "") == (String::new(), Some(made.clone())), "sheet {i} of seed {seed} is mended twice");
            }
        }
        for (k, fault) in FAULTS.iter().enumerate() {
            found[k] += (expected(&given, fault) != got) as u64;
        }
    }
    let _ = std::fs::remove_file(file);
    println!("{count} sheets, {mended} mended ({second} of the second edition, {same} as they were, {dropped} drops), {refused} refused: mend and the second writing agree");
    for (k, fault) in FAULTS.iter().enumerate() {
        println!("planted fault {fault}: seen on {} sheets", found[k]);
        if found[k] == 0 {
            eprintln!("planted fault {fault} was not found");
            std::process::exit(1);
        }
    }
}
