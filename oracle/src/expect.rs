//! What a C function must answer: the refusal by a plain reading of the checks 1 to 4 (docs/RULES.md, R3)
//! (the source checks nothing), the words by the published Rust.
use crate::api;
use crate::entries::{Entry, Got, Raw};
use crate::exact;
use crate::image::{bytes_of, read, words, words_of};
use crate::second;
use crate::sheet::{self, Edition, MESH, Sheet};

#[derive(Clone, Debug, PartialEq)]
pub enum Expected {
    /// The result's words, and the log's where a mesh is given.
    Words(Vec<u32>, Vec<u32>),
    Refused(u32),
}
use Expected::*;

/// The answer's words if they fit into the lent bytes, else 4.
fn fitting(words: Vec<u32>, out: usize) -> Expected {
    fitting_both(words, vec![], out)
}
fn fitting_both(words: Vec<u32>, log: Vec<u32>, out: usize) -> Expected {
    if out < 4 * words.len() { Refused(4) } else { Words(words, log) }
}

fn root(bits: u32, out: usize) -> Expected {
    let x = f32::from_bits(bits);
    if !x.is_finite() || x < 0.0 {
        return Refused(4);
    }
    fitting(vec![x.sqrt().to_bits()], out)
}

fn blade_hit(bytes: &[u8], out: usize) -> Expected {
    if bytes.len() != 32 {
        return Refused(4);
    }
    let w: Vec<f32> = words_of(bytes).into_iter().map(f32::from_bits).collect();
    if !w.iter().all(|&x| api::number_ok(x)) {
        return Refused(2);
    }
    let blade = api::Blade::new(w[0], w[1], w[2], w[3]);
    let hit = api::blade_hit(blade, [w[4], w[5]], [w[6], w[7]]);
    fitting(hit.map_or(vec![0; 4], |(t, [x, y])| [1, t.to_bits(), x.to_bits(), y.to_bits()].to_vec()), out)
}

/// Check 4 on a particle and its sides.
fn sides_ok(m: &api::Mesh, v: u32, sides: &[u8]) -> bool {
    (v as usize) < m.px.len() && sides.iter().all(|&s| s < 2) && sides.len() == second::fan(m, second::kind(m), v).len()
}

// ---- a mesh as the answer -----------------------------------------------------------------

/// Check 2 on the words of a blade; one of another length has none.
fn blade_numbers_ok(c: &Raw) -> bool {
    c.entry != Entry::Cut
        || c.second.len() != 16
        || words_of(&c.second).into_iter().all(|w| api::number_ok(f32::from_bits(w)))
}
/// Check 4 on the arguments of an entry that gives a mesh.
fn arguments_ok(c: &Raw, m: &api::Mesh) -> bool {
    if c.rooms.len() != 16 || (words_of(&c.rooms)[1] as usize) < m.ta.len() {
        return false;
    }
    match c.entry {
        Entry::Split => sides_ok(m, c.number, &c.second),
        Entry::Cut => c.second.len() == 16 && api::fraction_ok(f32::from_bits(c.number)) && matches!(c.minimum, 1 | 2),
        Entry::Crack => c.second.len() % 4 == 0 && c.second.len() <= crate::wrapped::MOST_TORN,
        _ => true,
    }
}
/// The blade of a call's words.
fn blade(c: &Raw) -> api::Blade {
    let f: Vec<f32> = words_of(&c.second).into_iter().map(f32::from_bits).collect();
    api::Blade::new(f[0], f[1], f[2], f[3])
}
/// What the edition of a cut refuses behind checks 1 to 4.
fn edition_refusal(c: &Raw, m: &api::Mesh) -> u32 {
    if c.entry == Entry::Cut && c.minimum == 2 { exact::refusal(m, blade(c)) } else { 0 }
}
/// The mesh of a call that gives one, or what checks 1 to 4, and behind them those of an edition, refuse.
pub fn checked(c: &Raw) -> Result<api::Mesh, u32> {
    let m = read(&c.first).ok_or(1u32)?;
    match api::check_mesh(&m) {
        0 | 3 if !blade_numbers_ok(c) => Err(2),
        0 if !arguments_ok(c, &m) => Err(4),
        0 => match edition_refusal(c, &m) {
            0 => Ok(m),
            no => Err(no),
        },
        no => Err(no),
    }
}
/// The published Rust's run on a checked mesh.
pub fn outcome(c: &Raw, m: &api::Mesh) -> api::Outcome {
    let w = words_of(&c.second);
    match c.entry {
        Entry::Split => {
            let sides: Vec<u32> = c.second.iter().map(|&s| s as u32).collect();
            api::split_fan(m, c.number, &sides)
        }
        Entry::Cut if c.minimum == 2 => exact::cut(m, blade(c)),
        Entry::Cut => api::cut(m, blade(c), f32::from_bits(c.number)),
        Entry::Crack => api::crack(m, &w, Some(c.minimum)),
        _ => api::straddlers(m),
    }
}
/// The rooms of a checked call; the limits are `Outcome::refusal`'s.
fn rooms(c: &Raw) -> api::Rooms {
    let w = words_of(&c.rooms);
    api::Rooms { particles: w[0] as usize, edges: w[2] as usize, boundary: w[3] as usize, log: c.log / 24 }
}
/// Whether anything was split or inserted, the number of log entries, the image of the result.
pub fn result_words(o: &api::Outcome) -> Vec<u32> {
    [vec![o.changed as u32, o.log.len() as u32], words(&o.mesh)].concat()
}
pub fn log_words(log: &[api::Entry]) -> Vec<u32> {
    let entry = |e: &api::Entry| match *e {
        api::Entry::Split { copy, source } => [1, copy, source, 0, 0, 0],
        api::Entry::Removed { a, b } => [2, a, b, 0, 0, 0],
        api::Entry::Insert { a, b, p, q, t } => [3, a, b, p, q, t.to_bits()],
        api::Entry::Opened { a, b } => [4, a, b, 0, 0, 0],
        api::Entry::Met { a, b, x, y, t } => [5, a, b, x.to_bits(), y.to_bits(), t.to_bits()],
    };
    log.iter().flat_map(entry).collect()
}
fn torn(c: &Raw) -> Expected {
    let o = match checked(c) {
        Ok(m) => outcome(c, &m),
        Err(no) => return Refused(no),
    };
    match o.refusal(rooms(c)) {
        0 => fitting_both(result_words(&o), log_words(&o.log), c.out),
        no => Refused(no),
    }
}

// ---- sheets ---------------------------------------------------------------------------------

/// Bytes of an answer that is not made of words, as words with 0 behind; the refusal where they do not fit.
fn fitting_bytes(bytes: &[u8], out: usize, no: u32) -> Expected {
    match out < bytes.len() {
        true => Refused(no),
        false => Words(words_of(&[bytes, &[0; 3]].concat()), vec![]),
    }
}
fn sheet_read(bytes: &[u8], out: usize) -> Expected {
    let (s, replaced) = match sheet::read(bytes, &MESH) {
        Ok(s) => s,
        Err(no) => return Refused(no),
    };
    let (m, b) = sheet::mesh(&s);
    let blade = [b.x0, b.y0, b.x1, b.y1].map(f32::to_bits).to_vec();
    fitting([vec![replaced as u32], blade, words(&m)].concat(), out)
}
/// The sheet of some fields, without a boundary, or 1 and 2 of a writer.
pub fn sheet_of(fields: &[u8]) -> Result<Sheet, u32> {
    let w = words_of(fields);
    let counts: Vec<u64> = w.iter().take(3).map(|&n| n as u64).collect();
    let [np, nt, ne] = counts[..] else { return Err(1) };
    let long = 4 * (7 + 3 * np + 3 * nt + 3 * ne);
    if fields.len() as u64 != long || MESH.above([np, nt, ne, 0].map(|n| n as usize)).next().is_some() {
        return Err(1);
    }
    let mut rest = w[3..].iter().copied();
    let mut column = |n: u64| -> Vec<u32> { rest.by_ref().take(n as usize).collect() };
    let [x, y, pinned] = [np; 3].map(&mut column);
    let [a, b, c] = [nt; 3].map(&mut column);
    let [d, e, structural] = [ne; 3].map(&mut column);
    let blade = column(4);
    let signed = |l: &[u32]| l.iter().all(|&x| (-1024..=1023).contains(&(x as i32)));
    let below = |l: &[u32], most: u32| l.iter().all(|&x| x < most);
    let held = [&x, &y, &blade].iter().all(|l| signed(l)) && [&pinned, &structural].iter().all(|l| below(l, 2));
    if !held || [&a, &b, &c, &d, &e].iter().any(|l| !below(l, 1024)) {
        return Err(2);
    }
    Ok(Sheet {
        particles: (0..np as usize).map(|i| (x[i] as i32, y[i] as i32, pinned[i])).collect(),
        triangles: (0..nt as usize).map(|i| [a[i], b[i], c[i]]).collect(),
        edges: (0..ne as usize).map(|i| (d[i], e[i], structural[i])).collect(),
        boundary: vec![],
        blade: [0, 1, 2, 3].map(|k| blade[k] as i32),
    })
}
fn sheet_write(fields: &[u8], out: usize) -> Expected {
    match sheet_of(fields) {
        Ok(s) if api::check_mesh(&sheet::mesh(&s).0) == 3 => Refused(3),
        Ok(s) if sheet::outline(&s).len() > MESH.boundary => Refused(1),
        Ok(s) => fitting_bytes(&sheet::write(&s, Edition::Second), out, 9),
        Err(no) => Refused(no),
    }
}

pub fn expected(c: &Raw) -> Expected {
    if c.entry.tears() {
        return torn(c);
    }
    match c.entry {
        Entry::Root => return root(c.number, c.out),
        Entry::BladeHit => return blade_hit(&c.first, c.out),
        Entry::Sheet => return sheet_read(&c.first, c.out),
        Entry::SheetWrite => return sheet_write(&c.first, c.out),
        Entry::ListCut => return fitting_bytes(sheet::cutlist(&c.first, false).as_bytes(), c.out, 4),
        _ => {}
    }
    let Some(m) = read(&c.first) else { return Refused(1) };
    let no = api::check_mesh(&m);
    if no != 0 {
        return Refused(no);
    }
    if c.entry == Entry::RestMeasureOf && c.second.len() % 4 != 0 {
        return Refused(4);
    }
    let v = c.number;
    let sides: Vec<u32> = c.second.iter().map(|&s| s as u32).collect();
    let words = match c.entry {
        Entry::Groups if sides_ok(&m, v, &c.second) => {
            let (groups, count) = api::groups(&m, v, &sides);
            [vec![count], groups].concat()
        }
        Entry::Opens if sides_ok(&m, v, &c.second) => {
            // The source has no fan to ask about on a mesh of neither kind: no group, so all reach.
            let opens = api::opens_without_confetti(&m, v, &sides, Some(c.minimum)).unwrap_or(true);
            vec![opens as u32]
        }
        Entry::RestMeasureOf => {
            let list = words_of(&c.second);
            let rising = list.windows(2).all(|w| w[0] < w[1]);
            if !rising || list.iter().any(|&p| p as usize >= m.px.len()) {
                return Refused(4);
            }
            vec![api::rest_measure_of(&m, &list).to_bits()]
        }
        Entry::RestMeasure => vec![api::rest_measure(&m).to_bits()],
        Entry::Pieces => vec![api::pieces(&m)],
        Entry::Fan if (v as usize) < m.px.len() => {
            let fan = api::fan(&m, v);
            [vec![fan.len() as u32], fan].concat()
        }
        _ => return Refused(4),
    };
    fitting(words, c.out)
}

/// What is wrong with an answer; `None` if it is the expected one, to the last byte.
pub fn fault(want: &Expected, got: &Got) -> Option<String> {
    if let Some(s) = got.stray {
        return Some(s.to_string());
    }
    let allowed = match want {
        Words(..) => got.refusal == 0,
        Refused(n) => got.refusal == *n,
    };
    if !allowed {
        return Some(format!("it answered {}, expected {}", got.refusal, text(want)));
    }
    let none: (&[u32], &[u32]) = (&[], &[]);
    let (words, log) = if let Words(w, l) = want { (w.as_slice(), l.as_slice()) } else { none };
    let place = differs("", words, &got.out).or_else(|| differs("the log's ", log, &got.log))?;
    Some(format!("{place}, expected {}", text(want)))
}
/// The first byte that isn't one of these words or 0 behind them, in words.
fn differs(of: &str, words: &[u32], got: &[u8]) -> Option<String> {
    let bytes = bytes_of(words, Some(got.len()));
    let wrong = (0..bytes.len()).find(|&k| bytes[k] != got[k])?;
    Some(match wrong < 4 * words.len() {
        // The bytes may end inside a word.
        true => format!("{of}word {} is {:08x}", wrong / 4, words_of(&[got, &[0; 3]].concat())[wrong / 4]),
        false => format!("{of}byte {wrong} is {:02x} behind the answer", got[wrong]),
    })
}

pub fn hex_words(w: &[u32]) -> String {
    let w: Vec<String> = w.iter().map(|w| format!("{w:08x}")).collect();
    w.join(" ")
}
pub fn text(e: &Expected) -> String {
    match e {
        Refused(n) => format!("refusal {n}"),
        Words(w, l) if l.is_empty() => format!("0 and {}", hex_words(w)),
        Words(w, l) => format!("0 and {}, log {}", hex_words(w), hex_words(l)),
    }
}
