//! The second writing behind the same C functions, so that the comparison can be tried without an
//! archive, right or with a planted fault. It reads the image by places, not by columns, so it is a
//! second reading of checks 1 to 4 too.
use crate::api::{Blade, Entry, Mesh, Outcome};
use crate::entries::Table;
use crate::faults::{Fault::*, has};
use crate::image::{read, words_of};
use crate::second::{self, Kind};

/// The C function over a plain one, by its arguments in order: `bytes` comes as a pointer and a length, `number` as it is; last stands
/// what it fills, the bytes of an `answer`, or those of a `mesh` and of its log, whose number a plain function gets at the end.
macro_rules! c_function {
    ($plain:ident: $($kind:ident)*) => { c_function!(@ $plain [] [] $($kind)*) };
    (@ $plain:ident [$($p:tt)*] [$($a:expr,)*] bytes $($rest:ident)*) => {
        c_function!(@ $plain [$($p)* at: *const u8, n: usize,] [$($a,)* lent(at, n),] $($rest)*)
    };
    (@ $plain:ident [$($p:tt)*] [$($a:expr,)*] number $($rest:ident)*) => {
        c_function!(@ $plain [$($p)* x: u32,] [$($a,)* x,] $($rest)*)
    };
    (@ $plain:ident [$($p:tt)*] [$($a:expr,)*] answer) => {{
        unsafe extern "C" fn f($($p)* out: *mut u8, n: usize) -> u32 {
            unsafe { give($plain($($a),*), out, n) }
        }
        Some(f)
    }};
    (@ $plain:ident [$($p:tt)*] [$($a:expr,)*] mesh) => {{
        unsafe extern "C" fn f($($p)* out: *mut u8, n: usize, log: *mut u8, k: usize) -> u32 {
            unsafe { give_both($plain($($a,)* k), (out, n), (log, k)) }
        }
        Some(f)
    }};
}
pub fn table() -> Table {
    Table {
        root: c_function!(root: number answer),
        blade_hit: c_function!(blade_hit: bytes answer),
        groups: c_function!(groups: bytes number bytes answer),
        rest_measure: c_function!(rest_measure: bytes answer),
        rest_measure_of: c_function!(rest_measure_of: bytes bytes answer),
        opens: c_function!(opens: bytes number bytes number answer),
        pieces: c_function!(pieces: bytes answer),
        fan: c_function!(fan: bytes number answer),
        sheet: c_function!(sheet: bytes answer),
        sheet_write: Some(sheet_write),
        list_cut: Some(list_cut),
        split: c_function!(split: bytes number bytes bytes mesh),
        straddlers: c_function!(straddlers: bytes bytes mesh),
        cut: c_function!(cut: bytes bytes number number bytes mesh),
        crack: c_function!(crack: bytes bytes number bytes mesh),
    }
}

// ---- bytes in and out ---------------------------------------------------------------------

/// The words of an answer, or the refusal's number.
type Answer = Result<Vec<u32>, u32>;
/// The same with the words of the log.
type Torn = Result<(Vec<u32>, Vec<u32>), u32>;

/// # Safety
/// `n` bytes stand at `p`.
unsafe fn lent<'a>(p: *const u8, n: usize) -> &'a [u8] {
    unsafe { std::slice::from_raw_parts(p, n) }
}
/// Fills the lent bytes with the answer's words, or with 0 and the refusal's number.
/// # Safety
/// `n` bytes stand at `p`.
unsafe fn give(answer: Answer, p: *mut u8, n: usize) -> u32 {
    let out = unsafe { std::slice::from_raw_parts_mut(p, n) };
    let answer = answer.and_then(|w| if 4 * w.len() > n { Err(4) } else { Ok(w) });
    if !(has(DirtyTail) || has(DirtyHosting) || has(DirtyRefusal) && answer.is_err()) {
        out.fill(0);
    }
    if has(WritesPast) {
        unsafe { *p.add(n) = 0 };
    }
    match answer {
        Ok(words) => {
            for (place, w) in out.chunks_exact_mut(4).zip(words) {
                place.copy_from_slice(&w.to_le_bytes());
            }
            0
        }
        Err(no) => no,
    }
}

/// The same for result and log, each with its bytes' number.
/// # Safety
/// `n` bytes stand at `p`, `k` bytes at `log`.
unsafe fn give_both(answer: Torn, (p, n): (*mut u8, usize), (log, k): (*mut u8, usize)) -> u32 {
    let answer = answer.and_then(|a| if 4 * a.0.len() > n { Err(4) } else { Ok(a) });
    let entries = unsafe { std::slice::from_raw_parts_mut(log, k) };
    if !(has(DirtyLog) && answer.is_ok() || has(DirtyRefusal) && answer.is_err()) {
        entries.fill(0);
    }
    let words = answer.map(|(words, log)| {
        for (place, w) in entries.chunks_exact_mut(4).zip(log) {
            place.copy_from_slice(&w.to_le_bytes());
        }
        words
    });
    unsafe { give(words, p, n) }
}

/// The same for an answer of bytes that are no words; the number where they do not fit, unless as many as fit are given.
/// # Safety
/// `n` bytes stand at `p`.
unsafe fn give_bytes(answer: Result<Vec<u8>, u32>, (p, n): (*mut u8, usize), short: u32, cut: bool) -> u32 {
    let out = unsafe { std::slice::from_raw_parts_mut(p, n) };
    if !has(DirtyHosting) {
        out.fill(0);
    }
    match answer {
        Ok(bytes) if bytes.len() <= n || cut => {
            let k = bytes.len().min(n);
            out[..k].copy_from_slice(&bytes[..k]);
            0
        }
        Ok(_) => short,
        Err(no) => no,
    }
}

// ---- checks 1 to 3, by places in the image --------------------------------------------------

/// Widths of the seven blocks, and which list each belongs to.
const BLOCKS: [(usize, usize); 7] = [(8, 0), (2, 0), (3, 1), (2, 1), (4, 2), (4, 2), (2, 3)];
const LIMITS: [u32; 4] = [1024, 1024, 2048, 2048];

fn sized(bits: u32, most: f32) -> bool {
    let exponent = bits >> 23 & 255;
    if exponent == 255 {
        return has(NanPasses) && bits & 0x7f_ffff != 0;
    }
    // Patterns without the sign rise with the magnitude.
    bits & 0x7fff_ffff <= most.to_bits()
}
/// Check 2 on the word of column `c` in block `b`.
fn word_ok(b: usize, c: usize, w: u32) -> bool {
    const NUMBER: f32 = 1_048_576.0;
    match (b, c) {
        (0, 5) => sized(w, f32::MAX),
        (0, 6..) if has(FastPasses) => sized(w, f32::MAX),
        (0, _) | (3, 1) | (5, 2..) => sized(w, NUMBER),
        (3, 0) => sized(w, 4.0 * NUMBER),
        // At least 0: minus zero is.
        (5, _) => sized(w, NUMBER) && (w <= 0x7fff_ffff || w == 0x8000_0000),
        (1, 1) | (4, 2..) => w < 2,
        _ => true,
    }
}
fn is_index(b: usize, c: usize) -> bool {
    matches!((b, c), (1, 0) | (2, _) | (4, 0..=1) | (6, _))
}

fn judge(bytes: &[u8]) -> Result<Mesh, u32> {
    judge_with(bytes, true)
}
/// The same with the numbers of a blade, found good or bad beforehand.
fn judge_with(bytes: &[u8], blade: bool) -> Result<Mesh, u32> {
    let w = words_of(bytes);
    if bytes.len() < 16 || (0..4).any(|k| w[k] > LIMITS[k]) && !has(ShortLength) {
        return Err(1);
    }
    let mut need = 4u64;
    for (width, list) in BLOCKS {
        need += width as u64 * w[list] as u64;
    }
    if has(ShortLength) && 4 * need as u32 as usize == bytes.len() && need > u32::MAX as u64 {
        return Ok(Mesh::default());
    }
    if 4 * need != bytes.len() as u64 || (0..4).any(|k| w[k] > LIMITS[k]) {
        return Err(1);
    }
    let (mut numbers, mut indices) = (true, true);
    let mut at = 4;
    for (b, (width, list)) in BLOCKS.into_iter().enumerate() {
        let n = w[list] as usize;
        for k in 0..n {
            for c in 0..width {
                let word = w[at + c * n + k];
                numbers &= word_ok(b, c, word);
                if is_index(b, c) {
                    indices &= word < w[0];
                    // The other corners, ends or sides of the same row.
                    indices &= b == 1 || (0..c).all(|d| w[at + d * n + k] != word);
                }
            }
        }
        at += width * n;
    }
    if !(numbers && blade) && !(has(ThreeBeforeTwo) && !indices) && !(has(BladeAfterThree) && numbers && !indices) {
        return Err(2);
    }
    if !indices {
        return Err(3);
    }
    read(bytes).ok_or(1)
}

// ---- the functions ------------------------------------------------------------------------

/// The fan's corners, with check 4 on particle and sides.
fn fan_of(m: &Mesh, v: u32, sides: &[u8]) -> Result<Vec<Vec<u32>>, u32> {
    if v as usize >= m.px.len() || sides.iter().any(|&s| s > 1) {
        return Err(4);
    }
    let k = second::kind(m);
    let fan = second::fan(m, k, v);
    if fan.len() != sides.len() {
        return Err(4);
    }
    Ok(fan.into_iter().map(|e| second::corners(m, k, e)).collect())
}
fn grouped(m: &Mesh, v: u32, sides: &[u8]) -> Result<(Vec<u32>, u32), u32> {
    let fans = fan_of(m, v, sides)?;
    let sides: Vec<u32> = sides.iter().map(|&s| s as u32).collect();
    Ok(second::groups_of(second::facet_others(second::kind(m)), &fans, &sides, v))
}

fn root(bits: u32) -> Answer {
    let x = f32::from_bits(bits);
    if bits != 0x8000_0000 && bits >= 0x7f80_0000 {
        return Err(4);
    }
    let mut r = x.sqrt();
    if has(RootCut) && r as f64 * r as f64 > x as f64 {
        r = f32::from_bits(r.to_bits() - 1);
    }
    Ok(vec![r.to_bits()])
}

fn blade_hit(words: &[u8]) -> Answer {
    let w = words_of(words);
    if words.len() != 32 {
        return Err(4);
    }
    if !w.iter().all(|&x| sized(x, 1_048_576.0)) {
        return Err(2);
    }
    let f: Vec<f32> = w.into_iter().map(f32::from_bits).collect();
    let b = Blade::new(f[0], f[1], f[2], f[3]);
    let (p, q) = ((f[4], f[5]), (f[6], f[7]));
    let (dp, dq) = (second::offset(b, p), second::offset(b, q));
    let mut hit = second::blade_hit(b, p, q);
    if has(BladeOpenEnd) {
        hit = hit.filter(|h| second::blade_inside(b, h.1));
    }
    if has(BladeSigns) && (dp > 0.0) == (dq > 0.0) && dp != 0.0 && dq != 0.0 {
        hit = None;
    }
    let Some((t, (x, y))) = hit else { return Ok(vec![0; 4]) };
    let t = if has(BladeZero) { t + 0.0 } else { t };
    let (x, y) = if has(PointTurned) { (y, x) } else { (x, y) };
    Ok([1, t.to_bits(), x.to_bits(), y.to_bits()].to_vec())
}

fn groups(image: &[u8], v: u32, sides: &[u8]) -> Answer {
    let (groups, count) = grouped(&judge(image)?, v, sides)?;
    Ok([vec![count], groups].concat())
}

/// The measure, with the planted faults' readings of an element's weight.
fn measured(m: &Mesh, keep: impl Fn(&[u32]) -> bool) -> Vec<u32> {
    let k = second::kind(m);
    let mut total = 0.0f32;
    for e in second::elements(m, k) {
        if keep(&second::corners(m, k, e)) {
            total += match k {
                Kind::Triangles if has(SignedVolume) => m.volume[e as usize],
                Kind::Straps if has(PresentLength) => m.rest[e as usize],
                _ => second::measure(m, k, e),
            };
        }
    }
    vec![total.to_bits()]
}
fn rest_measure(image: &[u8]) -> Answer {
    Ok(measured(&judge(image)?, |_| true))
}
fn rest_measure_of(image: &[u8], bytes: &[u8]) -> Answer {
    let (m, list) = (judge(image)?, words_of(bytes));
    let falls = |k: usize| list[k - 1] > list[k] || list[k - 1] == list[k] && !has(ListTwice);
    if bytes.len() % 4 != 0 || (1..list.len()).any(falls) || list.iter().any(|&p| p as usize >= m.px.len()) {
        return Err(4);
    }
    Ok(measured(&m, |c| match has(AnyCorner) {
        true => c.iter().any(|w| list.contains(w)),
        false => c.iter().all(|w| list.contains(w)),
    }))
}

fn opens(image: &[u8], v: u32, sides: &[u8], minimum: u32) -> Answer {
    let m = judge(image)?;
    let (groups, count) = grouped(&m, v, sides)?;
    let k = second::kind(&m);
    let fan = second::fan(&m, k, v);
    let facet = if k == Kind::Triangles && !has(CornerReach) { 2 } else { 1 };
    let least = if has(MinimumLess) { minimum.saturating_sub(1) } else { minimum.max(1) };
    // A particle that no element holds.
    let pivot = if has(ReachThroughV) { u32::MAX } else { v };
    let within = if has(ReachInFan) { fan.clone() } else { second::elements(&m, k) };
    Ok(vec![second::opens_within(&m, k, &within, pivot, facet, &fan, &groups, count, least) as u32])
}

fn pieces(image: &[u8]) -> Answer {
    let m = judge(image)?;
    let k = second::kind(&m);
    let mut sets: Vec<Vec<u32>> = second::elements(&m, k).iter().map(|&e| second::corners(&m, k, e)).collect();
    let count = sets.len();
    let by_two = k == Kind::Triangles && !has(PiecesByCorner) || k == Kind::Straps && has(StrapsByTwo);
    let facet = if by_two { 2 } else { 1 };
    if has(PiecesByEdges) {
        sets.extend(m.edges().into_iter().chain(m.boundary()).map(|(a, b)| vec![a, b]));
    }
    let joins = |a: &[u32], b: &[u32]| match second::shared(a, b) {
        n if has(PiecesExactly) => n == facet,
        2 if has(SidesOneWay) && by_two => sides_meet(a, b),
        n => n >= facet,
    };
    Ok(vec![second::pieces_of(&sets, count, joins)])
}
/// Has the one triangle a side that the other has the other way round?
fn sides_meet(a: &[u32], b: &[u32]) -> bool {
    let sides = |t: &[u32]| [(t[0], t[1]), (t[1], t[2]), (t[2], t[0])];
    sides(a).iter().any(|&(x, y)| sides(b).contains(&(y, x)))
}

// ---- fans and sheets ------------------------------------------------------------------------

fn fan(image: &[u8], v: u32) -> Answer {
    let m = judge(image)?;
    if v as usize >= m.px.len() {
        return if has(AbsentFan) { Ok(vec![0]) } else { Err(4) };
    }
    let straps = m.ta.is_empty();
    let rows = if straps { m.ea.len() } else { m.ta.len() };
    let (mut fan, mut counted) = (vec![], 0);
    for i in 0..rows {
        if straps && m.structural[i] == 0 && !has(FanOfEdges) {
            continue;
        }
        let row = if straps { vec![m.ea[i], m.eb[i]] } else { vec![m.ta[i], m.tb[i], m.tc[i]] };
        if row.contains(&v) {
            fan.push(if straps && has(StrapsCounted) { counted } else { i as u32 });
        }
        counted += 1;
    }
    if has(FanTurned) {
        fan.reverse();
    }
    fan.insert(0, fan.len() as u32);
    Ok(fan)
}

/// Bits n of the bytes from bit `at` on.
fn bits(s: &[u8], at: usize, n: usize) -> u32 {
    (at..at + n).fold(0, |x, k| x << 1 | (s[k / 8] >> (7 - k % 8) & 1) as u32)
}
fn whole(x: u32) -> i32 {
    if x < 1024 || has(SignLost) { x as i32 } else { x as i32 - 2048 }
}
/// A list's rows.
type Rows = Vec<Vec<u32>>;
/// The rows of a sheet of either edition within limits, each list with the width of its fields, with the outline that it is read with; the blade stands last.
/// And whether the typed outline was replaced.
fn rows(s: &[u8], limits: [u32; 4]) -> Result<(Vec<Rows>, bool), u32> {
    const WIDTHS: [&[usize]; 5] = [&[11, 11, 1], &[10, 10, 10], &[10, 10, 1], &[10, 10], &[11, 11, 11, 11]];
    if s.len() < 6 {
        return Err(9);
    }
    let second = bits(s, 0, 11) == 2047;
    let counts = match second {
        true => [bits(s, 11, 11), bits(s, 22, 11), bits(s, 33, 12), 0],
        false => [bits(s, 0, 11), bits(s, 11, 11), bits(s, 22, 12), bits(s, 34, 12)],
    };
    if (0..4).any(|k| counts[k] > limits[k]) {
        return Err(1);
    }
    let start = if second && !has(HeaderLate) { 45 } else { 46 };
    let number = |k: usize| if k < 4 { counts[k] as usize } else { 1 };
    let end: usize = start + (0..5).map(|k| number(k) * WIDTHS[k].iter().sum::<usize>()).sum::<usize>();
    let long = end.div_ceil(8);
    if s.len() < long || s.len() > long && !has(TailPasses) {
        return Err(9);
    }
    let mut at = start;
    let mut lists = vec![];
    for (k, widths) in WIDTHS.into_iter().enumerate() {
        let mut list = vec![];
        for _ in 0..number(k) {
            list.push(widths.iter().map(|&w| (bits(s, at, w), at += w).0).collect::<Vec<u32>>());
        }
        lists.push(list);
    }
    let own = own_outline(&lists[1], &lists[2]);
    let replaced = !second && !same_outline(&lists[3], &own);
    let sound = named(&if has(TypedUnnamed) && replaced { with_outline(&lists, vec![]) } else { lists.clone() });
    let spare = bits(s, end, 8 * long - end) != 0 && !has(SparePasses);
    if spare && !(has(NamesFirst) && !sound) {
        return Err(9);
    }
    let lists = if second || replaced { with_outline(&lists, own) } else { lists };
    let over = lists[3].len() > limits[3] as usize && !has(OutlineUnmeasured);
    match (sound, over) {
        (false, true) if has(OutlineFirst) => Err(1),
        (false, _) => Err(3),
        (true, true) => Err(1),
        (true, false) => Ok((lists, replaced)),
    }
}
/// The lists of a sheet with another outline.
fn with_outline(lists: &[Rows], outline: Rows) -> Vec<Rows> {
    let mut lists = lists.to_vec();
    lists[3] = outline;
    lists
}
/// The sides that exactly one triangle holds, as its rows have them; of straps each one.
fn own_outline(triangles: &[Vec<u32>], edges: &[Vec<u32>]) -> Rows {
    if triangles.is_empty() {
        return edges.iter().filter(|e| e[2] == 1).map(|e| e[..2].to_vec()).collect();
    }
    let mut own = vec![];
    for t in triangles {
        for (a, b) in [(t[0], t[1]), (t[1], t[2]), (t[2], t[0])] {
            let directed = |u: &[u32]| (0..3).any(|k| (u[k], u[(k + 1) % 3]) == (a, b));
            let holds =
                |u: &&Vec<u32>| if has(OutlineDirected) { directed(u) } else { u.contains(&a) && u.contains(&b) };
            if triangles.iter().filter(holds).count() == 1 || has(SharedSides) {
                own.push(vec![a, b]);
            }
        }
    }
    if has(OutlineSorted) {
        own.sort();
    }
    own
}
/// Every side of each list is, in either direction, in the other.
fn same_outline(typed: &[Vec<u32>], own: &[Vec<u32>]) -> bool {
    let among = |r: &[u32], l: &[Vec<u32>]| l.iter().any(|q| q[..] == *r || q[0] == r[1] && q[1] == r[0]);
    match () {
        _ if has(OutlineAsLists) => typed == own,
        _ if has(RepeatsCounted) && typed.len() != own.len() => false,
        _ => typed.iter().all(|r| among(r, own)) && (has(OutlineOneWay) || own.iter().all(|r| among(r, typed))),
    }
}
/// Every row of triangles, edges and boundary names particles, and none twice.
fn named(lists: &[Rows]) -> bool {
    let good = |row: &[u32]| {
        row.iter().all(|&x| (x as usize) < lists[0].len()) && (1..row.len()).all(|k| !row[..k].contains(&row[k]))
    };
    lists[1].iter().all(|r| good(r)) && lists[2].iter().chain(&lists[3]).all(|r| good(&r[..2]))
}
/// The mesh and the blade of a sheet's rows.
fn sheet_mesh(lists: &[Rows]) -> (Mesh, Blade) {
    let mut m = Mesh::default();
    let at = |i: u32| (whole(lists[0][i as usize][0]), whole(lists[0][i as usize][1]));
    for r in &lists[0] {
        m.particle(whole(r[0]) as f32, whole(r[1]) as f32, 1.0, r[2] == 1 && !has(PinLost));
    }
    for r in &lists[1] {
        let ((ax, ay), (bx, by), (cx, cy)) = (at(r[0]), at(r[1]), at(r[2]));
        let twice = ax * (by - cy) + bx * (cy - ay) + cx * (ay - by);
        m.triangle(r[0], r[1], r[2], twice.abs() as f32 / 2.0);
    }
    for r in &lists[2] {
        let ((ax, ay), (bx, by)) = (at(r[0]), at(r[1]));
        let square = (ax - bx) as i64 * (ax - bx) as i64 + (ay - by) as i64 * (ay - by) as i64;
        m.edge(r[0], r[1], r[2] == 1, (square as f32).sqrt());
    }
    lists[3].iter().for_each(|r| m.bound(r[0], r[1]));
    let b: Vec<f32> = lists[4][0].iter().map(|&x| whole(x) as f32).collect();
    (m, Blade::new(b[0], b[1], b[2], b[3]))
}
const PROGRAM: [u32; 4] = [128, 128, 256, 256];
fn sheet(bytes: &[u8]) -> Answer {
    let (lists, replaced) = rows(bytes, if has(OtherLimits) { PROGRAM } else { LIMITS })?;
    let (m, b) = sheet_mesh(&lists);
    let blade = [b.x0, b.y0, b.x1, b.y1].map(f32::to_bits).to_vec();
    let first = if has(FirstWordGone) { vec![] } else { vec![(replaced && !has(ReplacedUntold)) as u32] };
    Ok(if has(BladeBehind) { [first, image_words(&m), blade] } else { [first, blade, image_words(&m)] }.concat())
}

/// The bytes of the sheet whose fields are words, in the second edition, by bits put one behind the other.
fn written(fields: &[u8]) -> Result<Vec<u8>, u32> {
    let w = words_of(fields);
    if fields.len() < 12 || (0..3).any(|k| w[k] > LIMITS[k]) {
        return Err(1);
    }
    let n: Vec<usize> = w[..3].iter().map(|&x| x as usize).collect();
    let long = 7 + 3 * n[0] + 3 * n[1] + 3 * n[2];
    if fields.len() != 4 * long && !(has(FieldsPass) && fields.len() > 4 * long) {
        return Err(1);
    }
    // Of each column: how many rows, how many bits, and whether it is signed.
    let lists: [(usize, &[(usize, bool)]); 5] = [
        (n[0], &[(11, true), (11, true), (1, false)]),
        (n[1], &[(10, false); 3]),
        (n[2], &[(10, false), (10, false), (1, false)]),
        (0, &[]),
        (1, &[(11, true); 4]),
    ];
    let (mut held, mut at) = (true, 3);
    let mut rows = vec![];
    for (count, columns) in lists {
        let mut list = vec![vec![]; count];
        for &(width, sign) in columns {
            for row in &mut list {
                let x = w[at];
                at += 1;
                held &= match sign {
                    true => (x as i32 + 1024) as u32 <= if has(CoordinateWraps) { 2048 } else { 2047 },
                    false => x >> width == 0 || width == 1 && x == 2 && has(FlagWraps),
                };
                row.push(x & ((1 << width) - 1));
            }
        }
        rows.push(list);
    }
    let names = named(&rows);
    if !held && !(has(FieldNamesFirst) && !names) {
        return Err(2);
    }
    if !names {
        return Err(3);
    }
    if own_outline(&rows[1], &rows[2]).len() > LIMITS[3] as usize && !has(LongWritten) {
        return Err(1);
    }
    let mut out: Vec<bool> = vec![];
    let mut put = |x: u32, n: usize| out.extend((0..n).rev().map(|k| x >> k & 1 == 1));
    match has(FirstWritten) {
        true => [(w[0], 11), (w[1], 11), (w[2], 12), (0, 12)].into_iter().for_each(|(x, n)| put(x, n)),
        false => [(2047, 11), (w[0], 11), (w[1], 11), (w[2], 12)].into_iter().for_each(|(x, n)| put(x, n)),
    }
    for (list, (_, columns)) in rows.iter().zip(lists) {
        list.iter().for_each(|row| row.iter().zip(columns).for_each(|(&x, c)| put(x, c.0)));
    }
    Ok(out.chunks(8).map(|c| (0..8).fold(0, |x, k| x << 1 | c.get(k).copied().unwrap_or(false) as u8)).collect())
}
unsafe extern "C" fn sheet_write(at: *const u8, n: usize, out: *mut u8, k: usize) -> u32 {
    unsafe { give_bytes(written(lent(at, n)), (out, k), 9, has(SheetCutOff)) }
}

/// The listing of the cut of a sheet by the second writing.
fn listing(bytes: &[u8]) -> Result<String, u32> {
    let (lists, replaced) = rows(bytes, if has(OtherLimits) { LIMITS } else { PROGRAM })?;
    let (m, blade) = sheet_mesh(&lists);
    let o = second::cut(&m, blade, 0.1);
    let log = if has(ShortListing) { 256 } else { 640 };
    match o.refusal(crate::api::Rooms { particles: 256, edges: 512, boundary: 512, log }) {
        0 => {}
        no if replaced && has(LineBesideRefusal) => return Ok(format!("outline replaced\nrefused {no}\n")),
        no => return Err(no),
    }
    let line = |e: &Entry| match *e {
        Entry::Split { copy, source } => (0, format!("split {copy} {source}\n")),
        Entry::Removed { a, b } => (1, format!("edge {a} {b}\n")),
        Entry::Insert { a, b, p, q, .. } => (2, format!("insert {a} {b} {p} {q}\n")),
        Entry::Met { a, b, .. } if has(MarksListed) => (3, format!("met {a} {b}\n")),
        Entry::Opened { .. } | Entry::Met { .. } => (3, String::new()),
    };
    let mut lines: Vec<(i32, String)> = o.log.iter().map(line).collect();
    if !has(ListingUnsorted) {
        lines.sort_by_key(|l| l.0);
    }
    let pieces = second::pieces(&o.mesh);
    let body: String = lines.into_iter().map(|l| l.1).collect();
    let head = match replaced || has(LineAlways) {
        true if has(LineBeforeTear) => "outline replaced\ntear 1\n",
        true => "tear 1\noutline replaced\n",
        false => "tear 1\n",
    };
    Ok(format!("{head}{body}particles {}\npieces {pieces}\n", o.mesh.px.len()))
}
unsafe extern "C" fn list_cut(at: *const u8, n: usize, out: *mut u8, k: usize) -> u32 {
    let text = listing(unsafe { lent(at, n) }).unwrap_or_else(|no| format!("refused {no}\n"));
    unsafe { give_bytes(Ok(text.into_bytes()), (out, k), 4, has(ListingCutOff)) }
}

// ---- the functions that give a mesh ---------------------------------------------------------

const NAN: u32 = 0x7fc0_0000;
/// The words of a mesh's image, by blocks.
fn image_words(m: &Mesh) -> Vec<u32> {
    let mut w: Vec<u32> = [m.px.len(), m.ta.len(), m.ea.len(), m.ba.len()].map(|n| n as u32).to_vec();
    let mut floats = m.floats().into_iter();
    let mut numbers = m.numbers().into_iter();
    for (b, (width, _)) in BLOCKS.into_iter().enumerate() {
        for _ in 0..width {
            match matches!(b, 0 | 3 | 5) {
                true => w.extend(floats.next().unwrap().iter().map(|x| if x.is_nan() { NAN } else { x.to_bits() })),
                false => w.extend(numbers.next().unwrap()),
            }
        }
    }
    w
}
fn log_words(log: &[Entry]) -> Vec<u32> {
    let words = |e: &Entry| match *e {
        Entry::Split { copy, source } => [1, copy, source, 0, 0, 0],
        Entry::Removed { a, b } => [2, a, b, 0, 0, 0],
        Entry::Insert { a, b, p, q, t } => [3, a, b, p, q, t.to_bits()],
        Entry::Opened { a, b } => [4, a, b, 0, 0, 0],
        Entry::Met { a, b, x, y, t } => [5, a, b, x.to_bits(), y.to_bits(), t.to_bits()],
    };
    log.iter().flat_map(words).collect()
}
/// The places lent, each at most its limit; 4 if the bytes are no four words or triangles lack.
fn lent_places(m: &Mesh, rooms: &[u8]) -> Result<Vec<u32>, u32> {
    let w = words_of(rooms);
    if rooms.len() != 16 || (w[1] as usize) < m.ta.len() && !has(TrianglesUnasked) {
        return Err(4);
    }
    Ok((0..4).map(|k| if has(RoomUncapped) { w[k] } else { w[k].min(LIMITS[k]) }).collect())
}
/// The first lack of room of a run, by its steps, or its words.
fn answered(o: Outcome, places: &[u32], log: usize) -> Torn {
    let entries = if has(LogRoundedUp) { log.div_ceil(24) } else { log / 24 };
    let rooms = [places[0] as usize, places[2] as usize, places[3] as usize, entries.min(4096)];
    let steps = if has(RoomAtEnd) { &o.steps[o.steps.len() - 1..] } else { &o.steps[..] };
    for s in steps {
        let needs = [s.particles, s.edges, s.boundary, s.log];
        let lacking = |k: &usize| needs[*k] > rooms[*k];
        let lack = if has(LogFirst) { [3, 0, 1, 2].into_iter().find(lacking) } else { (0..4).find(lacking) };
        if let Some(k) = lack {
            return Err(5 + k as u32);
        }
    }
    let log = log_words(&o.log);
    let head = vec![o.changed as u32, log.len() as u32 / 6];
    Ok(([head, image_words(&o.mesh)].concat(), log))
}

fn split(image: &[u8], v: u32, sides: &[u8], rooms: &[u8], log: usize) -> Torn {
    let m = judge(image)?;
    let places = lent_places(&m, rooms)?;
    fan_of(&m, v, sides)?;
    let sides: Vec<u32> = sides.iter().map(|&s| s as u32).collect();
    answered(second::split_fan(&m, v, &sides), &places, log)
}

fn straddlers(image: &[u8], rooms: &[u8], log: usize) -> Torn {
    let m = judge(image)?;
    let places = lent_places(&m, rooms)?;
    answered(second::straddlers(&m), &places, log)
}

fn cut(image: &[u8], blade: &[u8], edition: u32, fraction: u32, rooms: &[u8], log: usize) -> Torn {
    let w = words_of(blade);
    // A blade of another length is no blade whose numbers could be looked at.
    let m = judge_with(image, blade.len() != 16 || w.iter().all(|&x| sized(x, 1_048_576.0)))?;
    let places = lent_places(&m, rooms)?;
    // Patterns from 0 to 0.5, and minus zero.
    let within = fraction <= 0x3f00_0000 || fraction == 0x8000_0000 && !has(MinusZeroFraction);
    let unknown = edition != 1 && edition != 2 && !has(EditionUnasked);
    if blade.len() != 16 || !within || unknown {
        return Err(4);
    }
    if edition == 2 {
        let whole = m.px.iter().chain(&m.py).map(|x| x.to_bits()).chain(w.clone()).all(whole_pattern);
        let straps = m.ta.is_empty() && m.structural.contains(&1);
        match (whole, straps) {
            (false, true) if has(StrapsFirst) => return Err(12),
            (false, _) if !has(OffPasses) => return Err(11),
            (_, true) => return Err(12),
            _ => {}
        }
    }
    let f: Vec<f32> = w.into_iter().map(f32::from_bits).collect();
    let b = Blade::new(f[0], f[1], f[2], f[3]);
    let o = match edition {
        2 => second::cut_exactly(&m, b),
        _ => second::cut(&m, b, f32::from_bits(fraction)),
    };
    answered(o, &places, log)
}
/// The pattern of a whole number from -1,024 to 1,024, by its exponent and the bits below its point.
fn whole_pattern(bits: u32) -> bool {
    let size = bits & 0x7fff_ffff;
    if size == 0 {
        return bits == 0 || !has(MinusZeroOff);
    }
    let exponent = (size >> 23) as i32 - 127;
    let limit = if has(RangeShort) { 1023.0f32 } else { 1024.0 };
    exponent >= 0 && size <= limit.to_bits() && size & (0x7f_ffff >> exponent) == 0
}

/// The bytes of the longest torn list that is taken.
pub const MOST_TORN: usize = 4 * 2048;
fn crack(image: &[u8], torn: &[u8], minimum: u32, rooms: &[u8], log: usize) -> Torn {
    let m = judge(image)?;
    let places = lent_places(&m, rooms)?;
    if torn.len() % 4 != 0 && !has(TornPart) {
        return Err(4);
    }
    if torn.len() > MOST_TORN {
        return Err(4);
    }
    answered(second::crack(&m, &words_of(torn), Some(minimum)), &places, log)
}
