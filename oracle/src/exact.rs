//! Edition 2 of a cut (request L7) in whole numbers, over the published splits and closing pass: which pairs the blade crosses and on which side an
//! element goes, by the request's definitions. The mark of a crossing has the t and the point that the published blade test computes before its end test.
use crate::api::{self, Blade, Entry, Mesh, Outcome};
use crate::math::Vector;
use std::sync::atomic::{AtomicUsize, Ordering};

/// Rules that are not the request's, to see that a comparison finds them.
#[derive(Clone, Copy, PartialEq, Eq, Debug)]
pub enum Wrong {
    Nothing,
    /// An element on the line counts as one to the right.
    LineIsRight,
    /// At a particle on the line the first element sets the kept side, be it on the line or not.
    FirstSets,
    /// At a particle on the line the kept side is the left one.
    LeftKept,
    /// A particle's own offset is not looked at: the first element off the line sets the kept side.
    OwnUnasked,
    /// Crossings are those of the rounded blade test.
    RoundedCrossing,
    /// Sides are those of the rounded centroid, as in edition 1.
    RoundedSide,
    /// The blade's ends do not cross.
    EndsOpen,
    /// A pair that ends on the line does not cross.
    CornersOpen,
    /// 12 is found before 11.
    StrapsFirst,
    /// Minus zero is no whole number.
    MinusZeroOff,
    /// 1,024 is out of range.
    RangeShort,
    /// Rest positions must be whole too.
    RestAsked,
}
pub const WRONGS: [Wrong; 12] = [
    Wrong::LineIsRight,
    Wrong::FirstSets,
    Wrong::LeftKept,
    Wrong::OwnUnasked,
    Wrong::RoundedCrossing,
    Wrong::RoundedSide,
    Wrong::EndsOpen,
    Wrong::CornersOpen,
    Wrong::StrapsFirst,
    Wrong::MinusZeroOff,
    Wrong::RangeShort,
    Wrong::RestAsked,
];
static PLANTED: AtomicUsize = AtomicUsize::new(0);
/// Plants a wrong rule, in the place of any other.
pub fn plant(w: Wrong) {
    PLANTED.store(w as usize, Ordering::Relaxed);
}
fn has(w: Wrong) -> bool {
    PLANTED.load(Ordering::Relaxed) == w as usize
}

/// A place in whole numbers.
pub type Place = (i64, i64);
/// The whole number from -1,024 to 1,024 that a float is; either zero is 0.
pub fn whole(x: f32) -> Option<i64> {
    (x.abs() <= 1024.0 && x.trunc() == x).then_some(x as i64)
}
fn place(p: Vector) -> Place {
    (whole(p.x).expect("a whole number"), whole(p.y).expect("a whole number"))
}
/// Whether all positions and the blade are whole; rest positions do not count.
fn whole_call(m: &Mesh, b: Blade) -> bool {
    let asked = |x: f32| match () {
        _ if has(Wrong::MinusZeroOff) && x == 0.0 && x.is_sign_negative() => false,
        _ if has(Wrong::RangeShort) && x.abs() == 1024.0 => false,
        _ => whole(x).is_some(),
    };
    let rest = has(Wrong::RestAsked) && !m.rx.iter().chain(&m.ry).all(|&x| asked(x));
    m.px.iter().chain(&m.py).chain(&[b.x0, b.y0, b.x1, b.y1]).all(|&x| asked(x)) && !rest
}
/// What edition 2 refuses on a call that passed checks 1 to 4: 11 off the whole numbers, then 12 on straps; else 0.
pub fn refusal(m: &Mesh, b: Blade) -> u32 {
    let (whole, straps) = (whole_call(m, b), api::kind(m) == 2);
    match (whole, straps) {
        (false, true) if has(Wrong::StrapsFirst) => 12,
        (false, _) => 11,
        (true, true) => 12,
        _ => 0,
    }
}
/// How far c is from the line from a to b: above 0 to the left, 0 on the line.
fn side(a: Place, b: Place, c: Place) -> i64 {
    (b.0 - a.0) * (c.1 - a.1) - (b.1 - a.1) * (c.0 - a.0)
}
/// Neither both to the left nor both to the right.
fn across(a: i64, b: i64) -> bool {
    !(a > 0 && b > 0) && !(a < 0 && b < 0)
}
fn strictly_across(a: i64, b: i64) -> bool {
    a < 0 && b > 0 || a > 0 && b < 0
}
/// Whether all positions of a mesh are whole, by the request's words.
pub fn whole_mesh(m: &Mesh) -> bool {
    m.px.iter().chain(&m.py).all(|&x| whole(x).is_some())
}
/// Where a particle of a mesh stands.
fn stand(m: &Mesh, v: u32) -> Vector {
    Vector::new(m.px[v as usize], m.py[v as usize])
}
/// A blade in whole numbers.
struct Line {
    from: Place,
    to: Place,
}
impl Line {
    fn new(b: Blade) -> Line {
        let [from, to] = b.ends().map(place);
        Line { from, to }
    }
    /// The offset of a place from the blade's line.
    fn offset(&self, p: Vector) -> i64 {
        side(self.from, self.to, place(p))
    }
    /// Whether the blade crosses the pair, ends included; equal offsets miss.
    fn crosses(&self, p: Vector, q: Vector) -> bool {
        let (dp, dq) = (self.offset(p), self.offset(q));
        let (e0, e1) = (side(place(p), place(q), self.from), side(place(p), place(q), self.to));
        let met = if has(Wrong::CornersOpen) { strictly_across(dp, dq) } else { across(dp, dq) };
        met && dp != dq && if has(Wrong::EndsOpen) { strictly_across(e0, e1) } else { across(e0, e1) }
    }
    /// Three times the offset of a triangle's centroid.
    fn middle(&self, corners: &[Vector]) -> i64 {
        corners.iter().map(|&w| self.offset(w)).sum()
    }
    /// The kept side of a particle, by its own offset and its fan's middles: above 0 left, below 0 right, 0 if all are on the line.
    fn kept(&self, own: i64, middles: &[i64]) -> i64 {
        let first = middles.iter().copied().find(|&m| m != 0).unwrap_or(0);
        match own {
            _ if has(Wrong::OwnUnasked) => first,
            0 if has(Wrong::FirstSets) => middles[0],
            0 if has(Wrong::LeftKept) => 1,
            0 => first,
            _ => own,
        }
    }
    /// A side for each element of a fan: 1 if it lies strictly opposite to the kept side.
    fn sides(&self, v: Vector, fan: &[Vec<Vector>]) -> Vec<usize> {
        let middles: Vec<i64> = fan.iter().map(|c| self.middle(c)).collect();
        let kept = self.kept(self.offset(v), &middles);
        let opposite = |m: i64| kept > 0 && m < 0 || kept < 0 && m > 0;
        let right = |m: i64| if m == 0 && has(Wrong::LineIsRight) { -1 } else { m };
        middles.iter().map(|&m| opposite(right(m)) as usize).collect()
    }
}
/// The sides by the rounded centroid, as edition 1 has them (a wrong rule).
fn rounded_sides(b: Blade, v: Vector, fan: &[Vec<Vector>]) -> Vec<usize> {
    let (nx, ny) = (-(b.y1 - b.y0), b.x1 - b.x0);
    let offset = |x: f32, y: f32| nx * (x - b.x0) + ny * (y - b.y0);
    let centre = |of: fn(&Vector) -> f32, c: &[Vector]| c.iter().map(of).fold(0.0, |s, x| s + x) / 3.0;
    let left: Vec<bool> = fan.iter().map(|c| offset(centre(|p| p.x, c), centre(|p| p.y, c)) > 0.0).collect();
    let own = offset(v.x, v.y);
    let kept = if own != 0.0 { own > 0.0 } else { left[0] };
    left.into_iter().map(|l| (l != kept) as usize).collect()
}

/// The pairs that the blade crosses, as marks, and the particles at their ends, rising.
fn crossings(m: &Mesh, b: Blade, line: &Line) -> (Vec<Entry>, Vec<u32>) {
    let (mut marks, mut ends) = (vec![], vec![]);
    for (p, q, computed, rounded) in api::tested(m, b) {
        let met = if has(Wrong::RoundedCrossing) { rounded } else { line.crosses(stand(m, p), stand(m, q)) };
        if met {
            let (at, t) = computed.expect("the blade test looks at where each crossing is");
            marks.push(Entry::Met { a: p, b: q, x: at.x, y: at.y, t });
            ends.extend([p, q]);
        }
    }
    ends.sort_unstable();
    ends.dedup();
    (marks, ends)
}
/// The cut of edition 2 of a whole mesh that is no straps.
pub fn cut(m: &Mesh, b: Blade) -> Outcome {
    let line = Line::new(b);
    let (marks, candidates) = crossings(m, b, &line);
    api::cut_by(m, marks, &candidates, |v, fan| {
        if has(Wrong::RoundedSide) { rounded_sides(b, v, fan) } else { line.sides(v, fan) }
    })
}
/// What lies on the line: triangles at a candidate whose centroid does, and candidates that do.
pub fn on_line(m: &Mesh, b: Blade) -> (u64, u64) {
    let line = Line::new(b);
    let (_, candidates) = crossings(m, b, &line);
    let near = |c: [u32; 3]| c.iter().any(|w| candidates.contains(w)) && line.middle(&c.map(|w| stand(m, w))) == 0;
    let centroids = m.triangles().iter().filter(|&&(a, b, c)| near([a, b, c])).count();
    (centroids as u64, candidates.iter().filter(|&&v| line.offset(stand(m, v)) == 0).count() as u64)
}
