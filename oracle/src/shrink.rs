//! Makes a failing input small: drops what is wrong with the image, elements and particles, and
//! then simplifies the numbers, as long as the input still fails.
use crate::api::{MAX_BOUNDARY, MAX_EDGES, MAX_PARTICLES, MAX_TRIANGLES, Mesh};
use crate::entries::{Args, Input};
use crate::inputs::need;
use crate::second;
use std::time::{Duration, Instant};

const PATIENCE: Duration = Duration::from_secs(20);

struct Search<'a> {
    best: Input,
    fails: &'a dyn Fn(&Input) -> bool,
    end: Instant,
    moved: bool,
}
impl Search<'_> {
    fn attempt(&mut self, i: Input) -> bool {
        let better = Instant::now() < self.end && (self.fails)(&i);
        if better {
            self.best = i;
            self.moved = true;
        }
        better
    }
    /// The best input with one change.
    fn with(&mut self, change: impl FnOnce(&mut Input)) -> bool {
        let mut i = self.best.clone();
        change(&mut i);
        self.attempt(i)
    }
}

pub fn shrink(input: Input, fails: &dyn Fn(&Input) -> bool) -> Input {
    let mut s = Search { best: input, fails, end: Instant::now() + PATIENCE, moved: true };
    while s.moved && Instant::now() < s.end {
        s.moved = false;
        form(&mut s);
        for list in [1, 2, 3, 0] {
            rows(&mut s, list);
        }
        arguments(&mut s);
        values(&mut s);
    }
    s.best
}

/// Counts, lengths and the result's length as they should be.
fn form(s: &mut Search) {
    if s.best.image.counts.is_some() {
        s.with(|i| i.image.counts = None);
    }
    if let Some(n) = s.best.image.length {
        let _ = s.with(|i| i.image.length = None) || n > 0 && s.with(|i| i.image.length = Some(0));
    }
    let plain = need(&s.best);
    if s.best.out != plain {
        s.with(|i| i.out = plain);
    }
    if s.best.entry().tears() {
        lending(s);
    }
}
/// Room for everything; else the smallest rooms that still fail.
fn lending(s: &mut Search) {
    if s.best.lending.length.is_some() {
        s.with(|i| i.lending.length = None);
    }
    for (k, limit) in [MAX_PARTICLES, MAX_TRIANGLES, MAX_EDGES, MAX_BOUNDARY].into_iter().enumerate() {
        let now = s.best.lending.places[k];
        if now != limit as u32 && !s.with(|i| i.lending.places[k] = limit as u32) && now > limit as u32 {
            s.with(|i| i.lending.places[k] = limit as u32 + 1);
        }
    }
    for bytes in [24 * 40, s.best.lending.log / 24 * 24, 0] {
        if s.best.lending.log == bytes || s.with(|i| i.lending.log = bytes) {
            break;
        }
    }
}

fn count(m: &Mesh, list: usize) -> usize {
    [m.px.len(), m.ta.len(), m.ea.len(), m.ba.len()][list]
}
/// Drops rows of one list, many at a time first.
fn rows(s: &mut Search, list: usize) {
    let mut step = count(&s.best.image.mesh, list).max(1);
    loop {
        let mut at = 0;
        while at < count(&s.best.image.mesh, list) {
            let end = (at + step).min(count(&s.best.image.mesh, list));
            let drop = without(&s.best, list, at, end);
            // With the same room, or with as many places fewer.
            let fewer = drop.clone().filter(|i| i.entry().tears()).map(|mut i| {
                i.lending.places[list] = i.lending.places[list].saturating_sub((end - at) as u32);
                i
            });
            let smaller = [drop, fewer].into_iter().flatten().any(|i| s.attempt(i));
            if !smaller {
                at += step;
            }
        }
        if step == 1 {
            break;
        }
        step /= 2;
    }
}

/// The input without rows `from..to` of a list; the sides of dropped fan elements go too. A
/// dropped particle takes with it what names it. `None` if the asked particle is one of them.
fn without(i: &Input, list: usize, from: usize, to: usize) -> Option<Input> {
    let mut i = i.clone();
    let m = &i.image.mesh;
    let dropped = |x: u32| (from..to).contains(&(x as usize));
    let fan = match &i.args {
        Args::Groups { v, .. } | Args::Opens { v, .. } | Args::Split { v, .. } => second::fan(m, second::kind(m), *v),
        _ => vec![],
    };
    let straps = second::kind(m) == second::Kind::Straps;
    let mask = |n: usize, f: &dyn Fn(usize) -> bool| -> Vec<bool> { (0..n).map(f).collect() };
    let rows: Vec<Vec<bool>> = (0..4)
        .map(|l| match (l, list) {
            (l, k) if l == k => mask(count(m, l), &|x| dropped(x as u32)),
            (1, 0) => mask(m.ta.len(), &|x| dropped(m.ta[x]) || dropped(m.tb[x]) || dropped(m.tc[x])),
            (2, 0) => mask(m.ea.len(), &|x| dropped(m.ea[x]) || dropped(m.eb[x])),
            (3, 0) => mask(m.ba.len(), &|x| dropped(m.ba[x]) || dropped(m.bb[x])),
            _ => mask(count(m, l), &|_| false),
        })
        .collect();
    let lost: Vec<bool> = fan.iter().map(|&e| rows[if straps { 2 } else { 1 }][e as usize]).collect();
    for l in 0..4 {
        i.image.mesh.drop_rows(l, &rows[l]);
    }
    // A number at or beyond `to` moves down, so that "one past the end" stays that.
    let renumber = |x: u32| {
        if x as usize >= to {
            x - (to - from) as u32
        } else if dropped(x) {
            0
        } else {
            x
        }
    };
    if list == 0 {
        for k in [0, 2, 3, 4, 5, 6, 9, 10] {
            i.image.mesh.numbers_mut()[k].iter_mut().for_each(|x| *x = renumber(*x));
        }
    }
    match &mut i.args {
        Args::Groups { v, sides } | Args::Opens { v, sides, .. } | Args::Split { v, sides } => {
            if list == 0 {
                if dropped(*v) {
                    return None;
                }
                *v = renumber(*v);
            }
            let mut k = 0;
            sides.retain(|_| {
                k += 1;
                !lost.get(k - 1).copied().unwrap_or(false)
            });
        }
        Args::Fan { v } if list == 0 => {
            if dropped(*v) {
                return None;
            }
            *v = renumber(*v);
        }
        Args::RestMeasureOf { list: l, length } if list == 0 && length.is_none() => {
            l.retain(|&p| !dropped(p));
            l.iter_mut().for_each(|p| *p = renumber(*p));
        }
        Args::Crack { torn, length, .. } if list == 2 && length.is_none() => {
            torn.retain(|&e| !dropped(e));
            torn.iter_mut().for_each(|e| *e = renumber(*e));
        }
        _ => {}
    }
    let plain = need(&i);
    i.out = i.out.max(plain);
    Some(i)
}

/// The length of an argument's bytes, where it may be another than its words'.
fn length(a: &mut Args) -> Option<&mut Option<usize>> {
    match a {
        Args::BladeHit { length, .. } | Args::Cut { length, .. } => Some(length),
        Args::RestMeasureOf { length, .. } | Args::Crack { length, .. } | Args::SheetWrite { length, .. } => Some(length),
        _ => None,
    }
}
/// The words of an argument that are bits of numbers.
fn numbers(a: &mut Args) -> &mut [u32] {
    match a {
        Args::BladeHit { words, .. } => words,
        Args::Cut { blade, .. } => blade,
        _ => &mut [],
    }
}
/// An argument that is a list.
fn list(a: &mut Args) -> Option<&mut Vec<u32>> {
    match a {
        Args::RestMeasureOf { list, .. } | Args::Crack { torn: list, .. } => Some(list),
        _ => None,
    }
}
fn arguments(s: &mut Search) {
    let mut now = s.best.args.clone();
    if length(&mut now).is_some_and(|l| l.is_some()) {
        s.with(|i| length(&mut i.args).into_iter().for_each(|l| *l = None));
    }
    for (k, &w) in numbers(&mut now).iter().enumerate() {
        for x in simpler(f32::from_bits(w)) {
            if s.with(|i| numbers(&mut i.args)[k] = x.to_bits()) {
                break;
            }
        }
    }
    for k in (0..list(&mut now).map_or(0, |l| l.len())).rev() {
        s.with(|i| {
            list(&mut i.args).map(|l| l.remove(k));
        });
    }
    match now {
        Args::Root { bits } => {
            for k in 0..32 {
                if bits >> k & 1 == 1 {
                    s.with(|i| {
                        if let Args::Root { bits } = &mut i.args {
                            *bits &= !(1 << k);
                        }
                    });
                }
            }
        }
        Args::Groups { sides, .. } | Args::Opens { sides, .. } | Args::Split { sides, .. } => {
            for k in 0..sides.len() {
                if sides[k] != 0 {
                    s.with(|i| sides_of(i)[k] = 0);
                }
            }
            for k in (0..sides.len()).rev() {
                s.with(|i| {
                    sides_of(i).remove(k);
                });
            }
            smaller_minimum(s);
        }
        Args::Cut { edition, fraction, .. } => {
            if edition > 2 {
                s.with(|i| {
                    if let Args::Cut { edition, .. } = &mut i.args {
                        *edition = 3;
                    }
                });
            }
            for x in [0.0f32, 0.25, 0.5].map(f32::to_bits) {
                if fraction == x
                    || s.with(|i| {
                        if let Args::Cut { fraction, .. } = &mut i.args {
                            *fraction = x;
                        }
                    })
                {
                    break;
                }
            }
        }
        Args::Crack { .. } => smaller_minimum(s),
        _ => {}
    }
}
fn sides_of(i: &mut Input) -> &mut Vec<u8> {
    match &mut i.args {
        Args::Groups { sides, .. } | Args::Opens { sides, .. } | Args::Split { sides, .. } => sides,
        other => panic!("{other:?} has no sides"),
    }
}
fn smaller_minimum(s: &mut Search) {
    for least in [1, 2, 3] {
        let minimum = match s.best.args {
            Args::Opens { minimum, .. } | Args::Crack { minimum, .. } => minimum,
            _ => 0,
        };
        if minimum > least {
            s.with(|i| {
                if let Args::Opens { minimum, .. } | Args::Crack { minimum, .. } = &mut i.args {
                    *minimum = least;
                }
            });
        }
    }
}

/// Plainer numbers than this one, the plainest first.
fn simpler(x: f32) -> Vec<f32> {
    let rank = |x: f32| match x {
        _ if x.to_bits() == 0 => 0,
        1.0 => 1,
        _ if x.fract() == 0.0 && x.abs() < 100.0 => 2,
        _ => 3,
    };
    [0.0, 1.0, 2.0, -1.0, x.round(), (x * 4.0).round() / 4.0].into_iter().filter(|y| rank(*y) < rank(x)).collect()
}
/// Whole columns first, then each number.
fn values(s: &mut Search) {
    for k in 0..14 {
        let column = s.best.image.mesh.floats()[k].clone();
        if column.iter().all(|x| x.to_bits() == 0) || s.with(|i| i.image.mesh.floats_mut()[k].fill(0.0)) {
            continue;
        }
        if column.iter().all(|x| *x == 1.0) || s.with(|i| i.image.mesh.floats_mut()[k].fill(1.0)) {
            continue;
        }
        for (at, &x) in column.iter().enumerate() {
            for y in simpler(x) {
                if s.with(|i| i.image.mesh.floats_mut()[k][at] = y) {
                    break;
                }
            }
        }
    }
    // Roots and flags.
    for k in [0, 1, 7, 8] {
        let column = s.best.image.mesh.numbers()[k].clone();
        if column.iter().all(|x| *x == 0) || s.with(|i| i.image.mesh.numbers_mut()[k].fill(0)) {
            continue;
        }
        for (at, &x) in column.iter().enumerate() {
            if x != 0 {
                s.with(|i| i.image.mesh.numbers_mut()[k][at] = 0);
            }
        }
    }
}
