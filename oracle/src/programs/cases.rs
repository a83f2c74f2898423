//! Writes the cases that crate model's definitions are computed on, with the published Rust's answers.
//! `cases FOLDER` writes FOLDER/cases.txt, a vector file, and FOLDER/cases.names, a line `NUMBER what it is` for each case.
//! oracle/cases/cases.py makes the statements of both.
use crate::api::*;
use crate::vectors::*;

fn body(ps: &[(f32, f32)]) -> Mesh {
    let mut m = Mesh::default();
    for &(x, y) in ps {
        m.particle(x, y, 1.0, false);
    }
    m
}
fn tris(ps: &[(f32, f32)], ts: &[[u32; 3]]) -> Mesh {
    let mut m = body(ps);
    for t in ts {
        let (a, b, c) = (ps[t[0] as usize], ps[t[1] as usize], ps[t[2] as usize]);
        m.triangle(t[0], t[1], t[2], 0.5 * ((b.0 - a.0) * (c.1 - a.1) - (b.1 - a.1) * (c.0 - a.0)));
    }
    m
}
fn rope(ps: &[(f32, f32)]) -> Mesh {
    let mut m = body(ps);
    for i in 0..ps.len() - 1 {
        let (a, b) = (ps[i], ps[i + 1]);
        m.edge(i as u32, i as u32 + 1, true, ((b.0 - a.0) * (b.0 - a.0) + (b.1 - a.1) * (b.1 - a.1)).sqrt());
    }
    m
}
fn next(x: f32) -> f32 {
    f32::from_bits(x.to_bits() + 1)
}
fn with(m: &Mesh, change: impl Fn(&mut Mesh)) -> Mesh {
    let mut n = m.clone();
    change(&mut n);
    n
}
fn cut_by(b: [f32; 4], fraction: f32) -> Call {
    Call::Cut { blade: Blade::new(b[0], b[1], b[2], b[3]), fraction }
}
fn split(v: u32, sides: &[u32]) -> Call {
    Call::SplitFan { v, sides: sides.to_vec() }
}
fn crack_of(torn: &[u32], min_piece: Option<u32>) -> Call {
    Call::Crack { torn: torn.to_vec(), min_piece }
}
fn groups_of(v: u32, sides: &[u32]) -> Call {
    Call::Groups { v, sides: sides.to_vec() }
}
fn opens(v: u32, sides: &[u32], min_piece: Option<u32>) -> Call {
    Call::Opens { v, sides: sides.to_vec(), min_piece }
}
fn blade(b: [f32; 4], p: [f32; 2], q: [f32; 2]) -> Call {
    Call::BladeHit { blade: Blade::new(b[0], b[1], b[2], b[3]), p, q }
}
fn measure_of(list: &[u32]) -> Call {
    Call::RestMeasureOf { list: list.to_vec() }
}

/// The cases under way: a hundred numbers to a section, which becomes one file of statements.
struct Out {
    no: u64,
    text: String,
    names: String,
}
impl Out {
    fn section(&mut self, n: u64) {
        self.no = n * 100;
    }
    fn put(&mut self, name: &str, m: &Mesh, call: Call) {
        self.room(name, m, call, Rooms::LIMITS);
    }
    fn room(&mut self, name: &str, m: &Mesh, call: Call, rooms: Rooms) {
        self.no += 1;
        let c = Case { seed: self.no, mesh: m.clone(), call, rooms };
        write_case(&mut self.text, &c, &oracle(&c));
        self.names += &format!("{} {name}\n", self.no);
    }
}

fn three() -> Mesh {
    tris(&[(0., 0.), (1., 0.), (1., 1.), (0., 1.), (-1., 0.), (-1., -1.)], &[[0, 1, 2], [0, 2, 3], [0, 4, 5]])
}
fn star() -> Mesh {
    let mut s = body(&[(0., 0.), (1., 0.), (2., 0.), (0., 3.)]);
    for i in 1..4 {
        s.edge(0, i, true, i as f32);
    }
    s
}
fn square() -> Mesh {
    let mut q = tris(&[(0., 0.), (4., 0.), (4., 4.), (0., 4.)], &[[0, 1, 2], [0, 2, 3]]);
    q.edge(0, 2, true, 32f32.sqrt());
    q.edge(1, 3, false, 32f32.sqrt());
    for i in 0..4 {
        q.bound(i, (i + 1) % 4);
    }
    q
}
fn grid() -> Mesh {
    let mut g = tris(&[(0., 0.), (1., 0.), (2., 0.), (0., 1.), (1., 1.), (2., 1.)], &[[0, 1, 4], [0, 4, 3], [1, 2, 5], [1, 5, 4]]);
    for (a, b) in [(0, 1), (1, 2), (3, 4), (4, 5), (0, 3), (1, 4), (2, 5), (0, 4), (1, 5), (3, 1), (4, 2), (3, 5)] {
        g.edge(a, b, a + 1 == b, 1.0);
    }
    for (a, b) in [(0, 1), (1, 2), (2, 5), (5, 4), (4, 3), (3, 0)] {
        g.bound(a, b);
    }
    for i in 0..12 {
        g.impulse[i] = i as f32 * 0.5;
        g.estress[i] = 0.25 * i as f32 - 1.0;
    }
    g
}
fn bent_rope() -> Mesh {
    let mut r = rope(&[(0., 0.), (4., 0.), (8., 0.), (12., 0.)]);
    for (a, b, l) in [(0, 2, 8.0), (3, 1, 8.0), (0, 3, 12.0)] {
        r.edge(a, b, false, l);
    }
    for (a, b) in [(1, 0), (1, 2), (2, 1)] {
        r.bound(a, b);
    }
    for i in 0..6 {
        r.impulse[i] = 1.0;
        r.estress[i] = 2.0 + i as f32;
        r.torn[i] = 1;
    }
    r
}
fn six() -> Mesh {
    let ps = [(0., 0.), (1., 0.), (1., 1.), (0., 1.), (2., 0.), (2., 1.), (-1., 0.), (-1., 1.)];
    let mut m = tris(&ps, &[[6, 0, 3], [6, 3, 7], [0, 1, 2], [0, 2, 3], [1, 4, 5], [1, 5, 2]]);
    for (a, b) in [(0, 1), (0, 2), (1, 3), (3, 2), (2, 5), (7, 0), (1, 2)] {
        m.edge(a, b, true, 1.0);
    }
    (m.estress[0], m.estress[3], m.estress[6]) = (-1.0, 2.0, 0.5);
    m.tstress = vec![-2.0, 0.0, 1.0, 0.5, 3.0, 0.0];
    for (a, b) in [(6, 0), (0, 1), (1, 4), (4, 5), (5, 2), (2, 3), (3, 7), (7, 6)] {
        m.bound(a, b);
    }
    m
}
fn two() -> Mesh {
    let mut m = tris(&[(0., 0.), (1., 0.), (0., 1.), (5., 5.), (6., 5.), (5., 6.), (9., 9.)], &[[0, 1, 2], [3, 4, 5]]);
    m.edge(4, 1, true, 1.0);
    m.edge(0, 6, false, 1.0);
    for (a, b) in [(2, 3), (6, 0), (0, 1)] {
        m.bound(a, b);
    }
    m
}
fn nothing() -> Mesh {
    let mut m = body(&[(0., 0.), (1., 0.)]);
    m.edge(0, 1, false, 1.0);
    m.bound(0, 1);
    m
}

fn groups_and_splits(o: &mut Out) {
    let (f, s) = (three(), star());
    o.section(1);
    o.put("starred: sides 0, 0, 0 give groups 0, 0, 1", &f, groups_of(0, &[0, 0, 0]));
    o.put("starred: sides 1, 0, 0 give groups 2, 0, 1", &f, groups_of(0, &[1, 0, 0]));
    o.put("starred: strap sides 0, 1, 0 at a shared end", &s, groups_of(0, &[0, 1, 0]));
    o.put("groups at a particle of one element", &f, groups_of(1, &[1]));
    o.put("groups in a mesh of nothing", &nothing(), groups_of(0, &[]));
    o.put("a side that is not 0 or 1", &f, groups_of(0, &[0, 2, 0]));
    o.put("not one side per fan element", &f, groups_of(0, &[0, 1]));
    o.put("particle absent", &f, groups_of(6, &[]));
    o.section(2);
    o.put("two groups at a free particle do split", &f, split(0, &[0, 0, 0]));
    o.put("three groups", &f, split(0, &[1, 0, 0]));
    o.put("starred: pinned v, unchanged", &with(&f, |m| m.inv[0] = 0.0), split(0, &[1, 0, 0]));
    o.put("pinned by minus zero, unchanged", &with(&f, |m| m.inv[0] = -0.0), split(0, &[1, 0, 0]));
    o.put("starred: one element, unchanged", &f, split(1, &[1]));
    o.put("a strap splits", &s, split(0, &[0, 1, 0]));
    o.put("starred: pinned v of straps, unchanged", &with(&s, |m| m.inv[0] = 0.0), split(0, &[0, 1, 0]));
    o.put("a mesh of nothing, unchanged", &nothing(), split(0, &[]));
    // far ends in no fan element, by direction
    let mut t = tris(&[(0., 0.), (1., 0.), (0., 1.), (-1., 0.), (0., -1.), (0., 0.), (5., 5.), (-3., -4.)], &[[0, 1, 2], [0, 3, 4]]);
    for (a, b, s, l) in [(0, 5, false, 0.0), (6, 0, false, 1.0), (0, 7, true, 1.0)] {
        t.edge(a, b, s, l);
    }
    for (a, b) in [(0, 5), (7, 0), (0, 6)] {
        t.bound(a, b);
    }
    o.put("edges and boundary follow the group that points their way", &t, split(0, &[1, 0]));
    o.put("the same with the sides exchanged", &t, split(0, &[0, 1]));
    let mut e = tris(&[(0., 0.), (1., 0.), (0., 1.), (0., -1.), (2., 2.)], &[[0, 1, 2], [0, 3, 1], [0, 1, 4], [0, 1, 2]]);
    e.edge(0, 1, true, 1.0);
    (e.torn[0], e.impulse[0], e.estress[0]) = (1, 5.0, 7.0);
    e.edge(2, 3, false, 1.0);
    e.edge(2, 4, false, 1.0);
    for (a, b) in [(0, 1), (1, 0)] {
        e.bound(a, b);
    }
    o.put("an edge shared by groups; a straddler goes", &e, split(0, &[1, 0, 0, 1]));
    o.put("the same with the sides exchanged", &e, split(0, &[0, 1, 1, 0]));
    let mut d = tris(&[(0., 0.), (1., 0.), (0., 1.)], &[[0, 1, 2], [0, 1, 2]]);
    d.edge(0, 1, false, 1.0);
    d.edge(1, 2, true, 1.0);
    d.bound(1, 2);
    d.bound(2, 0);
    o.put("a doubled triangle opens no facet", &d, split(0, &[0, 1]));
    o.put("a weightless group gets mass 0 and a pinned copy", &with(&f, |m| m.volume[2] = 0.0), split(0, &[0, 0, 0]));
    o.put("with total 0 the mass is divided equally", &with(&f, |m| m.volume = vec![0.0, -0.0, 0.0]), split(0, &[1, 0, 0]));
}

fn cuts_of_triangles(o: &mut Out) {
    let q = square();
    let diagonal = || cut_by([-1., -1., 5., 5.], 0.1);
    o.section(3);
    o.put("the whole listing's mesh", &q, diagonal());
    o.put("a blade through sides", &q, cut_by([2., -1., 2., 5.], 0.1));
    o.put("a blade through two corners of one triangle each", &q, cut_by([-1., 5., 5., -1.], 0.1));
    o.put("a pinned corner", &with(&q, |m| m.inv[2] = 0.0), diagonal());
    let heavy = with(&q, |m| (m.volume[1], m.mass[0], m.inv[0]) = (0.0, 3.0, 1.0 / 3.0));
    o.put("a rest volume of 0", &heavy, diagonal());
    o.put("rest volumes of 0 and minus 0", &with(&q, |m| m.volume = vec![0.0, -0.0]), diagonal());
    o.put("a blade of one point", &q, cut_by([3., 3., 3., 3.], 0.1));
    o.put("a pinched particle splits", &three(), cut_by([0.5, -1., 0.5, 2.], 0.1));
    let mut strip = tris(&[(0., 0.), (2., 0.), (1., 1.), (3., 1.), (4., 0.), (5., 1.)], &[[0, 1, 2], [1, 3, 2], [1, 4, 3], [4, 5, 3]]);
    strip.edge(0, 3, false, 1.0);
    strip.bound(0, 1);
    strip.bound(1, 4);
    o.put("a strip, slanted blade", &strip, cut_by([1.5, -1., 2.5, 2.], 0.1));
    o.put("a strip, upright blade", &strip, cut_by([2., -1., 2., 2.], 0.1));
    o.put("nothing is cut of nothing", &nothing(), cut_by([0.5, -1., 0.5, 1.], 0.1));
    o.put("fraction 0.5 passes", &q, cut_by([0., 0., 1., 1.], 0.5));
    // a centroid on the blade that falls to a side by rounding
    let c = tris(&[(0., 0.), (0., 1.), (1., 4.), (1., -1.)], &[[1, 2, 0], [0, 2, 3]]);
    o.put("a centroid on the blade", &c, cut_by([0., 0., 1., 5.], 0.1));
    // a side that two triangles find, and points that are not the exact ones, rounded
    let pinned = with(&q, |m| (m.px[0], m.py[1], m.px[2], m.py[2], m.inv) = (0.1, 0.7, 4.7, 4.9, vec![0.0; 4]));
    o.put("pinned all around: marked and left whole", &pinned, cut_by([0.3, -0.7, 3.1, 5.], 0.1));
    o.section(4);
    o.put("a grid with all edges, blade along a line of particles", &grid(), cut_by([1., -1., 1., 2.], 0.1));
    o.put("a grid with all edges, slanted blade", &grid(), cut_by([0.9, -0.5, 1.2, 1.5], 0.1));
}

fn cuts_of_straps(o: &mut Out) {
    o.section(5);
    let mut st = body(&[(0., 0.), (8., 0.)]);
    st.edge(0, 1, true, 8.0);
    o.put("the strap of length 8", &st, cut_by([2., -1., 2., 1.], 0.1));
    let r = bent_rope();
    let pinned = with(&r, |m| (m.inv[1], m.damaged[1]) = (0.0, 1));
    o.put("a rope with bend edges", &r, cut_by([6., -1., 6., 1.], 0.1));
    o.put("at a particle", &r, cut_by([4., -1., 4., 1.], 0.1));
    o.put("near a particle: it is split", &r, cut_by([4.2, -1., 4.2, 1.], 0.1));
    o.put("near a pinned particle: inserted", &pinned, cut_by([4.2, -1., 4.2, 1.], 0.1));
    o.put("at a pinned particle: inserted twice", &pinned, cut_by([4., -1., 4., 1.], 0.1));
    let mut y = body(&[(0., 0.), (8., 0.), (0., 8.)]);
    y.edge(0, 1, true, 8.0);
    y.edge(0, 2, true, 8.0);
    o.put("fraction 0 at a shared end", &y, cut_by([-1., 1., 1., -1.], 0.0));
    o.put("fraction 0.1 at a shared end", &y, cut_by([-1., 1., 1., -1.], 0.1));
    let mut z = body(&[(0., 0.), (0., 8.)]);
    z.edge(0, 1, true, 8.0);
    o.put("t is minus zero", &z, cut_by([0., 0., 1., 0.], 0.0));
    let w = with(&y, |m| (m.initial[0], m.mass[1]) = (0.0, 0.0));
    o.put("a strap without length or mass", &w, cut_by([4., -1., 4., 1.], 0.1));
    let mut zig = rope(&[(0., 0.), (1., 2.), (2., 0.), (3., 2.), (4., 0.)]);
    for i in 0..3 {
        zig.edge(i, i + 2, false, 2.0);
    }
    o.put("four crossings", &zig, cut_by([-1., 1.1, 5., 0.7], 0.2));
    let light = with(&y, |m| (m.mass[0], m.mass[1]) = (1.2e-20, 1.2e-20));
    o.put("pinned by the insertion before", &light, cut_by([4., -0.4, -2., 0.8], 0.1));
    o.put("not pinned by the insertion before", &y, cut_by([4., -0.4, -2., 0.8], 0.1));
    let heavy = with(&y, |m| (m.mass[0], m.mass[1]) = (1048576.0, 1048576.0));
    o.put("a mass that goes out of range", &heavy, cut_by([6., -1., 6., 1.], 0.1));
    o.put("near a loose end: marked and left whole", &st, cut_by([0.3, -1., 0.5, 1.], 0.1));
}

fn cracks(o: &mut Out) {
    o.section(6);
    let r = rope(&[(0., 0.), (1., 0.), (2., 0.), (3., 0.)]);
    o.put("the middle of a rope, minimum 1", &r, crack_of(&[1], Some(1)));
    o.put("twice the same edge, minimum 0 counts as 1", &r, crack_of(&[1, 1], Some(0)));
    o.put("a number past the end is skipped", &r, crack_of(&[0, 9], Some(1)));
    o.put("nothing reaches the default minimum", &r, crack_of(&[1], None));
    o.put("no torn edge", &r, crack_of(&[], Some(1)));
    o.put("structural and bend edges", &bent_rope(), crack_of(&[1, 3, 0], Some(1)));
    let mut long = rope(&[(0., 0.), (1., 0.), (2., 0.), (3., 0.), (4., 0.), (5., 0.), (6., 0.)]);
    long.edge(1, 3, false, 2.0);
    long.estress[3] = 1.0;
    long.edge(2, 4, false, 2.0);
    o.put("a long rope, the default minimum", &long, crack_of(&[2, 3, 7], None));
    let mut zz = body(&[(0., 0.), (1., 0.), (-1., 0.), (2., 0.), (-1., 1.)]);
    for (a, b) in [(0, 1), (0, 2), (1, 3), (0, 3), (1, 2)] {
        zz.edge(a, b, true, 1.0);
    }
    (zz.estress[0], zz.estress[4]) = (-1.0e-45, 1.0e-45);
    o.put("a mean of minus zero comes behind plus zero", &zz, crack_of(&[0], Some(1)));
    o.put("both ends pinned, unchanged", &with(&r, |m| (m.inv[1], m.inv[2]) = (0.0, 0.0)), crack_of(&[1], Some(1)));
    o.put("a crack of nothing", &nothing(), crack_of(&[0], Some(1)));
    o.section(7);
    let c = six();
    o.put("triangles, minimum 1", &c, crack_of(&[0], Some(1)));
    o.put("two torn edges, minimum 2", &c, crack_of(&[0, 3], Some(2)));
    o.put("triangles, the default minimum", &c, crack_of(&[0], None));
    o.section(8);
    o.put("four torn edges, loads read once", &c, crack_of(&[3, 6, 0, 1], Some(1)));
}

fn readings(o: &mut Out) {
    o.section(9);
    let (c, g, t, n) = (six(), grid(), two(), nothing());
    o.put("reach with minimum 2", &c, opens(0, &[0, 1, 1], Some(2)));
    o.put("reach around v, minimum 2", &c, opens(1, &[0, 1, 1], Some(2)));
    o.put("reach, the default minimum", &c, opens(1, &[0, 1, 1], None));
    o.put("reach, minimum 0 counts as 1", &c, opens(1, &[0, 1, 1], Some(0)));
    let r = rope(&[(0., 0.), (1., 0.), (2., 0.), (3., 0.)]);
    o.put("a rope's short end falls below 2", &r, opens(1, &[0, 1], Some(2)));
    o.put("a rope's ends reach 1", &r, opens(1, &[0, 1], Some(1)));
    o.put("opens in a mesh of nothing", &n, opens(0, &[], None));
    o.put("straddlers of one piece", &g, Call::Straddlers);
    o.put("straddlers between two pieces", &t, Call::Straddlers);
    o.put("straddlers of nothing", &n, Call::Straddlers);
    o.put("one piece", &g, Call::Pieces);
    o.put("two pieces", &t, Call::Pieces);
    o.put("pieces of straps", &r, Call::Pieces);
    o.put("no piece", &n, Call::Pieces);
    o.put("the whole measure", &g, Call::RestMeasure);
    o.put("absolute rest volumes", &with(&g, |m| m.volume[1] = -3.5), Call::RestMeasure);
    o.put("the measure of straps", &star(), Call::RestMeasure);
    o.put("the measure of nothing", &n, Call::RestMeasure);
    o.put("the measure of some particles", &g, measure_of(&[0, 1, 3, 4]));
    o.put("the measure of some particles of straps", &star(), measure_of(&[0, 2, 3]));
    o.put("a list that does not rise", &g, measure_of(&[1, 0]));
    o.put("a list that names one twice", &g, measure_of(&[1, 1]));
    o.put("a list that names an absent particle", &g, measure_of(&[1, 6]));
    let up = [2., -1., 2., 1.];
    o.put("starred: t is 0.25", &n, blade(up, [0., 0.], [8., 0.]));
    o.put("starred: an edge along the blade misses", &n, blade(up, [2., 0.], [2., 5.]));
    o.put("starred: the blade's end is included", &n, blade([2., 0., 2., 1.], [0., 0.], [8., 0.]));
    o.put("starred: a blade of one point misses", &n, blade([3., 3., 3., 3.], [0., 0.], [8., 0.]));
    o.put("t is minus zero", &n, blade([0., 0., 1., 0.], [0., 0.], [0., 1.]));
    o.put("an exact hit at the blade's end, missed by rounding", &n, blade([1., -1., 2., 0.], [1., 6.], [1., -7.]));
    o.put("the same edge from its other end hits", &n, blade([1., -1., 2., 0.], [1., -7.], [1., 6.]));
    o.put("tiny offsets of one sign", &n, blade([0., 0., 1., 0.], [0., 1.0e-30], [0.5, 2.0e-30]));
    o.put("a point out of range", &n, blade(up, [0., 0.], [next(1048576.0), 0.]));
    o.put("a point at the limit", &n, blade(up, [0., 0.], [1048576.0, 0.]));
    o.put("a blade that is no number", &n, blade([2., -1., f32::NAN, 1.], [0., 0.], [8., 0.]));
}

fn refusals(o: &mut Out) {
    o.section(10);
    let q = square();
    let plain = || cut_by([0., 0., 1., 1.], 0.1);
    let bad = cut_by([0., 0., 1., 1.], 9.0);
    o.put("2 before 3 and 4", &with(&q, |m| (m.px[3], m.ta[0]) = (next(1048576.0), 9)), bad.clone());
    o.put("coordinate 1,048,576 passes; 3 before 4", &with(&q, |m| (m.px[3], m.ta[0]) = (1048576.0, 9)), bad.clone());
    o.put("4: the fraction", &with(&q, |m| m.px[3] = 1048576.0), bad);
    o.put("2: a blade that is no number", &q, cut_by([0., 0., 1., f32::NAN], 0.1));
    o.put("4: the next f32 above 0.5", &q, cut_by([0., 0., 1., 1.], next(0.5)));
    o.put("4: a fraction below 0", &q, cut_by([0., 0., 1., 1.], -1.0e-45));
    o.put("4: a fraction that is no number", &q, cut_by([0., 0., 1., 1.], f32::NAN));
    o.put("0: fraction minus zero", &q, cut_by([0., 9., 1., 9.], -0.0));
    o.put("4: a side that is 2", &q, split(0, &[0, 2]));
    o.put("4: too few sides", &q, split(0, &[0]));
    o.put("4: particle absent", &q, split(4, &[]));
    o.put("2: a flag that is 2", &with(&q, |m| m.torn[1] = 2), plain());
    o.put("2: a damaged flag that is 2", &with(&q, |m| m.damaged[1] = 2), plain());
    o.put("3: a boundary entry names one twice", &with(&q, |m| m.bb[1] = m.ba[1]), plain());
    o.put("3: an edge names no particle", &with(&q, |m| m.ea[0] = 4), Call::Straddlers);
    o.put("3: a triangle names one twice", &with(&q, |m| m.tc[0] = 0), Call::Pieces);
    o.put("3: a root names no particle", &with(&q, |m| m.root[3] = 4), Call::RestMeasure);
    o.put("0: rest length minus zero, any finite inverse mass", &with(&q, |m| (m.rest[1], m.inv[1]) = (-0.0, f32::MAX)), plain());
    o.put("2: an infinite inverse mass", &with(&q, |m| m.inv[1] = f32::INFINITY), plain());
    o.put("2: a rest length below 0", &with(&q, |m| m.rest[1] = -1.0e-45), plain());
    o.put("2: an initial rest length below 0", &with(&q, |m| m.initial[0] = -1.0), crack_of(&[0], Some(1)));
    o.put("0: a rest volume of minus 4,194,304", &with(&q, |m| m.volume[1] = -4194304.0), Call::RestMeasure);
    o.put("2: the next rest volume", &with(&q, |m| m.volume[1] = next(4194304.0)), Call::RestMeasure);
    o.put("2: a stress above the limit", &with(&q, |m| m.tstress[1] = next(1048576.0)), Call::RestMeasure);
}

fn rooms(o: &mut Out) {
    o.section(11);
    let (q, r) = (square(), bent_rope());
    let diagonal = || cut_by([-1., -1., 5., 5.], 0.1);
    let middle = || cut_by([6., -1., 6., 1.], 0.1);
    let lent = |particles, edges, boundary, log| Rooms { particles, edges, boundary, log };
    o.room("5: the second split lacks a particle", &q, diagonal(), lent(5, 2, 6, 7));
    o.room("6: edges at their longest", &q, diagonal(), lent(6, 2, 6, 7));
    o.room("7: boundary", &q, diagonal(), lent(6, 3, 5, 7));
    o.room("8: log", &q, diagonal(), lent(6, 3, 6, 6));
    o.room("0: just enough", &q, diagonal(), lent(6, 3, 6, 7));
    o.room("6: the copy of the input comes first", &q, diagonal(), lent(4, 1, 6, 3));
    o.room("6: an insertion lacks an edge", &r, middle(), lent(6, 6, 6, 9));
    o.room("0: an insertion has just enough", &r, middle(), lent(6, 7, 5, 4));
    o.room("8: the bend edges lack log", &r, middle(), lent(6, 7, 5, 3));
    o.room("5: three groups are one step", &three(), split(0, &[1, 0, 0]), lent(7, 9, 9, 0));
    o.room("8: three groups lack log", &three(), split(0, &[1, 0, 0]), lent(8, 9, 9, 1));
    o.room("8: an opened edge lacks log", &rope(&[(0., 0.), (1., 0.), (2., 0.), (3., 0.)]), crack_of(&[1], Some(1)), lent(9, 9, 9, 1));
    o.room("8: straddlers lack log", &two(), Call::Straddlers, lent(9, 9, 9, 0));
    o.room("8: four marks come before a split that lacks a particle", &q, diagonal(), lent(4, 2, 4, 3));
    o.room("5: the marks have just enough", &q, diagonal(), lent(4, 2, 4, 4));
    o.room("8: the mark of a strap that is left whole", &rope(&[(0., 0.), (8., 0.)]), cut_by([0.3, -1., 0.5, 1.], 0.1), lent(9, 9, 9, 0));
}

pub fn run(words: &[String]) -> i32 {
    let [folder] = words else {
        eprintln!("cases FOLDER");
        return 2;
    };
    let mut o = Out { no: 0, text: "tearvec 2\n".into(), names: String::new() };
    groups_and_splits(&mut o);
    cuts_of_triangles(&mut o);
    cuts_of_straps(&mut o);
    cracks(&mut o);
    readings(&mut o);
    refusals(&mut o);
    rooms(&mut o);
    let texts = [("cases.txt", o.text), ("cases.names", o.names)];
    for (name, text) in texts {
        if let Err(e) = std::fs::write(format!("{folder}/{name}"), text) {
            eprintln!("{folder}/{name}: {e}");
            return 1;
        }
    }
    0
}
