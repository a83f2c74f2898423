//! Every case to hold, R15 of docs/RULES.md.
use crate::api::*;
use crate::meshgen::{document_fan, document_straps};
use crate::sheet::{self, Edition, Sheet};

struct T(u32, u32);
impl T {
    fn is<X: PartialEq + std::fmt::Debug>(&mut self, name: &str, got: X, want: X) {
        self.0 += 1;
        if got == want {
            println!("agrees   {name}");
        } else {
            self.1 += 1;
            println!("DIFFERS  {name}: got {got:?}, R15 says {want:?}");
        }
    }
}
fn strap(pa: (f32, f32), pb: (f32, f32), rest: f32) -> Mesh {
    let mut m = Mesh::default();
    m.particle(pa.0, pa.1, 1.0, false);
    m.particle(pb.0, pb.1, 1.0, false);
    m.edge(0, 1, true, rest);
    m
}
fn next(x: f32) -> f32 {
    f32::from_bits(x.to_bits() + 1)
}

/// The worked sheet in the second edition, and with outlines that were typed otherwise (L13).
fn outlines(t: &mut T, listing: &Sheet, want: &str) {
    let second = sheet::write(listing, Edition::Second);
    t.is("in the second edition it has 36 bytes (L13)", second.len(), 36);
    t.is("5 spare bits", second.len() * 8 - Edition::Second.length([4, 2, 2, 0]), 5);
    t.is("it is read as the first", sheet::read(&second, &sheet::CUTLIST), Ok((listing.clone(), false)));
    t.is("its listing is the same", sheet::cutlist(&second, false), want.to_string());
    let replaced = want.replace("tear 1\n", "tear 1\noutline replaced\n");
    let typed = |boundary: &[(u32, u32)]| {
        let s = Sheet { boundary: boundary.to_vec(), ..listing.clone() };
        sheet::cutlist(&sheet::write(&s, Edition::First), false)
    };
    t.is("typed in another order, turned", typed(&[(3, 0), (2, 1), (0, 1), (2, 3)]), want.to_string());
    t.is("typed with a repeat", typed(&[(0, 1), (0, 1), (1, 2), (2, 3), (3, 0)]), want.to_string());
    t.is("typed without (3, 0)", typed(&[(0, 1), (1, 2), (2, 3)]), replaced.clone());
    t.is("typed with (0, 2) besides", typed(&[(0, 1), (1, 2), (2, 3), (3, 0), (0, 2)]), replaced.clone());
    t.is("none typed", typed(&[]), replaced);
    t.is("typed with (0, 4)", typed(&[(0, 1), (0, 4)]), "refused 3\n".to_string());
}

pub fn run() -> i32 {
    let mut t = T(0, 0);
    let f = document_fan();
    t.is("fan (0,1,2),(0,2,3),(0,4,5), sides 0,0,0: groups 0,0,1", groups(&f, 0, &[0, 0, 0]), (vec![0, 0, 1], 2));
    t.is("the same fan, sides 1,0,0: groups 2,0,1", groups(&f, 0, &[1, 0, 0]), (vec![2, 0, 1], 3));
    let s = document_straps();
    t.is("strap sides 0,1,0 at a shared end: groups 0,1,0", groups(&s, 0, &[0, 1, 0]), (vec![0, 1, 0], 2));
    for (name, z) in [("0", 0.0f32), ("-0", -0.0)] {
        let mut pinned = f.clone();
        pinned.inv[0] = z;
        let o = split_fan(&pinned, 0, &[1, 0, 0]);
        t.is(
            &format!("pinned v (inverse mass {name}): unchanged"),
            (o.changed, o.mesh == pinned, o.log.len()),
            (false, true, 0),
        );
    }
    let one = {
        let mut m = f.clone();
        m.ta.truncate(1);
        m.tb.truncate(1);
        m.tc.truncate(1);
        m.volume.truncate(1);
        m.tstress.truncate(1);
        m
    };
    for side in [0, 1] {
        let o = split_fan(&one, 0, &[side]);
        t.is(&format!("one element, side {side}: unchanged"), (o.changed, o.mesh == one), (false, true));
    }
    let b = Blade::new(2., -1., 2., 1.);
    let met = Some((0.25, [2., 0.]));
    let of = |b: Blade| blade_hit(b, [0., 0.], [8., 0.]);
    t.is("blade (2,-1)-(2,1), edge (0,0)-(8,0): t is 0.25, at (2,0)", of(b), met);
    t.is("the same blade, edge (2,0)-(2,5): miss", blade_hit(b, [2., 0.], [2., 5.]), None);
    t.is("blade (2,0)-(2,1), edge (0,0)-(8,0): hit", of(Blade::new(2., 0., 2., 1.)), met);
    t.is("blade (3,3)-(3,3), edge (0,0)-(8,0): miss", of(Blade::new(3., 3., 3., 3.)), None);
    let st = strap((0., 0.), (8., 0.), 8.0);
    let o = cut(&st, b, 0.1);
    t.is("that strap: masses", o.mesh.mass.clone(), vec![0.25, 0.75, 0.25, 0.75]);
    t.is("that strap: edges", o.mesh.edges(), vec![(0, 2), (3, 1)]);
    let crossing = Entry::Met { a: 0, b: 1, x: 2., y: 0., t: 0.25 };
    t.is("that strap: log", o.log.clone(), vec![crossing, Entry::Insert { a: 0, b: 1, p: 2, q: 3, t: 0.25 }]);
    t.is("roots of 0, 4, 0.25", [0f32.sqrt(), 4f32.sqrt(), 0.25f32.sqrt()], [0.0, 2.0, 0.5]);
    let mut many = Mesh::default();
    for i in 0..1024 {
        many.particle(i as f32, 0.0, 1.0, false);
    }
    t.is("1,024 particles pass", check_mesh(&many), 0);
    many.particle(0.0, 0.0, 1.0, false);
    t.is("1,025 get 1", check_mesh(&many), 1);
    t.is("coordinate 1,048,576 passes", check_mesh(&strap((1_048_576., 0.), (8., 0.), 8.0)), 0);
    t.is("the next f32 gets 2", check_mesh(&strap((next(1_048_576.), 0.), (8., 0.), 8.0)), 2);
    t.is("fraction 0.5 passes", fraction_ok(0.5), true);
    t.is("the next f32 gets 4", fraction_ok(next(0.5)), false);
    t.is("an empty sheet file gets 9", sheet::cutlist(&[], false), "refused 9\n".to_string());

    let listing = Sheet {
        particles: vec![(0, 0, 0), (4, 0, 0), (4, 4, 0), (0, 4, 0)],
        triangles: vec![[0, 1, 2], [0, 2, 3]],
        edges: vec![(0, 2, 1), (1, 3, 0)],
        boundary: vec![(0, 1), (1, 2), (2, 3), (3, 0)],
        blade: [-1, -1, 5, 5],
    };
    let bytes = sheet::write(&listing, Edition::First);
    t.is("the sheet has 46 bytes", bytes.len(), 46);
    t.is("4 spare bits", bytes.len() * 8 - (46 + 4 * 23 + 2 * 30 + 2 * 21 + 4 * 20 + 44), 4);
    t.is("read undoes write", sheet::read(&bytes, &sheet::CUTLIST), Ok((listing.clone(), false)));
    let want = "tear 1\nsplit 4 0\nsplit 5 2\nedge 1 3\nparticles 6\npieces 2\n".to_string();
    t.is("the listing (cut entry word for word)", sheet::cutlist(&bytes, false), want.clone());
    t.is("the listing (with cut_topology instead)", sheet::cutlist(&bytes, true), want.clone());
    outlines(&mut t, &listing, &want);
    let mut pinned = listing.clone();
    pinned.particles[0].2 = 1;
    let halves = "tear 1\nsplit 4 2\nedge 1 3\nparticles 5\npieces 2\n".to_string();
    t.is("the same with particle 0 pinned (L2)", sheet::cutlist(&sheet::write(&pinned, Edition::First), false), halves);
    pinned.particles[2].2 = 1;
    let whole = "tear 1\nparticles 4\npieces 1\n".to_string();
    t.is("the same with 0 and 2 pinned (L2)", sheet::cutlist(&sheet::write(&pinned, Edition::First), false), whole);
    let (m, blade) = sheet::mesh(&listing);
    for (name, o) in [("cut", cut(&m, blade, 0.1)), ("cut_topology", cut_whole(&m, blade, 0.1))] {
        t.is(&format!("edges at the end ({name})"), o.mesh.edges(), vec![(0, 2), (4, 5)]);
        t.is(
            &format!("boundary at the end ({name})"),
            o.mesh.boundary(),
            vec![(0, 1), (1, 2), (5, 3), (3, 4), (2, 0), (4, 5)],
        );
        println!("         note: its log in order of happening: {:?}", o.log);
        println!(
            "         note: triangles {:?}, masses {:?}, damaged {:?}",
            o.mesh.triangles(),
            o.mesh.mass,
            o.mesh.damaged
        );
    }
    print!("         note: the sheet's bytes:");
    for b in &bytes {
        print!(" {b:02x}");
    }
    println!();
    println!("{} cases, {} differ", t.0, t.1);
    (t.1 > 0) as i32
}
