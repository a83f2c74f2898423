//! The two editions of the cut (docs/RULES.md, R25), by the examples of its clauses.
use cutting_bench::{Edition, Event, Mesh, Refusal, Rooms, Sheet, Torn};

/// Triangles over free particles of mass 1.
fn foam(places: &[(f32, f32)], triangles: &[[u32; 3]]) -> Mesh {
    let mut m = Mesh::new();
    for (x, y) in places {
        m.add_particle(*x, *y);
    }
    for [a, b, c] in triangles {
        m.add_triangle(*a, *b, *c);
    }
    m
}
/// The blade drawn the other way.
fn swapped([x0, y0, x1, y1]: [f32; 4]) -> [f32; 4] {
    [x1, y1, x0, y0]
}
fn corners(m: &Mesh) -> Vec<[u32; 3]> {
    m.triangles.iter().map(|t| t.corners).collect()
}
/// The copies that were made, with their sources.
fn copies(torn: &Torn) -> Vec<[u32; 2]> {
    let pair = |e: &Event| match e {
        Event::Split { copy, source } => Some([*copy, *source]),
        _ => None,
    };
    torn.events.iter().filter_map(pair).collect()
}

/// A mesh, a blade, and the triangles that come out: edition 1, edition 1 from the other end, edition 2 from either end; then the copies of edition 2.
struct Example {
    mesh: Mesh,
    blade: [f32; 4],
    first: Vec<[u32; 3]>,
    back: Vec<[u32; 3]>,
    second: Vec<[u32; 3]>,
    copies: Vec<[u32; 2]>,
}
fn examples() -> Vec<Example> {
    let kite = foam(&[(0.0, 0.0), (1.0, 0.0), (0.0, 2.0), (0.0, 1.0)], &[[3, 1, 2], [3, 0, 1]]);
    let corner = foam(&[(1.0, 1.0), (0.0, 1.0), (0.0, 0.0), (1.0, 0.0)], &[[0, 3, 1], [0, 1, 2], [2, 0, 3]]);
    let parted = foam(&[(1.0, 0.0), (0.0, 2.0), (2.0, 0.0), (0.0, 0.0)], &[[1, 2, 3], [1, 0, 3]]);
    let mut end = foam(&[(0.0, 6.0), (0.0, -7.0), (-3.0, -1.0), (3.0, -1.0)], &[[0, 1, 2], [0, 1, 3]]);
    end.particles[0].inverse_mass = 0.0;
    let square = foam(&[(0.0, 0.0), (4.0, 0.0), (4.0, 4.0), (0.0, 4.0)], &[[0, 1, 2], [0, 2, 3]]);
    vec![
        // The middle of the first triangle is on the line.
        Example {
            blade: [0.0, 0.0, 1.0, 1.0],
            first: vec![[3, 4, 2], [5, 0, 1]],
            back: corners(&kite),
            second: vec![[3, 4, 2], [5, 0, 1]],
            copies: vec![[4, 1], [5, 3]],
            mesh: kite,
        },
        // Particle 0 is on the line, and so is the middle of its first triangle: the second one says which side is kept.
        Example {
            mesh: corner,
            blade: [1.0, 1.0, 0.0, 0.0],
            first: vec![[0, 6, 1], [0, 1, 2], [5, 4, 3]],
            back: vec![[0, 3, 5], [4, 1, 2], [6, 0, 3]],
            second: vec![[0, 3, 1], [0, 1, 2], [5, 4, 6]],
            copies: vec![[4, 0], [5, 2], [6, 3]],
        },
        // The second triangle stays with 3 and, at 1, with 1, where the closing pass parts it.
        Example {
            blade: [1.0, 0.0, 0.0, 1.0],
            first: corners(&parted),
            back: corners(&parted),
            second: vec![[1, 2, 4], [5, 0, 3]],
            copies: vec![[4, 3], [5, 1]],
            mesh: parted,
        },
        // The side from 0 to 1 meets the very end of the blade, which the rounded test misses.
        Example {
            blade: [0.0, -1.0, -2.0, 5.0],
            first: corners(&end),
            back: corners(&end),
            second: vec![[0, 1, 2], [0, 4, 3]],
            copies: vec![[4, 1]],
            mesh: end,
        },
        // No middle is on the line of the worked square, and no crossing is missed: the editions agree.
        Example {
            mesh: square,
            blade: [-1.0, -1.0, 5.0, 5.0],
            first: vec![[0, 1, 2], [4, 5, 3]],
            back: vec![[0, 1, 2], [4, 5, 3]],
            second: vec![[0, 1, 2], [4, 5, 3]],
            copies: vec![[4, 0], [5, 2]],
        },
    ]
}

#[test]
fn the_examples_both_ways() {
    for (k, e) in examples().into_iter().enumerate() {
        let cut = |blade, edition| e.mesh.cut(blade, edition, 0.1).unwrap();
        let (there, back) = (e.blade, swapped(e.blade));
        assert_eq!(corners(&cut(there, Edition::First).mesh), e.first, "{k}");
        assert_eq!(corners(&cut(back, Edition::First).mesh), e.back, "{k}");
        let (one, other) = (cut(there, Edition::Second), cut(back, Edition::Second));
        assert_eq!(corners(&one.mesh), e.second, "{k}");
        assert_eq!(copies(&one), e.copies, "{k}");
        // The whole outcome is the same from the other end. (A 0 of a mark may have the other sign, which `==` does not tell.)
        assert_eq!(one, other, "{k}");
    }
}

/// The lesson of README.md: there and back.
#[test]
fn the_lesson() {
    let cut = |name: &str, edition| {
        let text = format!("{}/../examples/editions/{name}.text", env!("CARGO_MANIFEST_DIR"));
        let sheet: Sheet = std::fs::read_to_string(text).unwrap().parse().unwrap();
        let torn = sheet.mesh().unwrap().cut(sheet.blade.map(|x| x as f32), edition, 0.1).unwrap();
        (torn.mesh.pieces().unwrap(), torn.mesh)
    };
    let pieces = ["there", "back"].map(|name| [Edition::First, Edition::Second].map(|edition| cut(name, edition).0));
    assert_eq!(pieces, [[2, 2], [1, 2]]);
    assert_eq!(cut("there", Edition::Second), cut("back", Edition::Second));
}

/// What edition 2 made, it takes again: no particle moved.
#[test]
fn a_result_is_whole_again() {
    for e in examples() {
        let torn = e.mesh.cut(e.blade, Edition::Second, 0.1).unwrap();
        assert!(torn.mesh.cut(swapped(e.blade), Edition::Second, 0.1).is_ok());
    }
}

/// Lines drawn over a grid, through its points, between them and along its sides, from either end: one mesh.
#[test]
fn many_lines_from_either_end() {
    let mut m = Mesh::new();
    for k in 0..16 {
        m.add_particle((k % 4) as f32, (k / 4) as f32);
    }
    for k in (0..12).filter(|k| k % 4 < 3) {
        m.add_triangle(k, k + 1, k + 5);
        m.add_triangle(k, k + 5, k + 4);
    }
    let rooms = Rooms { particles: 54, triangles: 18, edges: 0, boundary: 128, log: 256 };
    let cut = |blade, edition| m.cut_within(blade, edition, 0.1, rooms).unwrap();
    let (mut parted, mut astray) = (0, 0);
    for k in 0..6 * 6 * 6 * 6 {
        let blade = [k % 6, k / 6 % 6, k / 36 % 6, k / 216].map(|x| x as f32 - 1.0);
        let torn = cut(blade, Edition::Second);
        assert_eq!(torn, cut(swapped(blade), Edition::Second), "{blade:?}");
        parted += usize::from(torn.changed);
        astray += usize::from(cut(blade, Edition::First).mesh != cut(swapped(blade), Edition::First).mesh);
    }
    assert!(parted > 500, "{parted} lines part something");
    assert!(astray > 0, "in edition 1 no line cuts otherwise from the other end");
}

#[test]
fn edition_2_asks_for_whole_coordinates() {
    let square = || foam(&[(0.0, 0.0), (4.0, 0.0), (4.0, 4.0), (0.0, 4.0)], &[[0, 1, 2], [0, 2, 3]]);
    let blade = |x| [-1.0, -1.0, x, 5.0];
    let why = |m: &Mesh, blade, edition| m.cut(blade, edition, 0.1).err();
    // Of the blade.
    assert_eq!(why(&square(), blade(1024.0), Edition::Second), None);
    assert_eq!(why(&square(), blade(-0.0), Edition::Second), None);
    for x in [1025.0, -1025.0, 0.5, 1e-30] {
        assert_eq!(why(&square(), blade(x), Edition::Second), Some(Refusal::NotWhole), "{x}");
        assert_eq!(why(&square(), blade(x), Edition::First), None, "{x}");
    }
    assert_eq!(why(&square(), blade(1_048_577.0), Edition::Second), Some(Refusal::BadNumber));
    // Of a position, also of a particle in no triangle; not of a rest position nor of a velocity.
    let mut m = square();
    m.particles[1].rest = [0.5, 2000.0];
    m.particles[1].velocity = [0.25, -3000.0];
    assert_eq!(why(&m, blade(5.0), Edition::Second), None);
    m.add_particle(-1024.0, -1024.0);
    assert_eq!(why(&m, blade(5.0), Edition::Second), None);
    m.particles[4].position[1] = 0.5;
    assert_eq!(why(&m, blade(5.0), Edition::Second), Some(Refusal::NotWhole));
    assert_eq!(why(&m, blade(5.0), Edition::First), None);
    // Behind 4.
    assert_eq!(m.cut(blade(5.0), Edition::Second, 0.6).err(), Some(Refusal::BadArgument));
}

#[test]
fn edition_2_is_not_for_straps() {
    let mut strap = Mesh::new();
    strap.add_particle(0.0, 0.0);
    strap.add_particle(8.0, 0.0);
    strap.add_edge(0, 1, true);
    let blade = [2.0, -1.0, 2.0, 1.0];
    assert_eq!(strap.cut(blade, Edition::Second, 0.1), Err(Refusal::NotForStraps));
    assert!(strap.cut(blade, Edition::First, 0.1).is_ok());
    // 11 comes before 12, and 12 before the rooms.
    strap.particles[1].position[0] = 7.5;
    assert_eq!(strap.cut(blade, Edition::Second, 0.1), Err(Refusal::NotWhole));
    strap.particles[1].position[0] = 8.0;
    let none = Rooms { particles: 0, ..Rooms::default() };
    assert_eq!(strap.cut_within(blade, Edition::Second, 0.1, none), Err(Refusal::NotForStraps));
    // A mesh of nothing is no mesh of straps.
    assert_eq!(Mesh::new().cut(blade, Edition::Second, 0.1).map(|torn| torn.changed), Ok(false));
}

#[test]
fn editions_have_words() {
    assert!(Edition::First.to_string().contains("first") && Edition::Second.to_string().contains("second"));
    assert!(
        Refusal::NotWhole.to_string().contains("whole") && Refusal::NotForStraps.advice().contains("first edition")
    );
}
