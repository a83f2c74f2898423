//! The worked cases of docs/RULES.md, every refusal of docs/C-FUNCTIONS.md by its example, and what the crate promises of rooms and stack.
use cutting_bench::{Edge, Edition, Event, Groups, Hit, MINIMUM_PIECE, Mesh, Refusal, Rooms, blade_hit, root};

/// The worked square of foam: two triangles on a diagonal, an edge along it and one across.
fn square() -> Mesh {
    let mut m = Mesh::new();
    for (x, y) in [(0.0, 0.0), (4.0, 0.0), (4.0, 4.0), (0.0, 4.0)] {
        m.add_particle(x, y);
    }
    m.add_triangle(0, 1, 2);
    m.add_triangle(0, 2, 3);
    m.add_edge(0, 2, true);
    m.add_edge(1, 3, false);
    m.boundary = vec![[0, 1], [1, 2], [2, 3], [3, 0]];
    m
}
const DIAGONAL: [f32; 4] = [-1.0, -1.0, 5.0, 5.0];
fn ends(m: &Mesh) -> Vec<[u32; 2]> {
    m.edges.iter().map(|e| e.ends).collect()
}

#[test]
fn the_worked_square() {
    let foam = square();
    let torn = foam.cut(DIAGONAL, Edition::First, 0.1).unwrap();
    let crossed = |a, b, at, t| Event::Crossed { a, b, at, t };
    // The blade goes through two corners; the sides that end there are met, the diagonal, which lies along it, is not.
    let happened = [
        crossed(0, 1, [0.0, 0.0], 0.0),
        crossed(1, 2, [4.0, 4.0], 1.0),
        crossed(0, 3, [0.0, 0.0], 0.0),
        crossed(2, 3, [4.0, 4.0], 0.0),
        Event::Split { copy: 4, source: 0 },
        Event::Removed { a: 1, b: 3 },
        Event::Split { copy: 5, source: 2 },
    ];
    assert_eq!(torn.events, happened);
    assert!(torn.changed);
    assert_eq!(torn.mesh.particles.len(), 6);
    assert_eq!(torn.mesh.pieces(), Ok(2));
    assert_eq!(ends(&torn.mesh), [[0, 2], [4, 5]]);
    assert_eq!(torn.mesh.boundary, [[0, 1], [1, 2], [5, 3], [3, 4], [2, 0], [4, 5]]);
    assert_eq!(torn.mesh.particles[4].root, 0);
    // Half of each split particle's mass goes to its copy.
    for v in [0, 2, 4, 5] {
        assert_eq!((torn.mesh.particles[v].mass, torn.mesh.particles[v].inverse_mass), (0.5, 2.0));
    }
    assert_eq!(foam, square(), "what is read stays");
}

#[test]
fn the_worked_strap() {
    let mut strap = Mesh::new();
    strap.add_particle(0.0, 0.0);
    strap.add_particle(8.0, 0.0);
    strap.add_edge(0, 1, true);
    let torn = strap.cut([2.0, -1.0, 2.0, 1.0], Edition::First, 0.1).unwrap();
    let masses: Vec<f32> = torn.mesh.particles.iter().map(|p| p.mass).collect();
    assert_eq!(masses, [0.25, 0.75, 0.25, 0.75]);
    assert_eq!(ends(&torn.mesh), [[0, 2], [3, 1]]);
    let crossed = Event::Crossed { a: 0, b: 1, at: [2.0, 0.0], t: 0.25 };
    assert_eq!(torn.events, [crossed, Event::Inserted { a: 0, b: 1, p: 2, q: 3, t: 0.25 }]);
    // Near a loose end the strap is crossed, and stays whole.
    let near = strap.cut([0.5, -1.0, 0.5, 1.0], Edition::First, 0.1).unwrap();
    assert_eq!(near.events, [Event::Crossed { a: 0, b: 1, at: [0.5, 0.0], t: 0.0625 }]);
    assert_eq!((near.changed, near.mesh), (false, strap));
    assert_eq!(torn.mesh.particles[2].position, [2.0, 0.0]);
}

/// A copy goes on as fast as its source, and a particle that is put into a strap at the mix of its ends' speeds.
#[test]
fn velocities() {
    let speeds = [[1.0, -2.0], [0.0, 3.0], [-4.0, 0.5], [f32::from_bits(1), -1_048_576.0]];
    let mut foam = square();
    foam.particles.iter_mut().zip(speeds).for_each(|(p, speed)| p.velocity = speed);
    let of = |m: &Mesh| m.particles.iter().map(|p| p.velocity).collect::<Vec<_>>();
    let cut = foam.cut(DIAGONAL, Edition::First, 0.1).unwrap().mesh;
    assert_eq!(of(&cut), [&speeds[..], &[speeds[0], speeds[2]]].concat());
    assert_eq!(of(&foam.cut(DIAGONAL, Edition::Second, 0.1).unwrap().mesh), of(&cut));
    assert_eq!(of(&foam.split(2, &[1, 0]).unwrap().mesh), [&speeds[..], &[speeds[2]]].concat());
    // The rest of the mesh is what it is without them.
    let still = square().cut(DIAGONAL, Edition::First, 0.1).unwrap().mesh;
    let mut stopped = cut;
    stopped.particles.iter_mut().for_each(|p| p.velocity = [0.0; 2]);
    assert_eq!(stopped, still);

    // Through a strap at a quarter.
    let mut strap = Mesh::new();
    strap.add_particle(0.0, 0.0);
    strap.add_particle(8.0, 0.0);
    strap.add_edge(0, 1, true);
    strap.particles[0].velocity = [4.0, 0.0];
    strap.particles[1].velocity = [8.0, -2.0];
    let torn = strap.cut([2.0, -1.0, 2.0, 1.0], Edition::First, 0.1).unwrap();
    assert_eq!(of(&torn.mesh), [[4.0, 0.0], [8.0, -2.0], [5.0, -0.5], [5.0, -0.5]]);
    // Rounded as positions are: 0.1 times (1 - t), plus 0.7 times t.
    let t = 1.0f32 / 3.0;
    strap.particles[0].velocity = [0.1, 0.1];
    strap.particles[1].velocity = [0.7, 0.7];
    strap.particles[1].position = [3.0, 0.0];
    let torn = strap.cut([1.0, -1.0, 1.0, 1.0], Edition::First, 0.1).unwrap();
    assert_eq!(torn.mesh.particles[2].velocity, [0.1 * (1.0 - t) + 0.7 * t; 2]);
}

/// A velocity has the range of positions: beyond it, and where it is no number, it gets 2, before a name gets 3.
#[test]
fn a_bad_velocity() {
    for (k, bad) in [above(1_048_576.0), f32::INFINITY, f32::NAN, -1e30].into_iter().enumerate() {
        let mut foam = square();
        foam.particles[3].velocity[k % 2] = bad;
        assert_eq!(foam.pieces(), Err(Refusal::BadNumber), "{bad}");
        foam.triangles[0].corners = [1, 1, 2];
        assert_eq!(foam.cut(DIAGONAL, Edition::First, 0.1), Err(Refusal::BadNumber), "{bad}");
    }
    let mut fast = square();
    fast.particles[3].velocity = [1_048_576.0, -1_048_576.0];
    assert_eq!(fast.pieces(), Ok(1));
}

#[test]
fn groups_of_a_fan() {
    let mut m = Mesh::new();
    for (x, y) in [(0.0, 0.0), (2.0, 0.0), (2.0, 2.0), (0.0, 2.0), (-2.0, 0.0), (-2.0, -2.0)] {
        m.add_particle(x, y);
    }
    for [a, b, c] in [[0, 1, 2], [0, 2, 3], [0, 4, 5]] {
        m.add_triangle(a, b, c);
    }
    assert_eq!(m.groups(0, &[0, 0, 0]), Ok(Groups { count: 2, of: vec![0, 0, 1] }));
    assert_eq!(m.groups(0, &[1, 0, 0]), Ok(Groups { count: 3, of: vec![2, 0, 1] }));
    // A pinned particle and one with a single element stay whole.
    m.particles[0].inverse_mass = 0.0;
    assert_eq!(m.split(0, &[0, 0, 0]).unwrap().events, []);
    assert_eq!(m.split(4, &[1]).unwrap().mesh, m);
}

#[test]
fn straps_at_a_shared_end() {
    let mut m = Mesh::new();
    for (x, y) in [(0.0, 0.0), (2.0, 0.0), (0.0, 2.0), (-2.0, 0.0)] {
        m.add_particle(x, y);
    }
    for far in [1, 2, 3] {
        m.add_edge(0, far, true);
    }
    assert_eq!(m.groups(0, &[0, 1, 0]), Ok(Groups { count: 2, of: vec![0, 1, 0] }));
}

#[test]
fn blade_and_root() {
    let along = |blade| blade_hit(blade, [0.0, 0.0], [8.0, 0.0]);
    let quarter = Hit { t: 0.25, at: [2.0, 0.0] };
    assert_eq!(along([2.0, -1.0, 2.0, 1.0]), Ok(Some(quarter)));
    assert_eq!(along([2.0, 0.0, 2.0, 1.0]), Ok(Some(quarter)));
    assert_eq!(along([3.0, 3.0, 3.0, 3.0]), Ok(None));
    assert_eq!(blade_hit([2.0, -1.0, 2.0, 1.0], [2.0, 0.0], [2.0, 5.0]), Ok(None));
    assert_eq!([0.0, 4.0, 0.25].map(root), [Ok(0.0), Ok(2.0), Ok(0.5)]);
}

/// The first f32 above x.
fn above(x: f32) -> f32 {
    f32::from_bits(x.to_bits() + 1)
}

#[test]
fn at_the_limit_and_one_past_it() {
    let mut many = Mesh::new();
    for _ in 0..1024 {
        many.add_particle(0.0, 0.0);
    }
    assert_eq!(many.pieces(), Ok(0));
    many.add_particle(0.0, 0.0);
    assert_eq!(many.pieces(), Err(Refusal::BadCount));

    let mut far = square();
    far.particles[1].position[0] = 1_048_576.0;
    assert!(far.pieces().is_ok());
    far.particles[1].position[0] = above(1_048_576.0);
    assert_eq!(far.pieces(), Err(Refusal::BadNumber));

    assert!(square().cut(DIAGONAL, Edition::First, 0.5).is_ok());
    assert_eq!(square().cut(DIAGONAL, Edition::First, above(0.5)), Err(Refusal::BadArgument));
}

/// Each example of the refusal table, by number.
#[test]
fn every_refusal_by_its_example() {
    let spoiled = |spoil: fn(&mut Mesh)| {
        let mut m = square();
        spoil(&mut m);
        m.pieces().unwrap_err()
    };
    assert_eq!(spoiled(|m| m.particles[0].position[1] = f32::NAN), Refusal::BadNumber);
    assert_eq!(spoiled(|m| m.edges[0].rest_length = -1.0), Refusal::BadNumber);
    assert_eq!(square().cut([f32::INFINITY, 0.0, 0.0, 1.0], Edition::First, 0.1), Err(Refusal::BadNumber));
    assert_eq!(spoiled(|m| m.edges.push(Edge { ends: [0, 9], ..Edge::default() })), Refusal::BadIndex);
    assert_eq!(spoiled(|m| m.triangles[1].corners = [1, 1, 2]), Refusal::BadIndex);
    assert_eq!(square().groups(4, &[]), Err(Refusal::BadArgument));
    assert_eq!(square().groups(0, &[0, 2]), Err(Refusal::BadArgument));
    assert_eq!(square().split(0, &[0]), Err(Refusal::BadArgument));
    assert_eq!(square().rest_measure_of(&[3, 3]), Err(Refusal::BadArgument));
    assert_eq!(square().rest_measure_of(&[99]), Err(Refusal::BadArgument));
    let all = Rooms::default();
    let cut = |rooms| square().cut_within(DIAGONAL, Edition::First, 0.1, rooms).map(|t| t.events.len());
    assert_eq!(cut(Rooms { triangles: 1, ..all }), Err(Refusal::BadArgument));
    assert_eq!(cut(Rooms { particles: 5, ..all }), Err(Refusal::NoParticleRoom));
    assert_eq!(cut(Rooms { edges: 2, ..all }), Err(Refusal::NoEdgeRoom));
    assert_eq!(cut(Rooms { boundary: 4, ..all }), Err(Refusal::NoBoundaryRoom));
    assert_eq!(cut(Rooms { log: 1, ..all }), Err(Refusal::NoLogRoom));
    // The marks of the four crossings come before a split that lacks a particle.
    assert_eq!(cut(Rooms { particles: 4, log: 3, ..all }), Err(Refusal::NoLogRoom));
    assert_eq!(cut(Rooms { particles: 4, log: 4, ..all }), Err(Refusal::NoParticleRoom));
    // Just enough.
    assert_eq!(cut(Rooms { particles: 6, triangles: 2, edges: 3, boundary: 6, log: 7 }), Ok(7));
}

#[test]
fn refusals_have_numbers_and_words() {
    for (k, why) in (1..).zip(Refusal::ALL) {
        assert_eq!((why.number(), Refusal::of(k)), (k, Some(why)));
        assert!(why.to_string().len() > 20 && why.advice().len() > 20);
    }
    assert_eq!(Refusal::of(99).map(Refusal::number), Some(99));
}

/// A grid of n by n squares, two triangles each, with springs.
fn grid(n: u32) -> Mesh {
    let mut m = Mesh::new();
    for y in 0..=n {
        for x in 0..=n {
            m.add_particle(x as f32, y as f32);
        }
    }
    let at = |x, y| y * (n + 1) + x;
    for y in 0..n {
        for x in 0..n {
            m.add_triangle(at(x, y), at(x + 1, y), at(x + 1, y + 1));
            m.add_triangle(at(x, y), at(x + 1, y + 1), at(x, y + 1));
            m.add_edge(at(x, y), at(x + 1, y), false);
            m.add_edge(at(x, y), at(x, y + 1), false);
        }
    }
    m
}

/// Through a run of calls the default rooms are never too small for the particles, and each triangle stays the triangle that it was.
#[test]
fn a_run_of_calls_with_the_default_rooms() {
    let first = grid(10);
    let bound = first.particles.len() + 3 * first.triangles.len() - first.particles.len();
    assert!(bound <= 1024);
    let mut m = first.clone();
    let mut tears = 0;
    for k in 0..24 {
        let slant = k as f32;
        let torn = match k % 4 {
            0 => m.cut([-1.0, slant * 0.4, 11.0, 10.3 - slant * 0.3], Edition::First, 0.1),
            1 => m.crack(&[k, 3 * k, 5 * k + 1], MINIMUM_PIECE),
            2 => m.split(k, &m.fan(k).unwrap().iter().map(|e| (e % 2) as u8).collect::<Vec<u8>>()),
            _ => m.straddlers(),
        }
        .unwrap();
        tears += torn.events.len();
        m = torn.mesh;
        // The host moves the points between the calls.
        for p in &mut m.particles {
            p.position[0] += 0.01 * p.position[1];
        }
        assert!(m.particles.len() <= bound);
        let roots = |t: &cutting_bench::Triangle| t.corners.map(|v| m.particles[v as usize].root);
        assert!(m.triangles.iter().zip(&first.triangles).all(|(now, then)| roots(now) == then.corners));
    }
    assert!(tears > 50, "{tears} entries");
    assert!(m.pieces().unwrap() > 2);
}

/// A thread of 1 MiB has stack enough for every call, on a large mesh.
#[test]
fn a_thread_of_one_mebibyte() {
    let calls = || {
        let m = grid(22);
        m.cut([-1.0, 3.3, 23.0, 17.1], Edition::First, 0.1).unwrap();
        m.crack(&[100, 101, 102], MINIMUM_PIECE).unwrap();
        m.straddlers().unwrap();
        m.split(30, &vec![0; m.fan(30).unwrap().len()]).unwrap();
        m.opens_without_confetti(30, &vec![0; m.fan(30).unwrap().len()], 3).unwrap();
        (m.pieces().unwrap(), m.rest_measure().unwrap())
    };
    let thread = std::thread::Builder::new().stack_size(1 << 20).spawn(calls).unwrap();
    assert_eq!(thread.join().unwrap(), (1, 484.0));
}

/// The pieces that are listed are as many as the bench counts, also where they meet in a corner only, and weigh what the mesh weighs.
#[test]
fn pieces_as_the_bench_counts_them() {
    let mut corner = Mesh::new();
    for (x, y) in [(0.0, 0.0), (2.0, 0.0), (2.0, 2.0), (4.0, 2.0), (4.0, 4.0)] {
        corner.add_particle(x, y);
    }
    corner.add_triangle(0, 1, 2);
    corner.add_triangle(2, 3, 4);
    let mut meshes = vec![Mesh::new(), square(), corner];
    for k in 0..6 {
        let slant = k as f32;
        meshes.push(grid(5).cut([-1.0, slant, 6.0, 5.0 - slant], Edition::First, 0.1).unwrap().mesh);
    }
    for m in meshes {
        // `list_pieces` holds its number to the bench's.
        let pieces = m.list_pieces().unwrap();
        let weight: f32 = pieces.iter().map(|p| p.mass).sum();
        let whole: f32 = m.particles.iter().map(|p| p.mass).sum();
        assert!((weight - whole).abs() < 1e-3, "{weight} of {whole}");
        let measure: f32 = pieces.iter().map(|p| p.measure).sum();
        assert!((measure - m.rest_measure().unwrap()).abs() < 1e-3);
    }
}
