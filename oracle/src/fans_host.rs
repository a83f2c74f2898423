//! The fan of a particle read from the table of links, beside the scan, and the tables of triangles, edges and boundary entries through runs of splits beside those that are built anew.
//!   fans COUNT SEED      COUNT random meshes, each split some twelve times; a difference ends with 1
//!   fans faults SEED     wrong tables are put in the place of the right one; each must be found
//!   fans time            one fan by the table and by the scan, on grids of 8, 16 and 22 squares a side
use std::time::Instant;

unsafe extern "C" {
    fn fans_build(
        t: usize, e: usize, b: usize, corners: *const usize, corners_len: usize, ends: *const usize, ends_len: usize,
        outline: *const usize, outline_len: usize, links: *mut u16, links_len: usize,
    );
    fn fans_walk(
        v: usize, t: usize, e: usize, corners: *const usize, corners_len: usize, volumes: *const f32, volumes_len: usize, ends: *const usize, ends_len: usize,
        lengths: *const f32, lengths_len: usize, links: *const u16, links_len: usize,
        numbers: *mut usize, numbers_len: usize, verts: *mut usize, verts_len: usize, measures: *mut f32, measures_len: usize,
    ) -> usize;
    fn fans_scan(
        v: usize, t: usize, corners: *const usize, corners_len: usize, volumes: *const f32, volumes_len: usize,
        numbers: *mut usize, numbers_len: usize, verts: *mut usize, verts_len: usize, measures: *mut f32, measures_len: usize,
    ) -> usize;
    fn fans_part(
        v: usize, n: usize, numbers: *const usize, numbers_len: usize, verts: *const usize, verts_len: usize, measures: *const f32, measures_len: usize,
        sides: *const usize, sides_len: usize, groups: *mut usize, groups_len: usize,
        particles: usize, triangles: usize, edges: usize, boundary: usize, entries: usize, points: *mut f32, points_len: usize, roots: *mut usize, roots_len: usize,
        corners: *mut usize, corners_len: usize, volumes: *const f32, volumes_len: usize, ends: *mut usize, ends_len: usize,
        lengths: *mut f32, lengths_len: usize, outline: *mut usize, outline_len: usize, log: *mut u32, log_len: usize,
        list: *mut usize, list_len: usize, links: *mut u16, links_len: usize, counts: *mut usize, counts_len: usize,
    ) -> usize;
    fn fans_close(
        left: usize, list: *const usize, list_len: usize, ends: *mut usize, ends_len: usize, lengths: *mut f32, lengths_len: usize, table: *mut u16, table_len: usize,
    );
}

/// Numbers by a shift register: the same for the same seed.
struct Rng(u64);
impl Rng {
    fn below(&mut self, n: usize) -> usize {
        self.0 ^= self.0 << 13;
        self.0 ^= self.0 >> 7;
        self.0 ^= self.0 << 17;
        (self.0 >> 11) as usize % n
    }
}

const HEADS: usize = 1024;
/// The table of the triangles, and where that of the edges starts; where that of the boundary starts; and all.
const TRIANGLES: usize = 4096;
const BOUNDARY: usize = TRIANGLES + 1024 + 2 * 2048;
const PLACES: usize = BOUNDARY + 1024 + 2 * 2048;

/// The blocks of a mesh of triangles with edges that are no elements. The columns of the corners may be longer than 1,024.
struct Blocks {
    counts: [usize; 5],
    points: Vec<f32>,
    roots: Vec<usize>,
    corners: Vec<usize>,
    volumes: Vec<f32>,
    ends: Vec<usize>,
    lengths: Vec<f32>,
    outline: Vec<usize>,
    log: Vec<u32>,
}
impl Blocks {
    fn new(particles: usize, rows: &[[usize; 3]], edges: &[[usize; 2]], sides: &[[usize; 2]], size: usize) -> Blocks {
        let mut b = Blocks {
            counts: [particles, rows.len(), edges.len(), sides.len(), 0],
            points: vec![0.0; 8 * 1024],
            roots: vec![0; 2 * 1024],
            corners: vec![0; 3 * size],
            volumes: vec![0.0; 2 * size],
            ends: vec![0; 4 * 2048],
            lengths: vec![0.0; 4 * 2048],
            outline: vec![0; 2 * 2048],
            log: vec![0; 6 * 4096],
        };
        for v in 0..particles {
            b.points[v] = (v % 37) as f32;
            b.points[1024 + v] = (v / 37) as f32;
            b.points[2 * 1024 + v] = (v % 37) as f32;
            b.points[3 * 1024 + v] = (v / 37) as f32;
            b.points[4 * 1024 + v] = 1.0;
            b.points[5 * 1024 + v] = 1.0;
            b.points[6 * 1024 + v] = 2.0 - (v % 5) as f32;
            b.points[7 * 1024 + v] = (v % 3) as f32;
            b.roots[v] = v;
        }
        for (i, r) in rows.iter().enumerate() {
            for c in 0..3 {
                b.corners[c * size + i] = r[c];
            }
            b.volumes[i] = 0.5 + (i % 5) as f32;
        }
        for (i, r) in edges.iter().enumerate() {
            b.ends[i] = r[0];
            b.ends[2048 + i] = r[1];
            b.ends[2 * 2048 + i] = i % 2;
            b.lengths[i] = 1.0 + (i % 7) as f32;
            b.lengths[2048 + i] = 1.0;
        }
        for (i, s) in sides.iter().enumerate() {
            b.outline[i] = s[0];
            b.outline[2048 + i] = s[1];
        }
        b
    }
    fn built(&self) -> Vec<u16> {
        let mut links = vec![0; PLACES];
        // SAFETY: runs apart from each other, each with its own length.
        unsafe {
            fans_build(
                self.counts[1], self.counts[2], self.counts[3], self.corners.as_ptr(), self.corners.len(), self.ends.as_ptr(), self.ends.len(),
                self.outline.as_ptr(), self.outline.len(), links.as_mut_ptr(), links.len(),
            )
        };
        links
    }
    /// Numbers, corners and measures of the fan of v.
    fn read(&self, v: usize, links: Option<&[u16]>) -> (Vec<usize>, Vec<usize>, Vec<f32>) {
        let (mut numbers, mut verts, mut measures) = (vec![0; 2048], vec![0; 4096], vec![0.0; 2048]);
        let t = self.counts[1];
        // SAFETY: runs apart from each other, each with its own length.
        let n = unsafe {
            match links {
                Some(l) => fans_walk(
                    v, t, self.counts[2], self.corners.as_ptr(), self.corners.len(), self.volumes.as_ptr(), self.volumes.len(),
                    self.ends.as_ptr(), self.ends.len(), self.lengths.as_ptr(), self.lengths.len(), l.as_ptr(), l.len(),
                    numbers.as_mut_ptr(), numbers.len(), verts.as_mut_ptr(), verts.len(), measures.as_mut_ptr(), measures.len(),
                ),
                None => fans_scan(
                    v, t, self.corners.as_ptr(), self.corners.len(), self.volumes.as_ptr(), self.volumes.len(),
                    numbers.as_mut_ptr(), numbers.len(), verts.as_mut_ptr(), verts.len(), measures.as_mut_ptr(), measures.len(),
                ),
            }
        };
        numbers.truncate(n);
        verts.truncate(3 * n);
        measures.truncate(n);
        (numbers, verts, measures)
    }
    /// Splits v by sides, with the table beside the blocks: the fan is read from the table, parted, and the straddlers go. The number of the room that lacks, or 0.
    fn split(&mut self, v: usize, sides: &[usize], links: &mut [u16]) -> usize {
        let (mut numbers, mut verts, mut measures) = (vec![0; 2048], vec![0; 4096], vec![0.0; 2048]);
        let (mut groups, mut list, k) = (vec![0; 2048], vec![0; 2048 + 1], self.counts);
        // SAFETY: runs apart from each other, each with its own length.
        unsafe {
            let n = fans_walk(
                v, k[1], k[2], self.corners.as_ptr(), self.corners.len(), self.volumes.as_ptr(), self.volumes.len(), self.ends.as_ptr(), self.ends.len(),
                self.lengths.as_ptr(), self.lengths.len(), links.as_ptr(), links.len(),
                numbers.as_mut_ptr(), numbers.len(), verts.as_mut_ptr(), verts.len(), measures.as_mut_ptr(), measures.len(),
            );
            let lacking = fans_part(
                v, n, numbers.as_ptr(), numbers.len(), verts.as_ptr(), verts.len(), measures.as_ptr(), measures.len(), sides.as_ptr(), sides.len(),
                groups.as_mut_ptr(), groups.len(), k[0], k[1], k[2], k[3], k[4], self.points.as_mut_ptr(), self.points.len(), self.roots.as_mut_ptr(), self.roots.len(),
                self.corners.as_mut_ptr(), self.corners.len(), self.volumes.as_ptr(), self.volumes.len(), self.ends.as_mut_ptr(), self.ends.len(),
                self.lengths.as_mut_ptr(), self.lengths.len(), self.outline.as_mut_ptr(), self.outline.len(), self.log.as_mut_ptr(), self.log.len(),
                list.as_mut_ptr(), list.len(), links.as_mut_ptr(), links.len(), self.counts.as_mut_ptr(), 5,
            );
            if lacking == 0 {
                let table = &mut links[TRIANGLES..BOUNDARY];
                fans_close(
                    self.counts[2], list.as_ptr(), list.len(), self.ends.as_mut_ptr(), self.ends.len(), self.lengths.as_mut_ptr(), self.lengths.len(),
                    table.as_mut_ptr(), table.len(),
                );
            }
            lacking
        }
    }
}

/// A grid of n by n squares, each cut into two triangles.
fn grid(n: usize) -> (usize, Vec<[usize; 3]>) {
    let at = |x: usize, y: usize| y * (n + 1) + x;
    let squares = (0..n).flat_map(|y| (0..n).map(move |x| (x, y)));
    let rows = squares.flat_map(|(x, y)| [[at(x, y), at(x + 1, y), at(x + 1, y + 1)], [at(x, y), at(x + 1, y + 1), at(x, y + 1)]]);
    ((n + 1) * (n + 1), rows.collect())
}
/// A grid or a heap of triangles, its rows in any order and turned.
fn mesh(r: &mut Rng) -> Blocks {
    let (particles, mut rows) = if r.below(2) == 0 {
        grid(1 + r.below(7))
    } else {
        let p = 3 + r.below(30);
        let one = |r: &mut Rng| {
            let a = r.below(p);
            let b = (a + 1 + r.below(p - 1)) % p;
            let c = (0..p).map(|k| (b + k) % p).find(|c| *c != a && *c != b).unwrap();
            [a, b, c]
        };
        (p, (0..r.below(60)).map(|_| one(r)).collect())
    };
    for i in (1..rows.len()).rev() {
        rows.swap(i, r.below(i + 1));
        rows[i].rotate_left(r.below(3));
    }
    let size = if r.below(4) == 0 { 1024 + r.below(40) } else { 1024 };
    // Sides of triangles, the far corners of two that share one, and any pairs, some of them twice.
    let near = |r: &mut Rng| {
        let t = rows[r.below(rows.len())];
        let s = rows[r.below(rows.len())];
        let a = t[r.below(3)];
        let b = if r.below(3) == 0 { s[r.below(3)] } else { t[r.below(3)] };
        [a, b]
    };
    let any = |r: &mut Rng| [r.below(particles), r.below(particles)];
    let count = r.below(3 * particles);
    let edges: Vec<[usize; 2]> = (0..count)
        .map(|_| if rows.is_empty() || r.below(4) == 0 { any(r) } else { near(r) })
        .filter(|e| e[0] != e[1])
        .collect();
    let sides: Vec<[usize; 2]> = (0..r.below(2 * particles))
        .map(|_| if rows.is_empty() || r.below(4) == 0 { any(r) } else { near(r) })
        .filter(|e| e[0] != e[1])
        .collect();
    Blocks::new(particles, &rows, &edges, &sides, size)
}

/// How many fans of the blocks are read otherwise from the table than by the scan.
fn other_fans(b: &Blocks, links: &[u16]) -> usize {
    (0..b.counts[0]).filter(|v| b.read(*v, Some(links)) != b.read(*v, None)).count()
}

fn compare(count: usize, seed: u64) -> i32 {
    let mut r = Rng(seed * 2 + 1);
    let (mut splits, mut fans, mut copies, mut wide, mut more, mut gone, mut facets) = (0, 0, 0, 0, 0, 0, 0);
    for case in 0..count {
        let mut b = mesh(&mut r);
        let mut links = b.built();
        wide += usize::from(b.corners.len() > 3 * 1024);
        for step in 0..12 {
            let other = other_fans(&b, &links);
            fans += b.counts[0];
            let fresh = b.built();
            if other != 0 || links != fresh {
                let told = |same: bool| if same { "that of a fresh build" } else { "another" };
                println!(
                    "case {case}, step {step}: {other} fans are read otherwise, the triangles' table is {}, the edges' {}, the boundary's {}",
                    told(links[..TRIANGLES] == fresh[..TRIANGLES]),
                    told(links[TRIANGLES..BOUNDARY] == fresh[TRIANGLES..BOUNDARY]),
                    told(links[BOUNDARY..] == fresh[BOUNDARY..])
                );
                return 1;
            }
            let v = r.below(b.counts[0]);
            let sides: Vec<usize> = (0..2048).map(|_| r.below(2)).collect();
            let before = b.counts;
            if b.split(v, &sides, &mut links) != 0 {
                break;
            }
            splits += usize::from(b.counts[0] > before[0]);
            copies += b.counts[0] - before[0];
            more += b.counts[2].saturating_sub(before[2]);
            facets += b.counts[3] - before[3];
            // A removed edge is an entry of kind 2.
            gone += (before[4]..b.counts[4]).filter(|i| b.log[6 * i] == 2).count();
        }
    }
    println!(
        "{count} meshes ({wide} with longer columns), {splits} splits with {copies} copies; edges grew by {more}, {gone} went, {facets} crack facets: {fans} fans as the scan reads them, every table that of a fresh build"
    );
    i32::from(count > 0 && (splits == 0 || copies <= splits || more == 0 || gone == 0 || facets == 0))
}

/// Wrong tables: each must give another fan somewhere, or not be the one of a fresh build.
fn faults(seed: u64) -> i32 {
    let names = [
        "the copy's list not threaded",
        "the head of v left",
        "a list that falls",
        "one triangle left out",
        "the table of the mesh before",
        "the edges at a copy not listed",
        "the edges at v left",
        "the edges' table of the mesh before",
        "the last edge left out",
        "the boundary entries at v left",
        "the boundary's table of the mesh before",
    ];
    let mut status = 0;
    for (f, name) in names.iter().enumerate() {
        let mut r = Rng(seed * 2 + 1);
        let found = (0..400).any(|_| {
            let mut b = mesh(&mut r);
            let mut links = b.built();
            let before = (links.clone(), b.counts[0]);
            let v = r.below(b.counts[0]);
            let sides: Vec<usize> = (0..2048).map(|_| r.below(2)).collect();
            if b.split(v, &sides, &mut links) != 0 || b.counts[0] == before.1 {
                return false;
            }
            match f {
                0 => links[before.1] = 0,
                1 => links[v] = before.0[v],
                2 => {
                    // The second triangle at v first, and the first behind it.
                    let first = links[v] as usize;
                    let link = |i: usize, l: &[u16]| (0..3).find(|c| b.corners[c * b.corners.len() / 3 + i] == v).map(|c| (HEADS + c * 1024 + i, l[HEADS + c * 1024 + i] as usize));
                    let Some((at, second)) = first.checked_sub(1).and_then(|i| link(i, &links)) else { return false };
                    let Some((next, third)) = second.checked_sub(1).and_then(|i| link(i, &links)) else { return false };
                    links[v] = second as u16;
                    links[next] = first as u16;
                    links[at] = third as u16;
                }
                3 => {
                    b.counts[1] -= 1;
                    links = b.built();
                    b.counts[1] += 1;
                }
                4 => links = before.0,
                5 => links[TRIANGLES + before.1] = 0,
                6 => links[TRIANGLES + v] = before.0[TRIANGLES + v],
                7 => links[TRIANGLES..BOUNDARY].copy_from_slice(&before.0[TRIANGLES..BOUNDARY]),
                9 => links[BOUNDARY + v] = before.0[BOUNDARY + v],
                10 => links[BOUNDARY..].copy_from_slice(&before.0[BOUNDARY..]),
                _ => {
                    let Some(fewer) = b.counts[2].checked_sub(1) else { return false };
                    b.counts[2] = fewer;
                    links = b.built();
                    b.counts[2] += 1;
                }
            }
            // Fans are read from the triangles' table alone.
            (f > 4 || other_fans(&b, &links) != 0) && links != b.built()
        });
        println!("{name}: {}", if found { "found" } else { "NOT FOUND" });
        status |= i32::from(!found);
    }
    status
}

/// Nanoseconds of one call of f, over all particles, the best of nine rounds.
fn nanoseconds(particles: usize, mut f: impl FnMut(usize)) -> f64 {
    let rounds = 2_000_000 / (particles * 40) + 1;
    (0..9)
        .map(|_| {
            let start = Instant::now();
            (0..rounds).for_each(|_| (0..particles).for_each(&mut f));
            start.elapsed().as_nanos() as f64 / (rounds * particles) as f64
        })
        .fold(f64::INFINITY, f64::min)
}
fn time() -> i32 {
    println!("one fan, ns        by the table   by the scan   table / scan   the table built, us");
    for n in [8, 16, 22] {
        let (particles, rows) = grid(n);
        let b = Blocks::new(particles, &rows, &[], &[], 1024);
        let links = b.built();
        let (mut numbers, mut verts, mut measures) = (vec![0; 2048], vec![0; 4096], vec![0.0; 2048]);
        let mut held = 0;
        // SAFETY (both): runs apart from each other, each with its own length.
        let walk = nanoseconds(particles, |v| {
            held += unsafe {
                fans_walk(
                    v, rows.len(), 0, b.corners.as_ptr(), b.corners.len(), b.volumes.as_ptr(), b.volumes.len(), b.ends.as_ptr(), b.ends.len(),
                    b.lengths.as_ptr(), b.lengths.len(), links.as_ptr(), links.len(),
                    numbers.as_mut_ptr(), 2048, verts.as_mut_ptr(), 4096, measures.as_mut_ptr(), 2048,
                )
            }
        });
        let scan = nanoseconds(particles, |v| {
            held += unsafe {
                fans_scan(
                    v, rows.len(), b.corners.as_ptr(), b.corners.len(), b.volumes.as_ptr(), b.volumes.len(),
                    numbers.as_mut_ptr(), 2048, verts.as_mut_ptr(), 4096, measures.as_mut_ptr(), 2048,
                )
            }
        });
        let build = nanoseconds(1, |_| held += b.built()[0] as usize) / 1000.0;
        assert!(held > 0);
        println!("grid of {n:2} by {n:2}     {walk:12.1}  {scan:12.1}  {:13.3}  {build:20.1}", walk / scan);
    }
    0
}

fn main() {
    let words: Vec<String> = std::env::args().skip(1).collect();
    let number = |i: usize, otherwise: u64| words.get(i).map_or(otherwise, |w| w.parse().expect("a number"));
    std::process::exit(match words.first().map(String::as_str) {
        Some("time") => time(),
        Some("faults") => faults(number(1, 1)),
        _ => compare(number(0, 1000) as usize, number(1, 1)),
    });
}
