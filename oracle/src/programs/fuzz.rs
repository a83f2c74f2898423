//! fuzz [big] FIRST COUNT: the random calls FIRST.. by the published Rust and by the second writing,
//! with a tally of what they met.
use crate::api::*;
use crate::vectors::*;
use crate::{meshgen, second as plain};
use std::collections::BTreeMap;
use std::panic::catch_unwind;

pub fn run(words: &[String]) -> i32 {
    let big = words.first().is_some_and(|w| w == "big");
    let mut args = words.iter().skip(big as usize).map(|s| s.parse::<u64>().expect("a number"));
    let first = args.next().unwrap_or(0);
    let count = args.next().unwrap_or(200_000);
    let mut tally: BTreeMap<&'static str, u64> = BTreeMap::new();
    let mut example: BTreeMap<&'static str, (usize, u64)> = BTreeMap::new();
    let mut slowest = (std::time::Duration::ZERO, 0);
    let mut bad = 0;
    for seed in first..first + count {
        let c = if big { meshgen::big_case(seed) } else { meshgen::case(seed) };
        let size = c.mesh.px.len() + c.mesh.ta.len() + c.mesh.ea.len() + c.mesh.ba.len();
        let mut hit = |name: &'static str| {
            *tally.entry(name).or_default() += 1;
            let e = example.entry(name).or_insert((size, seed));
            if size < e.0 {
                *e = (size, seed);
            }
        };
        let start = std::time::Instant::now();
        let a = match catch_unwind(|| oracle(&c)) {
            Ok(a) => a,
            Err(_) => {
                println!("PANIC in the oracle: case {seed}");
                bad += 1;
                continue;
            }
        };
        slowest = slowest.max((start.elapsed(), seed));
        let b = second(&c);
        if a != b {
            bad += 1;
            hit("SECOND WRITING DIFFERS");
            if bad < 5 {
                println!("SECOND WRITING DIFFERS: case {seed}");
            }
        }
        hit(match &c.call {
            Call::Cut { .. } => "call cut",
            Call::Crack { .. } => "call crack",
            Call::SplitFan { .. } => "call split_fan",
            Call::Straddlers => "call straddlers",
            Call::Groups { .. } => "call groups",
            Call::Opens { .. } => "call opens",
            Call::RestMeasure => "call rest_measure",
            Call::RestMeasureOf { .. } => "call rest_measure_of",
            Call::Pieces => "call pieces",
            Call::BladeHit { .. } => "call blade_hit",
        });
        match &a {
            Answer::Hit(Some([t, ..])) if *t == 0x8000_0000 => hit("hit with t = -0"),
            Answer::Hit(Some(_)) => hit("hit"),
            Answer::Hit(None) => hit("miss"),
            Answer::Flag(Some(true)) => hit("opens: yes"),
            Answer::Flag(Some(false)) => hit("opens: no"),
            Answer::Groups(_, n) if *n > 2 => hit("groups: 3 or more"),
            _ => {}
        }
        let Answer::Mesh(o) = &a else { continue };
        let k = kind(&c.mesh);
        hit(["on nothing", "on triangles", "on straps"][k as usize]);
        if o.changed {
            hit(["", "changed triangles", "changed straps"][k as usize]);
        } else if !matches!(c.call, Call::Straddlers) {
            if o.mesh != c.mesh {
                hit("NOT CHANGED, YET THE MESH DIFFERS");
            }
            if o.log.iter().any(|e| !matches!(e, Entry::Met { .. })) {
                hit("NOT CHANGED, YET A LOG ENTRY OTHER THAN A MARK");
            }
        }
        let splits = o.log.iter().filter(|e| matches!(e, Entry::Split { .. })).count();
        let inserts = o.log.iter().filter(|e| matches!(e, Entry::Insert { .. })).count();
        if o.mesh.px.len() != c.mesh.px.len() + splits + 2 * inserts {
            hit("PARTICLE COUNT");
        }
        for e in &o.log {
            match e {
                Entry::Split { .. } => hit("entry split"),
                Entry::Removed { a, b } => {
                    hit("entry removed");
                    if *a as usize >= c.mesh.px.len() || *b as usize >= c.mesh.px.len() {
                        hit("entry removed names a new particle");
                    }
                }
                Entry::Insert { t, .. } => {
                    hit("entry insert");
                    if t.to_bits() == 0x8000_0000 {
                        hit("entry insert with t = -0");
                    }
                }
                Entry::Opened { .. } => hit("entry opened"),
                Entry::Met { x, y, t, .. } => {
                    hit("entry met");
                    if [x, y, t].iter().any(|x| x.is_nan()) {
                        hit("A MARK THAT IS NO NUMBER");
                    }
                }
            }
        }
        for w in o.log.windows(2) {
            if matches!(w, [Entry::Removed { .. }, Entry::Split { .. }]) {
                hit("a split after a removed edge (order of happening)");
            }
        }
        if o.steps
            .iter()
            .zip(o.steps.iter().skip(1))
            .any(|(a, b)| b.kind == StepKind::Split && b.particles > a.particles + 1)
        {
            hit("a split into 3 or more");
        }
        if o.mesh.mass.iter().skip(c.mesh.px.len()).zip(o.mesh.inv.iter().skip(c.mesh.px.len())).any(|(_, i)| *i == 0.0)
        {
            hit("a new particle that is pinned");
        }
        let no = o.refusal(c.rooms);
        hit(["accepted", "", "", "", "", "refused 5", "refused 6", "refused 7", "refused 8"][no as usize]);
        let again = check_mesh(&o.mesh);
        if again != 0 {
            hit(match (k, again) {
                (1, _) => "TRIANGLE RESULT REFUSED AS INPUT",
                (2, 2) => "strap result gets 2",
                _ => "STRAP RESULT REFUSED OTHERWISE",
            });
        }
        let all = o.mesh.floats();
        if all.iter().any(|c| c.iter().any(|x| x.is_nan())) {
            hit("RESULT WITH NaN");
        }
        if all.iter().any(|c| c.iter().any(|x| x.is_infinite())) {
            hit("RESULT WITH INFINITY");
        }
        if o.mesh.mass.iter().any(|x| x.abs() > MAX_NUMBER) {
            hit("result with a mass out of range");
        }
        if let Call::Cut { blade, fraction } = c.call {
            let w = cut_whole(&c.mesh, blade, fraction);
            if w != plain::cut_whole(&c.mesh, blade, fraction) {
                hit("SECOND WRITING DIFFERS (cut_topology)");
                bad += 1;
            }
            if w.mesh.ea.len() != o.mesh.ea.len() {
                hit(["", "cut_topology: further edges go, triangles", "cut_topology: further edges go, straps"]
                    [k as usize]);
            }
            if w.mesh.ba.len() != o.mesh.ba.len() {
                hit(["", "cut_topology: boundary entries go, triangles", "cut_topology: boundary entries go, straps"]
                    [k as usize]);
            }
            if w.mesh.damaged != o.mesh.damaged {
                hit("cut_topology: damaged flags differ");
            }
        }
    }
    for (k, v) in &tally {
        println!("{v:8}  {k}   (smallest: case {})", example[k].1);
    }
    println!("slowest oracle call {:?} (case {})", slowest.0, slowest.1);
    println!("{count} calls, {bad} bad");
    (bad > 0) as i32
}
