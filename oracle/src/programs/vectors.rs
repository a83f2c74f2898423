//! vectors write|bad|big FIRST COUNT > file: random calls with the Rust's answers; pick SEED.. > file;
//! show SEED: one case, readable; replay FILE: the Rust against a file; second FILE: the second writing.
use crate::meshgen;
use crate::vectors::*;

pub fn run(a: &[String]) -> i32 {
    if a.len() < 2 {
        eprintln!("vectors write|bad|big FIRST COUNT, pick SEED.., show SEED, replay FILE, second FILE");
        return 2;
    }
    match a[0].as_str() {
        "write" | "bad" | "big" => {
            let (first, count): (u64, u64) = (a[1].parse().unwrap(), a[2].parse().unwrap());
            let mut out = String::from("tearvec 2\n");
            for seed in first..first + count {
                let c = match a[0].as_str() {
                    "write" => meshgen::case(seed),
                    "bad" => meshgen::bad_case(seed),
                    _ => meshgen::big_case(seed),
                };
                write_case(&mut out, &c, &oracle(&c));
            }
            print!("{out}");
        }
        "pick" => {
            let mut out = String::from("tearvec 2\n");
            for s in &a[1..] {
                let c = meshgen::case(s.parse().unwrap());
                write_case(&mut out, &c, &oracle(&c));
            }
            print!("{out}");
        }
        "replay" | "second" => {
            let text = std::fs::read_to_string(&a[1]).unwrap();
            let mut lines = text.lines();
            assert_eq!(lines.next(), Some("tearvec 2"));
            let (mut n, mut bad) = (0, 0);
            while let Some((c, want)) = read_case(&mut lines) {
                let got = if a[0] == "replay" { oracle(&c) } else { second(&c) };
                let mut s = String::new();
                write_case(&mut s, &c, &got);
                n += 1;
                if !s.ends_with(&want) {
                    bad += 1;
                    println!("case {} differs", c.seed);
                }
            }
            println!("{n} cases, {bad} differ");
            return (bad > 0) as i32;
        }
        _ => {
            let c = meshgen::case(a[1].parse().unwrap());
            println!("{:#?}", c.call);
            let mut s = String::new();
            write_case(&mut s, &c, &oracle(&c));
            // floats in decimal
            for l in s.lines() {
                let w: Vec<String> = l
                    .split(' ')
                    .map(|w| {
                        if w.len() == 8 && u32::from_str_radix(w, 16).is_ok() {
                            format!("{:?}", f32::from_bits(u32::from_str_radix(w, 16).unwrap()))
                        } else {
                            w.into()
                        }
                    })
                    .collect();
                println!("{}", w.join(" "));
            }
        }
    }
    0
}
