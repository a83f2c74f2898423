//! compare [--self] [--only reading|tearing|hosting|NAME] SEED RANDOM LARGE LIMIT DAMAGED: each C function, on
//! so many inputs of each kind, against the checks of docs/RULES.md, R3, and the published Rust. One that the archive lacks is a failure.
//! faults [SEED [NAME]]: plants each fault in the second writing; every one must be found.
use crate::entries::{ENTRIES, Entry, GROUPS, Group, Input, Table, archive, call, layout};
use crate::expect::{Expected, expected, fault};
use crate::faults::{self, Fault, plant};
use crate::inputs::{KINDS, Kind, input};
use crate::shrink::shrink;
use crate::vectors::write_input;
use crate::wrapped::table;
use std::collections::HashSet;
use std::hash::{DefaultHasher, Hash, Hasher};
use std::io::Write;

/// The number of the layout of images, logs, fields and results that this program speaks.
const LAYOUT: u32 = 4;

/// What is wrong with the answer to an input, if anything.
fn wrong(t: &Table, i: &Input) -> Option<String> {
    let c = i.raw();
    fault(&expected(&c), &call(t, &c)?)
}
/// What was expected: how often each number from 0 to 12, the different accepted answers, and how
/// many of the accepted ones split or inserted something.
#[derive(Default)]
struct Tally {
    numbers: [u64; 13],
    answers: HashSet<u64>,
    changed: u64,
}
impl Tally {
    fn note(&mut self, e: Entry, want: &Expected) {
        match want {
            Expected::Words(w, log) => {
                let mut h = DefaultHasher::new();
                (w, log).hash(&mut h);
                self.answers.insert(h.finish());
                self.numbers[0] += 1;
                self.changed += (e.tears() && w[0] == 1) as u64;
            }
            Expected::Refused(n) => self.numbers[*n as usize] += 1,
        }
    }
}
/// `refused 1: 7, 2: 3, ..`, of the numbers that the entry can answer.
fn refusals(e: Entry, numbers: &[u64; 13]) -> String {
    let can: &[usize] = match e {
        Entry::Sheet => &[1, 3, 4, 9],
        Entry::SheetWrite => &[1, 2, 3, 9],
        Entry::ListCut => &[4],
        Entry::Cut => &[1, 2, 3, 4, 11, 12, 5, 6, 7, 8],
        _ if e.tears() => &[1, 2, 3, 4, 5, 6, 7, 8],
        _ => &[1, 2, 3, 4],
    };
    let all: Vec<String> = can.iter().map(|&n| format!("{n}: {}", numbers[n])).collect();
    format!("refused {}", all.join(", "))
}
/// The first input of a kind that fails, and the tally up to it.
fn search(t: &Table, e: Entry, k: Kind, seed: u64, count: u64) -> (Option<(u64, Input)>, Tally) {
    let mut tally = Tally::default();
    for s in seed..seed + count {
        let i = input(e, k, s);
        let c = i.raw();
        let want = expected(&c);
        tally.note(e, &want);
        let got = call(t, &c).expect("an entry that is there");
        if fault(&want, &got).is_some() {
            return (Some((s, i)), tally);
        }
    }
    (None, tally)
}
/// The smallest input found, as text.
fn report(t: &Table, e: Entry, k: Kind, seed: u64, i: Input) -> String {
    let small = shrink(i, &|i| wrong(t, i).is_some());
    let why = wrong(t, &small).unwrap_or_default();
    let mut text = format!("{} fails on {k:?} input, seed {seed}: {why}\n", e.name());
    write_input(&mut text, seed, &small, &expected(&small.raw()));
    text
}

fn numbers(words: &[String]) -> Vec<u64> {
    words.iter().map(|w| w.parse().expect("a number")).collect()
}

/// Whether the word names the entry: by its name, or by what it gives.
fn named(e: Entry, word: &str) -> bool {
    match word {
        _ if GROUPS.iter().any(|g| g.name() == word) => e.group().name() == word,
        _ => e.name().strip_prefix("bench_") == word.strip_prefix("bench_").or(Some(word)),
    }
}

pub fn run(words: &[String]) -> i32 {
    let own = words.first().is_some_and(|w| w == "--self");
    let mut rest = &words[own as usize..];
    let mut only = None;
    if let [flag, which, tail @ ..] = rest
        && flag == "--only"
    {
        (only, rest) = (Some(which.as_str()), tail);
    }
    let entries: Vec<Entry> = ENTRIES.into_iter().filter(|e| only.is_none_or(|o| named(*e, o))).collect();
    let n = numbers(rest);
    let [seed, counts @ ..] = n.as_slice() else { return 2 };
    if counts.len() != 4 || entries.is_empty() {
        eprintln!("compare [--self] [--only reading|tearing|hosting|NAME] SEED RANDOM LARGE LIMIT DAMAGED");
        return 2;
    }
    plant(Fault::Nothing);
    let t = if own { table() } else { archive() };
    let (mut failures, mut totals) = (0, vec![]);
    println!("{}, cases from {seed} on", if own { "the second writing behind the C functions" } else { "the archive" });
    for &e in &entries {
        if !t.has(e) {
            println!("  {:29} not in the archive", e.name());
            continue;
        }
        let mut total = [0; 13];
        for (k, &count) in KINDS.into_iter().zip(counts) {
            // Said first, so that a call that does not come back is known.
            print!("  {:29} {:8}", e.name(), format!("{k:?}").to_lowercase());
            let _ = std::io::stdout().flush();
            let (failed, tally) = search(&t, e, k, *seed, count);
            let (all, answers) = (tally.numbers.iter().sum::<u64>(), tally.answers.len());
            print!("{all:7} inputs: {} accepted ({answers} different answers", tally.numbers[0]);
            if e.tears() {
                print!(", {} with a split or insertion", tally.changed);
            }
            println!("), {}", refusals(e, &tally.numbers));
            (0..13).for_each(|n| total[n] += tally.numbers[n]);
            if let Some((s, i)) = failed {
                failures += 1;
                print!("{}", report(&t, e, k, s, i));
            }
        }
        totals.push((e, total));
    }
    println!("all kinds together:");
    for (e, n) in &totals {
        println!("  {:29} {} accepted, {}", e.name(), n[0], refusals(*e, n));
    }
    if !own {
        let n = layout();
        println!("  bench_layout                  {n:?}, expected {LAYOUT}");
        failures += (n != Some(LAYOUT)) as usize;
    }
    let there = entries.iter().filter(|&&e| t.has(e)).count();
    failures += t.lacking(&entries);
    println!("{there} functions compared, {} not there; {failures} failures", entries.len() - there);
    (failures > 0) as i32
}

/// Inputs tried of each kind until a planted fault shows: a few of all entries first.
const TRIES: [u64; 2] = [300, 6_000];

/// The entries that a planted fault is looked for in.
fn places(group: Group) -> impl Iterator<Item = Entry> {
    ENTRIES.into_iter().filter(move |e| e.group() == group)
}
pub fn faults(words: &[String]) -> i32 {
    // faults [SEED [NAME]]
    let seed = numbers(&words[..words.len().min(1)]).first().copied().unwrap_or(1);
    let mut missed = 0;
    let all: Vec<(Fault, Group)> =
        GROUPS.into_iter().flat_map(|group| faults::faults(group).into_iter().map(move |f| (f, group))).collect();
    for &(f, group) in all.iter().filter(|(f, _)| words.get(1).is_none_or(|w| *w == format!("{f:?}"))) {
        plant(f);
        let t = table();
        let found = TRIES.into_iter().find_map(|tries| {
            [Kind::Random, Kind::Damaged, Kind::Limit].into_iter().find_map(|k| {
                places(group).find_map(|e| search(&t, e, k, seed, tries).0.map(|(s, i)| report(&t, e, k, s, i)))
            })
        });
        match found {
            Some(text) => print!("planted {f:?}: {text}"),
            None => {
                missed += 1;
                println!("planted {f:?}: NOT FOUND");
            }
        }
    }
    plant(Fault::Nothing);
    println!("{} planted, {missed} not found", all.len());
    (missed > 0) as i32
}
