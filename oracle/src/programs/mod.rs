//! The programs; the first word names one.
mod bench;
mod cases;
mod check;
mod compare;
mod cutlist;
mod editions;
mod feeding;
mod fuzz;
mod hanging;
mod histories;
mod replay;
pub mod sheets;
mod stack;
mod vectors;

use crate::entries;

/// Runs the program and gives its exit code.
pub fn start(words: &[String]) -> i32 {
    if words.iter().any(|w| w == "--partial") {
        entries::set_partial();
        let others: Vec<String> = words.iter().filter(|w| *w != "--partial").cloned().collect();
        return start(&others);
    }
    let Some((name, rest)) = words.split_first() else {
        eprintln!("oracle cases | check | fuzz | compare | faults | hanging | histories | replay | bench | vectors | cutlist");
        eprintln!("  | editions | feeding | sheets | stack (see oracle/README.md)");
        return 2;
    };
    match name.as_str() {
        "cases" => cases::run(rest),
        "check" => check::run(),
        "fuzz" => fuzz::run(rest),
        "compare" => compare::run(rest),
        "faults" => compare::faults(rest),
        "hanging" => hanging::run(rest),
        "histories" => histories::run(rest),
        "replay" => replay::run(rest),
        "bench" => bench::run(rest),
        "vectors" => vectors::run(rest),
        "cutlist" => cutlist::run(rest),
        "editions" => editions::run(rest),
        "feeding" => feeding::run(rest),
        "sheets" => sheets::run(rest),
        "stack" => stack::run(rest),
        _ => {
            eprintln!("oracle: no program {name}");
            2
        }
    }
}
