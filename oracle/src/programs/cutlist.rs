//! cutlist [whole] < sheet: the program of R14, by the published Rust; `whole` uses the crate's
//! `cut_topology` in the place of the cut entry.
use crate::sheet;
use std::io::Read;

pub fn run(words: &[String]) -> i32 {
    let mut bytes = vec![];
    std::io::stdin().read_to_end(&mut bytes).expect("standard input");
    print!("{}", sheet::cutlist(&bytes, words.first().is_some_and(|w| w == "whole")));
    0
}
