//! stack [FIRST [COUNT]]: the deepest stack that each C function took on COUNT inputs of each kind, in bytes, with the few
//! that this program's own call takes. Each must stay below 512 KiB.
use crate::entries::{ENTRIES, Entry, FILL, Raw, Table, archive, invoke};
use crate::inputs::{KINDS, input};
use std::hint::black_box;

const LIMIT: usize = 512 << 10;
/// How far down the stack is painted before a call, and how near to the frame that paints it.
const REACH: usize = 2 << 20;
const NEAR: usize = 4096;
const PAINT: u64 = 0x5ca1_ab1e_0dd5_eed5;

/// How far down a call wrote. A place that it took and never wrote to is not seen, so the lowest may be missed by a little.
#[inline(never)]
fn depth(t: &Table, c: &Raw, out: &mut [u8], log: &mut [u8]) -> Option<usize> {
    let mark = 0u64;
    let here = black_box(&raw const mark) as usize;
    let places = |from: usize, to: usize| (here - from..here - to).step_by(8);
    for a in places(REACH, NEAR).rev() {
        // SAFETY: the stack goes down farther than this, and nothing but what is called from here has a place there.
        unsafe { (a as *mut u64).write_volatile(PAINT) }
    }
    black_box(invoke(t, c, out, log)?);
    // SAFETY: as above; every place was written before.
    places(REACH, NEAR).find(|&a| unsafe { (a as *const u64).read_volatile() } != PAINT).map(|a| here - a).or(Some(NEAR))
}
/// The deepest of an entry's calls.
fn deepest(t: &Table, e: Entry, first: u64, count: u64) -> Option<usize> {
    let mut most = 0;
    for k in KINDS {
        for s in first..first + count {
            let c = input(e, k, s).raw();
            most = most.max(depth(t, &c, &mut vec![FILL; c.out], &mut vec![FILL; c.log])?);
        }
    }
    Some(most)
}

pub fn run(words: &[String]) -> i32 {
    let n: Vec<u64> = words.iter().map(|w| w.parse().expect("a number")).collect();
    let (first, count) = (n.first().copied().unwrap_or(1), n.get(1).copied().unwrap_or(300));
    let t = archive();
    let (mut there, mut over) = (0, 0);
    for e in ENTRIES {
        let Some(most) = deepest(&t, e, first, count) else { continue };
        println!("  {:29} {most:7} bytes of stack", e.name());
        there += 1;
        if most >= LIMIT {
            over += 1;
        }
    }
    let lacking = t.lacking(&ENTRIES);
    println!("{there} functions, {over} of them not below {LIMIT} bytes of stack, {lacking} not there");
    (lacking > 0 || over > 0) as i32
}
