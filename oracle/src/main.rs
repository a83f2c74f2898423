//! The oracle: the published soft-body tearing text of rapier2d 0.36.1 (2D, f32), compiled from
//! `gen/` (see `run`), and the programs that hold the bench to it. The files `shim_*.rs` stand for
//! the rest of the crate and for glam and parry.
#![no_main]
#![allow(unexpected_cfgs)]

// The source says `parry::utils::hashmap::HashMap`, `parry::query`, `parry::shape`.
extern crate self as parry;

/// rapier's `alloc_prelude`: what a `no_std` build would lack.
mod alloc_prelude {
    pub use std::vec::Vec;
}
#[path = "shim_dynamics.rs"]
mod dynamics;
#[path = "shim_math.rs"]
mod math;
mod shim_parry;
#[path = "shim_utils.rs"]
mod utils;
use shim_parry::{query, shape};

mod api;
mod entries;
mod exact;
mod expect;
mod fans;
mod faults;
mod image;
mod inputs;
mod journal;
mod meshgen;
mod programs;
mod rng;
mod second;
mod sheet;
mod shrink;
mod vectors;
mod wholes;
mod wrapped;

use std::ffi::{CStr, c_char, c_int};
use std::io::Write;

/// std's own start-up code stops under the emulator, so the program starts as a C program does.
/// # Safety
/// The C runtime hands over `argc` strings.
#[unsafe(no_mangle)]
pub unsafe extern "C" fn main(argc: c_int, argv: *const *const c_char) -> c_int {
    let words: Vec<String> =
        (1..argc as usize).map(|i| unsafe { CStr::from_ptr(*argv.add(i)) }.to_string_lossy().into_owned()).collect();
    // A panic must not leave a C function; its message is printed by then.
    let code = std::panic::catch_unwind(|| programs::start(&words)).unwrap_or(101);
    let _ = std::io::stdout().flush();
    code
}
