//! The start of cutlist where it is compiled as a library: the C runtime calls `main`, which is the program's own. (Today's toolchain builds the program itself, so `run` does not compile this.)
#![no_main]

unsafe extern "C" {
    safe fn cutlist_main();
}
#[unsafe(no_mangle)]
pub extern "C" fn main() -> i32 {
    cutlist_main();
    0
}
