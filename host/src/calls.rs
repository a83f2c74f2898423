//! The C functions of bench.h, each behind a safe function on slices: the only unsafe code of the crate. host/check-header holds the
//! declarations to the functions that are exported.
#![allow(unsafe_code)]

#[rustfmt::skip]
mod c {
    unsafe extern "C" {
        pub fn bench_root(bits: u32, out: *mut u8, out_len: usize) -> u32;
        pub fn bench_blade_hit(words: *const u8, words_len: usize, out: *mut u8, out_len: usize) -> u32;
        pub fn bench_groups(image: *const u8, image_len: usize, v: u32, sides: *const u8, sides_len: usize, out: *mut u8, out_len: usize) -> u32;
        pub fn bench_rest_measure(image: *const u8, image_len: usize, out: *mut u8, out_len: usize) -> u32;
        pub fn bench_rest_measure_of(image: *const u8, image_len: usize, list: *const u8, list_len: usize, out: *mut u8, out_len: usize) -> u32;
        pub fn bench_opens_without_confetti(image: *const u8, image_len: usize, v: u32, sides: *const u8, sides_len: usize, minimum: u32, out: *mut u8, out_len: usize) -> u32;
        pub fn bench_pieces(image: *const u8, image_len: usize, out: *mut u8, out_len: usize) -> u32;
        pub fn bench_split(image: *const u8, image_len: usize, v: u32, sides: *const u8, sides_len: usize, rooms: *const u8, rooms_len: usize, out: *mut u8, out_len: usize, log: *mut u8, log_len: usize) -> u32;
        pub fn bench_straddlers(image: *const u8, image_len: usize, rooms: *const u8, rooms_len: usize, out: *mut u8, out_len: usize, log: *mut u8, log_len: usize) -> u32;
        pub fn bench_cut(image: *const u8, image_len: usize, blade: *const u8, blade_len: usize, edition: u32, fraction: u32, rooms: *const u8, rooms_len: usize, out: *mut u8, out_len: usize, log: *mut u8, log_len: usize) -> u32;
        pub fn bench_crack(image: *const u8, image_len: usize, torn: *const u8, torn_len: usize, minimum: u32, rooms: *const u8, rooms_len: usize, out: *mut u8, out_len: usize, log: *mut u8, log_len: usize) -> u32;
        pub fn bench_layout() -> u32;
        pub fn bench_fan(image: *const u8, image_len: usize, v: u32, out: *mut u8, out_len: usize) -> u32;
        pub fn bench_sheet(sheet: *const u8, sheet_len: usize, out: *mut u8, out_len: usize) -> u32;
        pub fn bench_sheet_open(reader: *mut u8, reader_len: usize) -> u32;
        pub fn bench_sheet_feed(reader: *mut u8, reader_len: usize, part: *const u8, part_len: usize) -> u32;
        pub fn bench_sheet_close(reader: *mut u8, reader_len: usize, out: *mut u8, out_len: usize) -> u32;
        pub fn bench_sheet_write(fields: *const u8, fields_len: usize, out: *mut u8, out_len: usize) -> u32;
        pub fn bench_mend(broken: *const u8, broken_len: usize, mended: *mut u8, mended_len: usize, text: *mut u8, text_len: usize, counts: *mut u8, counts_len: usize) -> u32;
        pub fn bench_list_cut(sheet: *const u8, sheet_len: usize, out: *mut u8, out_len: usize) -> u32;
        pub fn bench_difference(first: *const u8, first_len: usize, second: *const u8, second_len: usize, out: *mut u8, out_len: usize) -> u32;
    }
}

/// Calls a C function: `in x` passes a slice that is read, `out x` one that is written, `word x` a number.
///
/// SAFETY of each use: every pointer goes with the length of a live slice of this crate, read ones are shared and written ones exclusive, so none overlap; the
/// function writes the written ones alone, within their lengths, and keeps nothing.
macro_rules! call {
    ($name:ident $($rest:tt)*) => { call!(@ $name [] $($rest)*) };
    (@ $name:ident [$($done:tt)*] , in $x:ident $($rest:tt)*) => { call!(@ $name [$($done)* $x.as_ptr(), $x.len(),] $($rest)*) };
    (@ $name:ident [$($done:tt)*] , out $x:ident $($rest:tt)*) => { call!(@ $name [$($done)* $x.as_mut_ptr(), $x.len(),] $($rest)*) };
    (@ $name:ident [$($done:tt)*] , word $x:ident $($rest:tt)*) => { call!(@ $name [$($done)* $x,] $($rest)*) };
    (@ $name:ident [$($done:tt)*]) => { unsafe { c::$name($($done)*) } };
}

pub(crate) fn root(bits: u32, out: &mut [u8]) -> u32 {
    call!(bench_root, word bits, out out)
}
pub(crate) fn blade_hit(words: &[u8], out: &mut [u8]) -> u32 {
    call!(bench_blade_hit, in words, out out)
}
pub(crate) fn groups(image: &[u8], v: u32, sides: &[u8], out: &mut [u8]) -> u32 {
    call!(bench_groups, in image, word v, in sides, out out)
}
pub(crate) fn rest_measure(image: &[u8], out: &mut [u8]) -> u32 {
    call!(bench_rest_measure, in image, out out)
}
pub(crate) fn rest_measure_of(image: &[u8], list: &[u8], out: &mut [u8]) -> u32 {
    call!(bench_rest_measure_of, in image, in list, out out)
}
pub(crate) fn opens_without_confetti(image: &[u8], v: u32, sides: &[u8], minimum: u32, out: &mut [u8]) -> u32 {
    call!(bench_opens_without_confetti, in image, word v, in sides, word minimum, out out)
}
pub(crate) fn pieces(image: &[u8], out: &mut [u8]) -> u32 {
    call!(bench_pieces, in image, out out)
}
pub(crate) fn split(image: &[u8], v: u32, sides: &[u8], rooms: &[u8], out: &mut [u8], log: &mut [u8]) -> u32 {
    call!(bench_split, in image, word v, in sides, in rooms, out out, out log)
}
pub(crate) fn straddlers(image: &[u8], rooms: &[u8], out: &mut [u8], log: &mut [u8]) -> u32 {
    call!(bench_straddlers, in image, in rooms, out out, out log)
}
#[rustfmt::skip]
pub(crate) fn cut(image: &[u8], blade: &[u8], edition: u32, fraction: u32, rooms: &[u8], out: &mut [u8], log: &mut [u8]) -> u32 {
    call!(bench_cut, in image, in blade, word edition, word fraction, in rooms, out out, out log)
}
pub(crate) fn crack(image: &[u8], torn: &[u8], minimum: u32, rooms: &[u8], out: &mut [u8], log: &mut [u8]) -> u32 {
    call!(bench_crack, in image, in torn, word minimum, in rooms, out out, out log)
}
pub(crate) fn layout() -> u32 {
    call!(bench_layout)
}
pub(crate) fn fan(image: &[u8], v: u32, out: &mut [u8]) -> u32 {
    call!(bench_fan, in image, word v, out out)
}
pub(crate) fn sheet(sheet: &[u8], out: &mut [u8]) -> u32 {
    call!(bench_sheet, in sheet, out out)
}
pub(crate) fn sheet_open(reader: &mut [u8]) -> u32 {
    call!(bench_sheet_open, out reader)
}
pub(crate) fn sheet_feed(reader: &mut [u8], part: &[u8]) -> u32 {
    call!(bench_sheet_feed, out reader, in part)
}
pub(crate) fn sheet_close(reader: &mut [u8], out: &mut [u8]) -> u32 {
    call!(bench_sheet_close, out reader, out out)
}
pub(crate) fn sheet_write(fields: &[u8], out: &mut [u8]) -> u32 {
    call!(bench_sheet_write, in fields, out out)
}
pub(crate) fn mend(broken: &[u8], mended: &mut [u8], text: &mut [u8], counts: &mut [u8]) -> u32 {
    call!(bench_mend, in broken, out mended, out text, out counts)
}
pub(crate) fn list_cut(sheet: &[u8], out: &mut [u8]) -> u32 {
    call!(bench_list_cut, in sheet, out out)
}
pub(crate) fn difference(first: &[u8], second: &[u8], out: &mut [u8]) -> u32 {
    call!(bench_difference, in first, in second, out out)
}

#[cfg(test)]
mod tests {
    use super::c;
    use crate::image::{bytes_of, image};

    /// NULL goes with length 0, for what is read and for what is written.
    #[test]
    fn null_with_length_0() {
        let null = std::ptr::null();
        let nowhere = std::ptr::null_mut();
        let mut out = [7u8; 8];
        let (rooms, empty) = ([0u8; 16], [0u8; 16]);
        // SAFETY: as above; what is NULL has length 0.
        unsafe {
            assert_eq!(c::bench_pieces(null, 0, out.as_mut_ptr(), 8), 1);
            assert_eq!(out, [0; 8]);
            assert_eq!(c::bench_pieces(null, 0, nowhere, 0), 1);
            assert_eq!(c::bench_pieces(empty.as_ptr(), 16, nowhere, 0), 4);
            assert_eq!(c::bench_rest_measure_of(empty.as_ptr(), 16, null, 0, out.as_mut_ptr(), 8), 0);
            assert_eq!(c::bench_straddlers(empty.as_ptr(), 16, rooms.as_ptr(), 16, nowhere, 0, nowhere, 0), 4);
        }
    }

    /// An edition that is neither 1 nor 2 gets 4, also on straps off the whole numbers, where edition 2 gets 11.
    #[test]
    fn an_unknown_edition() {
        let mut strap = crate::Mesh::new();
        strap.add_particle(0.5, 0.0);
        strap.add_particle(8.0, 0.0);
        strap.add_edge(0, 1, true);
        let (mesh, rooms) = (image(&strap), bytes_of(&[8; 4]));
        let blade = bytes_of(&[2.0f32, -1.0, 2.0, 1.0].map(f32::to_bits));
        let cut = |edition: u32| {
            let (mut out, mut log) = ([7u8; 1024], [7u8; 240]);
            let refusal = super::cut(&mesh, &blade, edition, 0.1f32.to_bits(), &rooms, &mut out, &mut log);
            (refusal, out.iter().chain(&log).all(|byte| *byte == 0))
        };
        for edition in [0, 3, 257, u32::MAX] {
            assert_eq!(cut(edition), (4, true), "{edition}");
        }
        assert_eq!(cut(2), (11, true));
        assert_eq!(cut(1), (0, false));
    }
}
