//! The programs `mend` and `sheetdiff` as a host has them, over the C functions: two words are the files of two sheets, whose differences are printed;
//! else standard input is mended, and one word names the new file. What a refusal leaves, and what stands behind an answer, must be 0.
use std::io::{Read, Write};

unsafe extern "C" {
    fn bench_mend(
        broken: *const u8,
        broken_len: usize,
        mended: *mut u8,
        mended_len: usize,
        text: *mut u8,
        text_len: usize,
        counts: *mut u8,
        counts_len: usize,
    ) -> u32;
    fn bench_difference(first: *const u8, first_len: usize, second: *const u8, second_len: usize, out: *mut u8, out_len: usize) -> u32;
}

/// The front of the lent bytes, with nothing but 0 behind it.
fn front(lent: &[u8], n: usize) -> &[u8] {
    assert!(lent[n..].iter().all(|b| *b == 0), "a byte behind the answer is not 0");
    &lent[..n]
}

fn mend(broken: &[u8], file: Option<&String>) -> Vec<u8> {
    let (mut mended, mut text, mut counts) = (vec![170; 17_292], vec![170; 131_072], [170u8; 8]);
    // SAFETY: three lent runs apart from each other and from what is read, each with its own length.
    let code = unsafe {
        bench_mend(
            broken.as_ptr(),
            broken.len(),
            mended.as_mut_ptr(),
            mended.len(),
            text.as_mut_ptr(),
            text.len(),
            counts.as_mut_ptr(),
            counts.len(),
        )
    };
    let count = |at: usize| u32::from_le_bytes(counts[at..at + 4].try_into().unwrap()) as usize;
    let (sheet, said) = (front(&mended, count(0)), front(&text, count(4)));
    if code != 0 {
        assert!(sheet.is_empty() && said.is_empty(), "a refusal left a number");
        return format!("refused {code}\n").into_bytes();
    }
    if let Some(name) = file {
        std::fs::File::create_new(name).and_then(|mut f| f.write_all(sheet)).expect("a new file");
    }
    said.to_vec()
}

fn differences(first: &[u8], second: &[u8]) -> Vec<u8> {
    let mut out = vec![170; 65_536];
    // SAFETY: the lent run is apart from both that are read.
    let code = unsafe { bench_difference(first.as_ptr(), first.len(), second.as_ptr(), second.len(), out.as_mut_ptr(), out.len()) };
    assert_eq!(code, 0, "the longest text has room");
    let n = out.iter().position(|b| *b == 0).unwrap_or(out.len());
    front(&out, n).to_vec()
}

fn main() {
    let words: Vec<String> = std::env::args().skip(1).collect();
    let told = match &words[..] {
        [first, second] => differences(&std::fs::read(first).expect("a file"), &std::fs::read(second).expect("a file")),
        _ => {
            let mut broken = Vec::new();
            std::io::stdin().read_to_end(&mut broken).expect("standard input");
            mend(&broken, words.first())
        }
    };
    std::io::stdout().write_all(&told).expect("standard output");
}
