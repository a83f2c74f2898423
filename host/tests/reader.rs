//! A sheet that comes in parts is read as the whole, however it is cut (docs/RULES.md, R21).
use cutting_bench::{Refusal, Sheet, SheetReader};
use std::io::Write;

/// splitmix64.
struct Rng(u64);
impl Rng {
    fn below(&mut self, n: usize) -> usize {
        self.0 = self.0.wrapping_add(0x9e37_79b9_7f4a_7c15);
        let mut z = self.0;
        z = (z ^ (z >> 30)).wrapping_mul(0xbf58_476d_1ce4_e5b9);
        z = (z ^ (z >> 27)).wrapping_mul(0x94d0_49bb_1331_11eb);
        ((z ^ (z >> 31)) % n as u64) as usize
    }
}

/// Fields as bits, the most significant first, and 0 up to the byte.
fn packed(fields: &[(usize, usize)]) -> Vec<u8> {
    let bits: Vec<u8> = fields.iter().flat_map(|(w, x)| (0..*w).rev().map(move |k| (x >> k & 1) as u8)).collect();
    bits.chunks(8).map(|c| c.iter().enumerate().fold(0, |x, (i, b)| x | b << (7 - i))).collect()
}
/// The bytes of a sheet of either edition with such counts; now and then a name is absent, or stands twice.
fn sheet(r: &mut Rng, second: bool, [p, t, e, b]: [usize; 4]) -> Vec<u8> {
    let mut f = if second { vec![(11, 2047)] } else { vec![] };
    f.extend([(11, p), (11, t), (12, e)]);
    if !second {
        f.push((12, b));
    }
    (0..p).for_each(|_| f.extend([(11, r.below(2048)), (11, r.below(2048)), (1, r.below(2))]));
    let names = |f: &mut Vec<(usize, usize)>, n: usize, r: &mut Rng| {
        let (first, wrong) = (r.below(p), r.below(4000) == 0);
        (0..n).for_each(|k| f.push((10, (first + k * usize::from(!wrong)) % p)));
    };
    (0..t).for_each(|_| names(&mut f, 3, r));
    for _ in 0..e {
        names(&mut f, 2, r);
        f.push((1, r.below(2)));
    }
    (0..if second { 0 } else { b }).for_each(|_| names(&mut f, 2, r));
    (0..4).for_each(|_| f.push((11, r.below(2048))));
    packed(&f)
}
/// A random one, sound or damaged, with bytes behind the end or without.
fn random(r: &mut Rng) -> Vec<u8> {
    let second = r.below(2) == 0;
    let counts = match r.below(30) {
        0 => [1024, 1024, 2048, 2048],
        1 => [1024 + r.below(2), r.below(1026), r.below(2050), r.below(2050)],
        _ => [3 + r.below(30), r.below(40), r.below(40), r.below(40)],
    };
    let mut bytes = sheet(r, second, counts);
    let n = bytes.len();
    match r.below(8) {
        0 => bytes.truncate(n - 1 - r.below(n.min(9))),
        1 => bytes.extend(vec![0; 1 + r.below(3)]),
        2 => bytes.extend(vec![r.below(256) as u8; r.below(30_000)]),
        3 => bytes[r.below(n)] ^= 1 << r.below(8),
        _ => {}
    }
    bytes
}
/// Feeds the bytes in parts, some of them empty.
fn feed(r: &mut Rng, reader: &mut SheetReader, bytes: &[u8]) {
    let (mut at, longest) = (0, [1, 2, 9, 100, 5000, bytes.len() + 1][r.below(6)].max(bytes.len() / 300));
    while at < bytes.len() {
        let end = (at + r.below(longest + 1)).min(bytes.len());
        assert_eq!(reader.feed(&bytes[at..end]), Ok(()));
        at = end;
    }
}

#[test]
fn however_cut() {
    let mut r = Rng(5);
    let (mut whole, mut refused) = (0, 0);
    for _ in 0..1000 {
        let bytes = random(&mut r);
        let mut reader = SheetReader::open();
        feed(&mut r, &mut reader, &bytes);
        let got = reader.close();
        assert_eq!(got, Sheet::read(&bytes));
        match got {
            Ok(_) => whole += 1,
            Err(_) => refused += 1,
        }
        // Behind the close nothing is taken, and it stays closed.
        assert_eq!(reader.feed(&bytes[..r.below(2).min(bytes.len())]), Err(Refusal::ReaderClosed));
        assert_eq!(reader.close(), Err(Refusal::ReaderClosed));
    }
    assert!(whole > 300 && refused > 150, "{whole} whole, {refused} refused");
}

#[test]
fn two_ways_of_one_sheet() {
    let mut r = Rng(6);
    for _ in 0..150 {
        let bytes = random(&mut r);
        let (mut one, mut other) = (SheetReader::open(), SheetReader::open());
        feed(&mut r, &mut one, &bytes);
        other.write_all(&bytes).expect("an open reader takes all");
        assert_eq!(one.close(), other.close());
        let late = other.write(&bytes).expect_err("it is closed").to_string();
        assert_eq!(late, Refusal::ReaderClosed.to_string());
    }
}

#[test]
fn opened_again() {
    let mut r = Rng(7);
    let mut reader = SheetReader::open();
    for _ in 0..150 {
        let (left, bytes) = (random(&mut r), random(&mut r));
        reader.feed(&left).expect("it is open");
        if r.below(2) == 0 {
            let _ = reader.close();
        }
        reader.open_again();
        feed(&mut r, &mut reader, &bytes);
        assert_eq!(reader.close(), Sheet::read(&bytes));
        reader.open_again();
    }
}

#[test]
fn the_longest() {
    let mut r = Rng(8);
    for (second, length) in [(false, 17_292), (true, 12_172)] {
        let bytes = sheet(&mut r, second, [1024, 1024, 2048, 2048]);
        assert_eq!(bytes.len(), length);
        let mut reader = SheetReader::open();
        bytes.iter().for_each(|b| reader.feed(&[*b]).expect("it is open"));
        assert_eq!(reader.clone().close(), Sheet::read(&bytes));
        // One byte more, and a million more.
        reader.feed(&[0]).expect("it is open");
        assert_eq!(reader.clone().close(), Err(Refusal::BadSheet));
        (0..100).for_each(|_| reader.feed(&[0; 10_000]).expect("it is open"));
        assert_eq!(reader.close(), Err(Refusal::BadSheet));
    }
}
