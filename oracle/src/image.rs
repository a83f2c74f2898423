//! A mesh image (docs/C-FUNCTIONS.md): four counts, then the columns, little-endian words.
use crate::api::*;

/// A mesh and what is wrong with its image: other counts in front, another length.
#[derive(Clone, Debug, Default)]
pub struct Image {
    pub mesh: Mesh,
    pub counts: Option<[u32; 4]>,
    pub length: Option<usize>,
}

/// The words as bytes, cut or padded with 0 to `length` where one is given.
pub fn bytes_of(words: &[u32], length: Option<usize>) -> Vec<u8> {
    let mut out: Vec<u8> = words.iter().flat_map(|w| w.to_le_bytes()).collect();
    if let Some(n) = length {
        out.resize(n, 0);
    }
    out
}
/// The whole words at the front of some bytes.
pub fn words_of(bytes: &[u8]) -> Vec<u32> {
    bytes.chunks_exact(4).map(|c| u32::from_le_bytes([c[0], c[1], c[2], c[3]])).collect()
}

impl Image {
    pub fn new(mesh: Mesh) -> Image {
        Image { mesh, counts: None, length: None }
    }
    pub fn counts(&self) -> [u32; 4] {
        let m = &self.mesh;
        self.counts.unwrap_or([m.px.len(), m.ta.len(), m.ea.len(), m.ba.len()].map(|n| n as u32))
    }
    pub fn bytes(&self) -> Vec<u8> {
        let mut w: Vec<u32> = self.counts().to_vec();
        columns(&mut w, &self.mesh, f32::to_bits);
        bytes_of(&w, self.length)
    }
}
/// The blocks in order: the list of each, and whether it is that list's f32 or its numbers.
const BLOCKS: [(usize, bool); 7] = [(0, true), (0, false), (1, false), (1, true), (2, false), (2, true), (3, false)];
/// The columns in the order of the blocks, behind what is there.
fn columns(w: &mut Vec<u32>, m: &Mesh, bits: fn(f32) -> u32) {
    for (list, floats) in BLOCKS {
        let (f, n) = COLUMNS[list].clone();
        match floats {
            true => w.extend(m.floats()[f].iter().flat_map(|c| c.iter().map(|x| bits(*x)))),
            false => w.extend(m.numbers()[n].iter().flat_map(|c| c.iter())),
        }
    }
}
/// The image of a result as words; any NaN is 7fc00000.
pub fn words(m: &Mesh) -> Vec<u32> {
    let mut w = Image::new(m.clone()).counts().to_vec();
    columns(&mut w, m, |x| if x.is_nan() { 0x7fc0_0000 } else { x.to_bits() });
    w
}

/// The mesh of an image; `None` if its length is another than its counts ask for, or a count is
/// above its limit (both are refusal 1).
pub fn read(bytes: &[u8]) -> Option<Mesh> {
    let w = words_of(bytes);
    if bytes.len() < 16 {
        return None;
    }
    let counts = [w[0], w[1], w[2], w[3]].map(|n| n as usize);
    let [np, nt, ne, nb] = counts;
    if np > MAX_PARTICLES || nt > MAX_TRIANGLES || ne > MAX_EDGES || nb > MAX_BOUNDARY {
        return None;
    }
    if bytes.len() != 4 * (4 + 10 * np + 5 * nt + 8 * ne + 2 * nb) {
        return None;
    }
    let mut m = Mesh::default();
    let mut rest = &w[4..];
    for (list, floats) in BLOCKS {
        let (f, n) = COLUMNS[list].clone();
        let mut take = || {
            let (column, behind) = rest.split_at(counts[list]);
            rest = behind;
            column.iter()
        };
        match floats {
            true => m.floats_mut()[f].iter_mut().for_each(|c| c.extend(take().map(|&x| f32::from_bits(x)))),
            false => m.numbers_mut()[n].iter_mut().for_each(|c| c.extend(take())),
        }
    }
    Some(m)
}
