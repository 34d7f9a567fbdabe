//! Sheets to ask about, as bytes: whole ones, and damaged ones of every sort.

use super::random::Random;
use super::relatives::{coerced, likened, relative};
use super::types::{good_type, words};
use crate::original::words::{Layer, BOOL, POINTER, VIEW};

const BIG: u64 = u64::MAX;

/// Counts that are none, among them those whose double or threefold passes 2^64 and comes out small.
const COUNTS: [u64; 12] = [
    0,
    17,
    18,
    32,
    33,
    34,
    1 << 32,
    BIG / 3,
    BIG / 3 + 1,
    BIG / 3 + 2,
    1 << 63,
    BIG,
];

/// The words of a sheet, each of which may be wrong.
struct Sheet {
    count: u64,
    layers: Vec<u64>,
    bodies: Vec<u64>,
}

impl Sheet {
    fn new(types: &[Vec<Layer>]) -> Self {
        Sheet {
            count: types.len() as u64,
            layers: types.iter().map(|layers| layers.len() as u64).collect(),
            bodies: types.iter().flat_map(|layers| words(layers)).collect(),
        }
    }

    fn bytes(&self) -> Vec<u8> {
        bytes(&[&[self.count][..], &self.layers, &self.bodies].concat())
    }
}

fn bytes(words: &[u64]) -> Vec<u8> {
    words.iter().flat_map(|word| word.to_le_bytes()).collect()
}

/// So many types, most of them close to one before.
fn types(random: &mut Random, count: usize) -> Vec<Vec<Layer>> {
    let mut all = vec![good_type(random, 16)];
    while all.len() < count {
        let near = all[random.below(all.len())].clone();
        let mut next = match random.below(6) {
            0 => good_type(random, 16),
            1 => coerced(random, &near),
            2 => likened(random, &near),
            _ => relative(random, &near),
        };
        next.drain(..next.len().saturating_sub(16));
        all.push(next);
    }
    all
}

/// Any bytes: about half of them a sheet.
pub fn any_sheet(random: &mut Random) -> Vec<u8> {
    let few = 1 + random.below(4);
    let some = 1 + random.below(32);
    let count = random.pick(&[few, few, some, 32]);
    let mut sheet = Sheet::new(&types(random, count));
    match random.below(20) {
        0 => sheet.count = counted(random, sheet.count),
        1 => {
            let at = random.below(sheet.layers.len());
            sheet.layers[at] = counted(random, sheet.layers[at]);
        }
        2 => lend_a_layer(random, &mut sheet),
        3..=5 => {
            for _ in 0..=random.below(3) {
                spoil_a_layer(random, &mut sheet.bodies);
            }
        }
        6 | 7 => return cut(random, sheet.bytes()),
        8 => return longer(random, sheet.bytes()),
        9 => return noise(random),
        _ => {}
    }
    sheet.bytes()
}

/// Another count, near or far.
fn counted(random: &mut Random, count: u64) -> u64 {
    let any = random.next();
    let odd = random.pick(&COUNTS);
    random.pick(&[count + 1, count - 1, odd, odd, any])
}

/// A type gets a layer of another one: the bytes are as many as they should be.
fn lend_a_layer(random: &mut Random, sheet: &mut Sheet) {
    let (from, to) = (
        random.below(sheet.layers.len()),
        random.below(sheet.layers.len()),
    );
    sheet.layers[from] -= 1;
    sheet.layers[to] += 1;
}

/// A word of a layer changed, or a leaf where none belongs, or none where one belongs.
fn spoil_a_layer(random: &mut Random, bodies: &mut [u64]) {
    let any = random.next();
    let at = random.below(bodies.len());
    match random.below(3) {
        0 => bodies[at] = random.pick(&[0, 1, 25, 26, u32::MAX as u64, 1 << 32, BIG, any]),
        1 => bodies[at / 3 * 3] = random.below(27) as u64,
        _ => {
            let kind = random.pick(&[BOOL, POINTER, VIEW]);
            bodies[at / 3 * 3..at / 3 * 3 + 3].copy_from_slice(&[kind, 0, 0]);
        }
    }
}

fn cut(random: &mut Random, mut bytes: Vec<u8>) -> Vec<u8> {
    let few = bytes.len().saturating_sub(1 + random.below(24));
    let any = random.below(bytes.len());
    bytes.truncate(random.pick(&[few, any, any / 8 * 8, 0]));
    bytes
}

/// One to eight bytes more, or many more.
fn longer(random: &mut Random, mut bytes: Vec<u8>) -> Vec<u8> {
    let few = 1 + random.below(8);
    let many = 8 * random.below(3000);
    let by = random.pick(&[few, few, many]);
    let byte = random.pick(&[0, 0, 1, 255]);
    bytes.resize(bytes.len() + by, byte);
    bytes
}

/// Random bytes, or random words that start with a good count.
fn noise(random: &mut Random) -> Vec<u8> {
    let many = random.below(200);
    if random.once_in(2) {
        return (0..many).map(|_| random.next() as u8).collect();
    }
    let mut all = vec![1 + random.below(3) as u64];
    all.extend((0..many).map(|_| random.below(27) as u64));
    bytes(&all)
}

/// Every count of types and of layers, good ones and those next to them, each with all the bytes that
/// belong to it.
pub fn each_count() -> Vec<Vec<u8>> {
    let short = vec![[11, 0, 0]];
    let mut all: Vec<Vec<u8>> = (0..=34)
        .map(|count| Sheet::new(&vec![short.clone(); count]).bytes())
        .collect();
    for layers in 0..=18 {
        let mut chain = vec![[14, 0, 2]; layers];
        if let Some(last) = chain.last_mut() {
            *last = [11, 0, 0];
        }
        all.push(Sheet::new(&[short.clone(), chain, short.clone()]).bytes());
    }
    all
}

/// A sheet cut or made longer with zeros.
fn resized(sheet: &[u8], length: usize) -> Vec<u8> {
    let mut bytes = sheet.to_vec();
    bytes.resize(length, 0);
    bytes
}

/// Every prefix of a small sheet and every length a little above; each of its words with each odd
/// number; the longest sheet and the lengths around it.
pub fn each_edge() -> Vec<Vec<u8>> {
    let small = Sheet::new(&[
        vec![[14, 0, 3], [12, 0, 0]],
        vec![[23, 0, 0], [15, 7, 0], [20, 7, 0]],
    ])
    .bytes();
    let mut longest = vec![[14, 0, 2]; 16];
    longest[15] = [11, 0, 0];
    let full = Sheet::new(&vec![longest; 32]).bytes();

    let mut all = each_count();
    all.extend((0..small.len() + 40).map(|length| resized(&small, length)));
    all.extend((full.len() - 20..full.len() + 60).map(|length| resized(&full, length)));
    for at in (0..small.len()).step_by(8) {
        for odd in (0..40).chain(COUNTS) {
            let mut bytes = small.clone();
            bytes[at..at + 8].copy_from_slice(&odd.to_le_bytes());
            all.push(bytes);
        }
    }
    all
}
