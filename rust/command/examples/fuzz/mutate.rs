//! Damage: the same seed does the same.

/// A small generator of numbers (splitmix64).
pub struct Random(pub u64);

impl Random {
    pub fn next(&mut self) -> u64 {
        self.0 = self.0.wrapping_add(0x9e37_79b9_7f4a_7c15);
        let mut z = self.0;
        z = (z ^ (z >> 30)).wrapping_mul(0xbf58_476d_1ce4_e5b9);
        z = (z ^ (z >> 27)).wrapping_mul(0x94d0_49bb_1331_11eb);
        z ^ (z >> 31)
    }

    /// A number below `end`; 0 where that is 0.
    pub fn below(&mut self, end: usize) -> usize {
        (self.next() % end.max(1) as u64) as usize
    }
}

/// Bytes that mean something somewhere: kinds of types and entries, ends, marks of long numbers.
const TELLING: [u8; 36] = [
    0, 1, 2, 3, 4, 5, 6, 7, 13, 14, 15, 16, 17, 21, 22, 23, 25, 26, 27, 28, 29, 31, 32, 34, 35, 37, 38, 39, 0x40, 0x7f,
    0x80, 0x81, 0x99, 0x9f, 0xfe, 0xff,
];

/// A sample with one to eight pieces of damage within its first `length` bytes.
pub fn damage(random: &mut Random, samples: &[Vec<u8>], base: usize, length: usize) -> Vec<u8> {
    let mut bytes = samples[base].clone();
    for _ in 0..=random.below(8) {
        let end = length.min(bytes.len());
        let at = random.below(end);
        let long = random.below(8) == 0;
        let run = 1 + random.below(if long { 64 } else { 4 });
        let stop = (at + run).min(bytes.len());
        match random.below(10) {
            0 if at < bytes.len() => bytes[at] ^= 1 << random.below(8),
            1 | 2 if at < bytes.len() => bytes[at] = TELLING[random.below(TELLING.len())],
            3 if at < bytes.len() => bytes[at] = random.next() as u8,
            4 => drop(bytes.drain(at..stop)),
            5 => {
                let again = bytes[at..stop].to_vec();
                bytes.splice(at..at, again);
            }
            6 => {
                let new: Vec<u8> = (0..run).map(|_| TELLING[random.below(TELLING.len())]).collect();
                bytes.splice(at..at, new);
            }
            7 => {
                let other = &samples[random.below(samples.len())];
                let from = random.below(other.len());
                let part = other[from..(from + run).min(other.len())].to_vec();
                bytes.splice(at..stop, part);
            }
            8 if at + 4 <= bytes.len() => {
                let number = [0, 1, 0x7fff_ffff, u32::MAX, random.next() as u32][random.below(5)];
                bytes[at..at + 4].copy_from_slice(&number.to_le_bytes());
            }
            9 if random.below(4) == 0 => bytes.truncate(at),
            _ => {}
        }
    }
    bytes
}
