//! Random numbers and changed messages.

use alloc::vec::Vec;

/// Numbers that look random (xorshift64).
#[derive(Clone)]
pub struct Random(pub u64);

impl Random {
    pub fn next(&mut self) -> u64 {
        self.0 ^= self.0 << 13;
        self.0 ^= self.0 >> 7;
        self.0 ^= self.0 << 17;
        self.0
    }

    /// A number below a limit, or 0.
    pub fn below(&mut self, limit: usize) -> usize {
        ((self.next() >> 11) % limit.max(1) as u64) as usize
    }

    /// So many bytes: any, zeros, or a text and a NUL.
    pub fn bytes(&mut self, len: usize) -> Vec<u8> {
        let sort = self.below(4);
        let octet = |at: usize, random: &mut Self| match sort {
            0 => 0,
            1 if at + 1 == len => 0,
            1 => b'a' + random.below(26) as u8,
            _ => random.below(256) as u8,
        };
        (0..len).map(|at| octet(at, self)).collect()
    }
}

/// A message whose bits, lengths, types, padding or end were changed once to three times.
pub fn changed(random: &mut Random, bytes: &[u8], other: &[u8]) -> Vec<u8> {
    let mut bytes = bytes.to_vec();
    for _ in 0..=random.below(3) {
        let at = random.below(bytes.len());
        let frame = at & !3;
        match random.below(8) {
            0 => bytes.truncate(at),
            1 if at < bytes.len() => bytes[at] ^= 1 << random.below(8),
            2 if frame + 3 < bytes.len() => bytes[frame + 3] = [0, 0x80, 0x40][random.below(3)],
            3 if frame + 1 < bytes.len() => bytes[frame] = bytes[frame].wrapping_add(random.below(9) as u8).wrapping_sub(4),
            4 if frame + 3 < bytes.len() => bytes[frame + 2] = random.below(24) as u8,
            5 if frame + 3 < bytes.len() => bytes[frame + 3] = random.below(256) as u8,
            6 => _ = bytes.drain(at..(at + random.below(9)).min(bytes.len())),
            _ => {
                bytes.truncate(frame);
                bytes.extend_from_slice(&other[random.below(other.len()) & !3..]);
            }
        }
    }
    bytes
}
