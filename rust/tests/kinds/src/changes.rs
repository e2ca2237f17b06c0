//! Changed messages.

/// Numbers that look random (xorshift64).
pub struct Numbers(pub u64);

impl Numbers {
    pub fn below(&mut self, limit: usize) -> usize {
        self.0 ^= self.0 << 13;
        self.0 ^= self.0 >> 7;
        self.0 ^= self.0 << 17;
        // Of 64 bits, also where a usize has 32.
        let limit = u64::try_from(limit.max(1)).unwrap_or(1);
        usize::try_from((self.0 >> 11) % limit).unwrap_or(0)
    }

    fn octet(&mut self, limit: usize) -> u8 {
        u8::try_from(self.below(limit)).unwrap_or(0)
    }
}

/// A message with one to four changes: bits, bytes, lengths and types of attributes, bytes put in or taken out, or the end of another
/// message after its beginning.
pub fn changed(numbers: &mut Numbers, bytes: &[u8], other: &[u8]) -> Vec<u8> {
    let mut bytes = bytes.to_vec();
    for _ in 0..=numbers.below(4) {
        let at = numbers.below(bytes.len());
        let frame = at & !3;
        match numbers.below(8) {
            0 => bytes.truncate(at),
            1 if at < bytes.len() => bytes[at] ^= 1 << numbers.below(8),
            2 if at < bytes.len() => bytes[at] = numbers.octet(256),
            3 if frame + 1 < bytes.len() => (bytes[frame], bytes[frame + 1]) = (numbers.octet(64), 0),
            4 if frame + 3 < bytes.len() => {
                (bytes[frame + 2], bytes[frame + 3]) = (numbers.octet(24), [0, 0x80, 0x40][numbers.below(3)])
            }
            5 => _ = bytes.splice(at..at, (0..numbers.octet(9)).map(|it| it.wrapping_mul(37))),
            6 => _ = bytes.drain(at..(at + numbers.below(9)).min(bytes.len())),
            7 => {
                bytes.truncate(frame);
                bytes.extend_from_slice(&other[numbers.below(other.len()) & !3..]);
            }
            _ => {}
        }
    }
    bytes
}
