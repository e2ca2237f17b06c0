//! What is kept of an output: its digest.

/// FNV-1a of 128 bits, of which 64 are kept. It tells outputs apart that differ by chance, and no more is asked of it.
pub fn digest(bytes: &[u8]) -> String {
    const PRIME: u128 = 0x0000_0000_0100_0000_0000_0000_0000_013b;
    let sum = bytes.iter().fold(0x6c62_272e_07bb_0142_62b8_2175_6295_c58d_u128, |sum, byte| (sum ^ u128::from(*byte)).wrapping_mul(PRIME));
    format!("{:016x}", (sum >> 64) as u64 ^ sum as u64)
}
