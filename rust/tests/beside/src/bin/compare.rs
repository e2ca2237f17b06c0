//! `compare FILE COUNT`: what the proved library and the erased codec say of the messages of a file, and of so many that are
//! made of them: with bytes changed, cut, repeated or put in. The changes are the same each time.

use beside::{Erased, LIBRARY, Said, messages};
use conjareho::tc::{TcActionMessage, TcMessage};

/// Numbers that look random (xorshift64).
struct Numbers(u64);

impl Numbers {
    fn below(&mut self, limit: usize) -> usize {
        self.0 ^= self.0 << 13;
        self.0 ^= self.0 >> 7;
        self.0 ^= self.0 << 17;
        usize::try_from(self.0 >> 11).unwrap_or(0) % limit.max(1)
    }
}

/// A message with one to four changes.
fn changed(numbers: &mut Numbers, bytes: &[u8]) -> Vec<u8> {
    let mut bytes = bytes.to_vec();
    for _ in 0..=numbers.below(4) {
        let at = numbers.below(bytes.len());
        match numbers.below(8) {
            0 => bytes.truncate(at),
            1 => bytes.insert(at, 0),
            2 if at < bytes.len() => drop(bytes.remove(at)),
            3 => bytes.extend_from_within(at - at % 4..),
            4 if at < bytes.len() => bytes[at] ^= 1 << numbers.below(8),
            5 if at + 2 <= bytes.len() => bytes[at - at % 4] = u8::try_from(numbers.below(40)).unwrap_or(0),
            _ if at < bytes.len() => bytes[at] = u8::try_from(numbers.below(256)).unwrap_or(0),
            _ => {}
        }
    }
    bytes
}

fn erased(form: usize, bytes: &[u8]) -> Said {
    if form == 0 { TcMessage::says(bytes) } else { TcActionMessage::says(bytes) }
}

fn main() {
    let words: Vec<String> = std::env::args().collect();
    let all = messages(&words[1]);
    let count: usize = words[2].parse().expect("a number");
    let mut numbers = Numbers(0x9e37_79b9_7f4a_7c15);
    let (mut compared, mut differ, mut read) = (0, 0, 0);
    let small: Vec<_> = all.iter().filter(|(_, bytes)| !bytes.is_empty() && bytes.len() < 4096).collect();
    let made = (0..count).map(|_| {
        let (form, bytes) = small[numbers.below(small.len())];
        (*form, changed(&mut numbers, bytes))
    });
    // Each as it is, and as a message of the other type.
    for (form, bytes) in
        all.iter().cloned().flat_map(|(form, bytes)| [(form, bytes.clone()), (1 - form, bytes)]).chain(made)
    {
        let (ours, theirs) = (erased(form, &bytes), LIBRARY[form].says(&bytes, 2 * bytes.len() + 4096));
        compared += 1;
        read += usize::from(ours.read.is_ok());
        if ours != theirs {
            differ += 1;
            let hex: String = bytes.iter().map(|octet| format!("{octet:02x}")).collect();
            println!("{form} {hex}\n  erased {ours:?}\n  proved {theirs:?}");
        }
    }
    println!("{compared} messages, {read} of them read, {differ} differences");
    std::process::exit(i32::from(differ > 0));
}
