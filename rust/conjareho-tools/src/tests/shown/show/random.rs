//! Pseudo-random bytes.

use crate::user::prelude::*;

use crate::show::program::options::{Options, OutputFormat};
use crate::tc_capture::MessageType;
use crate::tests::data::{Format, beginning};
use crate::tests::shown::show::runs::{FORMS, all_in, alone_in, is_clean, shown};

// xorshift64*.
struct Random(u64);

impl Random {
    fn fill_bytes(&mut self, bytes: &mut [u8]) {
        for byte in bytes {
            self.0 ^= self.0 >> 12;
            self.0 ^= self.0 << 25;
            self.0 ^= self.0 >> 27;
            *byte = (self.0.wrapping_mul(0x2545_f491_4f6c_dd1d) >> 56) as u8;
        }
    }
}

// Whether a run ends with this status at most, and writes no control bytes.
fn ends(options: &Options<'_>, input: &[u8], most: u8) -> bool {
    let run = shown(options, input);
    run.status <= most && is_clean(options.format, &run.written)
}

// The beginning of a file, and bytes after it.
fn after(format: Format, is_big: bool, bytes: &[u8]) -> Result<Vec<u8>, AllocError> {
    let mut file = beginning(format, is_big)?;
    file.try_extend(bytes)?;
    Ok(file)
}

// Whether a run over a capture with bytes in it ends.
fn is_capture(form: OutputFormat, format: Format, is_big: bool, bytes: &[u8]) -> bool {
    match after(format, is_big, bytes) {
        Ok(file) => ends(&all_in(form), &file, 1),
        Err(_) => false,
    }
}

// Whether runs over a line of hex end: with the header of a netlink message, and without.
fn is_line(form: OutputFormat, line: &[u8]) -> bool {
    ends(&all_in(form), line, 1)
        && ends(&alone_in(form, MessageType::Tc), line, 1)
        && ends(&alone_in(form, MessageType::Action), line, 1)
}

fn is_hex(form: OutputFormat, bytes: &[u8]) -> bool {
    match crate::hex::encode(bytes) {
        Ok(line) => is_line(form, line.as_bytes()),
        Err(_) => false,
    }
}

#[test]
fn random_bytes() {
    let mut random = Random(42);
    let mut bytes = [0u8; 150];
    for round in 0..24u8 {
        random.fill_bytes(&mut bytes);
        for form in FORMS {
            assert!(ends(&all_in(form), &bytes, 2), "{round}");
            assert!(is_capture(form, Format::Microseconds, false, &bytes), "{round}");
            assert!(is_capture(form, Format::Blocks, true, &bytes), "{round}");
            assert!(is_hex(form, &bytes), "{round}");
        }
    }
}
