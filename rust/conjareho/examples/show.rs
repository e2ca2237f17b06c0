//! Reads messages of traffic control, a line of hex each, without netlink header, and prints them: of the module `kinds` with this feature, else of `tc`.

#[cfg(feature = "kinds")]
use conjareho::kinds::Message;
#[cfg(not(feature = "kinds"))]
use conjareho::{ParseableBytes, tc::TcMessage as Message};
use std::io::{self, BufRead};

fn main() -> Result<(), Box<dyn std::error::Error>> {
    for line in io::stdin().lock().lines() {
        let digits: Vec<u8> = line?.bytes().filter(|byte| !byte.is_ascii_whitespace()).collect();
        let octets = digits.chunks(2).map(|pair| Ok(u8::from_str_radix(std::str::from_utf8(pair)?, 16)?));
        match Message::parse(&octets.collect::<Result<Vec<u8>, Box<dyn std::error::Error>>>()?) {
            Ok(message) => println!("{message:#?}"),
            Err(e) => println!("{}: {e}", e.name()),
        }
    }
    Ok(())
}
