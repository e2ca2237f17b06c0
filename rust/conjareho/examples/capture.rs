//! Prints the traffic control messages of captures: pcap, pcapng, files of `rtmon`.

use conjareho::ParseableBytes;
use conjareho::capture::{Capture, CaptureError, Contents, MessageType, Messages, rtm_of};
use conjareho::tc::{TcActionMessage, TcMessage};

fn main() -> Result<(), Box<dyn std::error::Error>> {
    for path in std::env::args().skip(1) {
        let bytes = std::fs::read(&path)?;
        let mut capture = Capture::of_first(&bytes).ok_or("no capture")?;
        let mut rest = bytes.as_slice();
        while !rest.is_empty() {
            let piece = match capture.next(rest) {
                Err(CaptureError::Short { .. }) => break,
                piece => piece?,
            };
            rest = &rest[piece.used..];
            let Some(packet) = piece.packet? else { continue };
            let Contents::Route { messages, .. } = packet.contents()? else { continue };
            for message in Messages::new(messages) {
                let message = match message {
                    Ok(message) => message,
                    Err(e) => {
                        println!("a message that is cut: {e}");
                        continue;
                    }
                };
                let Some(rtm) = rtm_of(message.kind) else { continue };
                let shown = match rtm.holds {
                    MessageType::Tc => TcMessage::parse(message.payload).map(|it| format!("{it:?}")),
                    MessageType::Action => TcActionMessage::parse(message.payload).map(|it| format!("{it:?}")),
                };
                match shown {
                    Ok(shown) => println!("{} {shown}", rtm.name),
                    Err(e) => println!("{} of {} bytes: {e}", rtm.name, message.payload.len()),
                }
            }
        }
    }
    Ok(())
}
