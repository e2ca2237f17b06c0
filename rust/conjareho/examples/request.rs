//! Prints the request `tc qdisc add dev .. root handle 1: fq_codel limit 10240` in hex, for the interface with index 2.

use conjareho::requests::{NEW_FLAGS, Object, Target, qdisc};
use conjareho::tc::{TcHandle, TcQdiscFqCodelOption};
use conjareho::{Netlink, Payload};

fn main() -> Result<(), Box<dyn std::error::Error>> {
    let target = Target { index: 2, handle: TcHandle::from(0x10000), parent: TcHandle::ROOT };
    let message = qdisc(&target, vec![TcQdiscFqCodelOption::Limit(10240)])?;
    let payload = Payload::Tc(message);
    let request = Netlink { message_type: Object::Qdisc.new_type(), flags: NEW_FLAGS, sequence: 1, port: 0, payload };
    for octet in request.to_bytes()? {
        print!("{octet:02x}");
    }
    println!();
    Ok(())
}
