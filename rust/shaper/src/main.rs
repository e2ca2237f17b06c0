//! `shaper INDEX RATE..`: shapes an interface with htb, a class and fq_codel for each rate, and prints the classes.

use conjareho::answers::Answers;
use conjareho::kinds::qdiscs::fq_codel::FqCodelAttr;
use conjareho::kinds::{Handle, Htb, HtbClass, Message, Rate};
use conjareho::requests::{Object, Verb};
use netlink_options::{NetlinkOption, turn_on};
use netlink_sys::{Socket, SocketAddr, protocols::NETLINK_ROUTE};
use std::error::Error;
use std::process::ExitCode;

/// How often a dump is made until nothing changed meanwhile.
const TRIES: usize = 5;

/// A socket, and the sequence number of the next request.
struct Session {
    socket: Socket,
    sequence: u32,
}

impl Session {
    fn open() -> Result<Self, Box<dyn Error>> {
        let mut socket = Socket::new(NETLINK_ROUTE)?;
        socket.bind_auto()?;
        turn_on(&socket, NetlinkOption::ExtendedAcknowledgements)?;
        Ok(Session { socket, sequence: 1 })
    }

    /// Sends a request, and returns the messages of the answer.
    fn ask(&mut self, message: &Message, object: Object, verb: Verb) -> Result<Vec<Message>, Box<dyn Error>> {
        for _ in 0..TRIES {
            self.sequence += 1;
            let request = message.request(object, verb, self.sequence)?;
            self.socket.send_to(&request, &SocketAddr::new(0, 0), 0)?;
            let (mut answers, mut found) = (Answers::to(&request), Vec::new());
            while !answers.is_done() {
                let (datagram, from) = self.socket.recv_from_full()?;
                // Other processes can send datagrams too.
                if from.port_number() == 0 {
                    for answer in answers.read(&datagram)? {
                        found.push(Message::parse(answer.payload)?);
                    }
                }
            }
            if !answers.is_interrupted() {
                return Ok(found);
            }
        }
        Err("it changed during each dump".into())
    }
}

fn run() -> Result<(), Box<dyn Error>> {
    let words: Vec<String> = std::env::args().skip(1).collect();
    let [index, rates @ ..] = words.as_slice() else { return Err("usage: shaper INDEX RATE..".into()) };
    let (index, mut session) = (index.parse()?, Session::open()?);
    let at = |handle, parent| Message::on(index).handle(handle).parent(parent);
    let qdisc = at(Handle::new(1, 0), Handle::ROOT).of(Htb::new(1));
    // A root that is there can't be changed into htb, nor htb into itself. There may be none.
    _ = session.ask(&Message::on(index).parent(Handle::ROOT), Object::Qdisc, Verb::Delete);
    session.ask(&qdisc, Object::Qdisc, Verb::Add)?;
    for (number, rate) in (1..).zip(rates) {
        let (class, rate) = (Handle::new(1, number), rate.parse::<Rate>()?);
        session.ask(&at(class, Handle::new(1, 0)).of(HtbClass::new(rate)), Object::Class, Verb::Add)?;
        let queue = FqCodelAttr::list().with_limit(1000);
        session.ask(&at(Handle::new(number + 1, 0), class).of(queue), Object::Qdisc, Verb::Add)?;
    }
    for class in session.ask(&Message::on(index), Object::Class, Verb::Dump)? {
        let sent = class.stats().and_then(|stats| stats.basic()).map_or(0, |basic| basic.bytes);
        println!("{} {} {sent} bytes", class.kind(), class.header.handle);
    }
    Ok(())
}

fn main() -> ExitCode {
    match run() {
        Ok(()) => ExitCode::SUCCESS,
        Err(error) => {
            eprintln!("shaper: {error}");
            ExitCode::FAILURE
        }
    }
}
