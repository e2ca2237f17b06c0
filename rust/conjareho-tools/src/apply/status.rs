//! How a run ends.

use crate::netlink::Fault;

/// How a run ends: the exit status of the program.
#[derive(Clone, Copy, PartialEq, Eq, Debug)]
pub(crate) enum Status {
    /// What is there is what the file says.
    Restored = 0,
    /// Nothing was sent.
    NothingSent = 1,
    /// The arguments are wrong.
    Usage = 2,
    /// A socket or a file failed, before anything was sent.
    Failed = 3,
    /// What is there is what the file says, except for what can't be made, and was named; of a plan that is only printed: it differs.
    Otherwise = 4,
    /// It ended before its end, and what was there before is there again.
    Back = 5,
    /// It ended before its end, and what was there before isn't there.
    Lost = 6,
}

impl From<Status> for std::process::ExitCode {
    fn from(status: Status) -> Self {
        Self::from(status as u8)
    }
}

/// Why nothing is sent: how the program ends, and what it says.
#[derive(Debug)]
pub(crate) struct Ended {
    pub(crate) status: Status,
    pub(crate) said: Vec<String>,
}

impl Ended {
    pub(crate) fn because(status: Status, said: Vec<String>) -> Ended {
        Ended { status, said }
    }
}

impl From<Fault> for Ended {
    fn from(fault: Fault) -> Ended {
        let status = match fault {
            Fault::Refused(_)
            | Fault::Cut(_)
            | Fault::Interrupted
            | Fault::Changing(_)
            | Fault::NoInterface(_)
            | Fault::NoName(_) => {
                Status::NothingSent
            }
            Fault::Socket(..) | Fault::Silent | Fault::Broken(_) | Fault::Lost => Status::Failed,
        };
        Ended::because(status, vec![fault.to_string()])
    }
}
