//! Traffic control over route netlink: sockets, requests and their answers, dumps, interfaces and notifications.

pub mod attributes;
pub mod clear;
pub mod devices;
pub mod fault;
pub mod kernel;
pub mod listener;
pub mod message;
pub mod socket;
pub mod state;
pub mod transport;
mod u32_tables;

pub use clear::clear;
pub use devices::{Device, Devices};
pub use fault::{Fault, Refusal};
pub use kernel::Kernel;
pub use listener::{Changes, Heard, Listener, Notice};
pub use socket::Socket;
pub use state::{Dump, Objects, dump_of, state_of};
pub use transport::Transport;
