//! How a line is made into a message.

/// How a line is made into a message.
#[derive(Clone, Copy, PartialEq, Eq, Debug)]
pub enum Making {
    /// The bytes that it shows, if the codec finds of them what the line says. If the line says nothing, they have to be
    /// canonical.
    Checked,
    /// The bytes to which settling leads.
    Settled,
    /// The bytes that it shows, whatever they are.
    AsGiven,
    /// The request that restores what it shows.
    Restored,
}
