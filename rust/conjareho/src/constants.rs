//! Numbers of `linux/netlink.h` and `linux/rtnetlink.h`.

macro_rules! numbers {
    ($($(#[$doc:meta])* $name:ident = $value:literal,)*) => {
        $($(#[$doc])* pub const $name: u16 = $value;)*
    };
}

numbers! {
    /// Makes a qdisc, or says that one was made or is there.
    RTM_NEWQDISC = 36,
    /// Deletes a qdisc, or says that one was deleted.
    RTM_DELQDISC = 37,
    /// Asks for qdiscs.
    RTM_GETQDISC = 38,
    /// Makes a class, or says that one was made or is there.
    RTM_NEWTCLASS = 40,
    /// Deletes a class, or says that one was deleted.
    RTM_DELTCLASS = 41,
    /// Asks for classes.
    RTM_GETTCLASS = 42,
    /// Makes a filter, or says that one was made or is there.
    RTM_NEWTFILTER = 44,
    /// Deletes filters, or says that one was deleted.
    RTM_DELTFILTER = 45,
    /// Asks for filters.
    RTM_GETTFILTER = 46,
    /// Makes actions, or says that some were made or are there.
    RTM_NEWACTION = 48,
    /// Deletes actions, or says that some were deleted.
    RTM_DELACTION = 49,
    /// Asks for actions.
    RTM_GETACTION = 50,
    /// Makes a chain, or says that one was made or is there.
    RTM_NEWCHAIN = 100,
    /// Deletes a chain, or says that one was deleted.
    RTM_DELCHAIN = 101,
    /// Asks for chains.
    RTM_GETCHAIN = 102,
    /// An error, or an acknowledgement if the error is 0.
    NLMSG_ERROR = 2,
    /// The end of an answer of several messages.
    NLMSG_DONE = 3,
    /// A request.
    NLM_F_REQUEST = 0x1,
    /// The message is one of several, which `NLMSG_DONE` ends.
    NLM_F_MULTI = 0x2,
    /// Asks for an acknowledgement.
    NLM_F_ACK = 0x4,
    /// Asks for the notification of what the request does.
    NLM_F_ECHO = 0x8,
    /// What is dumped changed meanwhile, so the dump may be inconsistent.
    NLM_F_DUMP_INTR = 0x10,
    /// The dump was filtered, as the request asked.
    NLM_F_DUMP_FILTERED = 0x20,
    /// Of a request that asks: everything.
    NLM_F_ROOT = 0x100,
    /// Of a request that asks: all that match.
    NLM_F_MATCH = 0x200,
    /// `NLM_F_ROOT` and `NLM_F_MATCH`.
    NLM_F_DUMP = 0x300,
    /// Of a request that asks: a snapshot.
    NLM_F_ATOMIC = 0x400,
    /// Of a request that makes something: replaces what is there.
    NLM_F_REPLACE = 0x100,
    /// Of a request that makes something: fails if it is there.
    NLM_F_EXCL = 0x200,
    /// Of a request that makes something: makes it if it isn't there.
    NLM_F_CREATE = 0x400,
    /// Of a request that makes something: adds it at the end.
    NLM_F_APPEND = 0x800,
    /// Of a request that deletes: not what is below it.
    NLM_F_NONREC = 0x100,
    /// Of a request that deletes: all that match.
    NLM_F_BULK = 0x200,
    /// Of an answer: it has the header of the request, not all of it.
    NLM_F_CAPPED = 0x100,
    /// Of an answer: attributes follow, such as a text.
    NLM_F_ACK_TLVS = 0x200,
}
