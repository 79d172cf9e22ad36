//! The results of turns.

/// What a turn did, or why the session ended.
#[derive(Clone, Copy, Debug, PartialEq, Eq)]
#[non_exhaustive]
pub enum Turn {
    /// Nothing: no complete packet is buffered.
    Idle,
    /// It wrote a reply, now in the output.
    Wrote,
    /// It read a request; its call begins with this turn's timestamp.
    Begun,
    /// The call made one step.
    Moved,
    /// A call of another session holds what this call needs, and has to advance first.
    Blocked,
    /// The call is decided; the next turn writes its reply.
    Decided,
    /// Only by `settle`: the maximum number of replies was written, and the session continues.
    Spent,
    /// The session has ended.
    Ended(Ending),
}

/// Why a session ended.
#[derive(Clone, Copy, Debug, PartialEq, Eq)]
#[non_exhaustive]
pub enum Ending {
    /// Its first packet is not INIT.
    NotInit,
    /// Its client has a version below 3.
    OldVersion,
    /// A later packet is INIT.
    SecondInit,
    /// A packet of length 0.
    ZeroLength,
    /// A packet of a length above 262144.
    TooLong,
    /// A packet that ends before its id, or INIT before its version.
    NoId,
    /// It was closed.
    Closed,
    /// A number of the library that this crate does not know.
    Other(u64),
}

impl Turn {
    /// The turn with the library's number.
    pub(crate) fn of_number(number: u64) -> Self {
        match number {
            0 => Turn::Idle,
            1 => Turn::Wrote,
            2 => Turn::Begun,
            3 => Turn::Moved,
            4 => Turn::Blocked,
            5 => Turn::Decided,
            6 => Turn::Spent,
            17 => Turn::Ended(Ending::NotInit),
            18 => Turn::Ended(Ending::OldVersion),
            19 => Turn::Ended(Ending::SecondInit),
            20 => Turn::Ended(Ending::ZeroLength),
            21 => Turn::Ended(Ending::TooLong),
            22 => Turn::Ended(Ending::NoId),
            23 => Turn::Ended(Ending::Closed),
            other => Turn::Ended(Ending::Other(other)),
        }
    }
}
