use std::{error, fmt, io};

/// A call or a session was refused.
#[derive(Clone, Copy, Debug, PartialEq, Eq, Hash)]
pub struct Refused {
    number: u32,
    by_peer: bool,
}

impl Refused {
    pub(crate) fn here(number: u32) -> Refused {
        Refused { number, by_peer: false }
    }

    pub(crate) fn by_the_peer(number: u32) -> Refused {
        Refused { number, by_peer: true }
    }

    /// The number of `docs/PROTOCOL.md`, or of `c/rangesync.h`.
    pub fn number(&self) -> u32 {
        self.number
    }

    /// Whether the peer of a session refused it, and not this side.
    pub fn by_peer(&self) -> bool {
        self.by_peer
    }

    /// The name of the number; empty where it has none, as one that a peer may send.
    pub fn name(&self) -> &'static str {
        NAMES.iter().find(|(number, _)| *number == self.number).map_or("", |(_, name)| name)
    }
}

impl fmt::Display for Refused {
    fn fmt(&self, to: &mut fmt::Formatter<'_>) -> fmt::Result {
        let who = if self.by_peer { "peer refused" } else { "refused" };
        let space = if self.name().is_empty() { "" } else { " " };
        write!(to, "{who} {}{space}{}", self.number, self.name())
    }
}

impl error::Error for Refused {}

/// Why a session over a connection did not end.
#[derive(Debug)]
#[non_exhaustive]
pub enum Error {
    /// One of the sides refused.
    Refused(Refused),
    /// The connection failed.
    Connection(io::Error),
}

impl Error {
    /// The number of the refusal, if it was one.
    pub fn number(&self) -> Option<u32> {
        match self {
            Error::Refused(refused) => Some(refused.number()),
            Error::Connection(_) => None,
        }
    }
}

impl fmt::Display for Error {
    fn fmt(&self, to: &mut fmt::Formatter<'_>) -> fmt::Result {
        match self {
            Error::Refused(refused) => refused.fmt(to),
            Error::Connection(fault) => write!(to, "the connection failed: {fault}"),
        }
    }
}

impl error::Error for Error {
    fn source(&self) -> Option<&(dyn error::Error + 'static)> {
        match self {
            Error::Refused(_) => None,
            Error::Connection(fault) => Some(fault),
        }
    }
}

impl From<Refused> for Error {
    fn from(refused: Refused) -> Error {
        Error::Refused(refused)
    }
}

impl From<io::Error> for Error {
    fn from(fault: io::Error) -> Error {
        Error::Connection(fault)
    }
}

const NAMES: &[(u32, &str)] = &[
    (1, "BadHello"),
    (2, "FrameLength"),
    (3, "Truncated"),
    (4, "BadKind"),
    (5, "BadBound"),
    (6, "EmptyRange"),
    (7, "ItemLength"),
    (8, "ItemOrder"),
    (9, "ItemOutside"),
    (10, "MarkPadding"),
    (11, "Trailing"),
    (12, "TooManyParts"),
    (20, "Misplaced"),
    (21, "Stall"),
    (22, "Gap"),
    (23, "MissingAnswer"),
    (24, "MarkCount"),
    (25, "AnswerRepeats"),
    (26, "Spent"),
    (28, "BadOpening"),
    (29, "BadBounds"),
    (30, "NotToml"),
    (31, "Missing"),
    (32, "BadNumber"),
    (33, "RowOrder"),
    (34, "RowAction"),
    (35, "CapMismatch"),
    (36, "NoDescent"),
    (37, "ListTooLong"),
    (38, "TooDeep"),
    (39, "BadCertificate"),
    (40, "Full"),
    (41, "Busy"),
    (42, "WritersSpent"),
    (50, "TableFull"),
    (51, "Unknown"),
    (52, "OverBound"),
    (53, "SerialsSpent"),
    (54, "GateClosed"),
    (55, "WrongSet"),
    (56, "NoShard"),
    (57, "BadEntry"),
    (60, "Bind"),
    (61, "Connect"),
    (62, "Accept"),
    (71, "Empty"),
    (72, "TooLong"),
    (73, "EmptyRange"),
    (80, "CannotRead"),
    (81, "BadItemLine"),
    (82, "TooManyItems"),
    (83, "BadScenario"),
    (84, "BadStep"),
    (90, "Memory"),
    (98, "NotThere"),
    (99, "OtherKind"),
];
