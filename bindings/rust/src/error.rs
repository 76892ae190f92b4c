//! What a call may fail with.
use std::{fmt, io};

/// The result of a call.
pub type Result<T> = std::result::Result<T, Error>;

/// Why an image is refused.
#[derive(Debug, Clone, Copy, PartialEq, Eq, Hash)]
pub enum BadImage {
    /// Fewer sectors than the superblock says.
    Small = 1,
    /// Another magic number or version.
    NotASuperblock,
    /// A number of the superblock is out of range.
    BadGeometry,
    /// No checkpoint is committed.
    NoHeader,
    /// The header of the checkpoint is damaged.
    BadHeader,
    /// The directory of the checkpoint is damaged.
    BadDirectory,
    /// A frame is damaged.
    BadFrame,
    /// A capability names an object that it can't name.
    BadCapability,
    /// A process doesn't have one root and one annex.
    BadProcess,
    /// An object has no owner, or an owner is over its limit.
    BadBank,
}

/// Why a description is refused.
#[derive(Debug, Clone, Copy, PartialEq, Eq, Hash)]
pub enum BadDescription {
    /// The text isn't TOML.
    NotToml,
    /// The table isn't that of a description.
    Shape,
    /// No image has these sizes, ranges, age or layout.
    Limits,
    /// A number isn't one of its kind, or is named twice.
    Number,
    /// A field of a process, a node or a page is bad.
    Field,
    /// A capability names an object that it can't name.
    Target,
    /// An object has no owner within its limit.
    Owner,
}

/// The result code of an order.
#[derive(Debug, Clone, Copy, PartialEq, Eq, Hash)]
#[non_exhaustive]
pub enum Code {
    /// The order was carried out.
    Success,
    /// The object has no order with this number.
    NoOrder,
    /// The capability is read-only.
    NoAccess,
    /// There is no such index, height, access, key or state.
    BadIndex,
    /// The capability that was sent has the wrong kind.
    BadCapability,
    /// The limit of the bank, or of one above it, is reached.
    Limit,
    /// No number is free.
    NoFreeNumber,
    /// The chain has 16 banks already.
    TooDeep,
    /// Void was invoked.
    VoidCapability,
    /// The bank does not own the object.
    NotFromThisBank,
    /// The prime bank cannot be destroyed.
    PrimeBank,
    /// A code that this version doesn't know.
    Unknown(u64),
}

impl From<u64> for Code {
    fn from(number: u64) -> Self {
        use Code::*;
        const CODES: [Code; 11] = [
            Success,
            NoOrder,
            NoAccess,
            BadIndex,
            BadCapability,
            Limit,
            NoFreeNumber,
            TooDeep,
            VoidCapability,
            NotFromThisBank,
            PrimeBank,
        ];
        usize::try_from(number)
            .ok()
            .and_then(|it| CODES.get(it).copied())
            .unwrap_or(Unknown(number))
    }
}

/// Why the machine refused a command. Nothing changed.
#[derive(Debug, Clone, PartialEq, Eq, Hash)]
#[non_exhaustive]
pub enum Refusal {
    /// The line is no command.
    BadLine,
    /// The object is no process.
    NoProcess,
    /// The process isn't running.
    NotRunning,
    /// The process to be started isn't available.
    Stalled,
    /// The address is not in the address space, or can't be written: the reason, 1 to 5.
    MemoryFault(u64),
    /// More objects would be written since the last checkpoint than the log can hold.
    LogFull,
    /// The age is 2^62.
    Worn,
    /// A frozen state is not committed yet.
    CheckpointRunning,
    /// The last checkpoint is not home: call `migrate`.
    MigrationPending,
    /// `stabilize` has yet to reach this many frozen objects.
    NotStable(u64),
    /// There is no frozen state.
    NoCheckpoint,
    /// No object has this number.
    BadNumber,
    /// The object is not a page, or no page is saved at this number: 1 or 2.
    NotJournaled(u64),
    /// The device failed, now or before. Open the machine again.
    Down,
    /// Memory ran out at a `show` or `restart`.
    NoMemory,
    /// Another answer.
    Other(String),
}

impl From<&str> for Refusal {
    fn from(answer: &str) -> Self {
        let (words, number) = match answer
            .rsplit_once(' ')
            .and_then(|(words, number)| Some((words, number.parse().ok()?)))
        {
            Some((words, number)) => (words, number),
            None => (answer, 0),
        };
        match words {
            "bad line" => Refusal::BadLine,
            "no process" => Refusal::NoProcess,
            "not running" => Refusal::NotRunning,
            "stalled" => Refusal::Stalled,
            "memory fault" => Refusal::MemoryFault(number),
            "log full" => Refusal::LogFull,
            "worn" => Refusal::Worn,
            "checkpoint running" => Refusal::CheckpointRunning,
            "migration pending" => Refusal::MigrationPending,
            "not stable" => Refusal::NotStable(number),
            "no checkpoint" => Refusal::NoCheckpoint,
            "bad number" => Refusal::BadNumber,
            "not journaled" => Refusal::NotJournaled(number),
            "down" | "fault" => Refusal::Down,
            "no memory" => Refusal::NoMemory,
            _ => Refusal::Other(answer.to_owned()),
        }
    }
}

/// What a call failed with.
#[derive(Debug)]
#[non_exhaustive]
pub enum Error {
    /// The image is refused.
    BadImage(BadImage),
    /// The description is refused.
    BadDescription(BadDescription),
    /// The image isn't a whole number of sectors, or is over 64 MiB.
    BadSize,
    /// The cache is neither 0 nor 8 to 8192.
    BadCache,
    /// Memory ran out. The machine is closed.
    NoMemory,
    /// The storage failed, and the machine is closed. Open it again from what the storage holds.
    Storage(io::Error),
    /// The machine is closed, because an earlier call failed.
    Closed,
    /// The machine refused a command.
    Refused(Refusal),
    /// A kernel object replied with a result code other than success, and these words.
    Order(Code, [u64; 3]),
    /// A register is not below 32. The invocation was not made.
    BadCommand,
    /// A status that this version doesn't know.
    Status(u32),
}

impl Error {
    /// The error for a status other than 0.
    pub(crate) fn of(status: u32) -> Error {
        use BadImage::*;
        const REASONS: [BadImage; 10] = [
            Small,
            NotASuperblock,
            BadGeometry,
            NoHeader,
            BadHeader,
            BadDirectory,
            BadFrame,
            BadCapability,
            BadProcess,
            BadBank,
        ];
        const RULES: [BadDescription; 7] = [
            BadDescription::NotToml,
            BadDescription::Shape,
            BadDescription::Limits,
            BadDescription::Number,
            BadDescription::Field,
            BadDescription::Target,
            BadDescription::Owner,
        ];
        match status {
            1..=10 => Error::BadImage(REASONS[status as usize - 1]),
            11 | 18 => Error::NoMemory,
            12 => Error::BadSize,
            13 => Error::BadCache,
            15 | 17 => Error::Closed,
            19 => Error::BadCommand,
            20..=26 => Error::BadDescription(RULES[status as usize - 20]),
            _ => Error::Status(status),
        }
    }
}

impl fmt::Display for Error {
    fn fmt(&self, f: &mut fmt::Formatter<'_>) -> fmt::Result {
        match self {
            Error::BadImage(reason) => write!(f, "bad image {}: {reason:?}", *reason as u32),
            Error::BadDescription(rule) => {
                write!(f, "bad description {}: {rule:?}", *rule as u32)
            }
            Error::BadSize => {
                f.write_str("the image isn't a whole number of sectors, or is over 64 MiB")
            }
            Error::BadCache => f.write_str("the cache is neither 0 nor 8 to 8192"),
            Error::NoMemory => f.write_str("memory ran out"),
            Error::Storage(_) => f.write_str("the storage failed"),
            Error::Closed => f.write_str("the machine is closed, because an earlier call failed"),
            Error::Refused(Refusal::Other(answer)) => write!(f, "the machine answered: {answer}"),
            Error::Refused(refusal) => write!(f, "the machine refused the command: {refusal:?}"),
            Error::Order(code, _) => write!(f, "the order failed: {code:?}"),
            Error::BadCommand => f.write_str("a register is not below 32"),
            Error::Status(status) => write!(f, "status {status}"),
        }
    }
}

impl std::error::Error for Error {
    fn source(&self) -> Option<&(dyn std::error::Error + 'static)> {
        match self {
            Error::Storage(error) => Some(error),
            _ => None,
        }
    }
}
