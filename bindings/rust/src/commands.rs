//! Commands and answers as numbers.
use crate::error::{Code, Error, Refusal, Result};
use crate::message::Message;
use crate::sys;

/// What an invocation does to the process that makes it.
#[derive(Debug, Clone, Copy, PartialEq, Eq, Hash)]
pub enum Operation {
    /// Through a start or resume capability it waits for an answer. A kernel object answers at once.
    Call = 0,
    /// It becomes available.
    Return = 1,
    /// It goes on.
    Send = 2,
}

/// A process invokes the capability in a register.
#[derive(Debug, Clone, Copy, PartialEq, Eq, Hash)]
pub struct Invocation {
    /// What becomes of the process.
    pub operation: Operation,
    /// The process.
    pub process: u64,
    /// The register of the capability, below 32.
    pub register: u8,
    /// What it sends.
    pub message: Message,
}

/// What kind of answer a command got.
#[derive(Debug, Clone, Copy, PartialEq, Eq, Hash)]
#[non_exhaustive]
pub enum Kind {
    /// An invocation or a store was carried out.
    Done,
    /// The word that was loaded.
    Value,
    /// How many objects were written since the last checkpoint.
    Frozen,
    /// How many objects are left.
    Left,
    /// The generation that was committed.
    Committed,
    /// The generation in which a page was journaled.
    Journaled,
    /// The generation and the age after a restart.
    At,
}

impl Kind {
    fn of(word: &str) -> Option<Kind> {
        Some(match word {
            "done" => Kind::Done,
            "value" => Kind::Value,
            "frozen" => Kind::Frozen,
            "left" => Kind::Left,
            "committed" => Kind::Committed,
            "journaled" => Kind::Journaled,
            "at" => Kind::At,
            _ => return None,
        })
    }
}

/// What a command gave.
#[derive(Debug, Clone, PartialEq, Eq, Hash)]
pub struct Reply {
    /// The kind of the answer.
    pub kind: Kind,
    /// The result code, if a kernel object replied.
    pub code: Option<Code>,
    /// The other words of a kernel object's reply, or the numbers of the answer.
    pub values: Vec<u64>,
}

impl Reply {
    /// The reply that the words of an answer are.
    pub(crate) fn of(answer: &str) -> Result<Reply> {
        let mut words = answer.split(' ');
        match words.next().and_then(Kind::of) {
            Some(kind) => Ok(Reply {
                kind,
                code: None,
                values: words.filter_map(|it| it.parse().ok()).collect(),
            }),
            None => Err(Error::Refused(Refusal::from(answer))),
        }
    }

    /// The first number.
    pub(crate) fn number(&self) -> Result<u64> {
        self.values
            .first()
            .copied()
            .ok_or_else(|| Error::Refused(Refusal::Other(format!("{:?}", self.kind))))
    }
}

impl sys::Reply {
    /// An object was shown.
    pub const SHOWN: u32 = 8;

    /// Why a command was refused.
    pub fn refusal(&self) -> Refusal {
        match self.kind {
            2 => Refusal::MemoryFault(self.first),
            32 | 43 => Refusal::Down,
            33 => Refusal::NoProcess,
            34 => Refusal::NotRunning,
            35 => Refusal::Worn,
            36 => Refusal::Stalled,
            37 => Refusal::LogFull,
            38 => Refusal::CheckpointRunning,
            39 => Refusal::MigrationPending,
            40 => Refusal::NotStable(self.first),
            41 => Refusal::NoCheckpoint,
            42 => Refusal::NoMemory,
            44 => Refusal::BadNumber,
            45 => Refusal::NotJournaled(self.first),
            kind => Refusal::Other(format!("answer {kind}")),
        }
    }

    /// The reply that these numbers are.
    pub fn reply(&self) -> Result<Reply> {
        let (kind, values) = match self.kind {
            0 => (Kind::Done, vec![]),
            1 => (Kind::Value, vec![self.first]),
            3 => (Kind::Frozen, vec![self.first]),
            4 => (Kind::Left, vec![self.first]),
            5 => (Kind::Committed, vec![self.first]),
            6 => (Kind::Journaled, vec![self.first]),
            7 => (Kind::At, vec![self.first, self.second]),
            _ => return Err(Error::Refused(self.refusal())),
        };
        let code = (self.code != sys::NO_CODE).then(|| Code::from(u64::from(self.code)));
        Ok(Reply { kind, code, values })
    }
}

impl sys::Command {
    pub const LOAD: u32 = 3;
    pub const STORE: u32 = 4;
    pub const EVICT: u32 = 5;
    pub const CHECKPOINT: u32 = 6;
    pub const STABILIZE: u32 = 7;
    pub const COMMIT: u32 = 8;
    pub const MIGRATE: u32 = 9;
    pub const JOURNAL: u32 = 10;
    pub const RESTART: u32 = 11;

    /// A command that isn't an invocation.
    pub fn new(kind: u32, number: u64, words: [u64; 2]) -> Self {
        let [first, second] = words;
        sys::Command {
            kind,
            register: 0,
            sent: [0; 4],
            number,
            words: [first, second, 0, 0],
        }
    }
}

impl From<&Invocation> for sys::Command {
    fn from(it: &Invocation) -> Self {
        sys::Command {
            kind: it.operation as u32,
            register: it.register,
            sent: it.message.sent,
            number: it.process,
            words: it.message.words,
        }
    }
}
