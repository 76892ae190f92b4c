//! A post office that outlives its program. The code of each process is a function here, which runs when its process runs.
//!
//! A writer numbers its letters. The office keeps each letter in a page of the mailbox's bank, until the reader asks for it. The viewer
//! looks at the mailbox, and can change nothing. Each turn ends with a save, and only then prints. So no kill loses or doubles a letter.
//!
//! `eros build examples/post-office/post.toml IMAGE` makes the image.
use std::error::Error;
use std::io::Write;

use vezhnake::{Code, Message, NewMessage, Refusal};

type Result<T> = std::result::Result<T, Box<dyn Error>>;

const OFFICE: u64 = 1;
const WRITER: u64 = 3;
const READER: u64 = 5;
const VIEWER: u64 = 7;
/// Registers of the office.
const SELF: u8 = 1;
const ANSWER: u8 = 5;
const MAILBOX: u8 = 6;
const BANK: u8 = 7;
const LETTER: u8 = 8;
/// Registers of a client, and of the viewer.
const DESK: u8 = 3;
const NOTES: u8 = 6;
const VIEW: u8 = 1;
/// Registers of whoever gets a reply.
const RESULT: u8 = 28;
const CALLER: u8 = 31;
const SLOTS: u64 = 32;

/// An order of a process, a page, a node or a bank, by its number.
mod order {
    pub const PUT_REGISTER: u64 = 2;
    pub const READ: u64 = 1;
    pub const WRITE: u64 = 2;
    pub const FETCH: u64 = 1;
    pub const STORE: u64 = 2;
    pub const NEW_PAGE: u64 = 1;
    pub const FREE: u64 = 5;
}

/// What a client wishes, by the word that it sends.
#[derive(Clone, Copy, PartialEq)]
enum Wish {
    Deliver = 1,
    Take = 2,
}

/// What the office answers, by its first word.
enum Answer {
    Done = 0,
    NotNow = 1,
}

/// A process of the machine, as its code sees it. `words` are those sent to it last.
struct Process<'a> {
    machine: &'a mut vezhnake::Machine,
    number: u64,
    is_running: bool,
    words: Vec<u64>,
}

impl<'a> Process<'a> {
    fn of(machine: &'a mut vezhnake::Machine, number: u64) -> Result<Self> {
        let shown = machine.show(number)?;
        let first: Vec<_> = shown
            .lines()
            .next()
            .unwrap_or_default()
            .split(' ')
            .collect();
        let words = first
            .iter()
            .skip_while(|it| **it != "words")
            .skip(1)
            .take(4);
        Ok(Process {
            is_running: first.contains(&"running"),
            words: words
                .map(|it| it.parse())
                .collect::<std::result::Result<_, _>>()?,
            machine,
            number,
        })
    }

    /// The other words of a kernel object's reply.
    fn call(&mut self, register: u8, message: impl Into<Message>) -> vezhnake::Result<Vec<u64>> {
        Ok(self.machine.call(self.number, register, message)?.values)
    }

    /// Moves what came with a reply, because the next reply overwrites it.
    fn keep(&mut self, from: u8, register: u8) -> Result<()> {
        self.call(SELF, [order::PUT_REGISTER, register.into()].sending([from]))?;
        Ok(())
    }
}

/// Keeps a letter in a new page of the bank, unless the bank is at its limit.
fn deliver(me: &mut Process, number: u64, text: u64) -> Result<Message> {
    match me.call(BANK, [order::NEW_PAGE]) {
        Err(vezhnake::Error::Order(..)) => return Ok([Answer::NotNow as u64].into()),
        other => other?,
    };
    me.keep(RESULT, LETTER)?;
    me.call(LETTER, [order::WRITE, 0, number])?;
    me.call(LETTER, [order::WRITE, 1, text])?;
    me.call(MAILBOX, [order::STORE, number % SLOTS].sending([LETTER]))?;
    Ok([Answer::Done as u64].into())
}

/// Hands a letter out, and frees its page.
fn take(me: &mut Process, number: u64) -> Result<Message> {
    me.call(MAILBOX, [order::FETCH, number % SLOTS])?;
    me.keep(RESULT, LETTER)?;
    let text = match me.call(LETTER, [order::READ, 1]) {
        Err(vezhnake::Error::Order(..)) => return Ok([Answer::NotNow as u64].into()),
        other => other?[0],
    };
    me.call(MAILBOX, [order::STORE, number % SLOTS])?;
    me.call(BANK, [order::FREE].sending([LETTER]))?;
    Ok([Answer::Done as u64, number, text].into())
}

/// Does what a client wishes, and answers.
fn office(me: &mut Process) -> Result<()> {
    let (wish, number, text) = (me.words[0], me.words[1], me.words[2]);
    me.keep(CALLER, ANSWER)?;
    let answer = if wish == Wish::Deliver as u64 {
        deliver(me, number, text)?
    } else {
        take(me, number)?
    };
    me.machine.return_(OFFICE, ANSWER, answer)?;
    Ok(())
}

/// The code of a client. Its page has the number of its last letter, and whether it awaits an answer. Returns that number if it rose.
fn client(me: &mut Process, wish: Wish) -> Result<Option<u64>> {
    let (answer, text) = (me.words[0], me.words[2]);
    let next = me.call(NOTES, [order::READ, 0])?[0] + 1;
    let awaits = me.call(NOTES, [order::READ, 1])?[0] != 0;
    me.call(NOTES, [order::WRITE, 1, u64::from(!awaits)])?;
    if !awaits {
        match me
            .machine
            .call(me.number, DESK, [wish as u64, next, next * next])
        {
            // The office serves another client.
            Err(vezhnake::Error::Refused(Refusal::Stalled)) => {
                me.call(NOTES, [order::WRITE, 1, 0])?
            }
            other => other?.values,
        };
        return Ok(None);
    }
    // This run is the answer. The next one calls again, so that another client comes first.
    if answer == Answer::NotNow as u64 {
        return Ok(None);
    }
    me.call(NOTES, [order::WRITE, 0, next])?;
    if wish == Wish::Take && text != next * next {
        return Err(format!("letter {next} says {text}").into());
    }
    Ok(Some(next))
}

/// Counts the letters, and is refused where it tries to take one.
fn viewer(me: &mut Process) -> Result<usize> {
    let waiting = me
        .machine
        .show(9)?
        .lines()
        .filter(|it| it.starts_with("slot "))
        .count();
    me.call(VIEW, [order::FETCH, 0])?;
    match me.call(VIEW, [order::STORE, 0]) {
        Err(vezhnake::Error::Order(Code::NoAccess, _)) => Ok(waiting),
        _ => Err("the viewer changed the mailbox".into()),
    }
}

/// Runs a process, and returns what to print.
fn turn(me: &mut Process) -> Result<Option<String>> {
    Ok(match me.number {
        OFFICE => office(me).map(|()| None)?,
        WRITER => client(me, Wish::Deliver)?.map(|it| format!("sent {it}")),
        READER => client(me, Wish::Take)?.map(|it| format!("read {it}")),
        _ => Some(viewer(me)?)
            .filter(|it| *it > 0)
            .map(|it| format!("waiting {it}")),
    })
}

fn main() -> Result<()> {
    let words: Vec<_> = std::env::args().collect();
    let [_, image, turns] = &words[..] else {
        return Err("usage: post_office IMAGE TURNS".into());
    };
    let mut machine = vezhnake::Machine::open(image)?;
    for _ in 0..turns.parse::<u64>()? {
        for number in [OFFICE, WRITER, READER, VIEWER] {
            let mut process = Process::of(&mut machine, number)?;
            let said = if process.is_running {
                turn(&mut process)?
            } else {
                None
            };
            machine.save()?;
            if let Some(line) = said {
                println!("{line}");
                std::io::stdout().flush()?;
            }
        }
    }
    Ok(())
}
