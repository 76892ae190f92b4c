//! Runs the lines of a script by the crate's calls, and prints their answers as `eros run` does.
//!
//! usage: `lines IMAGE < SCRIPT`
use std::error::Error;
use std::io::{self, BufRead, Write};
use vezhnake::{Error as Failed, Invocation, Kind, Machine, Message, Operation, Refusal, Reply};

/// The words of an answer.
fn answer(reply: &Reply) -> String {
    let kind = match reply.kind {
        Kind::Done => "done",
        Kind::Value => "value",
        Kind::Frozen => "frozen",
        Kind::Left => "left",
        Kind::Committed => "committed",
        Kind::Journaled => "journaled",
        Kind::At => "at",
        _ => "another answer",
    };
    let numbers = reply.values.iter().map(|it| format!(" {it}"));
    kind.to_owned() + &numbers.collect::<String>()
}

/// The words of a refusal.
fn refused(refusal: &Refusal) -> String {
    match refusal {
        Refusal::MemoryFault(reason) => format!("memory fault {reason}"),
        Refusal::NotStable(left) => format!("not stable {left}"),
        Refusal::NotJournaled(reason) => format!("not journaled {reason}"),
        Refusal::NoProcess => "no process".into(),
        Refusal::NotRunning => "not running".into(),
        Refusal::Stalled => "stalled".into(),
        Refusal::LogFull => "log full".into(),
        Refusal::CheckpointRunning => "checkpoint running".into(),
        Refusal::MigrationPending => "migration pending".into(),
        Refusal::NoCheckpoint => "no checkpoint".into(),
        Refusal::BadNumber => "bad number".into(),
        other => format!("{other:?}").to_lowercase(),
    }
}

/// The invocation of a line, if it is one.
fn invocation(name: &str, numbers: &[u64]) -> Option<Invocation> {
    let operation = match name {
        "call" => Operation::Call,
        "return" => Operation::Return,
        "send" => Operation::Send,
        _ => return None,
    };
    let [process, register, words @ .., a, b, c, d] = numbers else {
        return None;
    };
    let small = |number: &u64| u8::try_from(*number).ok();
    Some(Invocation {
        operation,
        process: *process,
        register: small(register)?,
        message: Message {
            words: words.try_into().ok()?,
            sent: [small(a)?, small(b)?, small(c)?, small(d)?],
        },
    })
}

/// Carries out a line that the crate has a call for. `None` for others.
fn carry_out(machine: &mut Machine, line: &str) -> Option<vezhnake::Result<String>> {
    let mut words = line.split(' ');
    let name = words.next()?;
    let numbers: Vec<u64> = words.map(str::parse).collect::<Result<_, _>>().ok()?;
    if let Some(invocation) = invocation(name, &numbers) {
        let replies = machine.invoke_all(&[invocation]);
        return Some(replies.and_then(|it| it.into_iter().map(|it| Ok(answer(&it?))).collect()));
    }
    let numbered =
        |word: &str, number: vezhnake::Result<u64>| number.map(|it| format!("{word} {it}"));
    Some(match (name, &numbers[..]) {
        ("load", [process, address]) => numbered("value", machine.load(*process, *address)),
        ("store", [process, address, value]) => machine
            .store(*process, *address, *value)
            .map(|()| "done".into()),
        ("evict", [object]) => machine.evict(*object).map(|()| "done".into()),
        ("checkpoint", []) => numbered("frozen", machine.checkpoint()),
        ("stabilize", [count]) => numbered("left", machine.stabilize(*count)),
        ("commit", []) => numbered("committed", machine.commit()),
        ("migrate", [count]) => numbered("left", machine.migrate(*count)),
        ("journal", [page]) => numbered("journaled", machine.journal(*page)),
        _ => return None,
    })
}

fn main() -> Result<(), Box<dyn Error>> {
    let words: Vec<_> = std::env::args().collect();
    let [_, image] = &words[..] else {
        return Err("usage: lines IMAGE < SCRIPT".into());
    };
    let mut machine = Machine::open(image)?;
    let mut output = io::stdout().lock();
    for line in io::stdin().lock().lines() {
        let line = line?;
        match carry_out(&mut machine, &line) {
            Some(Ok(answer)) => writeln!(output, "{answer}")?,
            Some(Err(Failed::Refused(refusal))) => writeln!(output, "{}", refused(&refusal))?,
            Some(Err(error)) => return Err(error.into()),
            None => output.write_all(&machine.run(line.as_bytes())?)?,
        }
    }
    Ok(())
}
