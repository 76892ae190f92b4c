//! A machine over storage, and its commands.
use crate::commands::{Invocation, Operation, Reply};
use crate::error::{Code, Error, Refusal, Result};
use crate::message::Message;
use crate::storage::{FileStorage, Storage};
use crate::sys;
use std::path::Path;
use std::{fmt, io, ptr};

/// All objects that there are to stabilize or to migrate.
pub const ALL: u64 = u64::MAX;
const WORDS: usize = 512;
/// A call of the device begins with two numbers: where it writes, and how many bytes. A sync has this number.
const HEADER: usize = 16;
const SYNC: u64 = u64::MAX;

/// A handle, which is closed when it is dropped.
#[derive(Debug)]
struct Handle(sys::Handle);

impl Handle {
    fn close(&mut self) {
        if self.0.is_open {
            // Safety: the handle is open and our own.
            unsafe { sys::vezhnake_close(&mut self.0) };
        }
    }
}

impl Drop for Handle {
    fn drop(&mut self) {
        self.close();
    }
}

/// A machine over storage, which is closed when it is dropped. What was not saved is lost then.
///
/// A method returns once the storage has carried out the device calls.
pub struct Machine<S: Storage = FileStorage> {
    handle: Handle,
    storage: S,
    buffer: Vec<u8>,
}

// Safety: the library has no state but what a handle owns, and any thread may use a handle, one at a time.
unsafe impl<S: Storage + Send> Send for Machine<S> {}

impl<S: Storage> fmt::Debug for Machine<S> {
    fn fmt(&self, f: &mut fmt::Formatter<'_>) -> fmt::Result {
        f.debug_struct("Machine")
            .field("is_open", &self.is_open())
            .finish_non_exhaustive()
    }
}

impl Machine<FileStorage> {
    /// Opens the image in a file or on a block device, which is locked until the machine is dropped.
    pub fn open(path: impl AsRef<Path>) -> Result<Self> {
        Machine::over(FileStorage::open(path).map_err(Error::Storage)?, 0)
    }
}

impl<S: Storage> Machine<S> {
    /// Opens the image in storage. `cache` is the most objects in memory, 8 to 8192, or 0 for all.
    pub fn over(mut storage: S, cache: u64) -> Result<Self> {
        let image = storage.read().map_err(Error::Storage)?;
        let mut handle = Handle(sys::Handle {
            session: ptr::null_mut(),
            is_open: false,
        });
        // Safety: the pointer and the size are those of the image, and the handle is closed and our own.
        let status =
            unsafe { sys::vezhnake_open(image.as_ptr(), image.len(), cache, &mut handle.0) };
        if status != 0 {
            return Err(Error::of(status));
        }
        Ok(Machine {
            handle,
            storage,
            buffer: vec![0; 1 << 16],
        })
    }

    /// Whether the machine is open. It is closed after its storage failed or memory ran out.
    pub fn is_open(&self) -> bool {
        self.handle.0.is_open
    }

    /// Closes the machine and returns its storage. What was not saved is lost.
    pub fn into_storage(self) -> S {
        self.storage
    }

    /// Runs the lines of a text, carries out their device calls, and returns the answers as `eros run` writes them. No answer is an error.
    pub fn run(&mut self, text: &[u8]) -> Result<Vec<u8>> {
        let done = self
            .step_text(text)
            .and_then(|answers| self.carry_out().map(|()| answers));
        if done.is_err() {
            self.handle.close();
        }
        done
    }

    /// Runs one line and returns its answer, without the last newline. No answer is an error.
    pub fn step(&mut self, line: &str) -> Result<String> {
        let mut answer = String::from_utf8_lossy(&self.run(line.as_bytes())?).into_owned();
        if answer.ends_with('\n') {
            answer.pop();
        }
        Ok(answer)
    }

    /// Runs one line whose answer is one line.
    pub fn command(&mut self, line: &str) -> Result<Reply> {
        Reply::of(&self.step(line)?)
    }

    /// The process invokes the capability in its register. The code is `None` if no kernel object replied. A result code other than success
    /// is an error.
    pub fn invoke(
        &mut self,
        operation: Operation,
        process: u64,
        register: u8,
        message: impl Into<Message>,
    ) -> Result<Reply> {
        let message = message.into();
        let invocation = Invocation {
            operation,
            process,
            register,
            message,
        };
        let reply = self.one(sys::Command::from(&invocation))?;
        match reply.code {
            None | Some(Code::Success) => Ok(reply),
            Some(code) => Err(Error::Order(code, [0; 3])),
        }
    }

    /// Makes invocations, one after another, in one call of the library. Returns the reply to each, or why it was refused. A result code
    /// other than success is in the reply.
    pub fn invoke_all(&mut self, invocations: &[Invocation]) -> Result<Vec<Result<Reply>>> {
        let commands: Vec<_> = invocations.iter().map(sys::Command::from).collect();
        let replies = self.serve(&commands)?;
        Ok(replies.iter().map(sys::Reply::reply).collect())
    }

    /// The process calls the capability in its register, as `invoke`, and gets the reply: the values are its words after the code, also in
    /// the error. After a call of another process the code is `None`.
    pub fn call(
        &mut self,
        process: u64,
        register: u8,
        message: impl Into<Message>,
    ) -> Result<Reply> {
        let replied = match self.invoke(Operation::Call, process, register, message) {
            Ok(reply) if reply.code.is_none() => return Ok(reply),
            Ok(reply) => Ok(reply),
            Err(Error::Order(code, _)) => Err(code),
            Err(error) => return Err(error),
        };
        let [_, values @ ..] = self.words_of(process)?;
        match replied {
            Ok(mut reply) => {
                reply.values = values.to_vec();
                Ok(reply)
            }
            Err(code) => Err(Error::Order(code, values)),
        }
    }

    /// The process invokes the capability in its register, as `invoke`, and goes on.
    pub fn send(
        &mut self,
        process: u64,
        register: u8,
        message: impl Into<Message>,
    ) -> Result<Reply> {
        self.invoke(Operation::Send, process, register, message)
    }

    /// The process invokes the capability in its register, as `invoke`, and becomes available.
    pub fn return_(
        &mut self,
        process: u64,
        register: u8,
        message: impl Into<Message>,
    ) -> Result<Reply> {
        self.invoke(Operation::Return, process, register, message)
    }

    /// The word at an address of the process.
    pub fn load(&mut self, process: u64, address: u64) -> Result<u64> {
        self.number(sys::Command::LOAD, process, [address, 0])
    }

    /// Writes the word at an address of the process.
    pub fn store(&mut self, process: u64, address: u64, value: u64) -> Result<()> {
        self.one(sys::Command::new(
            sys::Command::STORE,
            process,
            [address, value],
        ))
        .map(drop)
    }

    /// Requests that an object leave the cache.
    pub fn evict(&mut self, object: u64) -> Result<()> {
        self.one(sys::Command::new(sys::Command::EVICT, object, [0; 2]))
            .map(drop)
    }

    /// The lines of an object, the last of which is `end`.
    pub fn show(&mut self, object: u64) -> Result<String> {
        let answer = self.step(&format!("show {object}"))?;
        if answer.ends_with("\nend") {
            Ok(answer)
        } else {
            Err(Error::Refused(Refusal::from(answer.as_str())))
        }
    }

    /// The words of a page.
    pub fn page(&mut self, object: u64) -> Result<[u64; WORDS]> {
        const PAGE: u64 = 1;
        let mut page = sys::Page { words: [0; WORDS] };
        let mut reply = sys::Reply::default();
        // Safety: the handle is our own, and the page and the reply are writable.
        let status =
            unsafe { sys::vezhnake_page(&mut self.handle.0, object, &mut page, &mut reply) };
        self.perform(status)?;
        match reply.kind {
            sys::Reply::SHOWN if reply.second == PAGE => Ok(page.words),
            sys::Reply::SHOWN => Err(Error::Refused(Refusal::Other(format!(
                "object {object} is no page"
            )))),
            _ => Err(Error::Refused(reply.refusal())),
        }
    }

    /// Saves the state in one step, and returns the generation: migrates what an earlier run left, freezes, stabilizes, commits and
    /// migrates. The first of these that is refused is the error.
    pub fn save(&mut self) -> Result<u64> {
        const COMMIT: usize = 3;
        let (mut replies, mut served) = ([sys::Reply::default(); sys::STAGES], 0);
        // Safety: the handle is our own, and there are so many replies.
        let status = unsafe {
            let handle = &mut self.handle.0;
            sys::vezhnake_save(handle, replies.as_mut_ptr(), sys::STAGES, &mut served)
        };
        self.perform(status)?;
        for reply in &replies[..served] {
            reply.reply()?;
        }
        Ok(replies[COMMIT].first)
    }

    /// Freezes the state, and returns how many objects were written since the last checkpoint.
    pub fn checkpoint(&mut self) -> Result<u64> {
        self.number(sys::Command::CHECKPOINT, 0, [0; 2])
    }

    /// Writes up to this many frozen objects to the log, and returns how many are left.
    pub fn stabilize(&mut self, count: u64) -> Result<u64> {
        self.number(sys::Command::STABILIZE, count, [0; 2])
    }

    /// Makes the frozen state the saved one, and returns its generation.
    pub fn commit(&mut self) -> Result<u64> {
        self.number(sys::Command::COMMIT, 0, [0; 2])
    }

    /// Copies up to this many saved objects from the log to their homes, and returns how many are left.
    pub fn migrate(&mut self, count: u64) -> Result<u64> {
        self.number(sys::Command::MIGRATE, count, [0; 2])
    }

    /// Saves one page as it is now, and returns the generation.
    pub fn journal(&mut self, page: u64) -> Result<u64> {
        self.number(sys::Command::JOURNAL, page, [0; 2])
    }

    /// Goes back to the saved state, and returns its generation.
    pub fn restart(&mut self) -> Result<u64> {
        self.number(sys::Command::RESTART, 0, [0; 2])
    }

    /// Serves a command whose answer has a number.
    fn number(&mut self, kind: u32, number: u64, words: [u64; 2]) -> Result<u64> {
        self.one(sys::Command::new(kind, number, words))?.number()
    }

    /// Serves one command.
    fn one(&mut self, command: sys::Command) -> Result<Reply> {
        match self.serve(&[command])?.first() {
            Some(reply) => reply.reply(),
            None => Err(Error::BadCommand),
        }
    }

    /// Serves commands, and returns the numbers of their answers.
    fn serve(&mut self, commands: &[sys::Command]) -> Result<Vec<sys::Reply>> {
        let (count, mut served) = (commands.len(), 0);
        let mut replies = vec![sys::Reply::default(); count];
        // Safety: the handle is our own, and there are so many commands and replies.
        let status = unsafe {
            let (from, to) = (commands.as_ptr(), replies.as_mut_ptr());
            sys::vezhnake_serve(&mut self.handle.0, from, count, to, count, &mut served)
        };
        self.perform(if status == sys::BAD_COMMAND {
            0
        } else {
            status
        })?;
        match status {
            sys::BAD_COMMAND => Err(Error::BadCommand),
            _ => Ok(replies),
        }
    }

    /// The words that a process was sent last.
    fn words_of(&mut self, process: u64) -> Result<[u64; 4]> {
        let (mut object, mut reply) = (sys::Object::default(), sys::Reply::default());
        // Safety: the handle is our own, and the object and the reply are writable.
        let status =
            unsafe { sys::vezhnake_show(&mut self.handle.0, process, &mut object, &mut reply) };
        self.perform(status)?;
        match reply.kind {
            sys::Reply::SHOWN => Ok(object.words),
            _ => Err(Error::Refused(reply.refusal())),
        }
    }

    /// Carries out the device calls after a call with this status. Closes the machine after an error.
    fn perform(&mut self, status: u32) -> Result<()> {
        let done = match status {
            0 => self.carry_out(),
            _ => Err(Error::of(status)),
        };
        if done.is_err() {
            self.handle.close();
        }
        done
    }

    /// Runs the lines of a text, and returns the answers.
    fn step_text(&mut self, text: &[u8]) -> Result<Vec<u8>> {
        let (mut size, room) = (0, self.buffer.len());
        let (handle, to) = (&mut self.handle.0, self.buffer.as_mut_ptr());
        // Safety: text and buffer have these sizes, and don't overlap.
        let mut status =
            unsafe { sys::vezhnake_step(handle, text.as_ptr(), text.len(), to, room, &mut size) };
        if status == sys::SMALL_BUFFER {
            self.buffer.resize(size, 0);
            // Safety: the buffer has this size.
            status =
                unsafe { sys::vezhnake_answer(handle, self.buffer.as_mut_ptr(), size, &mut size) };
        }
        if status == 0 {
            Ok(self.buffer[..size].to_vec())
        } else {
            Err(Error::of(status))
        }
    }

    /// Carries out the device calls that were not carried out yet.
    fn carry_out(&mut self) -> Result<()> {
        let mut size = 0;
        loop {
            let (to, room) = (self.buffer.as_mut_ptr(), self.buffer.len());
            // Safety: the buffer has this size.
            match unsafe { sys::vezhnake_calls(&mut self.handle.0, to, room, &mut size) } {
                0 => break,
                sys::SMALL_BUFFER => self.buffer.resize(size, 0),
                status => return Err(Error::of(status)),
            }
        }
        let mut rest = &self.buffer[..size];
        while !rest.is_empty() {
            let (byte, length) = header_of(rest).map_err(Error::Storage)?;
            rest = &rest[HEADER..];
            if byte == SYNC {
                self.storage.sync().map_err(Error::Storage)?;
                continue;
            }
            let (data, more) = rest.split_at(length);
            self.storage.write(byte, data).map_err(Error::Storage)?;
            rest = more;
        }
        Ok(())
    }
}

/// Where a call of the device writes, and how many bytes.
fn header_of(calls: &[u8]) -> io::Result<(u64, usize)> {
    let number = |place: usize| {
        calls
            .get(place..place + 8)
            .and_then(|it| it.try_into().ok())
            .map(u64::from_le_bytes)
    };
    match (number(0), number(8)) {
        (Some(byte), Some(length)) => Ok((byte, length as usize)),
        _ => Err(io::ErrorKind::UnexpectedEof.into()),
    }
}
