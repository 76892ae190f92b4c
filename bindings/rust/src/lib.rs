//! A persistent machine of objects and capabilities over your storage.
//!
//! The machine is proved. This crate carries out its device calls, and is not proved. It has no dependencies, and links the library
//! statically.
//!
//! ```
//! # fn main() -> Result<(), vezhnake::Error> {
//! // In this image process 1 holds page 16 in register 6.
//! let mut image = vezhnake::example_image();
//! let mut machine = vezhnake::Machine::over(&mut image, 0)?;
//! // Order 2 writes 99 into word 3 of the page.
//! machine.call(1, 6, [2, 3, 99])?;
//! assert_eq!(machine.save()?, 1);
//! drop(machine);
//!
//! let mut machine = vezhnake::Machine::over(&mut image, 0)?;
//! assert_eq!(machine.page(16)?[3], 99);
//! // Order 1 reads a word. Word 512 doesn't exist.
//! assert_eq!(machine.call(1, 6, [1, 3])?.values, [99, 0, 0]);
//! assert!(matches!(machine.call(1, 6, [1, 512]), Err(vezhnake::Error::Order(vezhnake::Code::BadIndex, _))));
//! # Ok(())
//! # }
//! ```
//!
//! [`build`] makes the image of a description. [`Machine::open`] opens a file, which `eros build` makes too:
//!
//! ```no_run
//! let mut machine = vezhnake::Machine::open("first.image")?;
//! machine.call(1, 6, [2, 3, 99])?;
//! machine.save()?;
//! # Ok::<(), vezhnake::Error>(())
//! ```
#![deny(unsafe_op_in_unsafe_fn, missing_debug_implementations, missing_docs)]

mod commands;
mod error;
mod example;
mod images;
mod machine;
mod message;
mod storage;
mod sys;

pub use commands::{Invocation, Kind, Operation, Reply};
pub use error::{BadDescription, BadImage, Code, Error, Refusal, Result};
pub use example::example_image;
pub use images::{build, check, describe, explain, explain_description, Info};
pub use machine::{Machine, ALL};
pub use message::{Message, NewMessage};
pub use storage::{FileStorage, Storage};
