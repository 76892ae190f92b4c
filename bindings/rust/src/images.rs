//! Images as bytes: built from descriptions, checked, described, explained.
use crate::error::{Error, Result};
use crate::sys;

/// What an image has, as `eros info` prints it.
#[derive(Debug, Clone, PartialEq, Eq, Hash)]
#[non_exhaustive]
pub struct Info {
    /// The version of the layout.
    pub layout: u64,
    /// How many numbers are of nodes.
    pub nodes: u64,
    /// How many numbers are of pages.
    pub pages: u64,
    /// How many slots each half of the log has.
    pub log: u64,
    /// How many sectors of 512 bytes it takes.
    pub sectors: u64,
    /// The generation of the checkpoint that it saves.
    pub generation: u64,
    /// The age of that.
    pub age: u64,
    /// How many of its objects are still in the log.
    pub entries: u64,
    /// How many numbers are free.
    pub free: u64,
    /// How many pages there are.
    pub page_objects: u64,
    /// How many nodes there are.
    pub node_objects: u64,
    /// How many processes there are, each of two objects.
    pub processes: u64,
    /// How many banks there are.
    pub banks: u64,
    /// The home ranges: the first number, and how many.
    pub ranges: Vec<(u64, u64)>,
}

/// What a call of the library copies to a buffer, which has `size` bytes at first.
fn copied(call: sys::Copying, data: &[u8], size: usize) -> Result<Vec<u8>> {
    let mut buffer = vec![0; size];
    loop {
        let mut length = 0;
        // Safety: each pointer and size are those of one slice.
        let status = unsafe {
            call(
                data.as_ptr(),
                data.len(),
                buffer.as_mut_ptr(),
                buffer.len(),
                &mut length,
            )
        };
        match status {
            0 => {
                buffer.truncate(length);
                return Ok(buffer);
            }
            sys::SMALL_BUFFER => buffer = vec![0; length],
            _ => return Err(Error::of(status)),
        }
    }
}

fn text(call: sys::Copying, data: &[u8], size: usize) -> Result<String> {
    Ok(String::from_utf8_lossy(&copied(call, data, size)?).into_owned())
}

/// The image of a description, which is a text in TOML: storage for [`Machine::over`](crate::Machine::over).
pub fn build(description: &str) -> Result<Vec<u8>> {
    copied(sys::vezhnake_build, description.as_bytes(), 0)
}

/// What an image has, if it can be opened.
pub fn check(image: &[u8]) -> Result<Info> {
    let mut raw = sys::Info::default();
    // Safety: the pointer and the size are those of the image.
    match unsafe { sys::vezhnake_check(image.as_ptr(), image.len(), &mut raw) } {
        0 => Ok(Info {
            layout: raw.layout,
            nodes: raw.nodes,
            pages: raw.pages,
            log: raw.log,
            sectors: raw.sectors,
            generation: raw.generation,
            age: raw.age,
            entries: raw.entries,
            free: raw.free,
            page_objects: raw.page_objects,
            node_objects: raw.node_objects,
            processes: raw.processes,
            banks: raw.banks,
            ranges: raw
                .ranges
                .iter()
                .take(raw.ranges_count as usize)
                .map(|it| (it.first, it.count))
                .collect(),
        }),
        status => Err(Error::of(status)),
    }
}

/// The description of all that an image saves.
pub fn describe(image: &[u8]) -> Result<String> {
    text(sys::vezhnake_describe, image, 1 << 16)
}

/// `ok`, or where an image breaks which rule, and what is wrong there.
pub fn explain(image: &[u8]) -> Result<String> {
    text(sys::vezhnake_explain, image, 1 << 10)
}

/// `ok`, or where a description breaks which rule, and what is wrong there.
pub fn explain_description(description: &str) -> Result<String> {
    text(sys::vezhnake_explain_text, description.as_bytes(), 1 << 10)
}
