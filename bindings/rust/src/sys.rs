//! The C interface, as `include/vezhnake.h` declares it.
use std::ffi::c_void;

pub const SMALL_BUFFER: u32 = 16;
pub const BAD_COMMAND: u32 = 19;
/// The stages of a save.
pub const STAGES: usize = 5;
/// The result code where there is none.
pub const NO_CODE: u32 = u32::MAX;

/// A handle. The library owns what `session` points to.
#[repr(C)]
#[derive(Debug)]
pub struct Handle {
    pub session: *mut c_void,
    pub is_open: bool,
}

/// A command.
#[repr(C)]
#[derive(Debug, Clone, Copy)]
pub struct Command {
    pub kind: u32,
    pub register: u8,
    pub sent: [u8; 4],
    pub number: u64,
    pub words: [u64; 4],
}

/// An answer.
#[repr(C)]
#[derive(Debug, Clone, Copy, Default)]
pub struct Reply {
    pub kind: u32,
    pub code: u32,
    pub first: u64,
    pub second: u64,
}

/// The words of a page.
#[repr(C)]
pub struct Page {
    pub words: [u64; 512],
}

/// A capability.
#[repr(C)]
#[derive(Debug, Clone, Copy, Default)]
pub struct Capability {
    pub kind: u8,
    pub access: u8,
    pub height: u8,
    pub key: u16,
    pub object: u64,
}

/// An object.
#[repr(C)]
#[derive(Debug, Clone, Copy, Default)]
pub struct Object {
    pub kind: u32,
    pub state: u16,
    pub key: u16,
    pub owner: u64,
    pub annex: u64,
    pub words: [u64; 4],
    pub limit: u64,
    pub used: u64,
    pub space: Capability,
    pub slots: [Capability; 32],
}

/// A home range.
#[repr(C)]
#[derive(Debug, Clone, Copy, Default)]
pub struct Range {
    pub first: u64,
    pub count: u64,
}

/// What an image has.
#[repr(C)]
#[derive(Debug, Clone, Copy, Default)]
pub struct Info {
    pub layout: u64,
    pub nodes: u64,
    pub pages: u64,
    pub log: u64,
    pub sectors: u64,
    pub generation: u64,
    pub age: u64,
    pub entries: u64,
    pub free: u64,
    pub page_objects: u64,
    pub node_objects: u64,
    pub processes: u64,
    pub banks: u64,
    pub ranges_count: u64,
    pub ranges: [Range; 8],
}

/// A call that copies what it makes of bytes to a buffer.
pub type Copying = unsafe extern "C" fn(*const u8, usize, *mut u8, usize, *mut usize) -> u32;

extern "C" {
    pub fn vezhnake_build(
        text: *const u8,
        text_size: usize,
        image: *mut u8,
        image_size: usize,
        size: *mut usize,
    ) -> u32;
    pub fn vezhnake_check(image: *const u8, image_size: usize, info: *mut Info) -> u32;
    pub fn vezhnake_describe(
        image: *const u8,
        image_size: usize,
        text: *mut u8,
        text_size: usize,
        size: *mut usize,
    ) -> u32;
    pub fn vezhnake_explain(
        image: *const u8,
        image_size: usize,
        line: *mut u8,
        line_size: usize,
        size: *mut usize,
    ) -> u32;
    pub fn vezhnake_explain_text(
        text: *const u8,
        text_size: usize,
        line: *mut u8,
        line_size: usize,
        size: *mut usize,
    ) -> u32;
    pub fn vezhnake_open(image: *const u8, size: usize, cache: u64, handle: *mut Handle) -> u32;
    pub fn vezhnake_step(
        handle: *mut Handle,
        text: *const u8,
        text_size: usize,
        buffer: *mut u8,
        buffer_size: usize,
        size: *mut usize,
    ) -> u32;
    pub fn vezhnake_answer(
        handle: *mut Handle,
        buffer: *mut u8,
        buffer_size: usize,
        size: *mut usize,
    ) -> u32;
    pub fn vezhnake_calls(
        handle: *mut Handle,
        buffer: *mut u8,
        buffer_size: usize,
        size: *mut usize,
    ) -> u32;
    pub fn vezhnake_close(handle: *mut Handle) -> u32;
    pub fn vezhnake_serve(
        handle: *mut Handle,
        commands: *const Command,
        commands_count: usize,
        replies: *mut Reply,
        replies_count: usize,
        served: *mut usize,
    ) -> u32;
    pub fn vezhnake_save(
        handle: *mut Handle,
        replies: *mut Reply,
        replies_count: usize,
        served: *mut usize,
    ) -> u32;
    pub fn vezhnake_page(
        handle: *mut Handle,
        number: u64,
        page: *mut Page,
        reply: *mut Reply,
    ) -> u32;
    pub fn vezhnake_show(
        handle: *mut Handle,
        number: u64,
        object: *mut Object,
        reply: *mut Reply,
    ) -> u32;
}
