//! Sessions of roman within a process: a safe wrapper of libroman. `roman.h` describes the calls.

use std::{error, fmt, os::raw::c_void, ptr};

#[repr(C)]
struct Handle {
    at: *mut c_void,
    full: bool,
}

const NONE: Handle = Handle { at: ptr::null_mut(), full: false };

extern "C" {
    fn roman_add(shelf: *mut Handle, name: *const u8, name_len: usize, text: *const u8, text_len: usize) -> u32;
    fn roman_open(session: *mut Handle, shelf: *mut Handle, name: *const u8, name_len: usize) -> u32;
    fn roman_answer(session: *mut Handle, line: *const u8, line_len: usize) -> u32;
    fn roman_reply(session: *mut Handle, from: usize, into: *mut u8, room: usize) -> usize;
    fn roman_close(session: *mut Handle);
    fn roman_clear(shelf: *mut Handle);
}

/// The status of a line whose event is accepted.
pub const OK: u32 = 0;
/// The status of the line `quit`.
pub const QUIT: u32 = 1;
const MEMORY: u32 = 9;

/// The reason why a text can't be added, a document can't be opened or a line can't be answered.
#[derive(Debug)]
pub struct Error {
    /// The status of `roman.h`.
    pub status: u32,
    /// The program's line with the reason. It is empty if there is none.
    pub line: String,
}

impl fmt::Display for Error {
    fn fmt(&self, out: &mut fmt::Formatter<'_>) -> fmt::Result {
        write!(out, "status {} {}", self.status, self.line.trim_end())
    }
}

impl error::Error for Error {}

/// Texts by their names.
pub struct Shelf(Handle);

// A handle may be passed to another thread. Each call takes it by `&mut`.
unsafe impl Send for Shelf {}

impl Shelf {
    /// An empty shelf.
    pub fn new() -> Shelf {
        Shelf(NONE)
    }

    /// Adds a text. If several texts have one name, the last one counts.
    pub fn add(&mut self, name: &str, text: &[u8]) -> Result<(), Error> {
        match unsafe { roman_add(&mut self.0, name.as_ptr(), name.len(), text.as_ptr(), text.len()) } {
            OK => Ok(()),
            status => Err(Error { status, line: String::new() }),
        }
    }
}

impl Default for Shelf {
    fn default() -> Shelf {
        Shelf::new()
    }
}

impl Drop for Shelf {
    fn drop(&mut self) {
        unsafe { roman_clear(&mut self.0) }
    }
}

/// A session of a document.
pub struct Session(Handle);

// As for `Shelf`.
unsafe impl Send for Session {}

impl Session {
    /// Opens the document of that name on the shelf.
    pub fn open(shelf: &mut Shelf, name: &str) -> Result<Session, Error> {
        let mut session = Session(NONE);
        match unsafe { roman_open(&mut session.0, &mut shelf.0, name.as_ptr(), name.len()) } {
            OK => Ok(session),
            status => Err(Error { status, line: session.reply() }),
        }
    }

    /// Answers a line. Returns the status, which is `OK`, `QUIT` or that of a refusal, and the reply.
    pub fn answer(&mut self, line: &str) -> Result<(u32, String), Error> {
        match unsafe { roman_answer(&mut self.0, line.as_ptr(), line.len()) } {
            MEMORY => Err(Error { status: MEMORY, line: String::new() }),
            status => Ok((status, self.reply())),
        }
    }

    fn reply(&mut self) -> String {
        let mut bytes = vec![0; 256];
        let length = unsafe { roman_reply(&mut self.0, 0, bytes.as_mut_ptr(), bytes.len()) };
        let first = bytes.len().min(length);
        bytes.resize(length, 0);
        if length > first {
            unsafe { roman_reply(&mut self.0, first, bytes[first..].as_mut_ptr(), length - first) };
        }
        String::from_utf8_lossy(&bytes).into_owned()
    }
}

impl Drop for Session {
    fn drop(&mut self) {
        unsafe { roman_close(&mut self.0) }
    }
}
