//! Answers the run file on standard input, a line for each question; of a text with a fault, tells the fault.

use std::ffi::c_void;
use std::io::{self, Read, Write};
use std::ptr;

// One byte more than the longest run file has, by which a longer one is told.
const MOST_READ: u64 = 65_537;

// How many bytes a buffer must have for a line.
const ROOM: usize = 64;

#[repr(C)]
struct Handle {
    made: bool,
    at: *mut c_void,
}

// The same as in zetampuy.h.
unsafe extern "C" {
    fn zetampuy_new(handle: *mut Handle) -> bool;
    fn zetampuy_free(handle: *mut Handle);
    fn zetampuy_questions(handle: *mut Handle, text: *const u8, length: usize) -> i32;
    fn zetampuy_answer(
        handle: *mut Handle,
        text: *const u8,
        length: usize,
        number: u32,
        out: *mut u8,
        room: usize,
    ) -> i32;
    fn zetampuy_fault(
        handle: *mut Handle,
        text: *const u8,
        length: usize,
        out: *mut u8,
        room: usize,
    ) -> i32;
}

/// A reckoner. It is neither `Send` nor `Sync`, since its handle holds a raw pointer.
pub struct Reckoner(Handle);

/// A line of output.
pub struct Line {
    buffer: [u8; ROOM],
    length: usize,
}

impl Line {
    // What a call put into a buffer, if it put a line.
    fn of(buffer: [u8; ROOM], told: i32) -> Option<Line> {
        let length = usize::try_from(told).ok().filter(|length| *length > 0)?;
        Some(Line { buffer, length })
    }

    /// Its bytes; the last is the line feed.
    pub fn bytes(&self) -> &[u8] {
        &self.buffer[..self.length]
    }
}

// SAFETY, in each call below: the handle is that of a reckoner which was made and is borrowed for the call alone, and pointers and
// lengths are those of slices which are borrowed too, so that they are not null and do not overlap.
impl Reckoner {
    /// A reckoner, or none where there is no memory for one.
    pub fn new() -> Option<Reckoner> {
        let mut handle = Handle {
            made: false,
            at: ptr::null_mut(),
        };
        unsafe { zetampuy_new(&mut handle) }.then_some(Reckoner(handle))
    }

    /// How many questions a run file asks; none where the text is no run file.
    pub fn questions(&mut self, text: &[u8]) -> Option<u32> {
        let count = unsafe { zetampuy_questions(&mut self.0, text.as_ptr(), text.len()) };
        u32::try_from(count).ok()
    }

    /// The line that answers a question of a run file, counted from 1.
    pub fn answer(&mut self, text: &[u8], number: u32) -> Option<Line> {
        let mut out = [0; ROOM];
        let told = unsafe {
            zetampuy_answer(
                &mut self.0,
                text.as_ptr(),
                text.len(),
                number,
                out.as_mut_ptr(),
                ROOM,
            )
        };
        Line::of(out, told)
    }

    /// The line that tells the fault of a text; none of a run file.
    pub fn fault(&mut self, text: &[u8]) -> Option<Line> {
        let mut out = [0; ROOM];
        let told = unsafe {
            zetampuy_fault(
                &mut self.0,
                text.as_ptr(),
                text.len(),
                out.as_mut_ptr(),
                ROOM,
            )
        };
        Line::of(out, told)
    }
}

impl Drop for Reckoner {
    fn drop(&mut self) {
        unsafe { zetampuy_free(&mut self.0) }
    }
}

fn main() -> io::Result<()> {
    let mut text = Vec::new();
    io::stdin().take(MOST_READ).read_to_end(&mut text)?;
    let mut reckoner = Reckoner::new().ok_or(io::ErrorKind::OutOfMemory)?;
    let mut output = io::stdout().lock();
    let Some(questions) = reckoner.questions(&text) else {
        let fault = reckoner.fault(&text).ok_or(io::ErrorKind::Other)?;
        return output.write_all(fault.bytes());
    };
    for number in 1..=questions {
        let line = reckoner.answer(&text, number).ok_or(io::ErrorKind::Other)?;
        output.write_all(line.bytes())?;
    }
    Ok(())
}
