//! The calls of the C interface, with slices in place of pointers and lengths. All `unsafe` code is here.

/// What the library answers: why it refuses, or 0, and how many bytes it wrote.
#[repr(C)]
#[derive(Clone, Copy, Debug)]
pub struct Answer {
    pub refusal: u32,
    pub length: usize,
}

pub const WRITTEN: u32 = 0;
pub const SHORT_BUFFER: u32 = 20;
pub const NO_MEMORY: u32 = 255;

unsafe extern "C" {
    fn faultsieve_check(book: *const u8, book_len: usize, line: *mut u8, line_len: usize) -> Answer;
    fn faultsieve_script(script: *const u8, script_len: usize, transcript: *mut u8, transcript_len: usize) -> Answer;
}

pub fn check(book: &[u8], line: &mut [u8]) -> Answer {
    // SAFETY: each pointer comes with the length of its own slice, and is not null even where the slice is empty.
    // The borrows last over the call and do not overlap, and the library keeps no pointer.
    unsafe { faultsieve_check(book.as_ptr(), book.len(), line.as_mut_ptr(), line.len()) }
}

pub fn script(script: &[u8], transcript: &mut [u8]) -> Answer {
    // SAFETY: as in `check`. Memory comes from the C library's `malloc`, which aligns blocks as the library wants them.
    unsafe { faultsieve_script(script.as_ptr(), script.len(), transcript.as_mut_ptr(), transcript.len()) }
}
