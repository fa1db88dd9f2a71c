//! The exports of the proved library, each with a buffer of some room.

use std::ffi::c_uint;

mod raw {
    use std::ffi::c_uint;

    // As crates/alike_c/src/exports.rt says: a slice is a pointer and a length, and the heap takes no bytes.
    extern "C" {
        pub fn alike_files_line(
            left: *const u8,
            left_length: usize,
            right: *const u8,
            right_length: usize,
            out: *mut u8,
            room: usize,
        ) -> usize;
        pub fn alike_file_text(file: *const u8, length: usize, out: *mut u8, room: usize) -> usize;
        pub fn alike_trace_text(
            file: *const u8,
            file_length: usize,
            trace: *const u8,
            trace_length: usize,
            out: *mut u8,
            room: usize,
        ) -> usize;
        pub fn alike_experiment_text(
            card: *const u8,
            card_length: usize,
            test: *const u8,
            test_length: usize,
            out: *mut u8,
            room: usize,
        ) -> usize;
        pub fn alike_counters(first: c_uint, second: c_uint, out: *mut u8, room: usize) -> usize;
        pub fn alike_read_words(words: *const u32, length: usize, out: *mut u32, room: usize) -> usize;
        pub fn alike_calls(
            left: *const u8,
            left_length: usize,
            right: *const u8,
            right_length: usize,
            calls: *const u32,
            calls_length: usize,
            replies: *mut u32,
            room: usize,
        ) -> usize;
    }
}

/// What a call told, and its buffer before and after.
pub struct Told<T> {
    pub length: usize,
    pub before: Vec<T>,
    pub after: Vec<T>,
}

impl<T: Copy + PartialEq> Told<T> {
    fn by(mut buffer: Vec<T>, call: impl FnOnce(&mut [T]) -> usize) -> Told<T> {
        let before = buffer.clone();
        let length = call(&mut buffer);
        Told { length, before, after: buffer }
    }

    /// Whether the call told what is expected, put it at the head of the buffer where there was room for it, and touched nothing else.
    pub fn is(&self, expected: &[T]) -> bool {
        let written = if expected.len() <= self.before.len() { expected.len() } else { 0 };
        self.length == expected.len()
            && self.after.len() == self.before.len()
            && self.after[..written] == expected[..written]
            && self.after[written..] == self.before[written..]
    }
}

pub fn files_line(left: &[u8], right: &[u8], buffer: Vec<u8>) -> Told<u8> {
    Told::by(buffer, |out| unsafe {
        raw::alike_files_line(left.as_ptr(), left.len(), right.as_ptr(), right.len(), out.as_mut_ptr(), out.len())
    })
}

pub fn file_text(file: &[u8], buffer: Vec<u8>) -> Told<u8> {
    Told::by(buffer, |out| unsafe { raw::alike_file_text(file.as_ptr(), file.len(), out.as_mut_ptr(), out.len()) })
}

pub fn trace_text(file: &[u8], trace: &[u8], buffer: Vec<u8>) -> Told<u8> {
    Told::by(buffer, |out| unsafe {
        raw::alike_trace_text(file.as_ptr(), file.len(), trace.as_ptr(), trace.len(), out.as_mut_ptr(), out.len())
    })
}

pub fn experiment_text(card: &[u8], test: &[u8], buffer: Vec<u8>) -> Told<u8> {
    Told::by(buffer, |out| unsafe {
        raw::alike_experiment_text(card.as_ptr(), card.len(), test.as_ptr(), test.len(), out.as_mut_ptr(), out.len())
    })
}

pub fn counters(first: u32, second: u32, buffer: Vec<u8>) -> Told<u8> {
    Told::by(buffer, |out| unsafe {
        raw::alike_counters(first as c_uint, second as c_uint, out.as_mut_ptr(), out.len())
    })
}

pub fn read_words(words: &[u32], buffer: Vec<u32>) -> Told<u32> {
    Told::by(buffer, |out| unsafe { raw::alike_read_words(words.as_ptr(), words.len(), out.as_mut_ptr(), out.len()) })
}

pub fn calls(left: &[u8], right: &[u8], calls: &[u32], buffer: Vec<u32>) -> Told<u32> {
    Told::by(buffer, |out| unsafe {
        raw::alike_calls(
            left.as_ptr(),
            left.len(),
            right.as_ptr(),
            right.len(),
            calls.as_ptr(),
            calls.len(),
            out.as_mut_ptr(),
            out.len(),
        )
    })
}
