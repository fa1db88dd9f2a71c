//! The proved code, by the calls of its static library. A slice passes as a pointer and a length.

extern "C" {
    fn alike_files_line(left: *const u8, l: usize, right: *const u8, r: usize, out: *mut u8, o: usize) -> usize;
    fn alike_file_text(file: *const u8, f: usize, out: *mut u8, o: usize) -> usize;
    fn alike_trace_text(file: *const u8, f: usize, trace: *const u8, t: usize, out: *mut u8, o: usize) -> usize;
    fn alike_experiment_text(card: *const u8, c: usize, test: *const u8, t: usize, out: *mut u8, o: usize) -> usize;
    fn alike_counters(first: u32, second: u32, out: *mut u8, o: usize) -> usize;
    fn alike_read_words(words: *const u32, w: usize, out: *mut u32, o: usize) -> usize;
}

/// No text and no card is longer: a line with a track of 2,048 actions of two digits has some 6,200 bytes.
const ROOM: usize = 16384;

/// The buffers that the calls write into.
pub struct Proved {
    text: Vec<u8>,
    words: Vec<u32>,
}

// Each pointer below is that of a slice and stands beside its length, and no slice that is written to is any other.
impl Proved {
    pub fn new() -> Proved {
        Proved { text: vec![0; ROOM], words: vec![0; 324] }
    }

    fn text(&mut self, call: impl FnOnce(*mut u8, usize) -> usize) -> &[u8] {
        let length = call(self.text.as_mut_ptr(), self.text.len());
        &self.text[..length]
    }

    pub fn files_line(&mut self, left: &[u8], right: &[u8]) -> &[u8] {
        self.text(|out, room| unsafe {
            alike_files_line(left.as_ptr(), left.len(), right.as_ptr(), right.len(), out, room)
        })
    }

    pub fn file_text(&mut self, file: &[u8]) -> &[u8] {
        self.text(|out, room| unsafe { alike_file_text(file.as_ptr(), file.len(), out, room) })
    }

    pub fn trace_text(&mut self, file: &[u8], trace: &[u8]) -> &[u8] {
        self.text(|out, room| unsafe {
            alike_trace_text(file.as_ptr(), file.len(), trace.as_ptr(), trace.len(), out, room)
        })
    }

    pub fn experiment_text(&mut self, card: &[u8], test: &[u8]) -> &[u8] {
        self.text(|out, room| unsafe {
            alike_experiment_text(card.as_ptr(), card.len(), test.as_ptr(), test.len(), out, room)
        })
    }

    pub fn counters(&mut self, first: u32, second: u32) -> &[u8] {
        self.text(|out, room| unsafe { alike_counters(first, second, out, room) })
    }

    /// The words that the card of these words is written as. Before them stand the answer, 0, and how many they are.
    pub fn read_words(&mut self, words: &[u32]) -> &[u32] {
        let out = &mut self.words;
        let count = unsafe { alike_read_words(words.as_ptr(), words.len(), out.as_mut_ptr(), out.len()) };
        &out[2..count]
    }
}
