//! Cards and tests as 32-bit words and as files of bytes.

use crate::system::{Refusal, System, Test, MOST_STATES};

/// Most lines of a card or a test.
pub const MOST_LINES: usize = 256;
/// How many bytes of a file are looked at.
pub const MOST_BYTES: usize = 323 * 4;

/// Why words are refused: the number of the check and the place of the word.
#[derive(Clone, Copy, Debug, PartialEq, Eq)]
pub struct Fault {
    pub number: u8,
    pub place: usize,
}

/// A line of a card; a silent one has no label.
#[derive(Clone, Copy, Debug, PartialEq, Eq)]
pub struct Line {
    pub from: usize,
    pub label: Option<u8>,
    pub to: usize,
}

/// A card as it is written down: its lines in the order of their words.
#[derive(Clone, Debug, PartialEq, Eq)]
pub struct Card {
    pub states: usize,
    pub start: usize,
    pub lines: Vec<Line>,
}

/// A test as it is written down; its passing states rise.
#[derive(Clone, Debug, PartialEq, Eq)]
pub struct WrittenTest {
    pub card: Card,
    pub passing: Vec<usize>,
}

/// The bits of a word from the high one down to the low one, as a number.
fn field(word: u32, high: u32, low: u32) -> usize {
    let width = high - low + 1;
    ((word >> low) as usize) & ((1 << width) - 1)
}

/// What the words say, or the first fault.
fn read(words: &[u32], is_test: bool) -> Result<WrittenTest, Fault> {
    let mut states = 0;
    let mut start = 0;
    let mut told = 0;
    let mut before = 0;
    let mut lines = Vec::new();
    let mut passing = Vec::new();
    let mut ended = false;
    let mut place = 0;
    loop {
        let refused = |number| Err(Fault { number, place });
        if ended {
            if place < words.len() {
                return refused(6);
            }
            let card = Card { states, start, lines };
            return Ok(WrittenTest { card, passing });
        }
        // 1: the words end before an end word.
        if place == words.len() {
            return refused(1);
        }
        let word = words[place];
        let kind = field(word, 31, 28);
        // 2: the kind may not stand here, or an unused bit is set.
        let stands = match kind {
            1 => place == 0,
            2 | 3 | 5 => place > 0,
            4 => place > 0 && is_test,
            _ => false,
        };
        let unused = match kind {
            2 => field(word, 27, 17),
            3 => field(word, 27, 17) + field(word, 10, 6),
            4 => field(word, 27, 6),
            5 => field(word, 27, 0),
            _ => 0,
        };
        if !stands || unused > 0 {
            return refused(2);
        }
        // 3: a number is out of its range.
        let from = field(word, 16, 11);
        let action = field(word, 10, 6);
        let low = field(word, 5, 0);
        let in_range = match kind {
            1 => {
                told = field(word, 27, 16);
                start = field(word, 15, 8);
                states = field(word, 7, 0);
                (1..=MOST_STATES).contains(&states) && start < states && told <= MOST_LINES
            }
            2 | 3 => from < states && low < states,
            4 => low < states,
            _ => true,
        };
        if !in_range {
            return refused(3);
        }
        // 4: the word is not above the one before.
        if place > 0 && word <= before {
            return refused(4);
        }
        // 5: a line beyond the number told, or an end with fewer.
        let is_line = kind == 2 || kind == 3;
        if (is_line && lines.len() == told) || (kind == 5 && lines.len() < told) {
            return refused(5);
        }
        match kind {
            2 => lines.push(Line { from, label: Some(action as u8), to: low }),
            3 => lines.push(Line { from, label: None, to: low }),
            4 => passing.push(low),
            5 => ended = true,
            _ => (),
        }
        before = word;
        place += 1;
    }
}

/// The same for a file of bytes: each word is four bytes, the low one first.
fn read_file(bytes: &[u8], is_test: bool) -> Result<WrittenTest, Fault> {
    let seen = &bytes[..bytes.len().min(MOST_BYTES)];
    let words: Vec<u32> =
        seen.chunks_exact(4).map(|four| u32::from_le_bytes([four[0], four[1], four[2], four[3]])).collect();
    let result = read(&words, is_test)?;
    if seen.len() > words.len() * 4 {
        return Err(Fault { number: 6, place: words.len() });
    }
    Ok(result)
}

pub fn read_card(words: &[u32]) -> Result<Card, Fault> {
    read(words, false).map(|test| test.card)
}

pub fn read_test(words: &[u32]) -> Result<WrittenTest, Fault> {
    read(words, true)
}

pub fn read_card_file(bytes: &[u8]) -> Result<Card, Fault> {
    read_file(bytes, false).map(|test| test.card)
}

pub fn read_test_file(bytes: &[u8]) -> Result<WrittenTest, Fault> {
    read_file(bytes, true)
}

/// Words as the bytes of a file.
pub fn bytes_of(words: &[u32]) -> Vec<u8> {
    words.iter().flat_map(|word| word.to_le_bytes()).collect()
}

impl Line {
    pub fn word(&self) -> u32 {
        let ends = (self.from << 11 | self.to) as u32;
        match self.label {
            Some(action) => 2 << 28 | ends | (action as u32) << 6,
            None => 3 << 28 | ends,
        }
    }
}

impl Card {
    fn head(&self) -> u32 {
        1 << 28 | (self.lines.len() << 16 | self.start << 8 | self.states) as u32
    }

    /// The words that the card is written as.
    pub fn words(&self) -> Vec<u32> {
        WrittenTest { card: self.clone(), passing: Vec::new() }.words()
    }

    /// Writes the words into a buffer and tells how many they are; 8 if it is too short.
    pub fn write(&self, buffer: &mut [u32]) -> Result<usize, Refusal> {
        write_into(&self.words(), buffer)
    }

    /// The system that the card describes.
    pub fn system(&self) -> System {
        let mut system = System::new(self.states, self.start);
        for line in &self.lines {
            system.add(line.from, line.label, line.to);
        }
        system
    }

    /// A system as a written card, or none if it has too many lines.
    pub fn of_system(system: &System) -> Option<Card> {
        let mut lines: Vec<Line> =
            system.transitions().into_iter().map(|(from, label, to)| Line { from, label, to }).collect();
        lines.sort_by_key(Line::word);
        (lines.len() <= MOST_LINES).then_some(Card { states: system.count, start: system.start, lines })
    }
}

impl WrittenTest {
    pub fn words(&self) -> Vec<u32> {
        let mut words = vec![self.card.head()];
        words.extend(self.card.lines.iter().map(Line::word));
        words.extend(self.passing.iter().map(|&state| 4 << 28 | state as u32));
        words.push(5 << 28);
        words
    }

    pub fn write(&self, buffer: &mut [u32]) -> Result<usize, Refusal> {
        write_into(&self.words(), buffer)
    }

    pub fn test(&self) -> Test {
        let mut passing = vec![false; self.card.states];
        for &state in &self.passing {
            passing[state] = true;
        }
        Test { system: self.card.system(), passing }
    }

    pub fn of_test(test: &Test) -> Option<WrittenTest> {
        let card = Card::of_system(&test.system)?;
        let passing = (0..test.system.count).filter(|&state| test.passing[state]).collect();
        Some(WrittenTest { card, passing })
    }
}

fn write_into(words: &[u32], buffer: &mut [u32]) -> Result<usize, Refusal> {
    if buffer.len() < words.len() {
        return Err(Refusal(8));
    }
    buffer[..words.len()].copy_from_slice(words);
    Ok(words.len())
}

#[cfg(test)]
mod tests {
    use super::*;

    const MORNING: [u32; 5] = [0x10030003, 0x20000001, 0x20000842, 0x20000882, 0x50000000];

    fn card_fault(words: &[u32]) -> (u8, usize) {
        let fault = read_card(words).unwrap_err();
        (fault.number, fault.place)
    }

    fn test_fault(words: &[u32]) -> (u8, usize) {
        let fault = read_test(words).unwrap_err();
        (fault.number, fault.place)
    }

    fn file_fault(bytes: &[u8]) -> (u8, usize) {
        let fault = read_card_file(bytes).unwrap_err();
        (fault.number, fault.place)
    }

    #[test]
    fn the_example_is_read_and_written() {
        let card = read_card(&MORNING).unwrap();
        assert_eq!((card.states, card.start), (3, 0));
        let line = |from, action, to| Line { from, label: Some(action), to };
        assert_eq!(card.lines, [line(0, 0, 1), line(1, 1, 2), line(1, 2, 2)]);
        assert_eq!(card.words(), MORNING);
        assert_eq!(Card::of_system(&card.system()).unwrap(), card);
        let mut buffer = [7; 6];
        assert_eq!(card.write(&mut buffer), Ok(5));
        assert_eq!((&buffer[..5], buffer[5]), (&MORNING[..], 7));
        let mut short = [7; 4];
        assert_eq!(card.write(&mut short), Err(Refusal(8)));
        assert_eq!(short, [7; 4]);
    }

    #[test]
    fn highest_numbers_are_read() {
        // 64 states, start 63; from 63 by action 31 to 63, silent from 63 to 63
        let words = [0x10023F40, 0x2001FFFF, 0x3001F83F, 0x50000000];
        let card = read_card(&words).unwrap();
        assert_eq!((card.states, card.start), (64, 63));
        assert_eq!(card.lines[0], Line { from: 63, label: Some(31), to: 63 });
        assert_eq!(card.lines[1], Line { from: 63, label: None, to: 63 });
        assert_eq!(card.words(), words);
    }

    #[test]
    fn missing_words() {
        assert_eq!(card_fault(&[]), (1, 0));
        assert_eq!(card_fault(&MORNING[..1]), (1, 1));
        assert_eq!(card_fault(&MORNING[..4]), (1, 4));
        // fewer lines than told are not looked for before the end word
        assert_eq!(card_fault(&[0x10030003]), (1, 1));
    }

    #[test]
    fn kinds() {
        assert_eq!(card_fault(&[0x50000000]), (2, 0));
        assert_eq!(card_fault(&[0x00000001]), (2, 0));
        assert_eq!(card_fault(&[0x20000000, 0x10000001]), (2, 0));
        assert_eq!(card_fault(&[0x10000001, 0x10000001]), (2, 1));
        assert_eq!(card_fault(&[0x10000001, 0x00000000]), (2, 1));
        assert_eq!(card_fault(&[0x10000001, 0x60000000]), (2, 1));
        assert_eq!(card_fault(&[0x10000001, 0xF0000000]), (2, 1));
        assert_eq!(card_fault(&[0x10000001, 0x40000000, 0x50000000]), (2, 1));
        assert_eq!(test_fault(&[0x40000000]), (2, 0));
        // unused bits: 17 and 27 of a line, 6 and 10 of a silent one, 6 of a passing state, 0 and 27 of an end
        assert_eq!(card_fault(&[0x10010001, 0x20020000]), (2, 1));
        assert_eq!(card_fault(&[0x10010001, 0x28000000]), (2, 1));
        assert_eq!(card_fault(&[0x10010001, 0x30000040]), (2, 1));
        assert_eq!(card_fault(&[0x10010001, 0x30000400]), (2, 1));
        assert_eq!(card_fault(&[0x10010001, 0x30020000]), (2, 1));
        assert_eq!(test_fault(&[0x10000001, 0x40000040]), (2, 1));
        assert_eq!(test_fault(&[0x10000001, 0x48000000]), (2, 1));
        assert_eq!(card_fault(&[0x10000001, 0x50000001]), (2, 1));
        assert_eq!(card_fault(&[0x10000001, 0x58000000]), (2, 1));
    }

    #[test]
    fn ranges() {
        assert_eq!(card_fault(&[0x10000000]), (3, 0));
        assert_eq!(card_fault(&[0x10000041]), (3, 0));
        assert_eq!(card_fault(&[0x10000101]), (3, 0));
        assert_eq!(card_fault(&[0x11010001]), (3, 0));
        assert_eq!(card_fault(&[0x11000001]), (1, 1));
        assert_eq!(card_fault(&[0x10010001, 0x20000001]), (3, 1));
        assert_eq!(card_fault(&[0x10010001, 0x20000800]), (3, 1));
        assert_eq!(card_fault(&[0x10010001, 0x30000001]), (3, 1));
        assert_eq!(card_fault(&[0x10010001, 0x30000800]), (3, 1));
        assert_eq!(test_fault(&[0x10000001, 0x40000001]), (3, 1));
        // the damaged example: its head tells 2 states
        assert_eq!(card_fault(&[0x10030002, 0x20000001, 0x20000842, 0x20000882, 0x50000000]), (3, 2));
        // the range is looked at before the order and the number of lines
        assert_eq!(card_fault(&[0x10010002, 0x30000000, 0x20000002]), (3, 2));
    }

    #[test]
    fn orders_and_numbers_of_lines() {
        assert_eq!(card_fault(&[0x10020002, 0x20000001, 0x20000001]), (4, 2));
        assert_eq!(card_fault(&[0x10020002, 0x20000001, 0x20000000]), (4, 2));
        assert_eq!(card_fault(&[0x10020002, 0x30000000, 0x20000000]), (4, 2));
        assert_eq!(test_fault(&[0x10010002, 0x40000001, 0x40000001]), (4, 2));
        assert_eq!(test_fault(&[0x10010002, 0x40000001, 0x30000001]), (4, 2));
        // the order is looked at before the number of lines
        assert_eq!(card_fault(&[0x10010002, 0x20000001, 0x20000001]), (4, 2));
        assert_eq!(card_fault(&[0x10010002, 0x20000000, 0x20000001]), (5, 2));
        assert_eq!(card_fault(&[0x10000001, 0x20000000]), (5, 1));
        assert_eq!(card_fault(&[0x10010001, 0x50000000]), (5, 1));
        assert_eq!(test_fault(&[0x10020001, 0x20000000, 0x40000000, 0x50000000]), (5, 3));
    }

    #[test]
    fn what_follows_the_end() {
        assert_eq!(card_fault(&[0x10000001, 0x50000000, 0x00000000]), (6, 2));
        assert_eq!(card_fault(&[0x10000001, 0x50000000, 0x50000000, 0x0]), (6, 2));
        assert!(read_card(&[0x10000001, 0x50000000]).is_ok());
    }

    #[test]
    fn passing_states() {
        let words = [0x10020003, 0x20000001, 0x20000882, 0x40000002, 0x50000000];
        let test = read_test(&words).unwrap();
        assert_eq!(test.passing, [2]);
        assert_eq!(test.test().passing, [false, false, true]);
        assert_eq!(test.words(), words);
        assert_eq!(card_fault(&words), (2, 3));
        // a card is a test of which no state passes
        assert_eq!(read_test(&MORNING).unwrap().passing, [0; 0]);
    }

    #[test]
    fn files() {
        let bytes = bytes_of(&MORNING);
        assert_eq!(bytes[..4], [3, 0, 3, 0x10]);
        assert_eq!(read_card_file(&bytes).unwrap().words(), MORNING);
        assert_eq!(file_fault(&[]), (1, 0));
        assert_eq!(file_fault(&bytes[..3]), (1, 0));
        assert_eq!(file_fault(&bytes[..18]), (1, 4));
        let mut longer = bytes.clone();
        longer.push(0);
        assert_eq!(file_fault(&longer), (6, 5));
        longer.extend([0; 9]);
        assert_eq!(file_fault(&longer), (6, 5));
        longer[0] = 2;
        assert_eq!(file_fault(&longer), (3, 2));
    }

    /// A test of 64 states, 256 lines and 64 passing states: 322 words.
    fn largest() -> WrittenTest {
        let mut lines = Vec::new();
        for from in 0..64 {
            for action in 0..3 {
                lines.push(Line { from, label: Some(action), to: 63 - from });
            }
        }
        for from in 0..64 {
            lines.push(Line { from, label: None, to: from });
        }
        let card = Card { states: 64, start: 5, lines };
        WrittenTest { card, passing: (0..64).collect() }
    }

    #[test]
    fn the_largest_test() {
        let test = largest();
        let words = test.words();
        assert_eq!(words.len(), 322);
        assert_eq!(read_test(&words), Ok(test.clone()));
        assert_eq!(test.card.words().len(), 258);
        let mut bytes = bytes_of(&words);
        bytes.push(1);
        let fault = |bytes: &[u8]| read_test_file(bytes).unwrap_err();
        assert_eq!(fault(&bytes), Fault { number: 6, place: 322 });
        bytes.extend([1; 10]);
        assert_eq!(fault(&bytes), Fault { number: 6, place: 322 });
    }
}
