//! Lists of calls of a comparison as text, a call a line, and the replies to them.
//!
//! ```text
//! begin NUMBER | advance NUMBER | ask | copy LENGTH | test
//! ```
//!
//! `copy` hands over a buffer of that many bytes, each 255 before the call.

use crate::comparison::Comparison;
use crate::system::Refusal;
use crate::text;
use crate::words::WrittenTest;

#[derive(Clone, Copy, Debug, PartialEq, Eq)]
pub enum Call {
    Begin(u64),
    Advance(u64),
    Ask,
    Copy(usize),
    Test,
}

impl Call {
    pub fn text(&self) -> String {
        match self {
            Call::Begin(limit) => format!("begin {limit}"),
            Call::Advance(count) => format!("advance {count}"),
            Call::Ask => "ask".to_string(),
            Call::Copy(length) => format!("copy {length}"),
            Call::Test => "test".to_string(),
        }
    }

    pub fn read(text: &str) -> Result<Call, String> {
        let refused = || format!("{text} is no call");
        let parts: Vec<&str> = text.split_whitespace().collect();
        match parts[..] {
            ["begin", limit] => limit.parse().map(Call::Begin).map_err(|_| refused()),
            ["advance", count] => count.parse().map(Call::Advance).map_err(|_| refused()),
            ["ask"] => Ok(Call::Ask),
            ["copy", length] => length.parse().map(Call::Copy).map_err(|_| refused()),
            ["test"] => Ok(Call::Test),
            _ => Err(refused()),
        }
    }

    /// Sends the call and tells the reply as a line of text without its end.
    pub fn send(&self, comparison: &mut Comparison) -> String {
        let reply = match *self {
            Call::Begin(limit) => comparison.begin(limit).map(text::reply),
            Call::Advance(count) => comparison.advance(count).map(text::reply),
            Call::Ask => Ok(text::reply(comparison.ask())),
            Call::Copy(length) => {
                let mut buffer = vec![255; length];
                comparison.copy(&mut buffer).map(|told| format!("COPIED {told} buffer {}", text::numbers(&buffer)))
            }
            Call::Test => comparison.test().map(|test| {
                let written = WrittenTest::of_test(&test).expect("a ladder has few lines");
                format!("TEST {}", text::words(&written.words()))
            }),
        };
        reply.unwrap_or_else(|Refusal(number)| format!("REFUSED {number}"))
    }
}

/// The replies to a list of calls, a line each.
pub fn replies(comparison: &mut Comparison, calls: &[Call]) -> String {
    calls.iter().map(|call| call.send(comparison) + "\n").collect()
}

#[cfg(test)]
mod tests {
    use super::*;
    use crate::words::read_card;

    #[test]
    fn the_two_example_cards() {
        let morning = read_card(&[0x10030003, 0x20000001, 0x20000842, 0x20000882, 0x50000000]).unwrap();
        let evening = read_card(&[0x10040004, 0x20000001, 0x20000002, 0x20000843, 0x20001083, 0x50000000]).unwrap();
        let mut comparison = Comparison::open(&morning.system(), &evening.system());
        let calls =
            ["ask", "copy 0", "test", "advance 0", "advance 1", "advance 1", "copy 0", "copy 3", "test", "begin 1"]
                .map(|text| Call::read(text).unwrap());
        assert!(calls.iter().all(|call| Call::read(&call.text()) == Ok(*call)));
        let apart = "APART rows 1 ground OFFER passer LEFT offer FFFFFFFD";
        // the ladder: 3 states; 0 by 0 to 1, silent 0 to 2, from 1 by all actions but 1 to 2
        let mut words = vec!["10210003".to_string(), "20000001".to_string()];
        words.extend((0..32).filter(|&action| action != 1).map(|action| format!("{:08X}", 0x20000802 + action * 64)));
        words.extend(["30000002", "40000002", "50000000"].map(String::from));
        let expected = [
            "OPEN rows 1",
            "REFUSED 11",
            "REFUSED 11",
            "REFUSED 9",
            apart,
            "REFUSED 10",
            "REFUSED 8",
            "COPIED 1 buffer 0 255 255",
            &format!("TEST {}", words.join(" ")),
            "OPEN rows 1",
        ];
        assert_eq!(replies(&mut comparison, &calls), expected.join("\n") + "\n");
        for text in ["begin", "begin x", "advance -1", "asks", "copy 1 2", ""] {
            assert!(Call::read(text).is_err());
        }
    }
}
