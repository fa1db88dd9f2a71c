//! What is printed, each line ended by byte 10.

use crate::comparison::{Answer, Comparison, Reply};
use crate::experiments::{experiment, Verdict};
use crate::splits::{Ground, Side};
use crate::system::{Refusal, System};
use crate::traces::{members, Known};
use crate::words::{read_card_file, read_test_file, Fault};

/// Numbers parted by blanks, or `-`.
pub fn numbers<T: ToString>(list: &[T]) -> String {
    if list.is_empty() {
        return "-".to_string();
    }
    list.iter().map(T::to_string).collect::<Vec<_>>().join(" ")
}

/// Words as eight digits each, parted by blanks.
pub fn words(list: &[u32]) -> String {
    list.iter().map(|word| format!("{word:08X}")).collect::<Vec<_>>().join(" ")
}

fn fault(fault: Fault) -> String {
    format!("FAULT {} at {}", fault.number, fault.place)
}

/// The answer and the number of rows; at APART the ground, the passer and the offer as well.
pub fn reply(reply: Reply) -> String {
    let rows = reply.rows;
    match reply.answer {
        Answer::Open => format!("OPEN rows {rows}"),
        Answer::Alike => format!("ALIKE rows {rows}"),
        Answer::Full => format!("FULL rows {rows}"),
        Answer::Apart(split) => {
            let (ground, offer) = match split.ground {
                Ground::Reach => ("REACH", 0),
                Ground::Settle => ("SETTLE", 0),
                Ground::Offer(offer) => ("OFFER", offer),
            };
            let passer = match split.passer {
                Side::Left => "LEFT",
                Side::Right => "RIGHT",
            };
            format!("APART rows {rows} ground {ground} passer {passer} offer {offer:08X}")
        }
    }
}

/// The printed line of a comparison as it stands.
pub fn line_of(comparison: &Comparison) -> String {
    let told = comparison.ask();
    match told.answer {
        Answer::Apart(_) => format!("{} track {}\n", reply(told), numbers(comparison.trace())),
        _ => reply(told) + "\n",
    }
}

/// A comparison that is opened and, if it is open then, advanced by 2,048.
pub fn finished(left: &System, right: &System) -> Comparison {
    let mut comparison = Comparison::open(left, right);
    if comparison.ask().answer == Answer::Open {
        comparison.advance(2048).expect("an open comparison can be advanced");
    }
    comparison
}

/// The printed line of two card files.
pub fn line(left: &[u8], right: &[u8]) -> String {
    let left = match read_card_file(left) {
        Ok(card) => card,
        Err(found) => return format!("{}\n", fault(found).replace("FAULT", "FAULT LEFT")),
    };
    let right = match read_card_file(right) {
        Ok(card) => card,
        Err(found) => return format!("{}\n", fault(found).replace("FAULT", "FAULT RIGHT")),
    };
    line_of(&finished(&left.system(), &right.system()))
}

fn yes_or_no(answer: bool) -> &'static str {
    if answer {
        "yes"
    } else {
        "no"
    }
}

/// The text of a card file beside a test file.
pub fn experiment_text(card: &[u8], test: &[u8]) -> String {
    let card = match read_card_file(card) {
        Ok(card) => card,
        Err(found) => return format!("CARD {}\n", fault(found)),
    };
    let test = match read_test_file(test) {
        Ok(test) => test,
        Err(found) => return format!("TEST {}\n", fault(found)),
    };
    match experiment(&card.system(), &test.test()) {
        Ok(Verdict { may, must }) => format!("may {}\nmust {}\n", yes_or_no(may), yes_or_no(must)),
        Err(Refusal(number)) => format!("REFUSED {number}\n"),
    }
}

fn label(label: Option<u8>) -> String {
    label.map_or("h".to_string(), |action| action.to_string())
}

/// The text of a card file: its head, lines and words, or its fault.
pub fn shown(file: &[u8]) -> String {
    let card = match read_card_file(file) {
        Ok(card) => card,
        Err(found) => return fault(found) + "\n",
    };
    let mut text = format!("states {} start {} lines {}\n", card.states, card.start, card.lines.len());
    for line in &card.lines {
        text += &format!("{}-{}-{}\n", line.from, label(line.label), line.to);
    }
    text + &format!("words {}\n", words(&card.words()))
}

/// The text of where a trace leads in the card of a file, or the file's fault.
pub fn led(file: &[u8], trace: &[u8]) -> String {
    match read_card_file(file) {
        Ok(card) => known(&card.system(), trace),
        Err(found) => fault(found) + "\n",
    }
}

/// The text of where a trace leads in a system.
pub fn known(system: &System, trace: &[u8]) -> String {
    let known = Known::of(system);
    let after = known.after(trace);
    let states: Vec<usize> = members(after.states).collect();
    let mut text = format!("trace {}\nstates {}\n", numbers(trace), numbers(&states));
    text += &format!("convergent {}\n", yes_or_no(after.convergent));
    if after.convergent {
        for set in known.minimal(after.states) {
            let actions: Vec<usize> = members(set as u64).collect();
            text += &format!("accepts {}\n", numbers(&actions));
        }
    }
    text
}

/// The text of a system by its transitions.
pub fn transitions(system: &System) -> String {
    let mut text = format!("states {} start {}\n", system.count, system.start);
    for (from, label_of, to) in system.transitions() {
        text += &format!("{from}-{}-{to}\n", label(label_of));
    }
    text
}

#[cfg(test)]
mod tests {
    use super::*;
    use crate::layers::{compose, counter, hide};
    use crate::words::bytes_of;

    fn morning() -> Vec<u8> {
        bytes_of(&[0x10030003, 0x20000001, 0x20000842, 0x20000882, 0x50000000])
    }

    fn damaged() -> Vec<u8> {
        bytes_of(&[0x10030002, 0x20000001, 0x20000842, 0x20000882, 0x50000000])
    }

    fn evening() -> Vec<u8> {
        bytes_of(&[0x10040004, 0x20000001, 0x20000002, 0x20000843, 0x20001083, 0x50000000])
    }

    #[test]
    fn lines() {
        let told = "APART rows 1 ground OFFER passer LEFT offer FFFFFFFD track 0\n";
        assert_eq!(line(&morning(), &evening()), told);
        assert_eq!(line(&evening(), &morning()), told.replace("LEFT", "RIGHT"));
        assert_eq!(line(&damaged(), &evening()), "FAULT LEFT 3 at 2\n");
        assert_eq!(line(&damaged(), &[]), "FAULT LEFT 3 at 2\n");
        assert_eq!(line(&morning(), &damaged()), "FAULT RIGHT 3 at 2\n");
        assert_eq!(line(&morning(), &[]), "FAULT RIGHT 1 at 0\n");
        assert_eq!(line(&morning(), &morning()), "ALIKE rows 3\n");
        let blank = bytes_of(&[0x10000001, 0x50000000]);
        let restless = bytes_of(&[0x10010001, 0x30000000, 0x50000000]);
        let able = bytes_of(&[0x10020001, 0x20000000, 0x30000000, 0x50000000]);
        let settle = "APART rows 0 ground SETTLE passer LEFT offer 00000000 track -\n";
        assert_eq!(line(&blank, &restless), settle);
        let reach = "APART rows 1 ground REACH passer RIGHT offer 00000000 track 0\n";
        assert_eq!(line(&restless, &able), reach);
        assert_eq!(line(&blank, &blank), "ALIKE rows 1\n");
    }

    #[test]
    fn experiments() {
        let test = bytes_of(&[0x10020003, 0x20000001, 0x20000882, 0x40000002, 0x50000000]);
        assert_eq!(experiment_text(&morning(), &test), "may yes\nmust yes\n");
        assert_eq!(experiment_text(&evening(), &test), "may yes\nmust no\n");
        assert_eq!(experiment_text(&damaged(), &[]), "CARD FAULT 3 at 2\n");
        assert_eq!(experiment_text(&morning(), &damaged()), "TEST FAULT 3 at 2\n");
        assert_eq!(experiment_text(&test, &test), "CARD FAULT 2 at 3\n");
        let large = bytes_of(&[0x10000040, 0x50000000]);
        assert_eq!(experiment_text(&large, &bytes_of(&[0x10000021, 0x50000000])), "REFUSED 7\n");
        assert_eq!(experiment_text(&large, &bytes_of(&[0x10000020, 0x50000000])), "may no\nmust no\n");
    }

    #[test]
    fn shows() {
        let text =
            "states 3 start 0 lines 3\n0-0-1\n1-1-2\n1-2-2\nwords 10030003 20000001 20000842 20000882 50000000\n";
        assert_eq!(shown(&morning()), text);
        assert_eq!(shown(&damaged()), "FAULT 3 at 2\n");
        let text = "trace 0\nstates 1 2\nconvergent yes\naccepts 1\naccepts 2\n";
        assert_eq!(led(&evening(), &[0]), text);
        assert_eq!(led(&evening(), &[0, 1, 9]), "trace 0 1 9\nstates -\nconvergent yes\n");
        assert_eq!(led(&evening(), &[0, 1]), "trace 0 1\nstates 3\nconvergent yes\naccepts -\n");
        let restless = bytes_of(&[0x10010001, 0x30000000, 0x50000000]);
        assert_eq!(led(&restless, &[]), "trace -\nstates 0\nconvergent no\n");
        assert_eq!(led(&damaged(), &[1]), "FAULT 3 at 2\n");
        let two = hide(&compose(&counter(1, 0, 1).unwrap(), &counter(1, 1, 2).unwrap(), 2), 2);
        let text = "states 4 start 0\n0-0-2\n1-0-3\n1-2-0\n3-2-2\n2-h-1\n";
        assert_eq!(transitions(&two), text);
    }
}
