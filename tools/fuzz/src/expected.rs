//! What the other implementation says, as words.

use peer::comparison::{Answer, Comparison, Reply};
use peer::layers::{compose, counter, fit, hide};
use peer::splits::{Ground, Side};
use peer::system::Refusal;
use peer::text;
use peer::words::{read_card, read_card_file};

/// What reading the words of a card replies.
pub fn read_words(words: &[u32]) -> Vec<u32> {
    match read_card(words) {
        Ok(card) => {
            let words = card.words();
            [vec![0, words.len() as u32], words].concat()
        }
        Err(fault) => vec![3, fault.number.into(), fault.place as u32],
    }
}

fn told(reply: Reply) -> Vec<u32> {
    let rows = reply.rows as u32;
    match reply.answer {
        Answer::Open => vec![0, 0, rows, 0, 0, 0],
        Answer::Alike => vec![0, 1, rows, 0, 0, 0],
        Answer::Full => vec![0, 2, rows, 0, 0, 0],
        Answer::Apart(split) => {
            let (ground, offer) = match split.ground {
                Ground::Reach => (1, 0),
                Ground::Settle => (2, 0),
                Ground::Offer(offer) => (3, offer),
            };
            let passer = match split.passer {
                Side::Left => 1,
                Side::Right => 2,
            };
            vec![0, 3, rows, ground, passer, offer]
        }
    }
}

fn copied(comparison: &Comparison, room: u32) -> Result<Vec<u32>, Refusal> {
    let mut buffer = vec![255; room.min(2048) as usize];
    let length = comparison.copy(&mut buffer)?;
    Ok([1, length as u32].into_iter().chain(buffer[..length].iter().map(|&byte| byte.into())).collect())
}

fn reply(comparison: &mut Comparison, kind: u32, number: u32) -> Vec<u32> {
    let reply = match kind {
        1 => comparison.begin(number.into()).map(told),
        2 => comparison.advance(number.into()).map(told),
        3 => Ok(told(comparison.ask())),
        4 => copied(comparison, number),
        5 => comparison.test().map(|test| vec![2, test.system.count as u32]),
        _ => Err(Refusal(0)),
    };
    reply.unwrap_or_else(|Refusal(number)| vec![3, number.into()])
}

/// What a list of calls of a comparison of two files replies.
pub fn calls(left: &[u8], right: &[u8], calls: &[u32]) -> Vec<u32> {
    let systems = read_card_file(left).and_then(|left| Ok((left.system(), read_card_file(right)?.system())));
    match systems {
        Ok((left, right)) => {
            let mut comparison = Comparison::open(&left, &right);
            calls.chunks_exact(2).flat_map(|call| reply(&mut comparison, call[0], call[1])).collect()
        }
        Err(fault) => vec![3, fault.number.into()],
    }
}

/// The line of two counters in a row beside one of both capacities.
pub fn counters(first: u32, second: u32) -> String {
    let made = || {
        let capacity = |number: u32| usize::try_from(number).expect("a number of 32 bits");
        let left = counter(capacity(first), 0, 1)?;
        let right = counter(capacity(second), 1, 2)?;
        let both = counter(capacity(first) + capacity(second), 0, 2)?;
        fit(&left, &right)?;
        Ok((hide(&compose(&left, &right, 2), 2), both))
    };
    match made() {
        Ok((in_a_row, both)) => text::line_of(&text::finished(&in_a_row, &both)),
        Err(Refusal(number)) => format!("REFUSED {number}\n"),
    }
}
