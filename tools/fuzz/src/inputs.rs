//! Random words and files, most of them nearly good.

use peer::random::Random;
use peer::shapes;
use peer::system::{System, Test};
use peer::words::{bytes_of, Card, WrittenTest, MOST_LINES};

fn system(random: &mut Random) -> System {
    match random.below(40) {
        0 => shapes::largest(random),
        1..=8 => shapes::medium(random),
        _ => shapes::small(random),
    }
}

fn card_of(system: &System) -> Card {
    let mut transitions = system.transitions();
    transitions.truncate(MOST_LINES);
    Card::of_system(&system.with_transitions(&transitions)).expect("the lines are few enough")
}

/// The words of a good card.
pub fn card(random: &mut Random) -> Vec<u32> {
    let system = system(random);
    card_of(&system).words()
}

/// The words of a good test, mostly with passing states.
pub fn test(random: &mut Random) -> Vec<u32> {
    let test = if random.percent(70) {
        shapes::test(random, 6)
    } else {
        let system = system(random);
        shapes::test_for(random, &system, 40)
    };
    let Test { system, passing } = test;
    let passing = (0..system.count).filter(|&state| passing[state]).collect();
    WrittenTest { card: card_of(&system), passing }.words()
}

/// The words of two good cards, often nearly the same.
pub fn two_cards(random: &mut Random) -> (Vec<u32>, Vec<u32>) {
    let (left, right) = match random.below(24) {
        0..=9 => (shapes::small(random), shapes::small(random)),
        10..=15 => {
            let base = shapes::small(random);
            let other = shapes::nudged(random, &base);
            (base, other)
        }
        16..=18 => shapes::alike(random),
        19 | 20 => {
            let base = shapes::medium(random);
            let other = shapes::nudged(random, &base);
            (base, other)
        }
        21 => shapes::late_reach(random, &[2, 3]),
        22 => shapes::late_offer(random, &[3, 4, 5]),
        _ => shapes::late_settle(random, &[2, 5, 7]),
    };
    (card_of(&left).words(), card_of(&right).words())
}

/// Words that were changed in one way.
fn change(random: &mut Random, words: &mut Vec<u32>) {
    if words.is_empty() {
        words.push(random.number() as u32);
        return;
    }
    let place = random.below(words.len());
    match random.below(12) {
        // a bit turned, anywhere or in the numbers of a line
        0 | 1 => words[place] ^= 1 << random.below(32),
        2 => words[place] ^= 1 << random.below(17),
        3 => {
            let other = random.below(words.len());
            words.swap(place, other);
        }
        4 => words.insert(place, words[place]),
        5 => {
            words.remove(place);
        }
        6 => words.truncate(place),
        // another number of lines, start or number of states in the head
        7 => words[0] = words[0] & !0x0FFF0000 | (*random.pick(&[0, 1, 2, 255, 256, 257, 4095]) as u32) << 16,
        8 => words[0] = (words[0] >> 16).wrapping_add(random.pick(&[1, 0xFFFF, 2]) & 0xFFFF) << 16 | words[0] & 0xFFFF,
        9 => {
            let shift = *random.pick(&[0, 8]);
            let number = *random.pick(&[0, 1, 2, 63, 64, 65, 255]);
            words[0] = words[0] & !(0xFF << shift) | (number as u32) << shift;
        }
        10 => words.insert(
            random.below(words.len() + 1),
            random.pick(&[4 << 28, 5 << 28, 3 << 28, 2 << 28, 0, u32::MAX])
                | random.number() as u32 & *random.pick(&[0, 1, 63]),
        ),
        _ => {
            // words after the end, also more than are looked at
            let more =
                if random.percent(10) { 323 - words.len().min(323) + random.below(3) } else { random.between(1, 3) };
            let added = *random.pick(&[0, 5 << 28, words[place]]);
            words.extend(vec![added; more]);
        }
    }
}

/// Words that say little.
fn noise(random: &mut Random) -> Vec<u32> {
    let mut words: Vec<u32> = (0..random.below(8))
        .map(|_| {
            let kind = random.pick(&[1, 2, 2, 2, 3, 3, 4, 5, 0, 15]) << 28;
            kind | random.number() as u32 & random.pick(&[0x1FFFF, 0x1883, 0x0801, 0x0FFFFFFF, 0])
        })
        .collect();
    if random.percent(60) {
        words.sort();
    }
    words
}

/// Words of a card or of a test, most of them with something that is wrong.
pub fn words(random: &mut Random) -> Vec<u32> {
    let mut words = match random.below(20) {
        0 => return noise(random),
        1..=7 => test(random),
        _ => card(random),
    };
    for _ in 0..random.below(4) {
        change(random, &mut words);
    }
    words
}

/// A file of words, with bytes too many or too few now and then, or of bytes that say nothing.
pub fn file(random: &mut Random, words: &[u32]) -> Vec<u8> {
    let mut bytes = bytes_of(words);
    match random.below(40) {
        0 => bytes.truncate(random.below(bytes.len() + 1)),
        1 | 2 => bytes.extend((0..random.between(1, 3)).map(|_| random.number() as u8)),
        3 => bytes = (0..random.below(40)).map(|_| random.number() as u8).collect(),
        4 if !bytes.is_empty() => {
            let place = random.below(bytes.len());
            bytes[place] = random.number() as u8;
        }
        _ => (),
    }
    bytes
}

/// A file of words, most of them with something that is wrong.
pub fn any_file(random: &mut Random) -> Vec<u8> {
    let words = words(random);
    file(random, &words)
}

/// A trace of some actions, most of which stand in the words.
pub fn trace(random: &mut Random, words: &[u32]) -> Vec<u8> {
    let length = random.below(6);
    (0..length)
        .map(|_| match random.below(10) {
            0 => random.number() as u8,
            _ if words.is_empty() => 0,
            _ => (random.pick(words) >> 6 & 31) as u8,
        })
        .collect()
}

/// A list of calls as words, two for each call.
pub fn calls(random: &mut Random) -> Vec<u32> {
    let mut words = Vec::new();
    for _ in 0..random.below(12) {
        let kind = *random.pick(&[1, 1, 2, 2, 2, 2, 3, 4, 4, 5, 5, 0, 6, u32::MAX]);
        let number = match random.below(3) {
            0 => *random.pick(&[0, 1, 2047, 2048, 2049, u32::MAX]),
            1 => random.below(8) as u32,
            _ => *random.pick(&[1, 2, 3, 4, 10, 60, 61, 62, 63, 64, 100, 1000]),
        };
        words.extend([kind, number]);
    }
    if random.percent(5) {
        words.push(random.below(6) as u32);
    }
    words
}

/// A buffer: mostly with room enough, sometimes with less, and never the same twice.
pub fn bytes(random: &mut Random) -> Vec<u8> {
    let room = match random.below(8) {
        0 => random.below(20),
        1 => random.below(200),
        _ => 12000,
    };
    vec![random.number() as u8; room]
}

/// The same of words.
pub fn room_for_words(random: &mut Random) -> Vec<u32> {
    let room = match random.below(8) {
        0 => random.below(10),
        1 => random.below(60),
        _ => 4000,
    };
    vec![random.number() as u32; room]
}
