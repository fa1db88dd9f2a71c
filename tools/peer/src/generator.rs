//! Random cases with the answers to them. A seed and a number give one case, always the same.

use crate::calls::{replies, Call};
use crate::comparison::{Answer, Comparison};
use crate::experiments::distinguishing_test;
use crate::piles::Pile;
use crate::random::Random;
use crate::shapes;
use crate::splits::Side;
use crate::system::{System, Test, MOST_STATES};
use crate::text;
use crate::words::{bytes_of, Card, Line, WrittenTest, MOST_LINES};

#[derive(Clone, Debug, PartialEq, Eq)]
pub enum Input {
    /// Two card files are compared.
    Line { left: Vec<u8>, right: Vec<u8> },
    /// A card file beside a test file.
    Experiment { card: Vec<u8>, test: Vec<u8> },
    /// A card file is shown.
    Shown { card: Vec<u8> },
    /// Where a trace leads in the card of a file.
    Led { card: Vec<u8>, trace: Vec<u8> },
    /// Two piles of layers are compared.
    Piles { left: Pile, right: Pile },
    /// A list of calls of a comparison of two good cards.
    Calls { left: Vec<u8>, right: Vec<u8>, calls: Vec<Call> },
}

#[derive(Clone, Debug, PartialEq, Eq)]
pub struct Case {
    pub kind: &'static str,
    pub input: Input,
}

impl Case {
    /// The text that is the answer to the case, each line ended by byte 10.
    pub fn answer(&self) -> String {
        match &self.input {
            Input::Line { left, right } => text::line(left, right),
            Input::Experiment { card, test } => text::experiment_text(card, test),
            Input::Shown { card } => text::shown(card),
            Input::Led { card, trace } => text::led(card, trace),
            Input::Piles { left, right } => {
                let [left, right] = [left, right].map(|pile| pile.system().expect("no counter is refused"));
                text::line_of(&text::finished(&left, &right))
            }
            Input::Calls { left, right, calls } => {
                let [left, right] = [left, right].map(|file| system_of(file));
                replies(&mut Comparison::open(&left, &right), calls)
            }
        }
    }

    /// What the case is, as one word.
    pub fn sort(&self) -> &'static str {
        match self.input {
            Input::Line { .. } => "line",
            Input::Experiment { .. } => "experiment",
            Input::Shown { .. } => "shown",
            Input::Led { .. } => "led",
            Input::Piles { .. } => "piles",
            Input::Calls { .. } => "calls",
        }
    }

    /// The files of the case beside its answer, by their names.
    pub fn files(&self) -> Vec<(&'static str, Vec<u8>)> {
        match &self.input {
            Input::Line { left, right } => vec![("left.card", left.clone()), ("right.card", right.clone())],
            Input::Experiment { card, test } => vec![("case.card", card.clone()), ("case.test", test.clone())],
            Input::Shown { card } => vec![("case.card", card.clone())],
            Input::Led { card, trace } => {
                vec![("case.card", card.clone()), ("trace", (text::numbers(trace) + "\n").into_bytes())]
            }
            Input::Piles { left, right } => vec![
                ("left.pile", (left.text() + "\n").into_bytes()),
                ("right.pile", (right.text() + "\n").into_bytes()),
            ],
            Input::Calls { left, right, calls } => vec![
                ("left.card", left.clone()),
                ("right.card", right.clone()),
                ("calls", calls.iter().map(|call| call.text() + "\n").collect::<String>().into_bytes()),
            ],
        }
    }

    /// The case on one line: sort, kind, what is handed over and the answer, parted by tabs.
    /// Bytes are two digits to the base sixteen each; a line's end in the answer is written `;`.
    pub fn one_line(&self) -> String {
        let handed: Vec<String> = match &self.input {
            Input::Line { left, right } => vec![sixteen(left), sixteen(right)],
            Input::Experiment { card, test } => vec![sixteen(card), sixteen(test)],
            Input::Shown { card } => vec![sixteen(card)],
            Input::Led { card, trace } => vec![sixteen(card), sixteen(trace)],
            Input::Piles { left, right } => vec![left.text(), right.text()],
            Input::Calls { left, right, calls } => {
                let list: Vec<String> = calls.iter().map(Call::text).collect();
                vec![sixteen(left), sixteen(right), list.join(";") + ";"]
            }
        };
        let answer = self.answer().replace('\n', ";");
        format!("{}\t{}\t{}\t{}", self.sort(), self.kind, handed.join("\t"), answer)
    }

    /// Two card files with the same line as the case, where there are such.
    pub fn as_card_files(&self) -> Option<(Vec<u8>, Vec<u8>)> {
        match &self.input {
            Input::Line { left, right } => Some((left.clone(), right.clone())),
            Input::Piles { left, right } => {
                Some((file_if_small(&left.system().ok()?)?, file_if_small(&right.system().ok()?)?))
            }
            _ => None,
        }
    }
}

fn sixteen(bytes: &[u8]) -> String {
    if bytes.is_empty() {
        return "-".to_string();
    }
    bytes.iter().map(|byte| format!("{byte:02X}")).collect()
}

fn file_if_small(system: &System) -> Option<Vec<u8>> {
    Card::of_system(system).map(|card| bytes_of(&card.words()))
}

/// The card file of a system; lines beyond the most are left out.
fn file(system: &System) -> Vec<u8> {
    bytes_of(&card(system).words())
}

fn card(system: &System) -> Card {
    let mut transitions = system.transitions();
    transitions.truncate(MOST_LINES);
    Card::of_system(&system.with_transitions(&transitions)).expect("the lines are few enough")
}

fn test_file(test: &Test) -> Vec<u8> {
    bytes_of(&written_test(test).words())
}

fn written_test(test: &Test) -> WrittenTest {
    WrittenTest {
        card: card(&test.system),
        passing: (0..test.system.count).filter(|&state| test.passing[state]).collect(),
    }
}

fn system_of(file: &[u8]) -> System {
    crate::words::read_card_file(file).expect("the card is good").system()
}

type Maker = fn(&mut Random) -> Input;

/// The kinds of cases with what makes them, in the order in which they come up.
pub const KINDS: &[(&str, Maker)] = &[
    ("alike", alike),
    ("nudged", nudged),
    ("random_small", random_small),
    ("late_reach", |random| late(random, shapes::late_reach)),
    ("late_offer", |random| late(random, shapes::late_offer)),
    ("late_settle", |random| late(random, shapes::late_settle)),
    ("damaged_left_or_right", damaged_line),
    ("experiment_small", experiment_small),
    ("calls", calls),
    ("piles", random_piles),
    ("alike_without_traces_apart", divergent_alike),
    ("random_medium", random_medium),
    ("divergent", divergent),
    ("full_rings", full_rings),
    ("registers", registers),
    ("at_the_limit", at_the_limit),
    ("experiment_ladder", experiment_ladder),
    ("led", led),
    ("shown", shown),
    ("nudged_in_depth", nudged_in_depth),
    ("largest", largest),
    ("largest_nudged", largest_nudged),
    ("experiment_sizes", experiment_sizes),
    ("experiment_medium", experiment_medium),
    ("experiment_damaged", experiment_damaged),
    ("piles_alike", alike_piles),
    ("pile_beside_card", pile_beside_card),
    ("flipped_bits", flipped_bits),
    ("random_words", random_words),
    ("offers_of_many_sets", many_sets),
    ("calls_on_long_traces", calls_on_long_traces),
    ("tiny", tiny),
    ("families", families),
    ("alike_large", alike_large),
    ("silent_chains", silent_chains),
    ("experiment_odometer", experiment_odometer),
    ("experiment_chains", experiment_chains),
    ("too_many_lines", too_many_lines),
];

/// The case of a seed and a number.
pub fn case(seed: u64, number: u64) -> Case {
    let (kind, make) = KINDS[(number % KINDS.len() as u64) as usize];
    // mixed twice, so that no two cases share a stretch of random numbers
    let of_seed = Random::new(seed).number();
    let of_case = Random::new(of_seed ^ number).number();
    let mut random = Random::new(of_case);
    Case { kind, input: make(&mut random) }
}

fn line(random: &mut Random, pair: (System, System)) -> Input {
    let (mut left, mut right) = pair;
    if random.percent(50) {
        std::mem::swap(&mut left, &mut right);
    }
    Input::Line { left: file(&left), right: file(&right) }
}

fn alike(random: &mut Random) -> Input {
    let pair = shapes::alike(random);
    line(random, pair)
}

/// Bigger bases, with few choices, so that the pairs are not too many.
fn alike_large(random: &mut Random) -> Input {
    let states = random.between(20, 50);
    let tries = random.between(states, 2 * states);
    let actions = random.between(4, 32);
    let silent = *random.pick(&[0, 3, 10]);
    let base = shapes::random_system(random, states, tries, actions, silent);
    let pair = (shapes::disguised(random, &base), shapes::disguised(random, &base));
    line(random, pair)
}

fn nudged(random: &mut Random) -> Input {
    let base = if random.percent(60) { shapes::small(random) } else { shapes::medium(random) };
    let mut other = shapes::nudged(random, &base);
    if random.percent(30) {
        other = shapes::nudged(random, &other);
    }
    let pair = (shapes::disguised(random, &base), shapes::disguised(random, &other));
    line(random, pair)
}

/// A pair with a small difference behind a line of steps.
fn nudged_in_depth(random: &mut Random) -> Input {
    let base = shapes::medium(random);
    let other = shapes::nudged(random, &base);
    let length = random.between(1, MOST_STATES - base.count);
    let track: Vec<u8> = (0..length).map(|_| random.below(32) as u8).collect();
    let behind = |system: &System| {
        let mut result = system.clone();
        for &action in &track {
            result = shapes::with_new_start(&result, action);
        }
        result
    };
    let (left, right) = (behind(&base), behind(&other));
    let right = if random.percent(50) { shapes::disguised(random, &right) } else { shapes::renumbered(random, &right) };
    line(random, (left, right))
}

fn random_small(random: &mut Random) -> Input {
    let pair = (shapes::small(random), shapes::small(random));
    line(random, pair)
}

fn random_medium(random: &mut Random) -> Input {
    let pair = (shapes::medium(random), shapes::medium(random));
    line(random, pair)
}

/// One or two states and one or two actions: nearly everything can be so small.
fn tiny(random: &mut Random) -> Input {
    let mut one = || {
        let states = random.between(1, 2);
        let tries = random.below(5);
        let actions = random.between(1, 2);
        shapes::random_system(random, states, tries, actions, 40)
    };
    let pair = (one(), one());
    line(random, pair)
}

fn divergent(random: &mut Random) -> Input {
    let mut one = || {
        let states = random.between(1, 6);
        let tries = random.between(states, 3 * states);
        shapes::random_system(random, states, tries, 2, 60)
    };
    let left = one();
    let other = one();
    let right = match random.below(3) {
        0 => other,
        1 => shapes::disguised(random, &left),
        _ => shapes::nudged(random, &left),
    };
    line(random, (left, right))
}

/// Both can run silently for ever from the start, so offers do not count;
/// the right one may besides end up where some actions are missing.
fn divergent_alike(random: &mut Random) -> Input {
    let mut left = shapes::small(random);
    left.add(left.start, None, left.start);
    let mut right = left.clone();
    let copied = random.below(left.count);
    if let Some(added) = right.add_state() {
        for &(action, to) in &left.visible[copied] {
            if random.percent(50) {
                right.add(added, Some(action), to);
            }
        }
        for from in 0..left.count {
            for &(action, to) in &left.visible[from] {
                if to == copied {
                    right.add(from, Some(action), added);
                }
            }
        }
        if left.silent.iter().flatten().any(|&to| to == copied) || copied == left.start {
            right.add(copied, None, added);
        }
    }
    let right = shapes::disguised(random, &right);
    line(random, (left, right))
}

/// Lengths of rings that have no factor in common.
const RINGS: &[&[usize]] = &[
    &[1],
    &[2],
    &[7],
    &[57],
    &[2, 3],
    &[3, 4],
    &[5, 7],
    &[7, 11],
    &[3, 4, 5],
    &[13, 12],
    &[16, 17],
    &[23, 29],
    &[28, 29],
    &[7, 8, 9],
    &[2, 3, 5, 7],
    &[13, 12, 7],
    &[5, 7, 9, 4],
    &[12, 13, 11],
    &[11, 13, 14],
];

fn late(random: &mut Random, make: fn(&mut Random, &[usize]) -> (System, System)) -> Input {
    let rings = *random.pick(RINGS);
    let (mut left, mut right) = make(random, rings);
    for side in [&mut left, &mut right] {
        if random.percent(60) {
            let changed = shapes::renumbered(random, side);
            *side = changed;
        }
        if random.percent(20) {
            let changed = shapes::disguised(random, side);
            *side = changed;
        }
    }
    line(random, (left, right))
}

/// The rings take more steps to meet than there may be rows.
fn full_rings(random: &mut Random) -> Input {
    let rings = *random.pick(&[&[13, 14, 15][..], &[5, 7, 8, 9], &[16, 17, 19], &[3, 5, 7, 8, 11]]);
    let make = *random.pick(&[shapes::late_reach, shapes::late_offer, shapes::late_settle]);
    let (left, right) = make(random, rings);
    let (left, right) = if random.percent(50) { (left.clone(), left) } else { (left, right) };
    let right = shapes::renumbered(random, &right);
    line(random, (left, right))
}

fn registers(random: &mut Random) -> Input {
    let places = random.between(6, 14);
    let first = random.below(31) as u8;
    let base = shapes::register(places, first, first + 1);
    let left = if random.percent(50) { shapes::renumbered(random, &base) } else { shapes::disguised(random, &base) };
    let right = match random.below(3) {
        0 => shapes::nudged(random, &base),
        1 => shapes::register(random.between(6, 14), first, first + 1),
        _ => base,
    };
    line(random, (left, right))
}

/// Exactly as many pairs as there may be rows, one fewer or one more; or a split just before or behind that.
fn at_the_limit(random: &mut Random) -> Input {
    // so many starts more: each is one row more
    let ((mut left, mut right), more) = match random.below(4) {
        0 => {
            let first = random.below(31) as u8;
            let base = shapes::register(11, first, first + 1);
            ((base.clone(), base), random.below(2))
        }
        1 => (shapes::late_offer(random, &[2, 3, 11, 31]), random.below(3)),
        2 => (shapes::late_settle(random, &[8, 3, 5, 17]), random.between(4, 6)),
        _ => (shapes::late_reach(random, &[8, 3, 5, 17]), random.between(5, 7)),
    };
    for _ in 0..more {
        let action = random.below(32) as u8;
        left = shapes::with_new_start(&left, action);
        right = shapes::with_new_start(&right, action);
    }
    let left = shapes::renumbered(random, &left);
    line(random, (left, right))
}

fn largest(random: &mut Random) -> Input {
    let left = shapes::largest(random);
    let right = if random.percent(80) { shapes::renumbered(random, &left) } else { shapes::largest(random) };
    line(random, (left, right))
}

fn largest_nudged(random: &mut Random) -> Input {
    let left = shapes::largest(random);
    let mut right = shapes::nudged(random, &left);
    if random.percent(30) {
        right = shapes::nudged(random, &right);
    }
    let right = shapes::renumbered(random, &right);
    line(random, (left, right))
}

/// After one action each side may be in many states with offers of their own.
fn many_sets(random: &mut Random) -> Input {
    let actions = random.between(3, 32);
    let states = random.between(2, 30);
    let share = random.between(10, 90);
    let mut left = System::new(states + 2, 0);
    for state in 2..states + 2 {
        left.add(0, Some(0), state);
        for action in (0..actions).filter(|_| random.percent(share)) {
            if shapes::lines(&left) < MOST_LINES - 40 {
                left.add(state, Some(action as u8), 1);
            }
        }
    }
    let mut right = left.clone();
    for _ in 0..random.below(3) {
        // one state more, the offer of which contains another's, or not
        let Some(added) = right.add_state() else { break };
        let like = random.between(2, states + 1);
        right.visible[added] = left.visible[like].clone();
        if random.percent(50) && !right.visible[added].is_empty() {
            let place = random.below(right.visible[added].len());
            right.visible[added].remove(place);
        } else {
            right.add(added, Some(random.below(actions) as u8), 1);
        }
        right.add(0, Some(0), added);
        if shapes::lines(&right) > MOST_LINES {
            right = left.clone();
        }
    }
    let right = shapes::renumbered(random, &right);
    line(random, (left, right))
}

/// After one action each side has a random family, beside a state that offers all that either family names.
fn families(random: &mut Random) -> Input {
    let actions: Vec<u8> = random.order(32).into_iter().take(random.between(2, 7)).map(|action| action as u8).collect();
    let most = random.between(1, 6);
    let any = |random: &mut Random| random.below(1 << actions.len());
    let left: Vec<usize> = (0..random.between(1, most)).map(|_| any(random)).collect();
    let right: Vec<usize> = match random.below(3) {
        0 => (0..random.between(1, most)).map(|_| any(random)).collect(),
        1 => left.iter().map(|&set| if random.percent(40) { set | any(random) } else { set }).collect(),
        _ => left
            .iter()
            .chain(&left)
            .map(|&set| if random.percent(30) { set & any(random) } else { set | any(random) })
            .collect(),
    };
    let build = |sets: &[usize]| {
        let mut system = System::new(3, 0);
        let step = |place: usize| actions[place];
        system.add(0, Some(9), 1);
        for place in 0..actions.len() {
            system.add(1, Some(step(place)), 2);
        }
        for set in sets {
            let state = system.add_state().expect("there is room");
            system.add(0, Some(9), state);
            for place in (0..actions.len()).filter(|place| set >> place & 1 == 1) {
                system.add(state, Some(step(place)), 2);
            }
        }
        system
    };
    let pair = (build(&left), build(&right));
    line(random, pair)
}

fn silent_chains(random: &mut Random) -> Input {
    let left = shapes::silent_chain(random);
    let mut right = left.clone();
    if random.percent(50) {
        right = shapes::nudged(random, &right);
    }
    if random.percent(30) {
        // the last state of the chain gets or loses something
        let state = random.below(right.count);
        right.add(state, None, state);
    }
    right = if random.percent(50) { shapes::renumbered(random, &right) } else { shapes::disguised(random, &right) };
    line(random, (left, right))
}

fn experiment_odometer(random: &mut Random) -> Input {
    let (states, places) = *random.pick(&[(62, 33), (62, 33), (64, 32), (32, 64), (45, 45), (12, 9), (3, 2)]);
    let with_slip = random.percent(50);
    let (system, test) = shapes::odometer(random, states, places, with_slip);
    let system = shapes::renumbered(random, &system);
    Input::Experiment { card: file(&system), test: test_file(&test) }
}

/// A line of silent steps beside a test that is a line, too.
fn experiment_chains(random: &mut Random) -> Input {
    let system = shapes::silent_chain(random);
    let places = random.between(2, 32);
    let mut counter = System::new(places, 0);
    for place in 0..places - 1 {
        let label = if random.percent(85) { None } else { Some(random.below(3) as u8) };
        counter.add(place, label, place + 1);
    }
    for _ in 0..random.below(3) {
        let from = random.below(places);
        counter.add(from, Some(random.below(3) as u8), random.between(from, places - 1));
    }
    let mut passing = vec![false; places];
    passing[places - 1] = random.percent(90);
    passing[random.below(places)] |= random.percent(20);
    Input::Experiment { card: file(&system), test: test_file(&Test { system: counter, passing }) }
}

/// The most lines that are allowed, and one more or many: the file may be longer than what is looked at.
fn too_many_lines(random: &mut Random) -> Input {
    let wanted = *random.pick(&[256, 257, 258, 321, 322, 400]);
    let mut lines = std::collections::BTreeSet::new();
    while lines.len() < wanted {
        let label = (!random.percent(40)).then(|| random.below(32) as u8);
        lines.insert(Line { from: random.below(64), label, to: random.below(64) }.word());
    }
    let mut words = vec![1 << 28 | 256 << 16 | (random.below(64) << 8) as u32 | 64];
    words.extend(lines);
    words.push(5 << 28);
    let bad = bytes_of(&words);
    let good = bytes_of(&good_words(random, false));
    match random.below(3) {
        0 => Input::Line { left: bad, right: good },
        1 => Input::Line { left: good, right: bad },
        _ => Input::Experiment { card: good, test: bad },
    }
}

/// The words of a good card or test with at least one line and fewer than the most.
fn good_words(random: &mut Random, with_passing: bool) -> Vec<u32> {
    loop {
        let system = match random.below(8) {
            0 => shapes::largest(random),
            1..=3 => shapes::medium(random),
            _ => shapes::small(random),
        };
        if shapes::lines(&system) == 0 || shapes::lines(&system) == MOST_LINES {
            continue;
        }
        if !with_passing {
            return card(&system).words();
        }
        let mut passing: Vec<bool> = (0..system.count).map(|_| random.percent(40)).collect();
        passing[random.below(system.count)] = true;
        return written_test(&Test { system, passing }).words();
    }
}

/// Damages the words of a good card or test so that the fault has the number given. Gives the file.
pub fn damaged(random: &mut Random, words: &[u32], number: u8, is_test: bool) -> Vec<u8> {
    let mut words = words.to_vec();
    let last = words.len() - 1;
    let states = words[0] & 0xFF;
    let mut tail = Vec::new();
    match number {
        1 => {
            words.truncate(random.below(words.len()));
            tail = vec![random.number() as u8; random.below(4)];
        }
        2 => {
            let place = random.below(words.len());
            let rest = words[place] & 0x0FFFFFFF;
            match random.below(5) {
                0 => words[place] = (*random.pick(&[0, 6, 7, 8, 15]) as u32) << 28 | rest,
                1 => words.insert(random.between(1, last), words[0]),
                2 => {
                    words.remove(0);
                }
                3 if !is_test => words.insert(random.between(1, last), 4 << 28),
                _ => {
                    let place = random.between(1, last);
                    let unused: Vec<u32> = match words[place] >> 28 {
                        2 => (17..28).collect(),
                        3 => (6..11).chain(17..28).collect(),
                        4 => (6..28).collect(),
                        _ => (0..28).collect(),
                    };
                    words[place] |= 1 << random.pick(&unused);
                }
            }
        }
        3 => {
            let above = random.between(states as usize, 63.max(states as usize)) as u32;
            // with 64 states no line and no passing state can be out of range
            let numbered: Vec<usize> = (1..last).filter(|_| states < 64).collect();
            if numbered.is_empty() || random.percent(40) {
                let lines = words[0] & 0x0FFF0000;
                words[0] = match random.below(4) {
                    0 => 1 << 28 | lines,
                    1 => 1 << 28 | lines | *random.pick(&[65, 66, 128, 255]),
                    2 => (words[0] & !0xFF00) | above << 8,
                    _ => (words[0] & !0x0FFF0000) | (*random.pick(&[257, 258, 512, 4095])) << 16,
                };
            } else {
                let place = *random.pick(&numbered);
                words[place] = if words[place] >> 28 != 4 && random.percent(50) {
                    (words[place] & !0x1F800) | above << 11
                } else {
                    (words[place] & !0x3F) | above
                };
            }
        }
        4 => {
            let place = random.between(1, last - 1);
            if place + 1 < last && random.percent(50) {
                words.swap(place, place + 1);
            } else {
                let earlier = random.between(1, place);
                words.insert(place + 1, words[earlier]);
            }
        }
        5 => {
            let told = words[0] >> 16 & 0xFFF;
            let wrong =
                if random.percent(50) { random.below(told as usize) } else { random.between(told as usize + 1, 256) };
            words[0] = (words[0] & !0x0FFF0000) | (wrong as u32) << 16;
        }
        _ => {
            let more = if random.percent(30) { random.between(300, 400) } else { random.below(4) };
            for _ in 0..more {
                let added = *random.pick(&[0, 5 << 28, words[0], words[last - 1]]);
                words.push(added);
            }
            tail = vec![random.number() as u8; random.between(if more == 0 { 1 } else { 0 }, 3)];
        }
    }
    let mut bytes = bytes_of(&words);
    bytes.extend(tail);
    bytes
}

fn damaged_file(random: &mut Random, is_test: bool) -> Vec<u8> {
    let with_passing = is_test && random.percent(70);
    let words = good_words(random, with_passing);
    let number = random.between(1, 6) as u8;
    damaged(random, &words, number, is_test)
}

fn damaged_line(random: &mut Random) -> Input {
    let good = bytes_of(&good_words(random, false));
    let bad = damaged_file(random, false);
    match random.below(3) {
        0 => Input::Line { left: bad, right: good },
        1 => Input::Line { left: good, right: bad },
        _ => Input::Line { left: bad, right: damaged_file(random, false) },
    }
}

fn flip(random: &mut Random, bytes: &mut [u8]) {
    for _ in 0..random.between(1, 3) {
        let place = random.below(bytes.len());
        bytes[place] ^= 1 << random.below(8);
    }
}

fn flipped_bits(random: &mut Random) -> Input {
    let base = shapes::small(random);
    let mut left = file(&base);
    let mut right = file(&shapes::disguised(random, &base));
    if random.percent(50) {
        flip(random, &mut left);
    } else {
        flip(random, &mut right);
    }
    Input::Line { left, right }
}

/// Words that often fit, in an order that sometimes does.
fn random_words(random: &mut Random) -> Input {
    let mut one = || {
        let mut words = Vec::new();
        for _ in 0..random.below(8) {
            let kind = random.pick(&[2, 2, 3, 4, 5, 1, 0, 9]) << 28;
            let mask = *random.pick(&[0x0001FFFF, 0x00001883, 0x00000801, 0x0FFFFFFF]);
            words.push(kind | random.number() as u32 & mask);
        }
        if random.percent(70) {
            words.sort();
        }
        if random.percent(90) {
            words.insert(0, 1 << 28 | (random.below(5) << 16 | random.below(3) << 8 | random.below(6)) as u32);
        }
        if random.percent(70) {
            words.push(5 << 28);
        }
        let mut bytes = bytes_of(&words);
        if random.percent(10) {
            bytes.push(random.number() as u8);
        }
        bytes
    };
    let (left, right) = (one(), one());
    if random.percent(50) {
        return Input::Line { left, right };
    }
    let good = bytes_of(&good_words(random, false));
    Input::Experiment { card: good, test: right }
}

fn experiment_small(random: &mut Random) -> Input {
    let system = shapes::small(random);
    let test = if random.percent(40) { shapes::test(random, 5) } else { shapes::test_for(random, &system, 6) };
    Input::Experiment { card: file(&system), test: test_file(&test) }
}

fn experiment_medium(random: &mut Random) -> Input {
    let system = if random.percent(30) { shapes::small(random) } else { shapes::medium(random) };
    let test = if random.percent(30) { shapes::test(random, 40) } else { shapes::test_for(random, &system, 40) };
    Input::Experiment { card: file(&system), test: test_file(&test) }
}

/// The distinguishing test of two systems beside one of them, or beside another.
fn experiment_ladder(random: &mut Random) -> Input {
    let (left, right) = match random.below(3) {
        0 => (shapes::small(random), shapes::small(random)),
        1 => {
            let (left, right) = shapes::alike(random);
            let right = shapes::nudged(random, &right);
            (left, right)
        }
        _ => shapes::late_settle(random, &[3, 4]),
    };
    let comparison = text::finished(&left, &right);
    let test = match comparison.ask().answer {
        Answer::Apart(split) if comparison.trace().len() <= 62 => {
            distinguishing_test(split.ground, comparison.trace()).expect("the trace is short")
        }
        _ => shapes::test(random, 6),
    };
    let side = if random.percent(50) { Side::Left } else { Side::Right };
    let system = if side == Side::Left { left } else { right };
    Input::Experiment { card: file(&system), test: test_file(&test) }
}

/// Numbers of states at which a system and a test just have, or just have not, room for their pairs.
fn experiment_sizes(random: &mut Random) -> Input {
    let (states, places) = *random.pick(&[
        (64, 32),
        (64, 33),
        (32, 64),
        (33, 63),
        (33, 62),
        (63, 33),
        (62, 33),
        (64, 64),
        (45, 45),
        (46, 45),
        (46, 44),
        (41, 50),
        (1, 64),
        (64, 1),
    ]);
    let ring = |random: &mut Random, count: usize| {
        let mut system = System::new(count, random.below(count));
        let action = random.below(2) as u8;
        for state in 0..count {
            let label = if random.percent(3) { None } else { Some(action) };
            system.add(state, label, (state + 1) % count);
        }
        for _ in 0..random.below(20) {
            system.add(random.below(count), Some(random.below(2) as u8), random.below(count));
        }
        system
    };
    let card = ring(random, states);
    let mut passing = vec![false; places];
    for _ in 0..random.below(4) {
        passing[random.below(places)] = true;
    }
    let test = Test { system: ring(random, places), passing };
    Input::Experiment { card: file(&card), test: test_file(&test) }
}

fn experiment_damaged(random: &mut Random) -> Input {
    let good_card = bytes_of(&good_words(random, false));
    let good_test = bytes_of(&good_words(random, true));
    match random.below(5) {
        0 | 1 => Input::Experiment { card: damaged_file(random, false), test: good_test },
        2 | 3 => Input::Experiment { card: good_card, test: damaged_file(random, true) },
        // a test where a card should stand, and the largest test
        _ if random.percent(50) => Input::Experiment { card: good_test.clone(), test: good_test },
        _ => {
            let mut test = written_test(&Test { system: shapes::largest(random), passing: vec![true; 64] });
            let small = Card { states: 2, start: 0, lines: vec![Line { from: 0, label: Some(3), to: 1 }] };
            if random.percent(50) {
                test.passing.retain(|&state| state % 3 == 1);
            }
            let mut bytes = bytes_of(&test.words());
            if random.percent(50) {
                bytes.extend(vec![7; random.between(1, 9)]);
            }
            Input::Experiment { card: bytes_of(&small.words()), test: bytes }
        }
    }
}

fn shown(random: &mut Random) -> Input {
    let card = match random.below(4) {
        0 => damaged_file(random, false),
        1 => file(&shapes::largest(random)),
        2 => file(&shapes::medium(random)),
        _ => file(&shapes::small(random)),
    };
    Input::Shown { card }
}

fn led(random: &mut Random) -> Input {
    if random.percent(5) {
        return Input::Led { card: damaged_file(random, false), trace: vec![random.below(256) as u8] };
    }
    let system = match random.below(4) {
        0 => shapes::medium(random),
        1 => shapes::largest(random),
        2 => shapes::random_system(random, 6, 14, 2, 50),
        _ => shapes::small(random),
    };
    // mostly actions that some state has
    let has: Vec<u8> = system.transitions().iter().filter_map(|line| line.1).collect();
    let length = random.between(1, 8);
    let trace = (0..length)
        .map(|_| match random.below(20) {
            0 => random.below(256) as u8,
            1 => random.below(33) as u8,
            _ if has.is_empty() => 0,
            _ => *random.pick(&has),
        })
        .collect();
    Input::Led { card: file(&system), trace }
}

/// A pile of so many layers at most, over counters and small cards.
fn pile(random: &mut Random, depth: usize) -> Pile {
    let set = |random: &mut Random| random.number() as u32 & random.number() as u32 & 0x8000000F;
    if depth == 0 || random.percent(15) {
        if random.percent(40) {
            return Pile::Card(card(&shapes::small(random)));
        }
        let capacity = *random.pick(&[0, 1, 1, 1, 2, 2, 3, 4, 7, 63]);
        return Pile::counter(capacity, random.below(4), random.below(4));
    }
    if random.percent(40) {
        return pile(random, depth - 1).hidden(set(random));
    }
    let left = pile(random, depth - 1);
    left.beside(pile(random, depth - 1), set(random))
}

fn random_piles(random: &mut Random) -> Input {
    let left = pile(random, 3);
    let right = if random.percent(50) { pile(random, 3) } else { left.clone().hidden(random.number() as u32 & 15) };
    Input::Piles { left, right }
}

/// Two piles that are alike by a law of layers.
fn alike_piles(random: &mut Random) -> Input {
    let set = random.number() as u32 & 15;
    let (left, right) = match random.below(5) {
        0 => {
            // counters one behind another hold as many as one of them all
            let (first, second) = *random.pick(&[(1, 1), (1, 2), (3, 2), (7, 7), (1, 31), (15, 3), (3, 15)]);
            let both = Pile::counter(first, 0, 1).beside(Pile::counter(second, 1, 2), 2).hidden(2);
            (both, Pile::counter(first + second, 0, 2))
        }
        1 => {
            let (one, two) = (pile(random, 1), pile(random, 1));
            (one.clone().beside(two.clone(), set), two.beside(one, set))
        }
        2 => {
            let one = pile(random, 2);
            let other = random.number() as u32 & 15;
            (one.clone().hidden(set).hidden(other), one.hidden(set | other))
        }
        3 => {
            // a composition that is too large is blank
            let one = Pile::counter(random.between(8, 20), 0, 1);
            let large = one.beside(Pile::counter(random.between(7, 20), 1, 2), set);
            (large.hidden(set), Pile::counter(0, 3, 4))
        }
        _ => {
            let cell = |input, output| Pile::counter(1, input, output);
            let three = cell(0, 1).beside(cell(1, 2), 2).beside(cell(2, 3), 4).hidden(6);
            (three, Pile::counter(3, 0, 3))
        }
    };
    if random.percent(50) {
        Input::Piles { left, right }
    } else {
        Input::Piles { left: right, right: left }
    }
}

/// A pile beside a card that has the same transitions, or nearly so.
fn pile_beside_card(random: &mut Random) -> Input {
    let left = pile(random, 3);
    let system = left.system().expect("no counter is refused");
    let changed = if random.percent(60) { shapes::disguised(random, &system) } else { shapes::nudged(random, &system) };
    Input::Piles { left, right: Pile::Card(card(&changed)) }
}

fn call(random: &mut Random) -> Call {
    let number = *random.pick(&[0, 1, 1, 2, 3, 4, 5, 7, 20, 100, 1000, 2047, 2048, 2048, 2049, 65537, 4294967297]);
    match random.below(10) {
        0 | 1 => Call::Begin(number),
        2..=5 => Call::Advance(number),
        6 => Call::Ask,
        7 | 8 => Call::Copy(*random.pick(&[0, 1, 2, 3, 5, 40, 62, 63, 300, 2047, 2048, 2050])),
        _ => Call::Test,
    }
}

fn list_of_calls(random: &mut Random) -> Vec<Call> {
    (0..random.below(14)).map(|_| call(random)).collect()
}

/// Every list ends by asking and copying.
fn with_end(random: &mut Random, mut calls: Vec<Call>) -> Vec<Call> {
    calls.push(Call::Ask);
    calls.push(Call::Copy(*random.pick(&[0, 1, 2, 3, 5, 62, 63, 2048])));
    calls
}

fn calls(random: &mut Random) -> Input {
    let (left, right) = match random.below(4) {
        0 => shapes::alike(random),
        1 => (shapes::small(random), shapes::small(random)),
        2 => {
            let base = shapes::register(6, 0, 1);
            let other = shapes::nudged(random, &base);
            (base, other)
        }
        _ => {
            let base = shapes::medium(random);
            let other = shapes::nudged(random, &base);
            (base, other)
        }
    };
    let calls = list_of_calls(random);
    Input::Calls { left: file(&left), right: file(&right), calls: with_end(random, calls) }
}

fn calls_on_long_traces(random: &mut Random) -> Input {
    // 62 and 63 actions among others
    let rings = *random.pick(&[&[3, 4][..], &[5, 7], &[2, 31], &[55], &[7, 9], &[57], &[7, 8, 9], &[11, 13, 14]]);
    let make = *random.pick(&[shapes::late_reach, shapes::late_offer, shapes::late_settle]);
    let (left, right) = make(random, rings);
    let mut calls = list_of_calls(random);
    if random.percent(80) {
        calls.push(Call::Begin(*random.pick(&[64, 2048])));
        calls.push(Call::Advance(2048));
        for _ in 0..3 {
            calls.push(if random.percent(50) { Call::Test } else { Call::Copy(*random.pick(&[61, 62, 63, 64, 2048])) });
        }
    }
    Input::Calls { left: file(&left), right: file(&right), calls: with_end(random, calls) }
}

#[cfg(test)]
mod tests {
    use super::*;
    use crate::words::{read_card_file, read_test_file};
    use std::collections::BTreeMap;

    #[test]
    fn every_fault_is_the_one_wanted() {
        let mut random = Random::new(3);
        for round in 0..6000 {
            let number = 1 + (round % 6) as u8;
            let is_test = random.percent(50);
            let words = good_words(&mut random, is_test);
            let bytes = damaged(&mut random, &words, number, is_test);
            let found = if is_test { read_test_file(&bytes).err() } else { read_card_file(&bytes).err() };
            assert_eq!(found.map(|fault| fault.number), Some(number), "{words:08X?} {bytes:02X?}");
        }
    }

    #[test]
    fn good_words_are_good() {
        let mut random = Random::new(4);
        for _ in 0..500 {
            let words = good_words(&mut random, false);
            assert_eq!(crate::words::read_card(&words).unwrap().words(), words);
            let words = good_words(&mut random, true);
            assert_eq!(crate::words::read_test(&words).unwrap().words(), words);
        }
    }

    #[test]
    fn cases_that_are_alike_by_their_making() {
        for number in 0..KINDS.len() as u64 * 60 {
            let one = case(9, number);
            assert_eq!(one, case(9, number));
            let answer = one.answer();
            match one.kind {
                "alike" | "alike_large" | "piles_alike" | "alike_without_traces_apart" => {
                    assert!(answer.starts_with("ALIKE") || answer.starts_with("FULL"), "{one:?} {answer}");
                }
                "full_rings" => assert!(answer.starts_with("FULL rows 2048"), "{answer}"),
                _ => (),
            }
            if let Some((left, right)) = one.as_card_files() {
                assert_eq!(text::line(&left, &right), answer);
            }
        }
    }

    #[test]
    fn the_mix() {
        let mut seen: BTreeMap<String, usize> = BTreeMap::new();
        for number in 0..KINDS.len() as u64 * 120 {
            let one = case(10, number);
            let answer = one.answer();
            if one.sort() == "calls" {
                continue;
            }
            let words: Vec<&str> = answer.split_whitespace().collect();
            let key = match words[..] {
                ["APART", _, _, _, ground, _, passer, ..] => format!("{ground} {passer}"),
                ["FAULT", side, number, ..] => format!("FAULT {side} {number}"),
                ["CARD" | "TEST", _, number, ..] => format!("{} {number}", words[0]),
                _ => words.first().unwrap_or(&"").to_string(),
            };
            *seen.entry(key).or_default() += 1;
        }
        let sides = ["FAULT LEFT", "FAULT RIGHT", "CARD", "TEST"];
        let mut wanted: Vec<String> = ["ALIKE", "FULL", "REFUSED", "may", "states", "trace"].map(String::from).to_vec();
        wanted.extend(sides.iter().flat_map(|side| (1..=6).map(move |number| format!("{side} {number}"))));
        for ground in ["REACH", "SETTLE", "OFFER"] {
            wanted.extend(["LEFT", "RIGHT"].map(|passer| format!("{ground} {passer}")));
        }
        for key in wanted {
            assert!(seen.contains_key(&key), "{key} is missing in {seen:?}");
        }
    }

    #[test]
    fn numbers_of_pairs_at_the_limit() {
        let mut random = Random::new(11);
        let mut answers = std::collections::BTreeSet::new();
        for _ in 0..40 {
            let one = Case { kind: "", input: at_the_limit(&mut random) };
            let answer = one.answer();
            answers.insert(answer.split_whitespace().take(3).collect::<Vec<_>>().join(" "));
        }
        for wanted in ["ALIKE rows 2048", "FULL rows 2048", "APART rows 2047", "APART rows 2048"] {
            assert!(answers.contains(wanted), "{wanted} is missing in {answers:?}");
        }
    }
}
