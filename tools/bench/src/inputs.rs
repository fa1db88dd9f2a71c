//! What both are run on: cards and tests of the peer's shapes, by fixed seeds.

use peer::comparison::{Answer, Reply};
use peer::random::Random;
use peer::shapes;
use peer::system::{System, Test, MOST_STATES};
use peer::text::finished;
use peer::words::{bytes_of, Card, WrittenTest};

/// What one measured call is handed.
pub enum Input {
    /// Two card files are compared.
    Line(Vec<u8>, Vec<u8>),
    /// Two counters of which the first hands over to the second, beside one of both capacities.
    Counters(u32, u32),
    /// A card file beside a test file.
    Experiment(Vec<u8>, Vec<u8>),
    /// Words are read as a card, and the card is written.
    Words(Vec<u32>),
    /// A card file is shown.
    Shown(Vec<u8>),
    /// Where a trace leads in the card of a file.
    Led(Vec<u8>, Vec<u8>),
}

/// A row of the table.
pub struct Kind {
    pub name: &'static str,
    pub inputs: Vec<Input>,
}

fn words(system: &System) -> Vec<u32> {
    Card::of_system(system).expect("the lines are few enough").words()
}

fn file(system: &System) -> Vec<u8> {
    bytes_of(&words(system))
}

fn test_file(test: &Test) -> Vec<u8> {
    bytes_of(&WrittenTest::of_test(test).expect("the lines are few enough").words())
}

/// The first so many pairs out of a stream that answer as is wanted.
fn pairs(count: usize, mut make: impl FnMut() -> (System, System), wanted: impl Fn(Reply) -> bool) -> Vec<Input> {
    let mut found = Vec::new();
    for _ in 0..100_000 {
        if found.len() == count {
            break;
        }
        let (left, right) = make();
        let few = |system: &System| shapes::lines(system) <= 256;
        if few(&left) && few(&right) && wanted(finished(&left, &right).ask()) {
            found.push(Input::Line(file(&left), file(&right)));
        }
    }
    assert_eq!(found.len(), count, "too few pairs answer as is wanted");
    found
}

fn apart(reply: Reply) -> bool {
    matches!(reply.answer, Answer::Apart(_))
}

/// A card of 8 to 12 states and 3 actions.
fn typical(random: &mut Random) -> System {
    let states = random.between(8, 12);
    let tries = random.between(states, 2 * states);
    shapes::random_system(random, states, tries, 3, 10)
}

/// One system twice, its states numbered anew.
fn twice(random: &mut Random, make: impl Fn(&mut Random) -> System) -> (System, System) {
    let system = make(random);
    let other = shapes::renumbered(random, &system);
    (system, other)
}

fn random_test(random: &mut Random, states: usize) -> Test {
    let system = shapes::random_system(random, states, 4 * states, 4, 5);
    let passing = (0..states).map(|_| random.percent(10)).collect();
    Test { system, passing }
}

/// Beside a test that never passes, every joint pair that is come to is followed.
fn experiments(random: &mut Random, count: usize, passing: bool) -> Vec<Input> {
    let mut one = || {
        let system = shapes::random_system(random, MOST_STATES, 250, 4, 5);
        let mut test = random_test(random, 32);
        if !passing {
            test.passing = vec![false; 32];
        }
        Input::Experiment(file(&system), test_file(&test))
    };
    (0..count).map(|_| one()).collect()
}

/// One run through all joint pairs, in the order of their numbers or in another.
fn odometers(random: &mut Random, count: usize, renumbered: bool) -> Vec<Input> {
    let mut one = || {
        let (mut system, mut test) = shapes::odometer(random, MOST_STATES, 32, false);
        if renumbered {
            system = shapes::renumbered(random, &system);
            let order = random.order(test.system.count);
            let mut other = System::new(test.system.count, order[test.system.start]);
            for (from, label, to) in test.system.transitions() {
                other.add(order[from], label, order[to]);
            }
            let mut passing = vec![false; test.passing.len()];
            for (state, passes) in test.passing.iter().enumerate() {
                passing[order[state]] = *passes;
            }
            test = Test { system: other, passing };
        }
        Input::Experiment(file(&system), test_file(&test))
    };
    (0..count).map(|_| one()).collect()
}

/// A card of 64 states and 256 lines.
fn longest(random: &mut Random) -> System {
    loop {
        let system = shapes::largest(random);
        if shapes::lines(&system) == 256 {
            return system;
        }
    }
}

pub fn kinds() -> Vec<Kind> {
    let mut all = Vec::new();
    let mut add = |name, inputs| all.push(Kind { name, inputs });
    let mut random = Random::new(1);
    let random = &mut random;
    let full = |reply: Reply| reply.answer == Answer::Full;
    add(
        "full: random cards of 64 states, 2,048 rows",
        pairs(8, || twice(random, |random| shapes::largest(random)), full),
    );
    add(
        "full: rings, 2,048 rows",
        pairs(4, || twice(random, |random| shapes::late_offer(random, &[16, 17, 19]).0), full),
    );
    add(
        "alike: a register of 11 places, 2,048 rows",
        pairs(2, || twice(random, |_| shapes::register(11, 3, 4)), |reply| reply.rows == 2048),
    );
    add(
        "alike: rings, 1,000 rows and more",
        pairs(
            4,
            || twice(random, |random| shapes::late_offer(random, &[3, 4, 7, 13]).0),
            |reply| reply.answer == Answer::Alike && reply.rows >= 1000,
        ),
    );
    add(
        "apart after 1,000 rows and more",
        [shapes::late_reach, shapes::late_offer, shapes::late_settle]
            .into_iter()
            .flat_map(|make| {
                pairs(
                    2,
                    || {
                        let (left, right) = make(random, &[3, 4, 7, 13]);
                        (left, shapes::renumbered(random, &right))
                    },
                    |reply| apart(reply) && reply.rows >= 1000,
                )
            })
            .collect(),
    );
    add(
        "apart at once: random cards of 64 states",
        pairs(8, || (shapes::largest(random), shapes::largest(random)), |reply| apart(reply) && reply.rows < 8),
    );
    add(
        "small cards, 8 to 12 states: alike",
        pairs(
            16,
            || {
                let one = typical(random);
                (one.clone(), shapes::disguised(random, &one))
            },
            |reply| reply.answer == Answer::Alike && (4..100).contains(&reply.rows),
        ),
    );
    add(
        "small cards, 8 to 12 states: apart",
        pairs(
            16,
            || {
                let one = typical(random);
                (one.clone(), shapes::nudged(random, &one))
            },
            |reply| apart(reply) && reply.rows >= 2,
        ),
    );
    add("piles: two counters of capacity 7 beside one of 14", vec![Input::Counters(7, 7)]);
    add("piles: two counters of capacity 1 beside one of 2", vec![Input::Counters(1, 1)]);
    add("experiments: random, 64 beside 32 states, no state passes", experiments(random, 6, false));
    add("experiments: random, 64 beside 32 states", experiments(random, 6, true));
    add("experiments: one run through 2,048 pairs, in order", odometers(random, 3, false));
    add("experiments: one run through 2,048 pairs, out of order", odometers(random, 3, true));
    add("words of 256 lines read and written", (0..4).map(|_| Input::Words(words(&longest(random)))).collect());
    add("words of a small card read and written", (0..8).map(|_| Input::Words(words(&typical(random)))).collect());
    add("a card of 256 lines shown", (0..4).map(|_| Input::Shown(file(&longest(random)))).collect());
    add(
        "where a trace of 24 actions leads, 64 states",
        (0..4)
            .map(|_| {
                let system = shapes::random_system(random, MOST_STATES, 256, 3, 5);
                Input::Led(file(&system), (0..24).map(|_| random.below(3) as u8).collect())
            })
            .collect(),
    );
    add(
        "silent chains of 64 states",
        pairs(8, || twice(random, |random| shapes::silent_chain(random)), |reply| reply.answer == Answer::Alike),
    );
    all
}
