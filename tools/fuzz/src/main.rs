//! Runs the proved library beside the other implementation on random cases. A seed and a number give one case, always the same.

mod expected;
mod inputs;
mod library;

use library::Told;
use peer::random::Random;
use peer::text;
use peer::words::bytes_of;

/// How many cases there were, and how many differences.
#[derive(Default)]
struct Count {
    files: u64,
    lists: u64,
    good: u64,
    differences: u64,
}

impl Count {
    fn look<T: Copy + PartialEq + std::fmt::Debug>(
        &mut self,
        call: &str,
        input: impl FnOnce() -> String,
        told: Told<T>,
        expected: &[T],
    ) {
        if !told.is(expected) {
            self.differences += 1;
            let head = &told.after[..told.length.min(told.after.len())];
            println!("{call} {}: told {} {head:?}, expected {} {expected:?}", input(), told.length, expected.len());
        }
    }
}

fn hex(bytes: &[u8]) -> String {
    if bytes.is_empty() {
        return "-".to_string();
    }
    bytes.iter().map(|byte| format!("{byte:02X}")).collect()
}

/// A file, read in each way.
fn read(random: &mut Random, count: &mut Count) {
    let words = inputs::words(random);
    let file = inputs::file(random, &words);
    let expected = text::shown(&file);
    count.files += 1;
    count.good += u64::from(!expected.starts_with("FAULT"));
    count.look("file_text", || hex(&file), library::file_text(&file, inputs::bytes(random)), expected.as_bytes());

    let trace = inputs::trace(random, &words);
    let expected = text::led(&file, &trace);
    let told = library::trace_text(&file, &trace, inputs::bytes(random));
    count.look("trace_text", || format!("{} {}", hex(&file), hex(&trace)), told, expected.as_bytes());

    let told = library::read_words(&words, inputs::room_for_words(random));
    count.look("read_words", || text::words(&words), told, &expected::read_words(&words));

    // beside another file, most often a good one
    let other = match random.below(8) {
        0 => inputs::any_file(random),
        1..=4 => bytes_of(&inputs::test(random)),
        _ => bytes_of(&inputs::card(random)),
    };
    let (left, right) = if random.percent(50) { (&file, &other) } else { (&other, &file) };
    let input = || format!("{} {}", hex(left), hex(right));
    let told = library::experiment_text(left, right, inputs::bytes(random));
    count.look("experiment_text", input, told, text::experiment_text(left, right).as_bytes());
    let told = library::files_line(left, right, inputs::bytes(random));
    count.look("files_line", input, told, text::line(left, right).as_bytes());
}

/// A list of calls, most often of two good files.
fn called(random: &mut Random, count: &mut Count) {
    let (left, right) = inputs::two_cards(random);
    let (mut left, mut right) = (bytes_of(&left), bytes_of(&right));
    if random.percent(2) {
        left = inputs::any_file(random);
    }
    if random.percent(2) {
        right = inputs::any_file(random);
    }
    let calls = inputs::calls(random);
    count.lists += 1;
    let told = library::calls(&left, &right, &calls, inputs::room_for_words(random));
    let input = || format!("{} {} {calls:?}", hex(&left), hex(&right));
    count.look("calls", input, told, &expected::calls(&left, &right, &calls));
}

/// Two counters in a row, of all capacities that can be made and some more.
fn counted(random: &mut Random, count: &mut Count) {
    let numbers: Vec<u32> = (0..=64).chain([65, 255, 256, u32::MAX - 1, u32::MAX]).collect();
    for &first in &numbers {
        for &second in &numbers {
            let told = library::counters(first, second, inputs::bytes(random));
            let expected = expected::counters(first, second);
            count.look("counters", || format!("{first} {second}"), told, expected.as_bytes());
        }
    }
}

fn main() {
    let numbers: Option<Vec<u64>> = std::env::args().skip(1).map(|word| word.parse().ok()).collect();
    let Some([seed, cases]) = numbers.as_deref() else {
        eprintln!("usage: fuzz SEED COUNT");
        std::process::exit(2);
    };
    let of_seed = Random::new(*seed).number();
    let mut count = Count::default();
    for number in 0..*cases {
        let mut random = Random::new(Random::new(of_seed ^ number).number());
        read(&mut random, &mut count);
        if number % 10 == 0 {
            called(&mut random, &mut count);
        }
    }
    counted(&mut Random::new(of_seed), &mut count);
    let Count { files, lists, good, differences } = count;
    println!(
        "{files} files ({good} good cards), {lists} lists of calls, all pairs of counters: {differences} differences"
    );
    if differences > 0 {
        std::process::exit(1);
    }
}
