//! Runs the proved code and the peer on the same inputs in one process, turn by turn, and prints how long each took.

mod inputs;
mod proved;

use std::hint::black_box;
use std::time::{Duration, Instant};

use inputs::{kinds, Input};
use peer::layers::{compose, counter, hide};
use peer::text;
use peer::words::read_card;
use proved::Proved;

#[derive(Debug, PartialEq)]
enum Told {
    Text(String),
    Words(Vec<u32>),
}

/// A turn of the proved code, which leaves what it tells in its buffers. They are looked at where that is wanted.
fn proved_turn(proved: &mut Proved, input: &Input, look: bool) -> Option<Told> {
    let text = match input {
        Input::Line(left, right) => proved.files_line(left, right),
        Input::Counters(first, second) => proved.counters(*first, *second),
        Input::Experiment(card, test) => proved.experiment_text(card, test),
        Input::Shown(file) => proved.file_text(file),
        Input::Led(file, trace) => proved.trace_text(file, trace),
        Input::Words(words) => {
            let told = black_box(proved.read_words(words));
            return look.then(|| Told::Words(told.to_vec()));
        }
    };
    let text = black_box(text);
    look.then(|| Told::Text(String::from_utf8_lossy(text).into_owned()))
}

/// A turn of the peer.
fn peer_turn(buffer: &mut [u32], input: &Input, look: bool) -> Option<Told> {
    let text = match input {
        Input::Line(left, right) => text::line(left, right),
        Input::Counters(first, second) => {
            let (first, second) = (*first as usize, *second as usize);
            let cell =
                |capacity, input, output| counter(capacity, input, output).expect("the capacity is in its range");
            let both = hide(&compose(&cell(first, 0, 1), &cell(second, 1, 2), 2), 2);
            text::line_of(&text::finished(&both, &cell(first + second, 0, 2)))
        }
        Input::Experiment(card, test) => text::experiment_text(card, test),
        Input::Shown(file) => text::shown(file),
        Input::Led(file, trace) => text::led(file, trace),
        Input::Words(words) => {
            let count = read_card(words).expect("the words are good").write(buffer).expect("there is room");
            let told = black_box(&buffer[..count]);
            return look.then(|| Told::Words(told.to_vec()));
        }
    };
    let text = black_box(text);
    look.then_some(Told::Text(text))
}

/// The least times of a call of each, in microseconds, out of many turns that they take one after the other.
fn least(proved: &mut Proved, input: &Input, budget: Duration) -> (f64, f64) {
    let mut buffer = [0; 322];
    let mut turn_of = |is_proved: bool, times: u32| {
        let start = Instant::now();
        for _ in 0..times {
            if is_proved {
                proved_turn(proved, black_box(input), false);
            } else {
                peer_turn(&mut buffer, black_box(input), false);
            }
        }
        start.elapsed()
    };
    // so many calls in a turn that reading the clock does not count
    let shortest = turn_of(true, 1).min(turn_of(false, 1)).as_nanos().max(1);
    let times = (50_000 / shortest).clamp(1, 100) as u32;
    let mut found = (Duration::MAX, Duration::MAX);
    let start = Instant::now();
    let mut turns = 0;
    while turns < 15 || start.elapsed() < budget {
        found.0 = found.0.min(turn_of(true, times));
        found.1 = found.1.min(turn_of(false, times));
        turns += 1;
    }
    let one = |time: Duration| time.as_secs_f64() * 1e6 / f64::from(times);
    (one(found.0), one(found.1))
}

/// `bench [PART OF A KIND'S NAME [MILLISECONDS FOR EACH INPUT]]`
fn main() {
    let wanted = std::env::args().nth(1).unwrap_or_default();
    let budget = std::env::args().nth(2).map_or(300, |text| text.parse().expect("milliseconds for each input"));
    let mut proved = Proved::new();
    println!("| kind | inputs | proved, µs | peer, µs | proved/peer | least | greatest |");
    println!("|---|---|---|---|---|---|---|");
    for kind in kinds().iter().filter(|kind| kind.name.contains(&wanted)) {
        let (mut all, mut other_all) = (0.0, 0.0);
        let (mut lowest, mut highest) = (f64::MAX, 0.0f64);
        for input in &kind.inputs {
            assert_eq!(proved_turn(&mut proved, input, true), peer_turn(&mut [0; 322], input, true), "{}", kind.name);
            let (one, other) = least(&mut proved, input, Duration::from_millis(budget));
            all += one;
            other_all += other;
            lowest = lowest.min(one / other);
            highest = highest.max(one / other);
        }
        let count = kind.inputs.len();
        let (mean, other_mean) = (all / count as f64, other_all / count as f64);
        println!(
            "| {} | {count} | {mean:.1} | {other_mean:.1} | {:.2} | {lowest:.2} | {highest:.2} |",
            kind.name,
            all / other_all,
        );
    }
}
