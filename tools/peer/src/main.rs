//! The command line.

use std::collections::BTreeMap;
use std::fs;
use std::path::Path;
use std::process::{Command, ExitCode};

use peer::calls::{replies, Call};
use peer::comparison::{Answer, Comparison};
use peer::experiments::passes;
use peer::generator::{case, Case, Input};
use peer::piles::Pile;
use peer::text;
use peer::words::{bytes_of, read_card_file, Card, WrittenTest};

const USAGE: &str = "usage:
  peer line LEFT RIGHT                    the printed line of two card files
  peer experiment CARD TEST               a card file beside a test file: may and must
  peer show FILE [ACTION...]              a card file, or where a trace leads in it
  peer distinguish LEFT RIGHT OUT         writes the distinguishing test of two card files that are apart
  peer calls LEFT RIGHT CALLS             the replies to a list of calls, a call a line
  peer piles LEFT RIGHT                   the printed line of two piles of layers, each the text of a file
  peer transitions PILE                   a pile by its transitions
  peer flatten PILE OUT                   writes a pile as a card file
  peer generate SEED COUNT FOLDER         cases with their answers: a folder for each, and all in cases.txt
  peer cases SEED COUNT                   the same as lines of text
  peer summary SEED COUNT                 how often each kind of case has each kind of answer
  peer beside PROGRAM SEED COUNT FOLDER   runs PROGRAM on left.card and right.card in FOLDER, case by case
  peer beside-show PROGRAM SEED COUNT FOLDER
                                          runs `PROGRAM case.card`, with actions or --beside case.test, in FOLDER";

type Outcome = Result<String, String>;

fn main() -> ExitCode {
    let arguments: Vec<String> = std::env::args().skip(1).collect();
    let words: Vec<&str> = arguments.iter().map(String::as_str).collect();
    match run(&words) {
        Ok(text) => {
            print!("{text}");
            ExitCode::SUCCESS
        }
        Err(text) => {
            eprintln!("{text}");
            ExitCode::FAILURE
        }
    }
}

fn run(words: &[&str]) -> Outcome {
    match words {
        ["line", left, right] => Ok(text::line(&start_of(left), &start_of(right))),
        ["experiment", card, test] => Ok(text::experiment_text(&start_of(card), &start_of(test))),
        ["show", file] => Ok(text::shown(&start_of(file))),
        ["show", file, actions @ ..] => {
            let trace: Result<Vec<u8>, _> = actions.iter().map(|action| action.parse()).collect();
            let trace = trace.map_err(|_| "an action is a number from 0 to 255".to_string())?;
            Ok(text::led(&start_of(file), &trace))
        }
        ["distinguish", left, right, out] => distinguish(left, right, out),
        ["calls", left, right, calls] => send(left, right, calls),
        ["piles", left, right] => {
            let (left, right) = (pile(left)?, pile(right)?);
            Ok(Case { kind: "", input: Input::Piles { left, right } }.answer())
        }
        ["transitions", file] => {
            let system = pile(file)?.system().map_err(|refusal| format!("REFUSED {}", refusal.0))?;
            Ok(text::transitions(&system))
        }
        ["flatten", file, out] => {
            let system = pile(file)?.system().map_err(|refusal| format!("REFUSED {}", refusal.0))?;
            let card = Card::of_system(&system).ok_or("more than 256 lines")?;
            write(Path::new(out), &bytes_of(&card.words()))?;
            Ok(String::new())
        }
        ["generate", seed, count, folder] => generate(number(seed)?, number(count)?, Path::new(folder)),
        ["cases", seed, count] => {
            let (seed, count) = (number(seed)?, number(count)?);
            Ok((0..count).map(|place| case(seed, place).one_line() + "\n").collect())
        }
        ["summary", seed, count] => summary(number(seed)?, number(count)?),
        ["beside", program, seed, count, folder] => {
            beside(program, number(seed)?, number(count)?, Path::new(folder), compared)
        }
        ["beside-show", program, seed, count, folder] => {
            beside(program, number(seed)?, number(count)?, Path::new(folder), showed)
        }
        _ => Err(USAGE.to_string()),
    }
}

fn number(text: &str) -> Result<u64, String> {
    text.parse().map_err(|_| format!("{text} is no number"))
}

/// The bytes of a file; one that cannot be opened or read is empty.
fn start_of(path: &str) -> Vec<u8> {
    fs::read(path).unwrap_or_default()
}

fn text_of(path: &str) -> Outcome {
    fs::read_to_string(path).map_err(|error| format!("{path}: {error}"))
}

fn pile(path: &str) -> Result<Pile, String> {
    Pile::read(&text_of(path)?)
}

fn write(path: &Path, bytes: &[u8]) -> Result<(), String> {
    fs::write(path, bytes).map_err(|error| format!("{}: {error}", path.display()))
}

fn make_folder(path: &Path) -> Result<(), String> {
    fs::create_dir_all(path).map_err(|error| format!("{}: {error}", path.display()))
}

fn good_card(path: &str) -> Result<Card, String> {
    read_card_file(&start_of(path)).map_err(|fault| format!("{path}: FAULT {} at {}", fault.number, fault.place))
}

fn distinguish(left: &str, right: &str, out: &str) -> Outcome {
    let (left, right) = (good_card(left)?.system(), good_card(right)?.system());
    let comparison = text::finished(&left, &right);
    let mut told = text::line_of(&comparison);
    let Answer::Apart(split) = comparison.ask().answer else {
        return Err(told);
    };
    let test = comparison.test().map_err(|refusal| format!("REFUSED {}", refusal.0))?;
    let written = WrittenTest::of_test(&test).expect("a ladder has few lines");
    write(Path::new(out), &bytes_of(&written.words()))?;
    for (side, system) in [("left", left), ("right", right)] {
        told += &match passes(&system, split.ground, &test) {
            Ok(true) => format!("{side} passes\n"),
            Ok(false) => format!("{side} does not pass\n"),
            Err(refusal) => format!("{side} REFUSED {}\n", refusal.0),
        };
    }
    Ok(told)
}

fn send(left: &str, right: &str, calls: &str) -> Outcome {
    let (left, right) = (good_card(left)?.system(), good_card(right)?.system());
    let calls: Result<Vec<Call>, String> = text_of(calls)?.lines().map(Call::read).collect();
    Ok(replies(&mut Comparison::open(&left, &right), &calls?))
}

fn generate(seed: u64, count: u64, folder: &Path) -> Outcome {
    make_folder(folder)?;
    let mut all = String::new();
    for place in 0..count {
        let one = case(seed, place);
        let here = folder.join(format!("{place:06}"));
        make_folder(&here)?;
        for (name, bytes) in one.files() {
            write(&here.join(name), &bytes)?;
        }
        write(&here.join("kind"), format!("{} {}\n", one.sort(), one.kind).as_bytes())?;
        write(&here.join("answer"), one.answer().as_bytes())?;
        all += &(one.one_line() + "\n");
    }
    write(&folder.join("cases.txt"), all.as_bytes())?;
    Ok(format!("{count} cases\n"))
}

/// The answer without its numbers.
fn class_of(answer: &str) -> String {
    let words: Vec<&str> = answer.split_whitespace().collect();
    match words[..] {
        ["APART", _, _, _, ground, _, passer, ..] => format!("APART {ground} {passer}"),
        ["FAULT", side @ ("LEFT" | "RIGHT"), number, ..] => format!("FAULT {side} {number}"),
        ["FAULT", number, ..] => format!("FAULT {number}"),
        ["CARD" | "TEST", _, number, ..] => format!("{} FAULT {number}", words[0]),
        ["may", may, "must", must] => format!("may {may} must {must}"),
        ["REFUSED", number] => format!("REFUSED {number}"),
        _ => words.first().unwrap_or(&"nothing").to_string(),
    }
}

fn summary(seed: u64, count: u64) -> Outcome {
    let mut seen: BTreeMap<(&str, String), usize> = BTreeMap::new();
    let mut longest = 0;
    for place in 0..count {
        let one = case(seed, place);
        let answer = one.answer();
        if let Some((_, track)) = answer.split_once(" track ") {
            longest = longest.max(track.split_whitespace().count());
        }
        let class = if one.sort() == "calls" { "replies".to_string() } else { class_of(&answer) };
        *seen.entry((one.kind, class)).or_default() += 1;
    }
    let mut told: String = seen.iter().map(|((kind, class), times)| format!("{times:7} {kind}: {class}\n")).collect();
    told += &format!("longest track: {longest} actions\n");
    Ok(told)
}

/// The files and the arguments with which the other program is run on a case, and the answer; none if it is no case for it.
type Run = (Vec<(&'static str, Vec<u8>)>, Vec<String>, String);

fn compared(one: &Case) -> Option<Run> {
    let (left, right) = one.as_card_files()?;
    Some((vec![("left.card", left), ("right.card", right)], Vec::new(), one.answer()))
}

fn showed(one: &Case) -> Option<Run> {
    let mut arguments = vec!["case.card".to_string()];
    match &one.input {
        Input::Experiment { .. } => arguments.extend(["--beside", "case.test"].map(String::from)),
        Input::Led { trace, .. } => arguments.extend(trace.iter().map(u8::to_string)),
        Input::Shown { .. } => (),
        _ => return None,
    }
    Some((one.files(), arguments, one.answer()))
}

/// Runs the other program on the cases of a seed and tells each case on which it prints something else.
fn beside(program: &str, seed: u64, count: u64, folder: &Path, run_of: fn(&Case) -> Option<Run>) -> Outcome {
    make_folder(folder)?;
    let program = fs::canonicalize(program).map_err(|error| format!("{program}: {error}"))?;
    let (mut cases, mut different) = (0, 0);
    for place in 0..count {
        let one = case(seed, place);
        let Some((files, arguments, answer)) = run_of(&one) else {
            continue;
        };
        for (name, bytes) in files {
            write(&folder.join(name), &bytes)?;
        }
        let output = Command::new(&program).args(&arguments).current_dir(folder).output();
        let output = output.map_err(|error| format!("{}: {error}", program.display()))?;
        cases += 1;
        if output.stdout != answer.as_bytes() || !output.status.success() {
            different += 1;
            let printed = String::from_utf8_lossy(&output.stdout);
            println!("case {place} ({}): {printed:?} and not {answer:?}", one.kind);
        }
    }
    let told = format!("{cases} cases of seed {seed}, {different} different\n");
    if different > 0 {
        return Err(told);
    }
    Ok(told)
}
